"""Brings the repository's own definitions and lemmas to snake case: `bookOf` to `book_of`, `mark-more` to `mark_more`.

Run once at the top, right after the toolchain's own script had turned the repository to its form of clauses, paths and proofs. It renames what
specs/ and proofs/ of the crates define, wherever it stands: in antt, in the clauses of the sources, in must-fail edits, and between backticks in comments and pages.
Names that begin with a capital, goals of proofs, functions of src/, strings and the toolchain's own names keep their spelling. Where two names
would fall together it stops and says which.
"""

import re
import sys
from pathlib import Path

TOP = Path(__file__).resolve().parents[1]
WORD = re.compile(r'[^\s(){}.;,@"`«»]+')
DEFINES = re.compile(r"^ *(?:(?:abbrev|unfoldable|pub) )*(?P<name>[^\s:(){}.;,@\"]+)(?: [({][^(){}]*[)}])* : (?P<type>.*)$")
OPENS = re.compile(r"^ *(?:(?:abbrev|unfoldable|pub) )*(?:record|data|module) (?P<name>[^\s:(){}]+)")
IMPORT = re.compile(r"^ *(?:pub |ghost )*use (?P<path>[^\s{]+?)\.?\{(?P<names>[^}]*)\}", re.M)
DATA = re.compile(r"^(?P<indent> *)(?:pub )?data ")
GOAL = re.compile(r"^(\{[^}]*\} → )?\(?(tie|goal|given)\.")
GOALS = re.compile(r"(returns|loop-(holds|less|again)|(add|sub|cast|element|enum-known|part-walk)-.*|.*-requires)(-\d+)?$")
# what the toolchain's script has turned in the crates, and not in must-fail edits and pages
TURNED = """
add-at add-left add-start add-words ahead-more ahead-none all-listed all-none all-same all-true and-assoc andThen answerOf
any-append any-met any-none any-same any-some as-is at-drop at-next atomsAt back-to behind-more below-in below-none bodyOf
both-found both-left both-of both-right both-ways by-count by-front by-loops by-rank cell-at cell-other chained-more
choose-spec cleans-turned clear-spec code-fixed code-other codeAt codeOf codesOf copy-spec count-fits count-spec countOf
counting-holds covered-more cutAt differs-none down-is each-way each-word either-left ends-found enter-spec entry-kept
entry-known entry-new entryAt entryOf enum-told every-first every-map every-more every-ran every-rest field-found field-of
fields-fit fieldsAt fill-spec fills-up filter-parts find-spec first-fine first-of first-run first-way fits-wider fixed-number
fixed-off fixedWord flat-append fold-next frame-same frameAt free-more from-cell from-end front-long gather-none goes-on
going-on has-one has-within head-read held-none held-same held-spec held-start held-stays imageOf in-area in-order in-some
inBody inTurn is-whole isBare isHeld joined-at joined-back kept-at kept-full kept-new kept-on known-kept laid-more laid-none
last-bit last-step late-free later-same left-over length-fields length-front length-inserted length-some length-taken length-two
lengthAt line-taken lineAt lines-fit lines-next listOf listed-same litOf look-spec made-told main-spec make-spec mark-spec
markOf merging-start moved-later moved-on mul-next nameAt nameOf names-in names-marked names-more namesOf never-both next-one
next-place next-way no-more no-name no-room no-run no-sign noLink node-at nodeOf none-above none-after none-before none-found
none-from none-left none-right none-spec not-behind not-first not-opened not-short not-third noteOf noted-more number-at
numberAt numberIn numberOf of-bare ofBoth one-more one-name one-of or-assoc or-left or-ok or-right other-byte other-length
owed-none owed-start own-in pairwise-append part-end part-field part-length parts-first partsOf passed-start passes-same
peek-spec pick-spec picked-none place-of placeOf push-spec quiet-none rank-falls rank-most read-spec read-under readingOf
reads-so record-of rest-from restOf resultOf room-most room-next root-stands round-keeps row-same rows-same run-holds run-none
run-room run-short running-more runs-then same-at same-bytes same-code same-length same-more same-place same-refl same-rest
same-spec same-test same-true secondOf set-given set-here set-same set-there sets-below sets-more sets-word sign-same
sign-small signs-apart sizeAt skip-all skip-first sorting-start stands-at stands-same start-spec started-with starts-is
step-spec sub-at sum-less sum-ones sum-same table-same tableOf tail-all tail-more the-result the-second too-long too-short
turned-by two-runs upTo value-set way-of wayOf waysOf went-on within-has words-same words-small wordsIn wordsOf write-spec
written-read wrote-none
""".split()
# lemmas whose spelling a definition now takes; where these stand behind a dot they are functions of src/
LEMMAS = {name: name + "_lem" for name in ("in_order", "names_in", "names_marked")}
# names of their own files alone, or beside fields that the toolchain makes
APART = {"bothWays", "is-bare", "isTrue", "noRoom", "tooLong"}
# lemmas of one crate whose spelling a constructor of it now takes
CRATES = {"joiner": {"no_room": "no_room_lem"}}
# kept for what they name: the toolchain reads these
KEPT = {"invariant-loop", "decreases-loop"}


def antt():
    for crate in sorted((TOP / "crates").iterdir()):
        for part in ("specs", "proofs"):
            yield from sorted((crate / part).rglob("*.antt"))


def defined():
    """The names that the crates define, without goals and invariants of a function's proof."""
    names = set()
    for path in antt():
        of_function = path.name == "Proof.antt"
        data = None
        for line in path.read_text().splitlines():
            # a line of a data type may declare several constructors
            if data is not None and line.startswith(data + " "):
                names |= set(line.partition(" : ")[0].split())
            elif line.strip():
                begins = DATA.match(line)
                data = begins and begins["indent"]
            found = DEFINES.match(line)
            goal = found and of_function and (GOAL.match(found["type"]) or GOALS.match(found["name"]))
            if found and not goal:
                names.add(found["name"])
    return names - KEPT


def snake(name):
    """The new spelling; a part that is spelled as a type keeps its capital."""
    parts = name.replace("getD", "get_or").split("-")
    return "_".join(part if part[:1].isupper() else re.sub(r"(?<=[a-z0-9₀-₉])([A-Z])", lambda m: "_" + m[1].lower(), part) for part in parts)


def turns(name):
    return re.match(r"^[^\W\dA-Z]|^[∈μ∉+]", name) and snake(name) != name and not name.startswith("-")


def spelt(names):
    """Each name that turns, with its new spelling. A lemma that would have its definition's name gets `_lem`."""
    table = {name: snake(name) for name in names if turns(name)}
    definitions = {new for old, new in table.items() if "-" not in old}
    return {old: new + "_lem" if "-" in old and new in definitions else new for old, new in table.items()} | LEMMAS


def foreign(text):
    """What a file imports from the toolchain's libraries."""
    return {
        name.split(" as ")[0].strip()
        for found in IMPORT.finditer(text)
        if not found["path"].startswith("Rattle.") or found["path"].startswith("Rattle.std.")
        for name in found["names"].split(",")
    }


def turn_code(code, table, kept):
    def turned(found):
        behind_a_dot = found[0] in LEMMAS and code[: found.start()].endswith(".")
        return found[0] if found[0] in kept or behind_a_dot else table.get(found[0], found[0])

    return WORD.sub(turned, code)


def turn_comment(comment, table, kept):
    return re.sub(r"`[^`]+`", lambda m: turn_code(m[0], table, kept), comment)


def turn(text, table, comment, kept=frozenset()):
    """A source with its code and its comments' quoted names turned; strings stay."""
    out = []
    for line in text.splitlines(keepends=True):
        parts = re.split(r'("(?:[^"\\\n]|\\.)*")', line)
        done, quiet = [], False
        for at, part in enumerate(parts):
            if quiet:
                done.append(turn_comment(part, table, kept))
            elif at % 2:
                done.append(part)
            else:
                head, sign, tail = part.partition(comment)
                done.append(turn_code(head, table, kept) + sign + turn_comment(tail, table, kept))
                quiet = bool(sign)
        out.append("".join(done))
    return "".join(out)


def move():
    """The toolchain makes a module `specs.contracts` now, so the files `Contracts` are `Agreed`: what functions ask and promise."""
    crates = TOP / "crates"
    for path in sorted(crates.glob("*/specs/Contracts.antt")):
        path.rename(path.with_stem("Agreed"))
    named = [*crates.rglob("*.antt"), *crates.rglob("*.rt"), *crates.rglob("*.edit"), TOP / "README.md", *(TOP / "docs").rglob("*.md")]
    for path in named:
        text = path.read_text()
        turned = re.sub(r"(specs[./]|pub mod )Contracts\b", r"\1Agreed", text)
        if turned != text:
            path.write_text(turned)


def main():
    table = spelt(defined())
    words = set()
    for path in antt():
        code = re.sub(r"--[^\n]*", "", path.read_text())
        words |= {found[0] for found in WORD.finditer(code) if code[found.start() - 1] != "."}
    clash = [f"{old}: {new} stands already" for old, new in sorted(table.items()) if new in words - set(LEMMAS) and old not in APART]
    twins = {}
    for old, new in table.items():
        twins.setdefault(new, []).append(old)
    clash += [f"{new}: {', '.join(sorted(olds))}" for new, olds in sorted(twins.items()) if len(olds) > 1]
    if sys.argv[1:] == ["--names"]:
        print("\n".join(f"{old}\t{new}" for old, new in sorted(table.items())))
        return 0
    if clash:
        print("\n".join(clash))
        return 1
    for path in antt():
        text = path.read_text()
        crate = path.relative_to(TOP / "crates").parts[0]
        path.write_text(turn(text, table | CRATES.get(crate, {}), "--", foreign(text)))
    for path in sorted((TOP / "crates").glob("*/src/**/*.rt")):
        text = path.read_text()
        path.write_text(turn(text, table, "//", foreign(text) | set(LEMMAS)))
    unturned = table | {name: snake(name) for name in TURNED}
    for path in sorted((TOP / "crates").glob("*/must-fail/*.edit")):
        lines = path.read_text().splitlines(keepends=True)
        path.write_text("".join(turn_comment(line, unturned, ()) if line.startswith("#") else turn_code(line, unturned, ()) for line in lines))
    edits = {path.stem for path in (TOP / "crates").glob("*/must-fail/*.edit")}
    for path in [TOP / "README.md", *sorted((TOP / "docs").glob("**/*.md")), *sorted((TOP / "tests").glob("**/*.md"))]:
        path.write_text(turn_comment(path.read_text(), {old: new for old, new in unturned.items() if old not in edits}, ()))
    move()
    print(f"{len(table)} names turned")
    return 0


if __name__ == "__main__":
    sys.exit(main())
