#!/usr/bin/env python3
"""Counts in src/ (and for the last point in proofs/) the places that docs/DESIGN-PASS.md speaks of, and with -v lists them.

    python3 tools/places.py [-v] [POINT..] [--tree FOLDER]

It goes by text: a place that it finds is one to look at, not one that has to change."""

import argparse
import collections
import re
from pathlib import Path

FUNCTION = re.compile(
    r"^ *(?:pub(?:\(crate\))? )?(?:extern \"C\" )?fn (?P<name>\w+)(?:<[^{(]*>)?\((?P<parameters>[^{]*?)\)"
    r"(?: -> (?P<answer>[^\n{]*?))?(?P<clauses>(?:\n +(?:requires|ensures|where)\b[^\n]*(?:\n {8,}[^\n]*)*)*)\s*\{\n(?P<body>.*?)^ *\}$",
    re.M | re.S,
)
KEYWORDS = set("let mut if else while loop for in match return break continue fn pub as true false u8 u16 u32 u64 usize bool".split())


class Place(collections.namedtuple("Place", "file line text")):
    def __str__(self):
        return f"{self.file}:{self.line}: {self.text}"


def sources(tree):
    for path in sorted(tree.glob("crates/*/src/**/*.rt")):
        yield str(path.relative_to(tree / "crates")), path.read_text()


def lines(tree, pattern):
    wanted = re.compile(pattern)
    for file, text in sources(tree):
        for number, line in enumerate(text.splitlines(), 1):
            if wanted.search(line) and not line.lstrip().startswith("//"):
                yield Place(file, number, line.strip())


def functions(tree):
    for file, text in sources(tree):
        for found in FUNCTION.finditer(text):
            yield file, text.count("\n", 0, found.start()) + 1, found


def answers(tree):
    """1: own enums; flags with values; numbers for kinds and refusals."""
    yield from lines(tree, r"^(pub(\(crate\))? )?enum \w+")
    yield from lines(tree, r"^ *(pub )?(ok|clash|differs): bool|^ *(pub )?refusal: u8")
    yield from lines(tree, r"\b(Refused|Turned|Broken|Fault|refused)\((number: u8|u8|\d+)\b|^pub const (TASK|AGENDA|LIST|WAY|FAILED|OVER|SPENT|FULL): ")
    yield from lines(tree, r"^ +(return [4-9];|return [2345][0-9];|[4-9]|[2345][0-9])$")
    yield from lines(tree, r"^pub const (ABD|NAF|CLOSE|COMMA|NECK|SEMICOLON|DOT|ARROW|QUERY|TRUE|FALSE|OTHER|NAMES): u16")
    for file, number, found in functions(tree):
        if found["answer"] == "u8" and not re.fullmatch(r"\w*digit|number", found["name"]):
            yield Place(file, number, f"{found['name']} answers a number")
        if re.search(r"\bcodes\.len\(\)$|^ *return 0;$|\{ at \+ 1 \} else \{ 0 \}|^    0$", found["body"], re.M) and found["answer"] in ("usize", "u32"):
            yield Place(file, number, f"{found['name']} answers a number where there is nothing")


def shape(body):
    def word(found):
        text = found[0]
        if text in KEYWORDS or not re.match(r"\w", text):
            return text
        return "N" if text[0].isdigit() else "X"

    return re.sub(r"\w+|\S", word, re.sub(r"//[^\n]*|\s+", " ", body)).replace(" ", "")


def twins(tree):
    """2: functions of one shape, in one crate or in several."""
    groups = collections.defaultdict(list)
    for file, number, found in functions(tree):
        form = shape(found["body"])
        if len(form) >= 40:
            groups[form].append(Place(file, number, found["name"]))
    for group in groups.values():
        if len(group) > 1:
            yield from group


def loops(tree):
    """3: loops that are no `for`."""
    yield from lines(tree, r"^ *(while .*|.*\bloop) \{$")


def by_hand(tree):
    """4: conversions, comparisons, copies and printing by hand."""
    for file, number, found in functions(tree):
        body = found["body"].strip()
        if re.fullmatch(r"\w+ as \w+", body) or re.fullmatch(r"if \w+ \{ \d \} else \{ \d \}", body):
            yield Place(file, number, f"{found['name']} converts")
        if len(re.findall(r"!= .* \{\n +return false;|== .* \{\n +return true;|\{\n +return (?:true|false);", body)) >= 2 and found["answer"] == "bool":
            yield Place(file, number, f"{found['name']} compares")
        if re.match(r"let mut q = r;", body):
            yield Place(file, number, f"{found['name']} copies")
        if re.fullmatch(r"if \w+ < \w+ \{\s+return \w+;\s+\}\s+\w+", body):
            yield Place(file, number, f"{found['name']} chooses the smaller")
        if "write_all(" in body or "as u64)" in body and "Print" in found[0]:
            yield Place(file, number, f"{found['name']} prints")


def facts(text):
    for clause in re.finditer(r"requires (?:\w+ )?\{ (.*?) \}(?=\n|$)", text, re.S):
        depth, part = 0, ""
        for letter in clause[1] + "×":
            depth += (letter == "(") - (letter == ")")
            if letter == "×" and depth == 0:
                yield re.sub(r"\s+", " ", part).strip(" ()")
                part = ""
            else:
                part += letter


def travelling(tree):
    """5: the facts that three functions of a crate ask for, or more, and each three parameters that as many take in a row."""
    asked, taken = collections.defaultdict(list), collections.defaultdict(list)
    for file, number, found in functions(tree):
        crate = file.split("/")[0]
        for fact in set(facts(found["clauses"])):
            asked[crate, fact].append(Place(file, number, found["name"]))
        names = re.findall(r"(\w+): ", found["parameters"])
        for at in range(len(names) - 2):
            taken[crate, ", ".join(names[at : at + 3])].append(Place(file, number, found["name"]))
    for verb, groups in (("ask", asked), ("take", taken)):
        for (crate, what), group in groups.items():
            if len(group) > 2:
                first = min(group)
                yield Place(first.file, first.line, f"{', '.join(place.text for place in group)} {verb} {what}")


def buffers(tree):
    """6: a slice or array and beside it how much of it counts."""
    for file, number, found in functions(tree):
        parameters = found["parameters"]
        if re.search(r"&(?:mut )?\[", parameters) and re.search(r"\b(count|many|last|n|start|half): (usize|u32)", parameters):
            yield Place(file, number, f"{found['name']}({re.sub(chr(10) + ' *', ' ', parameters).strip()})")


def switches(tree):
    """7: ladders that choose which step to run."""
    for file, number, found in functions(tree):
        if re.match(r"if (r\.state|asked|kind) ?[=(]", found["body"].strip()) or len(re.findall(r"^ +\d+ => \w+::", found["body"], re.M)) > 2:
            yield Place(file, number, f"{found['name']} chooses")


def proofs(tree):
    """8: in proofs/, aliases that only repeat a name, and answers over the toolchain's own place records."""
    for path in sorted(tree.glob("crates/*/proofs/**/*.antt")):
        text, file = path.read_text(), str(path.relative_to(tree / "crates"))
        for number, line in enumerate(text.splitlines(), 1):
            if re.search(r"\blet \w+ = \w+ in(\s|$)", line):
                yield Place(file, number, line.strip())
        if re.search(r"^use \S+\.(Lts|Tie)\b", text, re.M):
            yield Place(file, 1, "cites the toolchain's place records")


POINTS = {1: answers, 2: twins, 3: loops, 4: by_hand, 5: travelling, 6: buffers, 7: switches, 8: proofs}


def main():
    parser = argparse.ArgumentParser()
    parser.add_argument("points", nargs="*", type=int, default=list(POINTS))
    parser.add_argument("-v", action="store_true")
    parser.add_argument("--tree", type=Path, default=Path(__file__).resolve().parents[1])
    asked = parser.parse_args()
    for point in asked.points or POINTS:
        found = sorted(set(POINTS[point](asked.tree)))
        print(f"{point}: {len(found)}")
        if asked.v:
            for place in found:
                print(f"    {place}")


if __name__ == "__main__":
    main()
