"""Holds README's table of what must be believed against crates/*/specs/paper.

Each file there has one row of the table, with the names that it defines and its lines without comments, blank lines and imports. A file of
paper/ holds definitions and promise records only, and imports the toolchain's own definitions, types that the code declares, and other files
of some paper/. The promises of the public calls cite nothing else. `--table` prints the table as it should be."""

import re
import sys
from pathlib import Path

TOP = Path(__file__).resolve().parents[2]
KIT = ("Prim.", "mathlib.Core.", "Rattle.std.specs.")
OWN = re.compile(r"Rattle\.(?P<crate>\w+)\.specs\.(paper|declared)\.")
IMPORTS = re.compile(r"\s*(?:pub )?use (\S+)")
DEFINES = re.compile(r"^(?P<indent> *)(?:(?:abbrev|unfoldable) pub (?P<name>[^\s:({]+)|pub (?:record|data) (?P<type>[^\s:({]+))")
DECLARES = re.compile(r"^ *(?:(?:abbrev|unfoldable|pub|record|data) )*[^\s:({]+(?: [({][^)}]*[)}])* : ")
FACES = ("book", "engine", "cleaner", "embed")
ROW = re.compile(r"^\| *\d+ \| (?P<file>\S+) \| (?P<names>.*) \| *(?P<lines>\d+) \|$")


def crates():
    """The crates in the order of crates.txt."""
    return [line.split(":")[0].split()[0] for line in (TOP / "crates.txt").read_text().splitlines() if ":" in line.partition("#")[0]]


def is_believed(path):
    """Whether an import is of the toolchain's own definitions, of types that the code declares, or of a file of some paper/ of ours."""
    own = OWN.match(path)
    return path.startswith(KIT) or own is not None and own["crate"] in crates()


def papers():
    """The files of paper/ in the order to read them: crates as crates.txt has them, files as paper.antt declares them."""
    for crate in crates():
        index = TOP / "crates" / crate / "specs" / "paper.antt"
        folder = index.with_suffix("")
        if not folder.is_dir():
            continue
        declared = re.findall(r"^pub mod (\w+)$", index.read_text(), re.M)
        if sorted(declared) != sorted(path.stem for path in folder.glob("*.antt")):
            yield crate, index, f"{index}: declares other files than its folder has"
        for name in declared:
            yield crate, folder / f"{name}.antt", None


def content(path):
    """A file's lines that count, each with its number; an import that goes over several lines is one."""
    begun = None
    for number, line in enumerate(path.read_text().splitlines(), 1):
        if not line.strip() or line.lstrip().startswith("--"):
            continue
        if begun is not None:
            number, line = begun[0], f"{begun[1]} {line.strip()}"
        begun = (number, line) if IMPORTS.match(line) and line.count("{") > line.count("}") else None
        if begun is None:
            yield number, line


def row(path):
    names, count = [], 0
    for _, line in content(path):
        if IMPORTS.match(line):
            continue
        count += 1
        defined = DEFINES.match(line)
        if defined:
            names.append(defined["name"] or defined["type"])
    where = str(path.relative_to(TOP / "crates"))[: -len(".antt")]
    return where, ", ".join(f"`{name}`" for name in names), count


def faults(path):
    """Whatever in a file of paper/ is no definition and no import of one."""
    inside = None
    for number, line in content(path):
        imported = IMPORTS.match(line)
        if imported:
            if not is_believed(imported[1]):
                yield f"{path}:{number}: imports {imported[1]}, which is in no paper/"
            continue
        indent = len(line) - len(line.lstrip())
        if inside is not None and indent > inside:
            continue
        inside = None
        defined = DEFINES.match(line)
        if defined:
            inside = indent if defined["type"] else None
        elif DECLARES.match(line) and not re.match(r" *(module|infix)", line):
            yield f"{path}:{number}: declares something that is no definition"


def faces():
    """The promises of the public calls, by what their sources cite."""
    for crate in FACES:
        source = TOP / "crates" / crate / "src" / "lib.rt"
        for number, line in enumerate(source.read_text().splitlines(), 1):
            cited = re.match(r"\s*ghost use (\S+)", line)
            if cited and not is_believed(cited[1]):
                yield f"{source}:{number}: a promise cites {cited[1]}, which is in no paper/"


def main():
    wrong, rows, total = [], [], 0
    for _, path, fault in papers():
        if fault:
            wrong.append(fault)
            continue
        where, names, count = row(path)
        total += count
        rows.append(f"| {len(rows) + 1} | {where} | {names} | {count} |")
        wrong += faults(path)
    wrong += faces()
    if sys.argv[1:] == ["--table"]:
        print("\n".join(rows))
        print(f"{total:,} lines")
        return 0
    readme = (TOP / "README.md").read_text()
    written = [line for line in readme.splitlines() if ROW.match(line)]
    for line in written:
        if line not in rows:
            wrong.append(f"README.md: no such file, names or lines: {line}")
    for line in rows:
        if line not in written:
            wrong.append(f"README.md: a row is missing: {line}")
    if sorted(written) == sorted(rows) and written != rows:
        wrong.append("README.md: the rows stand in another order")
    if f"{total:,} lines" not in readme:
        wrong.append(f"README.md: does not say that these are {total:,} lines")
    for line in wrong:
        print(line)
    print(f"what must be believed: {len(rows)} files, {total} lines, {len(wrong)} faults")
    return 1 if wrong else 0


if __name__ == "__main__":
    sys.exit(main())
