"""Prints the figures of the house: how long functions and files are, which definitions and public items have no line of
English above them, which lines are past their width, and which names stand in several places.

    python3 bench/house.py            the figures, and the first ten of each list
    python3 bench/house.py --all      every entry of each list
"""
import collections
import pathlib
import re
import sys

TOP = pathlib.Path(__file__).resolve().parent.parent
MOST = 10**9 if "--all" in sys.argv else 10
CODE, PROOF = 120, 160


def files(*patterns):
    """The files of all crates under these patterns, in order."""
    found = [it for pattern in patterns for it in TOP.glob(f"crates/*/{pattern}")]
    return sorted(it for it in found if "out" not in it.relative_to(TOP).parts)


def name_of(file):
    return str(file.relative_to(TOP))


def functions(file):
    """Each function of a file: its line, its name, and how many lines it has from its head to its closing brace."""
    lines = file.read_text().split("\n")
    for at, line in enumerate(lines):
        head = re.match(r"(\s*)(pub(\(\w+\))? )?(const )?fn (\w+)", line)
        if not head:
            continue
        close = next((n for n in range(at, len(lines)) if lines[n] in (head[1] + "}", head[1] + "{}")), at)
        if lines[at].endswith(("{}", ";")):
            close = at
        yield at + 1, head[5], close - at + 1


def definitions(file):
    """Each definition of a specs file: its line, its name, and whether a comment stands right above it."""
    lines = file.read_text().split("\n")
    for at, line in enumerate(lines):
        head = re.match(r"(abbrev |unfoldable |opaque )?pub (record |data )?([^\s:(){},]+)", line)
        if head and head[3] not in ("mod", "use"):
            yield at + 1, head[3], at > 0 and lines[at - 1].startswith("--")


def public_items(file):
    """Each public item of a source file: its line, its name, and whether a doc comment stands above it."""
    lines = file.read_text().split("\n")
    for at, line in enumerate(lines):
        head = re.match(r"\s*pub (?:const )?(?:fn|struct|enum|trait|const|type) (\w+)", line)
        if head:
            above = at - 1
            while above >= 0 and lines[above].strip().startswith("#["):
                above -= 1
            yield at + 1, head[1], lines[above].strip().startswith("///")


def spread(numbers):
    """The middle, the ninetieth of a hundred and the greatest of some numbers."""
    row = sorted(numbers)
    return f"{len(row)}: median {row[len(row) // 2]}, 90 of 100 within {row[len(row) * 9 // 10]}, longest {row[-1]}"


def told(title, entries):
    """Prints a list with its length."""
    print(f"{title}: {len(entries)}")
    for entry in entries[:MOST]:
        print(f"    {entry}")
    if len(entries) > MOST:
        print(f"    (and {len(entries) - MOST} more)")


def past(paths, width):
    """The lines of files that are past a width, texts in quotes aside, which can't be broken."""
    return [
        f"{name_of(file)}:{at} {len(line)}"
        for file in paths
        for at, line in enumerate(file.read_text().split("\n"), 1)
        if len(re.sub(r'"[^"]*"', '""', line)) > width and not re.match(r"\s*(use |ghost use )", line)
    ]


def main():
    code, specs, proofs = files("src/**/*.rt"), files("specs/**/*.antt"), files("proofs/**/*.antt")
    lengths = [(count, f"{name_of(file)}:{at} {name}") for file in code for at, name, count in functions(file)]
    print("functions,", spread([count for count, _ in lengths]))
    print("source files,", spread([len(file.read_text().split("\n")) - 1 for file in code]))
    told("functions of more than 40 lines", [f"{at} {count}" for count, at in sorted(lengths, reverse=True) if count > 40])
    told("source files of more than 400 lines", [name_of(it) for it in code if len(it.read_text().split("\n")) > 401])
    told(
        "definitions without a line above",
        [f"{name_of(file)}:{at} {name}" for file in specs for at, name, has in definitions(file) if not has],
    )
    told(
        "public items without a line above",
        [f"{name_of(file)}:{at} {name}" for file in code for at, name, has in public_items(file) if not has],
    )
    told(f"lines of code and definitions past {CODE}", past(code + specs, CODE))
    told(f"lines of proofs past {PROOF}", past(proofs, PROOF))
    places = collections.defaultdict(list)
    for file in specs:
        for _, name, _ in definitions(file):
            places[name].append(f"{file.parts[-3]}.{file.stem}")
    twice = {name: at for name, at in places.items() if len(at) > 1}
    reasons = dict(it.split(": ", 1) for it in (TOP / "bench/names.txt").read_text().split("\n") if it and it[0] != "#")
    told(
        f"names of definitions that stand in several modules with no reason in bench/names.txt (of {len(twice)})",
        [f"{name}: {', '.join(at)}" for name, at in sorted(twice.items()) if name not in reasons],
    )
    told("reasons for names that stand once", sorted(set(reasons) - set(twice)))


if __name__ == "__main__":
    main()
