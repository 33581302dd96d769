#!/usr/bin/env python3
"""Prints the files of specs/ that the clauses of `run`, `run_steady`, `source_trace` and `lower_unit` rest on: those whose definitions they
name, and those that these files use in turn. Behind them, the size of what must be read: files, lines of definitions, and the
types of src/ that these name. Ends with status 1 where the table of docs/PROVED.md or the sizes of README.md are others;
`--write` puts them there."""
import pathlib, re, sys

TOP = pathlib.Path(__file__).resolve().parent.parent
PROVED, README = TOP / "docs/PROVED.md", TOP / "README.md"
STATEMENTS = {
    "crates/rl_unit/src/run.rt": ("run", "run_steady"),
    "crates/rl_unit/src/unit.rt": ("lower_unit",),
    "crates/react_lower/src/run.rt": ("run",),
    "crates/source_trace/src/run.rt": ("source_trace",),
}
USE = re.compile(r"^\s*(?:ghost |pub )?use Rattle\.(\w+)\.specs\.([\w.]+?)(?:\.\{([^}]*)\})?(?: as (\w+))?;?$", re.M)
ROW = re.compile(r"^\| `(\w+)` \| ([A-Z]\w*(?:, [A-Z]\w*)*) \|$", re.M)
SIZE = re.compile(r"N files of `specs/` with N lines of definitions, and N types of `src/` with N lines".replace("N", r"[\d,]+").replace(" ", r"\s+"))


def used(text):
    """The `use` lines of definitions of this repository: of each its crate, its path, and the names that it brings in."""
    for crate, path, names, alias in USE.findall(text):
        if (TOP / "crates" / crate).is_dir():
            yield crate, path, {name.split(" as ")[-1].strip() for name in names.split(",")} | {alias}


def spec(crate, name):
    return (TOP / "crates" / crate / "specs" / f"{name}.antt").read_text()


def specs_in(text):
    """The files of specs/ that a text uses, each as its crate and its name."""
    return {(crate, path.split(".")[0]) for crate, path, _ in used(text) if not path.startswith("declared.")}


def contract(text, function):
    """The clauses of a function, without their comments."""
    clauses = re.search(rf"^pub fn {function}\b.*?^\{{", text, re.M | re.S)[0].split(")", 1)[1]
    return re.sub(r"//.*", "", clauses)


def trusted():
    """The files that the statements name, and those that these rest on."""
    waiting = set()
    for file, functions in STATEMENTS.items():
        text = (TOP / file).read_text()
        words = {word for function in functions for word in re.findall(r"\w+", contract(text, function))}
        waiting |= {(crate, path.split(".")[0]) for crate, path, brought in used(text) if brought & words and "declared." not in path}
    found = set()
    while waiting:
        file = waiting.pop()
        found.add(file)
        waiting |= specs_in(spec(*file)) - found
    return found


def definitions(text):
    """The lines of a file that define something: no comment, no `use`, no blank line."""
    return sum(1 for line in text.splitlines() if line.strip() and not re.match(r"\s*(--|(pub )?use )", line))


def own_types():
    """The types that a statement names and that stand beside it, as an error."""
    for file, functions in STATEMENTS.items():
        text = (TOP / file).read_text()
        words = {word for function in functions for word in re.findall(r"\w+", contract(text, function))}
        for name in words & set(re.findall(r"^pub (?:struct|enum) (\w+)", text, re.M)):
            yield file.split("/")[1], pathlib.Path(file).stem, name


def types(files):
    """The types of src/ that the files and the statements name, each as its crate, its module and its name."""
    found = set(own_types())
    for file in files:
        for crate, path, _ in used(spec(*file)):
            declared = re.match(r"declared\.((?:[a-z]\w*\.)+)(?!The)([A-Z]\w*)", path)
            if declared:
                found.add((crate, declared[1].strip("."), declared[2]))
    return found


def declaration(crate, module, name):
    """The number of lines of a type's declaration, without comments and attributes."""
    text = (TOP / "crates" / crate / "src" / f"{module.replace('.', '/')}.rt").read_text()
    found = re.search(rf"^(?:pub(?:\(crate\))? )?(?:struct|enum) {name}\b[^{{;]*(?:;|{{.*?^}})", text, re.M | re.S)
    return sum(1 for line in found[0].splitlines() if line.strip() and not re.match(r"\s*(//|#)", line))


def table(files):
    rows = [f"| `{crate}` | {', '.join(sorted(name for of, name in files if of == crate))} |" for crate in sorted({crate for crate, _ in files})]
    return "\n".join(["| Crate | Files under `specs/` |", "|---|---|", *rows])


files = trusted()
named = types(files)
lines = sum(definitions(spec(*file)) for file in files)
declared = sum(declaration(*it) for it in named)
size = f"{len(files):,} files of `specs/` with {lines:,} lines of definitions, and {len(named):,} types of `src/` with {declared:,} lines"
proved, readme = PROVED.read_text(), README.read_text()
if sys.argv[1:] == ["--write"]:
    before, _, rest = proved.partition("<!-- trusted -->\n")
    proved = f"{before}<!-- trusted -->\n{table(files)}\n<!-- end -->{rest.partition('<!-- end -->')[2]}"
    readme = SIZE.sub(size, readme)
    PROVED.write_text(proved)
    README.write_text(readme)
told = {(crate, name) for crate, names in ROW.findall(proved) for name in names.split(", ")}
print(table(files))
print(size)
for crate, name in sorted(files ^ told):
    print(f"docs/PROVED.md {'lacks' if (crate, name) in files else 'has'} {crate}/specs/{name}.antt")
sizes = [" ".join(it.split()) for it in SIZE.findall(readme)]
if sizes != [size]:
    print(f"README.md has other sizes: {sizes}")
sys.exit(files != told or sizes != [size])
