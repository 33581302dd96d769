#!/usr/bin/env python3
"""Makes a copy of the repository in which a cycle of calls is cut, so that its functions can be checked one by one.

Usage, at the top: python3 tools/parted.py FOLDER CRATE CYCLE MODULE::FUNCTION..

FOLDER is the copy, made anew. In it each function of the cycle that is not named has the body `Err(Stop::OutOfMemory)` under its
whole contract, which a contract that speaks of Ok and of diagnostics alone allows, and no function is in the cycle. So
`tools/check_only.py CRATE MODULE::FUNCTION` in FOLDER checks a named function in seconds, where the whole cycle takes minutes.
Answers and invariants of the cycle stand in FOLDER in crates/CRATE/proofs/MODULE/FUNCTION/, without the prefix `MODULE::FUNCTION-`
of their names, and with the arguments `g c` in place of `g t c`. A call of a function of the cycle requires one goal in the cycle,
`CALLEE-requires`, and several here, `CALLEE-requires-clause-NAME`. Only the gate's check of the whole cycle proves it: here no
measure is asked for.
"""
import pathlib
import re
import shutil
import sys

FUNCTION = re.compile(r"^(?:pub(?:\(\w+\))? )?fn (\w+)")
GOAL = re.compile(r"^(?:abbrev )?pub (decreases-|invariant-)?([a-z_]+::[a-z_]+)(?:-\S+)?\s+:", re.M)


def cut(text, module, cycle, named):
    """The source with stubs in place of the functions of the cycle that are not named."""
    lines, out = iter(text.split("\n")), []
    for line in lines:
        if line.strip() != f"#[cycle({cycle})]":
            out.append(line)
            continue
        head = []
        for line in lines:
            head.append(line)
            if line == "{":
                break
        name = next(match.group(1) for match in map(FUNCTION.match, head) if match)
        out += head
        if f"{module}::{name}" in named:
            continue
        out += ["    Err(Stop::OutOfMemory)", "}"]
        while next(lines) != "}":
            pass
    return "\n".join(out)


def blocks(text):
    """The `use` lines of a proof file, and its blocks, which empty lines part."""
    lines = text.split("\n")
    body = "\n".join(line for line in lines if not line.startswith("use "))
    return [line for line in lines if line.startswith("use ") and "as goal" not in line], [it for it in body.split("\n\n") if it.strip()]


def merged(lines):
    """The `use` lines with each name once."""
    names, others = {}, []
    for line in lines:
        found = re.fullmatch(r"use (\S+)\.\{(.*)\}", line)
        if found:
            names.setdefault(found.group(1), {}).update(dict.fromkeys(found.group(2).split(", ")))
        elif line not in others:
            others.append(line)
    return [f"use {module}.{{{', '.join(its)}}}" for module, its in names.items()] + others


def part(folder, cycle, named, file, goals):
    """Writes the answers or invariants of the named functions into folders of their own."""
    source = folder / f"+{cycle}" / file
    if not source.is_file():
        return
    # Answers that stand by module, in a folder of the file's name, are only named in the file.
    parts = [blocks(it.read_text()) for it in sorted(source.with_suffix("").glob("*.antt")) or [source]]
    uses = merged([line for lines, _ in parts for line in lines])
    all_blocks = [it for _, found in parts for it in found]
    common = [it.strip("\n") for it in all_blocks if not GOAL.search(it)]
    for function in named:
        own = []
        for block in all_blocks:
            found = GOAL.search(block)
            if not found or found.group(2) != function or f"decreases-{function} " in block:
                continue
            block = block.strip("\n").replace(f"{function}-", "")
            own.append(re.sub(r"^(\S+) g t c( *=)", r"\1 g c\2", block, flags=re.M))
        if own:
            module, name = function.split("::")
            target = folder / module / name
            target.mkdir(parents=True, exist_ok=True)
            crate = folder.parent.name
            uses_goal = f"use Rattle.{crate}.proofs.{module}.{name}.{goals} as goal"
            (target / file).write_text("\n\n".join(["\n".join([*uses, uses_goal]), *common, *own]) + "\n")


def main():
    if len(sys.argv) < 5:
        sys.exit(__doc__)
    folder, crate, cycle, *named = sys.argv[1:]
    root, folder = pathlib.Path(__file__).resolve().parent.parent, pathlib.Path(folder).resolve()
    if root.is_relative_to(folder) or folder.is_relative_to(root / "crates") or folder.is_relative_to(root / "tools"):
        sys.exit("FOLDER is this checkout, or stands in it: its crates/ would be lost")
    for name in ("crates", "tools"):
        shutil.rmtree(folder / name, ignore_errors=True)
        shutil.copytree(root / name, folder / name, ignore=shutil.ignore_patterns("out"))
    shutil.copy(root / "crates.txt", folder / "crates.txt")
    for file in (folder / "crates" / crate / "src").glob("*.rt"):
        file.write_text(cut(file.read_text(), file.stem, cycle, named))
    proofs = folder / "crates" / crate / "proofs"
    part(proofs, cycle, named, "Answers.antt", "Goals")
    part(proofs, cycle, named, "Invariants.antt", "Given")
    shutil.rmtree(proofs / f"+{cycle}")


main()
