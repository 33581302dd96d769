#!/usr/bin/env python3
"""Checks functions of a crate without a check of the crates below it, which the compiler reads as source or as they were built.

Usage, at the top: python3 tools/check_only.py CRATE [FUNCTION..]

A function is named as `rt check` prints it, or by the end of its name. Without functions all are checked, those of the crates
below too. With TESTS set in the environment, tests and what they call may be named too. What is proved is kept in the folder that
KEPT names, and a run over it starts in seconds. BUILT names a folder of built libraries, NAME.rlib, as the gate or a check leaves them
in crates/NAME/out/rlib: the crates that stand there are taken from it, and should be those of this checkout; it makes a first run a
few times as fast. The verdict is that of `rt check` and of the gate: this run leaves out what they ask of a whole crate.
"""
import os
import pathlib
import shutil
import subprocess
import sys

from crates import listed


def crates_below(crate, uses):
    """The crates of this repository that the crate stands on, each behind those that it stands on itself."""
    below = []
    for used in uses[crate]:
        if used in uses:
            below += [name for name in [*crates_below(used, uses), used] if name not in below]
    return below


def arguments(crate, functions, root, kit, kept, built):
    """The compiler's arguments, with each crate below as source, or as it stands in the folder `built`."""
    uses = listed()
    below = crates_below(crate, uses)
    outside = {"core", "std", *(name for it in [crate, *below] for name in uses[it] if name not in uses)}
    source = "src/lib.rt" if (root / "crates" / crate / "src" / "lib.rt").exists() else "src/main.rt"
    words = ["check", "--crate-name", crate, source]
    if os.environ.get("TESTS"):
        words.append("--test")
    for name in sorted(outside):
        words += ["--extern", f"{name}={kit}/rlibs/{name}.rlib"]
    words += ["-L", f"dependency={kit}/rlibs"]
    libraries = {name: built / f"{name}.rlib" for name in below if built and (built / f"{name}.rlib" / "format").exists()}
    for name, library in libraries.items():
        words += ["--extern", f"{name}={library}", "-L", f"dependency={library.parent}"]
    for name in (it for it in below if it not in libraries):
        seen = ",".join(dict.fromkeys(["core", "std", *uses[name]]))
        words += ["--lib", f"{name}:{seen}={root}/crates/{name}/src/lib.rt"]
    words += ["--antt-project", f"{kit}/rattle/logic/antt-project.json", "--logic-built", f"{kit}/logic_built"]
    words += ["--links", f"{crate}=", "--incremental", kept, "--jobs", "1"]
    for function in functions:
        words += ["--only", function]
    return words


def main():
    crate, *functions = sys.argv[1:] or sys.exit(__doc__)
    root = pathlib.Path(__file__).resolve().parent.parent
    if not (root / "crates" / crate / "src").is_dir():
        sys.exit(f"there is no crate {crate}")
    rattle = pathlib.Path(shutil.which("rattle") or sys.exit("there is no rattle on PATH")).resolve()
    kept = pathlib.Path(os.environ.get("KEPT") or root / "crates" / crate / "out" / "only").resolve()
    kept.mkdir(parents=True, exist_ok=True)
    built = pathlib.Path(os.environ["BUILT"]).resolve() if os.environ.get("BUILT") else None
    words = arguments(crate, functions, root, rattle.parent.parent, str(kept), built)
    sys.exit(subprocess.run([rattle, *words], cwd=root / "crates" / crate).returncode)


main()
