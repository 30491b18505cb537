#!/usr/bin/env python3
"""Shows that a ticket of a board cannot be misused: the misuses do not compile, and the right use beside them does.

Each text in tools/misuse is made a program of its own, in a copy of the repository, and `rt try` compiles it there, which proves
nothing. A must-fail edit could not show this, since it has to reach the prover.
"""
import pathlib
import re
import shutil
import subprocess
import sys
import tempfile

ROOT = pathlib.Path(__file__).resolve().parent.parent

# The texts, each with the only error that it may have; the right use has none.
WANTED = {
    "right": None,
    "dropped": "linear-value-let-go",
    "spent_twice": "borrow-e0382",
    "forged": "private-field",
}

LINE = "misuse: conditions routing rounds tables judging verdicts paper board\n"


def errors_of(name, copy):
    """The exit status of compiling the text, and the errors in it."""
    crate = copy / "crates/misuse"
    shutil.rmtree(crate, ignore_errors=True)
    (crate / "src").mkdir(parents=True)
    shutil.copy(ROOT / f"tools/misuse/{name}.txt", crate / "src/main.rt")
    said = subprocess.run(["rt", "try"], cwd=crate, capture_output=True, text=True)
    return said.returncode, set(re.findall(r"error\[([\w-]+)\]", said.stdout + said.stderr))


def main():
    failed = 0
    with tempfile.TemporaryDirectory() as folder:
        copy = pathlib.Path(folder)
        shutil.copytree(ROOT / "crates", copy / "crates", ignore=shutil.ignore_patterns("out", "target"))
        (copy / "crates.txt").write_text((ROOT / "crates.txt").read_text() + LINE)
        for name, wanted in WANTED.items():
            status, errors = errors_of(name, copy)
            right = status == 0 and not errors if wanted is None else status != 0 and errors == {wanted}
            failed += not right
            print(f"ticket {name}: {', '.join(sorted(errors)) or 'no error'}{'' if right else ' (NOT AS IT MUST BE)'}")
    return failed != 0


sys.exit(main())
