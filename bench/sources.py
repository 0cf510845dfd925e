"""The programs of the benches, built from source code.

The source files here have the additional ending `.in`, because `rt ci` rejects each `.rt` or `.antt` file that belongs
to no crate of crates.txt."""
import os
import shutil
import subprocess
import sys

BENCH = os.path.dirname(os.path.abspath(__file__))
TOP = os.path.dirname(BENCH)


def lines_below(names):
    """The lines of crates.txt, by crate, for the given crates and all crates that they use."""
    with open(os.path.join(TOP, "crates.txt"), encoding="utf-8") as file:
        lines = {line.split(":")[0]: line for line in file if ":" in line and not line.startswith("#")}
    found, pending = {}, list(names)
    while pending:
        name = pending.pop()
        if name in lines and name not in found:
            found[name] = lines[name]
            pending += lines[name].split(":")[1].split()
    return found


def made(name, folder, uses, given):
    """Builds a bench's program in a folder, and returns its path; `uses` are the crates that it uses, and `given` is an
    input that it accepts."""
    crates = os.path.join(folder, "crates")
    below = lines_below(uses)
    for crate in below:
        shutil.copytree(os.path.join(TOP, "crates", crate), os.path.join(crates, crate))
    copied = os.path.join(crates, name)
    shutil.copytree(os.path.join(BENCH, name), copied)
    for place, _, files in os.walk(copied):
        for file in files:
            if file.endswith(".in"):
                os.rename(os.path.join(place, file), os.path.join(place, file.removesuffix(".in")))
    shutil.copy(os.path.join(TOP, "HANDLES"), folder)
    with open(os.path.join(folder, "crates.txt"), "w", encoding="utf-8") as file:
        file.writelines([*below.values(), f"{name}: {' '.join(uses)}\n"])
    subprocess.run(["git", "init", "-q"], cwd=folder, check=True)
    run = subprocess.run(["rt", "run"], cwd=copied, check=False, input=given, stdout=subprocess.DEVNULL)
    if run.returncode != 0:
        sys.exit(f"{name}: the program is not built: `rt run` ends with status {run.returncode}")
    return os.path.join(copied, "out", name)
