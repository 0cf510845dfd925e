"""Makes the archive of a release: the program, the tool, its documents and examples, docs/PROVED.md, and the sums of
all files."""
import dataclasses
import glob
import gzip
import hashlib
import io
import os
import re
import tarfile

from psyntool import places, releases
from upkeep import completions

DOCUMENTS = "docs/*.md docs/psyn.1 docs/pictures/* README.md VERSION"
TOOLS = (
    "tools/psyn tools/install tools/check_certificate.py tools/psyntool/**/*.py tools/psyntool/*.json "
    "tools/psyntool/pages/* tools/entrant tools/benchexec/* tools/container/*"
)
EXAMPLES = "examples/files/* examples/parts/* examples/gallery/**/* examples/project/* examples/editors/*"
COMPLETIONS = {
    "share/bash-completion/completions/psyn": completions.bash, "share/zsh/site-functions/_psyn": completions.zsh
}
SUMS = "SHA256SUMS"
# The result lines of `rt ci` and of tools/test-tools, as patterns.
PASSED = (r"(?m)^(\d+) passed, (\d+) failed", r"(?m)^tools: (\d+) passed, (\d+) failed, \d+ skipped$")


class NotPassed(Exception):
    """The log does not say that all tests passed; the message says what is missing."""


def gate_lines(log):
    """The last result line of `rt ci` and the last one of tools/test-tools in a log of `tools/test-all`. A result line
    states how many tests passed and failed."""
    lines = []
    for pattern in PASSED:
        found = list(re.finditer(pattern, log))
        if not found:
            raise NotPassed(f"the log has no line {pattern.removeprefix('(?m)')}")
        if int(found[-1][2]) or not int(found[-1][1]):
            raise NotPassed(f"the log says: {found[-1][0]}")
        end = log.find("\n", found[-1].start())
        lines.append(log[found[-1].start() : end if end >= 0 else len(log)])
    return lines


def contents(program, release, lines):
    """The files of the archive: for each name its bytes, and whether it is executable."""
    files = {}
    for pattern in f"{DOCUMENTS} {TOOLS} {EXAMPLES}".split():
        for path in sorted(filter(os.path.isfile, glob.glob(os.path.join(places.TOP, pattern), recursive=True))):
            with open(path, "rb") as file:
                files[os.path.relpath(path, places.TOP)] = (file.read(), os.access(path, os.X_OK))
    with open(program, "rb") as file:
        files["psyn"] = (file.read(), True)
    files |= {name: (make().encode(), False) for name, make in COMPLETIONS.items()}
    summed = dataclasses.replace(release, program=hashlib.sha256(files["psyn"][0]).hexdigest())
    files["RELEASE"] = (summed.text().encode(), False)
    files["GATE"] = ("".join(f"{line}\n" for line in [f"commit {release.commit}", *lines]).encode(), False)
    sums = "".join(f"{hashlib.sha256(data).hexdigest()}  {name}\n" for name, (data, _) in sorted(files.items()))
    files[SUMS] = (sums.encode(), False)
    return files


def packed(files, folder, when):
    """The bytes of a compressed tar file that has the given files in a folder; the same files always give the same
    bytes."""
    whole = io.BytesIO()
    with gzip.GzipFile(fileobj=whole, mode="wb", mtime=when, filename="") as stream, tarfile.open(
        fileobj=stream, mode="w"
    ) as archive:
        for name, (data, is_program) in sorted(files.items()):
            entry = tarfile.TarInfo(f"{folder}/{name}")
            entry.size = len(data)
            entry.mtime = when
            entry.mode = 0o755 if is_program else 0o644
            archive.addfile(entry, io.BytesIO(data))
    return whole.getvalue()


def commit_time():
    return int(releases.git("show", "-s", "--format=%ct", "HEAD") or 0)
