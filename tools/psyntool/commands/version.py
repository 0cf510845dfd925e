"""`version`: prints psyn's version and its commit; the sum of the program, and whether it is that of a release; and the
kit with which a release was proved."""
from psyntool import console, releases


def run(_request):
    console.write_text(releases.lines())
    return 0
