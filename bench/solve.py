#!/usr/bin/env python3
"""Times `solve` and `check` of psyn, from reading a text to writing the answer, compared with another solver.

  bench/solve.py PSYN GAMES [SOLVER] [--runs N]
  bench/solve.py PSYN --compact

GAMES is a folder of game texts NAME.pg. SOLVER is run as `SOLVER solve` on the same text, and as `SOLVER check GAME
CERTIFICATE` on the certificate that psyn printed. For each command, the least processor time of N (3) whole processes
counts; the runs of the commands alternate. A row for each game has psyn's seconds and, with a SOLVER, psyn's seconds
divided by those of SOLVER. The last row has the sums of the seconds, and the ratio of the sums. psyn's `check` must
answer that psyn's certificate is valid.

With --compact, the script times `solve --compact` on games with as many priorities as vertices, and prints the bytes of
the certificate and the greatest memory use of the processes.
"""
import os
import resource
import subprocess
import sys
import tempfile
import time


def timed(words, text):
    """The seconds that a process took, and its output."""
    start = time.perf_counter()
    run = subprocess.run(words, input=text, capture_output=True, check=False)
    return time.perf_counter() - start, run.stdout


def path(count):
    """A path of vertices with different priorities to a self-loop that player 0 wins; almost all counts are 0."""
    lines = [f"{v} {v} {v % 2} {min(v + 1, count - 2)};" for v in range(count)]
    return "\n".join(lines)


def ladder(count):
    """Vertices with different priorities and up to three pseudorandom edges each."""
    lines, state = [], 1
    for v in range(count):
        targets = []
        for _ in range(3):
            state = state * 6364136223846793005 + 1442695040888963407 & 2**64 - 1
            targets.append(str((state >> 33) % count))
        lines.append(f"{v} {v} {v % 2} {','.join(targets)};")
    return "\n".join(lines)


def compact(psyn):
    """Times `solve --compact` on games with as many priorities as vertices."""
    wrong = 0
    for name, make in (("path", path), ("ladder", ladder)):
        for count in (2_500, 5_000, 10_000):
            text = make(count).encode() + b"\n"
            mine, certificate = timed([psyn], b"solve --compact\n" + text)
            held = resource.getrusage(resource.RUSAGE_CHILDREN).ru_maxrss
            _, said = timed([psyn], b"check\n" + text + b"%%\n" + certificate)
            wrong += said != b"valid\n"
            print(
                f"{name:8} {count:6} priorities {mine:7.3f} s {len(certificate):10} bytes, at most {held // 1024} MB   "
                f"{said.decode().strip()}",
                flush=True,
            )
    return 1 if wrong else 0


def processor(words, text, output):
    """The processor seconds of a process whose output goes to a file."""
    with open(text, "rb") as given, open(output, "wb") as told:
        child = subprocess.Popen(words, stdin=given, stdout=told, stderr=subprocess.DEVNULL)
        _, _status, used = os.wait4(child.pid, 0)
        child.returncode = 0
    return used.ru_utime + used.ru_stime


def least(runs, calls):
    """The least seconds of each call in several rounds; each round makes every call once."""
    seconds = [[call() for call in calls] for _ in range(runs)]
    return [min(of) for of in zip(*seconds)]


def row_of(psyn, game, solver, runs, room):
    """The least seconds of psyn's `solve` and `check`, then those of the other solver's two commands, and whether
    psyn's certificate is valid."""
    path_to = {name: os.path.join(room, name) for name in ("solve", "check", "certificate", "said")}
    with open(game, "rb") as file:
        text = file.read().rstrip(b"\n") + b"\n"
    with open(path_to["solve"], "wb") as file:
        file.write(b"solve\n" + text)
    processor([psyn], path_to["solve"], path_to["certificate"])
    with open(path_to["certificate"], "rb") as certificate, open(path_to["check"], "wb") as file:
        file.write(b"check\n" + text + b"%%\n" + certificate.read())
    calls = [
        lambda: processor([psyn], path_to["solve"], os.devnull),
        lambda: processor([psyn], path_to["check"], path_to["said"]),
    ]
    if solver:
        calls.append(lambda: processor([solver, "solve"], game, os.devnull))
        calls.append(lambda: processor([solver, "check", game, path_to["certificate"]], os.devnull, os.devnull))
    seconds = least(runs, calls)
    with open(path_to["said"], "rb") as said:
        return seconds, said.read() == b"valid\n"


def shown(name, seconds):
    line = f"| {name:28} | {seconds[0]:8.3f} | {seconds[1]:8.3f} |"
    if len(seconds) == 4:
        ratios = [
            f"{mine / other:5.2f}" if other else "    -"
            for mine, other in ((seconds[0], seconds[2]), (seconds[1], seconds[3]))
        ]
        line += f" {ratios[0]} | {ratios[1]} |"
    return line


def main():
    words, runs = sys.argv[1:], 3
    if words[1:] == ["--compact"]:
        return compact(words[0])
    if "--runs" in words[:-1]:
        at = words.index("--runs")
        runs = int(words[at + 1])
        words = words[:at] + words[at + 2:]
    if len(words) not in (2, 3):
        print(__doc__)
        return 2
    psyn, games, solver = words[0], words[1], words[2] if len(words) == 3 else None
    print("| game | `solve`, s | `check`, s |" + (" `solve`, ratio | `check`, ratio |" if solver else ""))
    sums, wrong = [], 0
    with tempfile.TemporaryDirectory() as room:
        for name in sorted(name for name in os.listdir(games) if name.endswith(".pg")):
            seconds, is_valid = row_of(psyn, os.path.join(games, name), solver, runs, room)
            wrong += not is_valid
            sums.append(seconds)
            print(shown(name.removesuffix(".pg"), seconds) + ("" if is_valid else " not valid"), flush=True)
    print(shown("sums", [sum(of) for of in zip(*sums)]))
    return 1 if wrong else 0


if __name__ == "__main__":
    sys.exit(main())
