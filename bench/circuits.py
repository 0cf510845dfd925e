#!/usr/bin/env python3
"""Makes circuits for families of specifications that grow, with psyn and another synthesizer.

  bench/circuits.py PSYN [NAME..] [--most SECONDS] [--peer PEER]

PSYN is the program psyn. A family has a number, of clients, floors or masters; most families stand in
bench/specified.py, and those named `amba` and `buffer` in examples/tlsf. NAMEs are the families to look at (all).

A line has a specification, and then what `synth --tlsf` answers: whether it is realizable, the gates and latches of the
circuit, the processor seconds and the MiB; and the seconds in which `verify --tlsf` finds that the circuit wins. A
family ends when `synth` takes more than SECONDS (10), or has no answer. Its last line has the greatest number that was
answered in time.

PEER is the command of the other synthesizer: it is given the names of a file with a specification and of one for the
circuit, and its status is 10 or 20 if it has written a circuit, 10 for a controller. Its figures stand beside, up to
the number at which both have ended.
"""
import argparse
import os
import shlex
import signal
import subprocess
import sys
import tempfile
import threading

sys.dont_write_bytecode = True
BENCH = os.path.dirname(os.path.abspath(__file__))
TOP = os.path.dirname(BENCH)
sys.path.insert(0, BENCH)
import specified  # noqa: E402

CLIENTS = (2, 3, 4, 5, 6, 7, 8, 9, 10, 12, 16, 20, 24, 31)
STATUSES = {10: "REALIZABLE", 20: "UNREALIZABLE"}
NONE = "no answer"


def shared(family):
    """A family whose outputs exclude each other."""
    def made(n):
        inputs, outputs, sections = family(n)
        return inputs, outputs, {"ASSERT": specified.exclusive(outputs), **sections}
    return made


def wires(n):
    """Outputs that are the inputs."""
    inputs, outputs = specified.numbered("i", n), specified.numbered("o", n)
    return inputs, outputs, {"ASSERT": [f"{o} <-> {i}" for i, o in zip(inputs, outputs)]}


def latches(n):
    """Bits that are set and reset."""
    sets, resets, bits = (specified.numbered(letter, n) for letter in "srb")
    return sets + resets, bits, {
        "PRESET": [f"!{b}" for b in bits],
        "ASSERT": [f"(X {b}) <-> ({s} || ({b} && !{r}))" for s, r, b in zip(sets, resets, bits)],
    }


def shift(n):
    """An output that is the input so many steps before."""
    return ["r"], ["g"], {"ASSERT": [f"({'X ' * n}g) <-> r"]}


def told(family):
    return lambda n: specified.text(*family(n))


def example(name, *parameters):
    """A family of examples/tlsf, as a text in the basic form."""
    def made(n):
        values = [word for it in parameters for word in ("--set", f"{it}={n}")]
        path = os.path.join(TOP, "examples", "tlsf", f"{name}.tlsf")
        run = subprocess.run(
            [os.path.join(TOP, "tools", "psyn"), "tlsf", *values, path], check=True, stdout=subprocess.PIPE, text=True
        )
        return run.stdout
    return made


FAMILIES = {
    "simple": told(specified.simple),
    "full": told(specified.full),
    "master": told(specified.master),
    "circle": told(specified.circle),
    "balancer": told(specified.balancer),
    "detector": told(specified.detector),
    "collector": told(specified.collector),
    "lift": told(specified.lift),
    "door": told(specified.door),
    "gr1": told(shared(specified.gr1)),
    "streett": told(shared(specified.streett)),
    "wires": told(wires),
    "latches": told(latches),
    "shift": told(shift),
    "amba": example("amba", "n"),
    "buffer": example("buffer", "receivers"),
}


def run(words, given, most):
    """The status and output of a command, its processor seconds and MiB; or None if it takes too long."""
    with tempfile.TemporaryFile() as asked, tempfile.TemporaryFile() as answered:
        asked.write(given.encode())
        asked.seek(0)
        process = subprocess.Popen(words, stdin=asked, stdout=answered, stderr=subprocess.DEVNULL)
        watch = threading.Timer(5 * most, os.kill, (process.pid, signal.SIGKILL))
        watch.start()
        _, status, usage = os.wait4(process.pid, 0)
        watch.cancel()
        process.returncode = os.waitstatus_to_exitcode(status)
        seconds = usage.ru_utime + usage.ru_stime
        if seconds > most or process.returncode < 0:
            return None
        answered.seek(0)
        return process.returncode, answered.read().decode(), seconds, usage.ru_maxrss // 1024


def size(circuit):
    """The gates and latches of a circuit's text."""
    counts = circuit.split("\n", 1)[0].split()
    return f"{counts[5]} gates, {counts[3]} latches"


def own(psyn, text, most):
    """What psyn says of a specification; whether it has an answer."""
    found = run([psyn], f"synth --tlsf\n{text}\n", most)
    if found is None:
        return "too long", False
    _, said, seconds, memory = found
    verdict, _, circuit = said.partition("\n")
    if verdict not in STATUSES.values():
        return f"{verdict or NONE}, {seconds:.2f} s", False
    flag = " --env" if verdict == STATUSES[20] else ""
    judged = run([psyn], f"verify --tlsf{flag}\n{text}\n%%\n{circuit}", 6 * most)
    judge = f"{judged[1].partition(chr(10))[0]} in {judged[2]:.2f} s" if judged else "not judged"
    return f"{verdict}, {size(circuit)}, {seconds:.2f} s, {memory} MiB; {judge}", True


def other(peer, text, most):
    """The same of the other synthesizer."""
    with tempfile.TemporaryDirectory() as folder:
        asked, answered = os.path.join(folder, "it.tlsf"), os.path.join(folder, "it.aag")
        with open(asked, "w", encoding="utf-8") as file:
            file.write(text)
        found = run([*shlex.split(peer), asked, answered], "", most)
        if found is None:
            return "too long", False
        status, _, seconds, memory = found
        if status not in STATUSES or not os.path.exists(answered):
            return f"{NONE}, {seconds:.2f} s", False
        with open(answered, encoding="utf-8") as file:
            return f"{STATUSES[status]}, {size(file.read())}, {seconds:.2f} s, {memory} MiB", True


def measure(name, words):
    """Prints the lines of a family."""
    last, asks = {"psyn": 0, "peer": 0}, {"psyn": True, "peer": bool(words.peer)}
    for n in CLIENTS:
        text, line = FAMILIES[name](n), []
        for who, program, asked in (("psyn", words.psyn, own), ("peer", words.peer, other)):
            if asks[who]:
                said, asks[who] = asked(program, text, words.most)
                last[who] = n if asks[who] else last[who]
                line.append(f"{who}: {said}")
        print(f"{name}:{n}  {';  '.join(line)}", flush=True)
        if not any(asks.values()):
            break
    beside = f", peer {last['peer']}" if words.peer else ""
    print(f"{name}  in {words.most:g} s: psyn {last['psyn']}{beside}", flush=True)


def main():
    parser = argparse.ArgumentParser(description=__doc__, formatter_class=argparse.RawDescriptionHelpFormatter)
    parser.add_argument("psyn", metavar="PSYN")
    parser.add_argument("names", nargs="*", metavar="NAME", choices=[[], *FAMILIES])
    parser.add_argument("--most", type=float, default=10)
    parser.add_argument("--peer")
    words = parser.parse_args()
    for name in FAMILIES:
        if not words.names or name in words.names:
            measure(name, words)


if __name__ == "__main__":
    main()
