#!/usr/bin/env python3
"""Times synthesis, from an HOA text to a circuit, and shows that the time is proportional to the size of the automaton.

  bench/synth.py PSYN [--most STATES]

Automata of growing size are made in these ways. An automaton's size is its number of states; in `inputs`, it is the
number of inputs, and in `priorities`, the number of acceptance sets. No size is above STATES (65,000):
    states         2 inputs and 2 outputs: grants must occur infinitely often; a controller exists
    inputs         1,000 states and 2 to 62 inputs; each state reads two of the inputs
    priorities     a state for each of the 2 to 64 sets of a chain condition
    unrealizable   the output must equal the next step's input, in every state
A line for each automaton has the seconds of three commands. `game` reads the text, builds the automaton and its game,
and writes the game. `cert` also solves the game and checks the certificate, and writes the certificate in place of the
game. `synth` also makes the machine and the circuit, and writes the circuit. Then the line has the first line of the
answer, the number of gates, and the most memory that `synth` held. At its end, the line has the growth of the seconds
of `synth`, divided by the growth of the size (1.00: the time is proportional to the size).
"""
import os
import subprocess
import sys
import time

SIZES = (10, 100, 1_000, 10_000, 65_000)


def head(inputs, outputs, acceptance):
    names = [f'"i{k}"' for k in range(inputs)] + [f'"o{k}"' for k in range(outputs)]
    owned = " ".join(str(inputs + k) for k in range(outputs))
    return (
        f"HOA: v1 Start: 0 AP: {len(names)} {' '.join(names)} controllable-AP: {owned} Acceptance: "
        f"{acceptance} --BODY--\n"
    )


def states(count):
    """The states form a ring. A grant (output 0) leads five states on if output 1 is true, and otherwise two, by an
    edge in the acceptance set. Without a grant, a request (input 0) leads to the next state. With neither a grant nor a
    request, state q leads to itself or, if input 1 is true, to state 7 q + 3 (modulo the number of states)."""
    lines = [head(2, 2, "1 Inf(0)")]
    for q in range(count):
        lines.append(
            f"State: {q} [0&!2] {(q + 1) % count} [!0&!2&!1] {q} [!0&!2&1] {(q * 7 + 3) % count} [2&!3] "
            f"{(q + 2) % count} {{0}} [2&3] {(q + 5) % count} {{0}}\n"
        )
    return "".join(lines) + "--END--\n"


def inputs(count):
    """1,000 states, each of which reads two of the inputs and requires the output to be their conjunction."""
    lines = [head(count, 1, "0 t")]
    for q in range(1_000):
        a, b = q % count, (q * 5 + 1) % count
        lines.append(f"State: {q} [{a}&{b}&{count}] {(q + 1) % 1_000} [!({a}&{b})&!{count}] {(q * 3 + 2) % 1_000}\n")
    return "".join(lines) + "--END--\n"


def priorities(count):
    """An automaton with a state for each acceptance set of a chain condition; the edges from state q are in set q. If
    the input is true, state q leads to state q + 1, and the last state to state 0. If the input is false, state q leads
    to state q / 2 or q / 3 (rounded down), as the output chooses."""
    chain = "t"
    for k in reversed(range(count)):
        chain = f"Inf({k}) | ({chain})" if k % 2 == 0 else f"Fin({k}) & ({chain})"
    lines = [head(1, 1, f"{count} {chain}")]
    for q in range(count):
        lines.append(f"State: {q} [0] {(q + 1) % count} {{{q}}} [!0&1] {q // 3} {{{q}}} [!0&!1] {q // 2} {{{q}}}\n")
    return "".join(lines) + "--END--\n"


def unrealizable(count):
    """In each state, the output must equal the input of the next step."""
    lines = [head(1, 1, "0 t")]
    half = max(count // 2, 1)
    for q in range(half):
        one, other = (2 * q + 2) % (2 * half), (2 * q + 3) % (2 * half)
        lines.append(f"State: {2 * q} [0&1] {one} [0&!1] {other}\nState: {2 * q + 1} [!0&1] {one} [!0&!1] {other}\n")
    return "".join(lines) + "--END--\n"


def timed(psyn, command, text):
    """The seconds of a run, its output, and its greatest memory use in MB."""
    begin = time.perf_counter()
    with subprocess.Popen([psyn], stdin=subprocess.PIPE, stdout=subprocess.PIPE) as run:
        run.stdin.write(f"{command}\n{text}".encode())
        run.stdin.close()
        said = run.stdout.read()
        _, _, used = os.wait4(run.pid, 0)
        run.returncode = 0
    return time.perf_counter() - begin, said, used.ru_maxrss // 1024


def measure(psyn, most):
    families = [
        (states, SIZES), (inputs, (2, 4, 8, 16, 32, 62)), (priorities, (2, 4, 8, 16, 32, 64)), (unrealizable, SIZES)
    ]
    for family, sizes in families:
        before = None
        for size in sizes:
            if size > most:
                continue
            text = family(size)
            game = timed(psyn, "game", text)[0]
            cert = timed(psyn, "cert", text)[0]
            synth, said, held = timed(psyn, "synth", text)
            lines = said.decode().split("\n")
            growth = "" if before is None else f"  growth {synth / before[1] / (size / before[0]):.2f}"
            gates = lines[1].split()[5] if len(lines) > 1 and lines[1].startswith("aag") else "-"
            print(
                f"{family.__name__:13} {size:6}  game {game:7.3f}  cert {cert:7.3f}  synth {synth:7.3f} s  {lines[0]}, "
                f"{gates} gates, {held} MB{growth}",
                flush=True,
            )
            before = (size, synth)


def main():
    words = sys.argv[1:]
    if len(words) not in (1, 3) or (len(words) == 3 and words[1] != "--most"):
        sys.exit(__doc__)
    measure(words[0], int(words[2]) if len(words) == 3 else SIZES[-1])


if __name__ == "__main__":
    main()
