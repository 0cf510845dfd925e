#!/usr/bin/env python3
"""Shows that building automata takes time proportional to the number of edges.

  bench/automata.py [--program PROGRAM]

psyn has no command that only builds an automaton. So the script builds a program of a few lines (SOURCE) in a temporary
folder. The program uses copies of the crates, with the libraries that earlier checks built in the crates' folders out/.
The program reads an HOA text, builds its automaton, and prints the state after one step, or the fault. --program names
a program that was built before. Texts of 4,096 to 65,535 states with 16 edges each are made in these ways:
    implicit   an edge for each letter over 4 propositions
    labels     the same edges with labels; each label is an alias for one letter
    colours    the same, and each edge is in up to three of the 32 sets of a chain condition
    overlap    as labels, but the last two edges of the last state share a letter (fault 21)
For each run, the script prints the time, and the growth of the time divided by the growth of the number of states
(1.00: the time is proportional to the states).
"""
import os
import shutil
import subprocess
import sys
import tempfile
import time

TOP = os.path.dirname(os.path.dirname(os.path.abspath(__file__)))
SIZES = (4096, 8192, 16384, 32768, 65535)
CRATES = ("ps_automaton", "ps_diagram", "ps_hoa", "ps_label", "ps_text")
SOURCE = """\
//! Reads an HOA text from standard input, makes its automaton, and prints the first step, or the fault.
#![tactic(auto)]

use ps_automaton::Automaton;
use ps_hoa::read;
use std::io;
use std::io::Read;

fn main(rt: HostRuntime) -> io::Result<()> {
    let mut text = Vec::new(rt.alloc());
    let _ = rt.stdin().read_to_end(&mut text)?;
    let Ok(file) = read(rt.alloc(), &text) else {
        return println!(rt; "no HOA text");
    };
    match Automaton::build(rt.alloc(), &file) {
        Ok(automaton) => {
            let step = automaton.step(automaton.start(), 0);
            let state = step.state;
            println!(rt; "state {state}")
        }
        Err(fault) => println!(rt; "{fault}"),
    }
}
"""
HEAD = 'HOA: v1 Start: 0 AP: 4 "a" "b" "c" "d" controllable-AP: 0 1 '
LETTERS = "".join(
    f"Alias: @{k} " + "&".join(f"{'' if k >> p & 1 else '!'}{p}" for p in range(4)) + "\n" for k in range(16)
)


def target(states, q, k):
    return (q * 16 + k * 7919 + 1) % states


def body(states, edge_of):
    return (
        "--BODY--\n"
        + "".join(f"State:{q}\n" + "".join(edge_of(q, k) for k in range(16)) for q in range(states))
        + "--END--\n"
    )


def implicit(states):
    return (
        HEAD
        + "Acceptance: 1 Inf(0) "
        + body(states, lambda q, k: f"{target(states, q, k)}{{0}}\n" if k % 3 else f"{target(states, q, k)}\n")
    )


def labels(states):
    return HEAD + LETTERS + "Acceptance: 1 Inf(0) " + body(states, lambda q, k: f"[@{k}]{target(states, q, k)}\n")


def colours(states):
    chain = "".join(f"{'Inf' if k % 2 else 'Fin'}({k}){'|' if k % 2 else '&'}(" for k in range(32)) + "t" + ")" * 32
    return (
        HEAD
        + f"Acceptance: 32 {chain} "
        + body(
            states,
            lambda q, k: f"{target(states, q, k)}{{{' '.join(str((q + k * e) % 32) for e in range(k % 3 + 1))}}}\n",
        )
    )


def overlap(states):
    return (
        HEAD
        + LETTERS
        + "Acceptance: 1 Inf(0) "
        + body(states, lambda q, k: f"[@{k - (k == 15 and q == states - 1)}]{target(states, q, k)}\n")
    )


def made(folder):
    """Builds the program in a folder."""
    crates = os.path.join(folder, "crates")
    for name in CRATES:
        shutil.copytree(os.path.join(TOP, "crates", name), os.path.join(crates, name))
    source = os.path.join(crates, "automaton_time", "src")
    os.makedirs(source)
    with open(os.path.join(source, "main.rt"), "w", encoding="utf-8") as file:
        file.write(SOURCE)
    shutil.copy(os.path.join(TOP, "HANDLES"), folder)
    with open(os.path.join(TOP, "crates.txt"), encoding="utf-8") as file:
        lines = [line for line in file if line.split(":")[0] in CRATES]
    with open(os.path.join(folder, "crates.txt"), "w", encoding="utf-8") as file:
        file.writelines(lines + ["automaton_time: ps_automaton ps_hoa ps_text\n"])
    subprocess.run(["git", "init", "-q"], cwd=folder, check=True)
    subprocess.run(
        ["rt", "run"], cwd=os.path.join(crates, "automaton_time"), check=True, input=b"", stdout=subprocess.DEVNULL
    )
    return os.path.join(crates, "automaton_time", "out", "automaton_time")


def measure(program):
    for family in (implicit, labels, colours, overlap):
        before = None
        for states in SIZES:
            text = family(states).encode()
            begin = time.perf_counter()
            run = subprocess.run([program], input=text, capture_output=True, check=True)
            spent = time.perf_counter() - begin
            growth = "" if before is None else f"  growth {spent / before[1] / (states / before[0]):.2f}"
            print(
                f"{family.__name__:9} {states:6} states {len(text) / (1 << 20):6.1f} MiB {spent:7.2f} s  "
                f"{run.stdout.decode().strip()}{growth}",
                flush=True,
            )
            before = (states, spent)


def main():
    if len(sys.argv) == 3 and sys.argv[1] == "--program":
        return measure(sys.argv[2])
    if len(sys.argv) != 1:
        sys.exit(__doc__)
    with tempfile.TemporaryDirectory() as folder:
        measure(made(folder))


if __name__ == "__main__":
    main()
