#!/usr/bin/env python3
"""Reports on members of the families: answers, splits, bytes, instructions and time, and z3's time on the same rules.

usage: run.py EUCLIDC [--budget B] [--seed N] [--verify] [MEMBER..]

EUCLIDC is the built program. With `--verify` each printed payment goes through `decide`, which must come to that target,
and each printed certificate through `check`, which must accept it.
"""

import argparse
import pathlib
import re
import shutil
import subprocess
import sys
import tempfile
import time

import confirm
import families
import generate
import solver

MEMBERS = [
    "typical-24", "typical-64", "typical-96", "typical-128", "dead-24", "dead-64", "dead-96", "dead-128", "bands-40",
    "matrix-3", "matrix-4", "chain-250", "rand3-40", "rand3-100", "php-5", "php-6", "pebble-3", "pebble-4",
    "sample-7",
]
SOLVER_SECONDS = 60


def report(program, folder, budget):
    """What `report` prints, its exit status, and its seconds."""
    words = [program, "report", "-", folder / "program.json", folder / "settings.json", str(budget)]
    begun = time.monotonic()
    done = subprocess.run(words, capture_output=True, text=True)
    return done.stdout, done.returncode, time.monotonic() - begun


def counted(program, folder, budget):
    """Instructions of one run, and how many splits it explored, both by callgrind where it is there."""
    if not shutil.which("valgrind"):
        return None, None
    words = [program, "report", "-", folder / "program.json", folder / "settings.json", str(budget)]
    path = folder / "callgrind.out"
    tool = ["valgrind", "--tool=callgrind", f"--callgrind-out-file={path}", "--compress-strings=no"]
    subprocess.run(tool + words, capture_output=True)
    text = path.read_text()
    total = re.search(r"^summary: (\d+)", text, re.M)
    calls = re.findall(r"^cfn=rule_search::solving::explore\ncalls=(\d+)", text, re.M)
    return int(total.group(1)) if total else None, sum(int(count) for count in calls)


def solved(name, seed, folder):
    """z3's words and its seconds, where it is there."""
    if not shutil.which("z3"):
        return None, None
    path = folder / "questions.smt2"
    path.write_text(solver.script(*families.named(name, seed)))
    begun = time.monotonic()
    words = solver.answers(path, SOLVER_SECONDS)
    return words, time.monotonic() - begun


def agree(answers, words):
    """Whether z3 says `sat` of each target that was reached, and `unsat` of each that never is."""
    meant = {"reached": "sat", "never": "unsat"}
    return all(answer == "open" or word == meant[answer] for (_, answer, _), word in zip(answers, words))


def row(program, name, arguments, folder):
    generate.write(name, arguments.seed, folder)
    text, status, seconds = report(program, folder, arguments.budget)
    if status not in (0, 1):
        sys.exit(f"{name}: status {status}: {text[:200]}")
    answers = confirm.answers_of(text)
    counts = {word: sum(answer == word for _, answer, _ in answers) for word in ("reached", "never", "open")}
    kept = [confirm.splits_of(text) for _, answer, text in answers if answer == "never"]
    size = sum(len(text) for _, answer, text in answers if answer == "never")
    files = ("-", folder / "program.json", folder / "settings.json")
    failed = confirm.unconfirmed(program, files, answers) if arguments.verify else []
    if failed:
        sys.exit(f"{name}: not confirmed: {' '.join(failed)}")
    words, solver_seconds = solved(name, arguments.seed, folder)
    if words and not agree(answers, words):
        sys.exit(f"{name}: z3 answers otherwise")
    instructions, explored = counted(program, folder, arguments.budget)
    cells = [
        name,
        *(str(counts[word]) for word in ("reached", "never", "open")),
        "-" if explored is None else f"{explored:,}",
        str(sum(kept)),
        str(max(kept, default=0)),
        str(size),
        f"{instructions / 1e6:,.0f} M" if instructions else "-",
        f"{1000 * seconds:.0f} ms",
        f"{1000 * solver_seconds:.0f} ms" if words else "-" if solver_seconds is None else f"over {SOLVER_SECONDS} s",
    ]
    print("| " + " | ".join(cells) + " |", flush=True)


def main():
    parser = argparse.ArgumentParser()
    parser.add_argument("program")
    parser.add_argument("members", nargs="*", default=[])
    parser.add_argument("--budget", type=int, default=65536)
    parser.add_argument("--seed", type=int, default=2)
    parser.add_argument("--verify", action="store_true")
    arguments = parser.parse_intermixed_args()
    if not shutil.which("z3"):
        print("z3 is not there: its column stays empty")
    print("| Program | Reached | Never | Open | Splits explored | Splits kept | Largest certificate | Bytes | Instructions | Time | z3 |")
    print("| --- " * 11 + "|")
    with tempfile.TemporaryDirectory() as scratch:
        for name in arguments.members or MEMBERS:
            row(arguments.program, name, arguments, pathlib.Path(scratch) / name)


if __name__ == "__main__":
    main()
