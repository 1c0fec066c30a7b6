#!/usr/bin/env python3
"""Runs `report` and confirms each of its answers by the other commands.

usage: confirm.py EUCLIDC K P S B

A payment is put in a file and goes through `decide`, which has to come to that target; a certificate goes through `check`,
which has to accept it. What was printed for a target has also to be what `prove` prints for it alone.
"""

import pathlib
import re
import subprocess
import sys
import tempfile

TARGET = re.compile(r"(default|rule (\d+) .*) (reached|never|open)\Z")


def run(words):
    return subprocess.run([str(word) for word in words], capture_output=True, text=True)


def answers_of(text):
    """For each target its word, its answer, and the text of its payment, certificate or trace."""
    found = []
    for line in text.splitlines(keepends=True):
        head = TARGET.match(line.rstrip("\n"))
        if head and (not found or is_whole(found[-1])):
            found.append((head.group(2) or "default", head.group(3), []))
        else:
            found[-1][2].append(line)
    return [(target, answer, "".join(lines)) for target, answer, lines in found]


def is_whole(answer):
    lines = answer[2]
    return bool(lines) and (answer[1] == "reached" or lines[-1] == "end\n")


def splits_of(text):
    return sum(line.startswith("split ") for line in text.splitlines())


def is_confirmed(program, files, target, answer, file):
    """Whether `decide` comes to the target on a payment, or `check` accepts a certificate."""
    table, rules, settings = files
    if answer == "reached":
        done = run([program, "decide", table, rules, file])
        return done.stdout.startswith("default\n" if target == "default" else f"rule {target} ")
    if answer == "never":
        done = run([program, "check", table, rules, settings, target, file])
        return done.stdout == "accepted\n" and done.returncode == 0
    return True


def unconfirmed(program, files, answers):
    """The targets whose answers are not confirmed."""
    with tempfile.TemporaryDirectory() as room:
        file = pathlib.Path(room) / "answer"
        failed = []
        for target, answer, text in answers:
            file.write_text(text)
            if not is_confirmed(program, files, target, answer, file):
                failed.append(target)
    return failed


def is_proved_alike(program, files, budget, answers):
    """Whether `prove` prints for each target what the report has for it."""
    return all(run([program, "prove", *files, target, budget]).stdout == text for target, _, text in answers)


def main():
    if len(sys.argv) != 6:
        sys.exit(__doc__)
    program, table, rules, settings, budget = sys.argv[1:]
    files = (table, rules, settings)
    done = run([program, "report", *files, budget])
    answers = answers_of(done.stdout)
    if (done.returncode == 1) != any(answer == "open" for _, answer, _ in answers) or done.returncode > 1:
        sys.exit(f"status {done.returncode}: {done.stdout[:200]}")
    failed = unconfirmed(program, files, answers)
    if failed or not is_proved_alike(program, files, budget, answers):
        sys.exit(f"not confirmed: {' '.join(failed)}")
    print(f"{len(answers)} answers confirmed")


if __name__ == "__main__":
    main()
