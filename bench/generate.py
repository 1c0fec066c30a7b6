#!/usr/bin/env python3
"""Writes the program and the settings of a member of a family, say `typical-128`, into a folder."""

import json
import pathlib
import sys

import families


def write(name, seed, folder):
    rules, connectors = families.named(name, seed)
    folder.mkdir(parents=True, exist_ok=True)
    program = families.program_json(rules, connectors)
    (folder / "program.json").write_text(json.dumps(program, indent=1) + "\n")
    (folder / "settings.json").write_text(json.dumps(connectors, indent=1) + "\n")


def main():
    if len(sys.argv) != 4:
        sys.exit(f"usage: generate.py MEMBER SEED FOLDER\nfamilies: {' '.join(families.FAMILIES)}")
    write(sys.argv[1], int(sys.argv[2]), pathlib.Path(sys.argv[3]))


if __name__ == "__main__":
    main()
