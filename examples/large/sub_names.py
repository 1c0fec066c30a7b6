"""Prints a payment with so many sub names in all, spread over the 25 keys of keys.toml.

    python3 examples/large/sub_names.py 100000 > payment.json

The names of the keys ascend as their numbers fall, so that a reader that visits names in ascending order puts
the last key first. 100,000 sub names make 1,000,226 bytes.
"""
import json
import sys

KEYS = 25


def main():
    count = int(sys.argv[1]) // KEYS
    keys = ["m%02d" % (KEYS - 1 - key) for key in range(KEYS)]
    payment = {key: {"%03x" % sub: "x" for sub in range(count)} for key in keys}
    print(json.dumps(payment, separators=(",", ":")), end="")


main()
