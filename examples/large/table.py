"""Prints a key table of 256 enum keys with 500 variants each, in 1,037,311 bytes.

    python3 examples/large/table.py > keys.toml
"""


def main():
    variants = ", ".join('"v%03d"' % number for number in range(500))
    entry = '[[key]]\nname = "key_%03d"\nkind = "enum"\nvariants = [%s]\n'
    print("\n".join(entry % (key, variants) for key in range(256)), end="")


main()
