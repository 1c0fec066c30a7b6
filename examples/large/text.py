#!/usr/bin/env python3
"""Writes a program as text, of 256 rules and 16,384 comparisons of all forms that nest six deep, about 1 MB, to standard output."""

EACH = [
    "amount >= 10000000000",
    "payment_method = pay_later",
    'metadata = "tier of the customer" : "gold, platinum or a partner with a contract of its own"',
    'card_bin /= "424242"',
    "amount = (1000, 2500, 5000, 10000, 25000, 50000, 100000, 250000, 500000, 1000000, 2500000)",
    "payment_method_type = (credit, debit, google_pay, apple_pay, paypal, klarna, ach, sepa)",
    "amount /= (< 10000000000, >= 20000000000, = 15000000000)",
]


def condition(number, count):
    return " & ".join(EACH[(number + i) % len(EACH)] for i in range(count))


def statement(number, level, levels):
    indent = "  " * level
    line = indent + condition(number, 8 if levels > 4 else 4)
    if levels == 1:
        return [line]
    lines = [line + " {"]
    for i in range(2 if levels % 2 else 1):
        lines += statement(number + i, level + 1, levels - 1)
    return lines + [indent + "}"]


def rule(number):
    lines = [f'"rule {number}": ["adyen" @ "mca_{number}", "stripe"] {{']
    lines += statement(number, 1, 6)
    return lines + ["}"]


print('default: ["stripe"]')
for number in range(256):
    print("\n".join(rule(number)))
