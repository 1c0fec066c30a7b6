#!/usr/bin/env python3
"""Writes a program of all forms of values whose statements nest six deep, about 1 MB, to standard output."""
import json
import sys

EACH = [
    ("amount", "greater_than_equal", "number", 10_000_000_000),
    ("payment_method", "equal", "enum_variant", "pay_later"),
    ("metadata", "equal", "metadata_variant", {"key": "tier", "value": "gold"}),
    ("card_bin", "not_equal", "str_value", "424242"),
    ("amount", "equal", "number_array", [1, 2, 3]),
    ("currency", "equal", "enum_variant_array", ["JPY", "NOK"]),
    ("amount", "not_equal", "number_comparison_array", [{"comparisonType": "less_than", "number": 10_000_000_000}]),
]


def comparison(number):
    key, operator, form, value = EACH[number % len(EACH)]
    return {"lhs": key, "comparison": operator, "value": {"type": form, "value": value}}


def statement(number, levels):
    made = {"condition": [comparison(number + i) for i in range(4 if levels == 6 else 2)]}
    if levels > 1:
        made["nested"] = [statement(number + i, levels - 1) for i in range(2 if levels % 2 else 1)]
    return made


def rule(number):
    accounts = [{"connector": "adyen", "merchant_connector_id": f"mca_{number}"}, {"connector": "stripe"}]
    return {
        "name": f"rule {number}",
        "connectorSelection": {"type": "priority", "data": accounts},
        "statements": [statement(number, 6)],
    }


default = {"type": "priority", "data": [{"connector": "stripe"}]}
json.dump({"defaultSelection": default, "rules": [rule(i) for i in range(256)]}, sys.stdout, separators=(",", ":"))
