#!/usr/bin/env python3
"""Writes a plain program of 256 rules, about 1 MB, to standard output."""
import json
import sys

KEYS = [("payment_method", "wallet"), ("currency", "EUR"), ("card_network", "JCB"), ("billing_country", "FR")]


def comparison(number):
    key, word = KEYS[number % len(KEYS)]
    return {"lhs": key, "comparison": "equal", "value": {"type": "enum_variant", "value": word}}


def rule(number):
    accounts = [{"connector": "adyen", "merchant_connector_id": f"mca_{number}"}, {"connector": "stripe"}]
    statements = [{"condition": [comparison(i + j) for j in range(4)]} for i in range(10)]
    return {"name": f"rule {number}", "connectorSelection": {"type": "priority", "data": accounts}, "statements": statements}


default = {"type": "priority", "data": [{"connector": "stripe"}]}
json.dump({"defaultSelection": default, "rules": [rule(i) for i in range(256)]}, sys.stdout, separators=(",", ":"))
