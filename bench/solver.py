"""The same questions for z3: for each rule, and for no rule, whether some allowed payment comes to it.

One script for a program, with the rules asserted one after the other, so that the solver keeps what it has learned.
Each slot is a Boolean, whether something is there, and an integer, what it is.
"""

import subprocess

import families

ENUMS = {
    "payment_method": families.METHODS,
    "payment_method_type": [t for types in families.TYPES.values() for t in types],
    "card_network": families.NETWORKS,
    "authentication_type": ["three_ds", "no_three_ds"],
    "capture_method": ["automatic", "manual"],
    "currency": families.CURRENCIES,
    "billing_country": families.COUNTRIES,
}
OPERATORS = {
    "equal": "=",
    "not_equal": "distinct",
    "less_than": "<",
    "less_than_equal": "<=",
    "greater_than": ">",
    "greater_than_equal": ">=",
}


def joined(word, parts):
    if not parts:
        return "true" if word == "and" else "false"
    return parts[0] if len(parts) == 1 else f"({word} {' '.join(parts)})"


class Script:
    """An SMT-LIB script, with the slots that it has named so far. Texts are numbered in order of first use, from 1."""

    def __init__(self):
        self.slots = {}
        self.texts = {}
        self.lines = []

    def slot(self, key, sub):
        if (key, sub) not in self.slots:
            place = len(self.slots)
            self.slots[(key, sub)] = place
            self.lines += [f"(declare-const p{place} Bool)", f"(declare-const v{place} Int)"]
            self.lines.append(f"(assert {self.range_of(key, place)})")
        return self.slots[(key, sub)]

    def range_of(self, key, place):
        if key in ENUMS:
            return f"(and (<= 0 v{place}) (< v{place} {len(ENUMS[key])}))"
        most = 2**63 - 1
        return f"(and (<= 0 v{place}) (<= v{place} {most}))"

    def value(self, key, value):
        if key in ENUMS:
            return ENUMS[key].index(value)
        if isinstance(value, int):
            return value
        return self.texts.setdefault(value, len(self.texts) + 1)

    def relation(self, place, operator, key, values):
        tests = [f"(= v{place} {self.value(key, v)})" for v in values]
        if operator == "equal":
            return f"(and p{place} {joined('or', tests)})"
        return f"(and p{place} (not {joined('or', tests)}))"

    def comparison(self, comparison):
        key, operator, form, value = comparison
        place = self.slot(*families.slot_of(comparison))
        if form == "number":
            return f"(and p{place} ({OPERATORS[operator]} v{place} {value}))"
        values = value if isinstance(value, list) else [value["value"] if isinstance(value, dict) else value]
        return self.relation(place, operator, key, values)

    def statement(self, statement):
        comparisons, nested = statement
        parts = [self.comparison(c) for c in comparisons]
        if nested is not None:
            parts.append(joined("or", [self.statement(s) for s in nested]))
        return joined("and", parts)

    def words(self, key, words, operator="equal"):
        return self.relation(self.slot(key, None), operator, key, words)

    def entry(self, method, found):
        parts = [self.words("payment_method", [method]), self.words("payment_method_type", [found["payment_method_type"]])]
        if found.get("card_networks"):
            parts.append(self.words("card_network", found["card_networks"]))
        accepted = (("accepted_currencies", "currency"), ("accepted_countries", "billing_country"))
        kinds = [(found.get(field, {"type": "all_accepted"}), key) for field, key in accepted]
        parts += [self.words(key, one["list"]) for one, key in kinds if one["type"] == "enable_only"]
        amount = self.slot("amount", None) if {"minimum_amount", "maximum_amount"} & set(found) else None
        if "minimum_amount" in found:
            parts.append(f"(and p{amount} (>= v{amount} {found['minimum_amount']}))")
        if "maximum_amount" in found:
            parts.append(f"(and p{amount} (<= v{amount} {found['maximum_amount']}))")
        parts += [f"(not {self.words(key, one['list'])})" for one, key in kinds if one["type"] == "disable_only"]
        return joined("and", parts)

    def takes(self, connectors):
        entries = [
            self.entry(method["payment_method"], found)
            for one in connectors
            for method in one["payment_methods_enabled"]
            for found in method["payment_method_types"]
        ]
        return joined("or", entries)


def script(rules, connectors):
    """One `check-sat` for each rule in order, and one for the default."""
    made = Script()
    takes = made.takes(connectors)
    made.lines.append(f"(assert {takes})")
    for rule in rules:
        matches = joined("or", [made.statement(s) for s in rule])
        made.lines += ["(push)", f"(assert {matches})", "(check-sat)", "(pop)", f"(assert (not {matches}))"]
    made.lines.append("(check-sat)")
    return "\n".join(made.lines) + "\n"


def answers(path, seconds):
    """The solver's word for each target, or None where it has not ended in time."""
    try:
        done = subprocess.run(["z3", str(path)], capture_output=True, text=True, timeout=seconds)
    except subprocess.TimeoutExpired:
        return None
    return done.stdout.split()
