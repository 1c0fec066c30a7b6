"""Families of routing programs with connector settings, seeded, so that the bytes are the same everywhere.

A comparison is (key, operator, form, value), a statement (comparisons, nested statements or None), a rule a list of
statements. Each family is a function from a size and a seed to (rules, connectors).
"""

METHODS = ["card", "wallet", "bank_transfer", "bank_redirect", "pay_later"]
TYPES = {
    "card": ["credit", "debit"],
    "wallet": ["google_pay", "apple_pay", "paypal"],
    "bank_transfer": ["ach", "sepa"],
    "bank_redirect": ["ideal"],
    "pay_later": ["klarna"],
}
NETWORKS = ["Visa", "Mastercard", "AmericanExpress", "Discover", "JCB"]
CURRENCIES = ["USD", "EUR", "GBP", "INR", "NOK", "JPY"]
COUNTRIES = ["US", "GB", "DE", "FR", "IN", "NO", "JP"]
AMOUNTS = [500, 1000, 2500, 5000, 10000, 20000, 50000, 75000, 100000, 250000, 500000, 1000000]
MOST_EARLIER_RULES = 255


class Draws:
    """A linear congruential generator."""

    def __init__(self, seed):
        self.state = seed

    def below(self, bound):
        self.state = (self.state * 6364136223846793005 + 1442695040888963407) % 2**64
        return (self.state >> 33) % bound

    def pick(self, items):
        return items[self.below(len(items))]

    def some(self, items, count):
        """So many different items, in their order."""
        rest = list(range(len(items)))
        chosen = sorted(rest.pop(self.below(len(rest))) for _ in range(count))
        return [items[place] for place in chosen]

    def shuffled(self, items):
        items = list(items)
        for last in range(len(items) - 1, 0, -1):
            other = self.below(last + 1)
            items[last], items[other] = items[other], items[last]
        return items


def variant(key, value, operator="equal"):
    return (key, operator, "enum_variant", value)


def variants(key, values, operator="equal"):
    return (key, operator, "enum_variant_array", values)


def number(operator, value, key="amount"):
    return (key, operator, "number", value)


def text(key, value, operator="equal"):
    return (key, operator, "str_value", value)


def metadata(sub_name, value, operator="equal"):
    return ("metadata", operator, "metadata_variant", {"key": sub_name, "value": value})


def slot_of(comparison):
    key, _, form, value = comparison
    return (key, value["key"]) if form == "metadata_variant" else (key, None)


def atom_of(comparison):
    """What a comparison asks of its slot, so that comparisons that ask the same are one atom."""
    _, operator, form, value = comparison
    if form == "number":
        return (slot_of(comparison), operator, value)
    values = value if isinstance(value, list) else [value["value"] if isinstance(value, dict) else value]
    return (slot_of(comparison), operator, tuple(values))


# Merchants.


def merchant_comparisons(draws):
    """Comparisons that a merchant may write, in a seeded order."""
    pool = [variant("payment_method", m) for m in METHODS]
    pool += [variant("payment_method", m, "not_equal") for m in METHODS[:2]]
    pool += [variant("payment_method_type", t) for types in TYPES.values() for t in types]
    pool += [variant("card_network", n) for n in NETWORKS]
    pool += [variants("card_network", draws.some(NETWORKS, 2 + draws.below(2))) for _ in range(6)]
    pool += [variant("currency", c) for c in CURRENCIES]
    pool += [variant("currency", c, "not_equal") for c in CURRENCIES[:3]]
    pool += [variants("currency", draws.some(CURRENCIES, 2 + draws.below(3))) for _ in range(8)]
    pool += [variant("billing_country", c) for c in COUNTRIES]
    pool += [variants("billing_country", draws.some(COUNTRIES, 2 + draws.below(3))) for _ in range(10)]
    pool += [number("greater_than", amount) for amount in AMOUNTS]
    pool += [number("less_than", amount) for amount in AMOUNTS]
    pool += [variant("capture_method", c) for c in ("automatic", "manual")]
    pool += [variant("authentication_type", a) for a in ("three_ds", "no_three_ds")]
    pool += [text("card_bin", str(400000 + 1111 * n)) for n in range(16)]
    pool += [text("business_label", label) for label in ("eu", "us", "uk", "in", "shop", "app", "travel", "food")]
    pool += [metadata(key, value) for key in ("tier", "channel", "risk", "cohort") for value in ("a", "b", "c", "d")]
    pool += [metadata(key, "z", "not_equal") for key in ("tier", "channel", "risk")]
    return draws.shuffled(pool)


def acceptance(draws, words):
    kind = draws.below(3)
    if kind == 0:
        return {"type": "enable_only", "list": draws.some(words, 2 + draws.below(3))}
    if kind == 1:
        return {"type": "disable_only", "list": draws.some(words, 1 + draws.below(2))}
    return {"type": "all_accepted"}


def entry(draws, method):
    found = {"payment_method_type": draws.pick(TYPES[method])}
    if method == "card" and draws.below(2):
        found["card_networks"] = draws.some(NETWORKS, 2 + draws.below(2))
    if draws.below(2):
        found["accepted_currencies"] = acceptance(draws, CURRENCIES)
    if draws.below(2):
        found["accepted_countries"] = acceptance(draws, COUNTRIES)
    if draws.below(3) == 0:
        found["minimum_amount"] = draws.pick(AMOUNTS[:3])
    if draws.below(3) == 0:
        found["maximum_amount"] = draws.pick(AMOUNTS[8:])
    return found


def merchant_connectors(draws, count):
    """Connectors with 1 to 4 entries each; the first one takes credit cards of all kinds."""
    connectors = [connector(0, {"card": [{"payment_method_type": "credit"}]})]
    for place in range(1, count):
        entries = {}
        for _ in range(1 + draws.below(4)):
            method = METHODS[min(draws.below(8), 4)] if draws.below(2) else "card"
            entries.setdefault(method, []).append(entry(draws, method))
        connectors.append(connector(place, entries))
    return connectors


def connector(place, entries):
    methods = [{"payment_method": m, "payment_method_types": types} for m, types in entries.items()]
    return {"connector_name": f"c{place}", "payment_methods_enabled": methods}


def settings_atoms(connectors):
    """The atoms of the connectors' entries."""
    atoms = set()
    for one in connectors:
        for method in one["payment_methods_enabled"]:
            for found in method["payment_method_types"]:
                atoms.add((("payment_method", None), "equal", (method["payment_method"],)))
                atoms.add((("payment_method_type", None), "equal", (found["payment_method_type"],)))
                if "card_networks" in found:
                    atoms.add((("card_network", None), "equal", tuple(found["card_networks"])))
                for field, key in (("accepted_currencies", "currency"), ("accepted_countries", "billing_country")):
                    if found.get(field, {}).get("list"):
                        atoms.add(((key, None), "equal", tuple(found[field]["list"])))
                if "minimum_amount" in found:
                    atoms.add((("amount", None), "greater_than_equal", found["minimum_amount"]))
                if "maximum_amount" in found:
                    atoms.add((("amount", None), "less_than_equal", found["maximum_amount"]))
    return atoms


def merchant(size, seed):
    """The generator, the connectors, and comparisons that make so many atoms together with the connectors'."""
    draws = Draws(seed)
    connectors = merchant_connectors(draws, max(1, size // 8))
    atoms = settings_atoms(connectors)
    chosen = []
    for comparison in merchant_comparisons(draws):
        if len(atoms | {atom_of(comparison)}) <= size:
            atoms.add(atom_of(comparison))
            chosen.append(comparison)
    return draws, connectors, chosen


def on_different_slots(draws, pool, count, taken=()):
    """Up to so many comparisons on slots that differ, so that they can hold together."""
    slots = {slot_of(c) for c in taken}
    found = []
    for comparison in draws.shuffled(pool):
        if len(found) < count and slot_of(comparison) not in slots:
            slots.add(slot_of(comparison))
            found.append(comparison)
    return found


def statement_of(draws, pool, count):
    """A statement of so many comparisons; one in five is nested with two inner statements."""
    comparisons = on_different_slots(draws, pool, count)
    if draws.below(5) or len(comparisons) < 3:
        return (comparisons, None)
    outer, inner = comparisons[:-1], comparisons[-1:]
    other = on_different_slots(draws, pool, 1, outer)
    return (outer, [(inner, None), (other, None)])


def weight(rule):
    return sum(len(comparisons) + (1 if nested else 0) for comparisons, nested in rule)


def rules_of_size(size):
    """16 rules at 8 atoms, 256 at 64 and above."""
    return min(256, max(16, 16 + (size - 8) * 30 // 7))


def typical(size, seed):
    """A merchant's rules, the more specific ones first."""
    draws, connectors, pool = merchant(size, seed)
    rules = []
    for _ in range(rules_of_size(size)):
        rule = [statement_of(draws, pool, 2 + draws.below(4))]
        if draws.below(10) == 0:
            rule.append(statement_of(draws, pool, 2 + draws.below(4)))
        rules.append(rule)
    return sorted(rules, key=weight, reverse=True), connectors


def halves(draws, pool):
    """Two comparisons on one slot that cover a third together."""
    kind = draws.below(2)
    amounts = [c for c in pool if c[0] == "amount" and c[1] == "greater_than"]
    currencies = [c for c in pool if c[0] == "currency" and c[2] == "enum_variant_array" and c[1] == "equal"]
    if kind == 0 and len(amounts) > 1:
        low, high = sorted(draws.some(amounts, 2), key=lambda c: c[3])
        return high, number("less_than_equal", high[3]), low
    if currencies:
        whole = draws.pick(currencies)
        return variant("currency", whole[3][0]), variant("currency", whole[3][0], "not_equal"), whole
    return variant("currency", "USD"), variant("currency", "USD", "not_equal"), variants("currency", ["USD", "EUR"])


def dead(size, seed):
    """General rules, and then rules that these cover, one alone or two together."""
    draws, connectors, pool = merchant(size, seed)
    count = rules_of_size(size)
    general, covered = [], []
    while len(general) + 2 <= count // 4:
        if draws.below(2):
            general.append(on_different_slots(draws, pool, 2))
        else:
            one, other, whole = halves(draws, pool)
            rest = on_different_slots(draws, pool, 1, [whole])
            general += [[one] + rest, [other] + rest]
            covered.append([whole] + rest)
    later = []
    while len(general) + len(later) < count:
        base = draws.pick(covered) if covered and draws.below(2) else draws.pick(general)
        later.append(base + on_different_slots(draws, pool, 1 + draws.below(3), base))
    return [[(comparisons, None)] for comparisons in general + later], connectors


# Rules that cover a last one together.


def any_card():
    return [connector(0, {"card": [{"payment_method_type": "credit"}]})]


def bands(size, _seed):
    """Bands of amounts in two currencies, and a rule that they cover together."""
    per_currency = size // 2
    rules = []
    for currency in ("USD", "EUR"):
        for band in range(per_currency):
            comparisons = [variant("currency", currency), number("greater_than_equal", 1000 * band)]
            if band + 1 < per_currency:
                comparisons.append(number("less_than", 1000 * (band + 1)))
            rules.append([(comparisons, None)])
    last = [variants("currency", ["USD", "EUR"]), number("greater_than_equal", 0)]
    return rules + [[(last, None)]], any_card()


def matrix(size, _seed):
    """A rule for each cell of so many keys, and one that they cover together."""
    keys = [
        ("currency", CURRENCIES[:4]),
        ("billing_country", COUNTRIES[:4]),
        ("card_network", NETWORKS[:3]),
        ("capture_method", ["automatic", "manual"]),
        ("authentication_type", ["three_ds", "no_three_ds"]),
    ][:size]
    cells = [[]]
    for key, words in keys:
        cells = [cell + [variant(key, word)] for cell in cells for word in words]
    last = [variants(key, words) for key, words in keys]
    return [[(cell, None)] for cell in cells] + [[(last, None)]], any_card()


# Formulas over metadata keys, each of which is there in the last rule.


def of_bars(bars, sub_names):
    """Earlier rules whose statements are the bars, and a last rule that asks that each key is there."""
    per_rule = -(-len(bars) // MOST_EARLIER_RULES)
    rules = [[(bar, None) for bar in bars[at : at + per_rule]] for at in range(0, len(bars), per_rule)]
    last = [metadata(name, "-", "not_equal") for name in sub_names]
    return rules + [[(last, None)]], any_card()


def is_true(name):
    return metadata(name, "1")


def is_false(name):
    return metadata(name, "1", "not_equal")


def literal(name, truth):
    return is_true(name) if truth else is_false(name)


def chain(size, seed):
    """The first key is true, each one implies the next, and the last is false."""
    names = [f"x{n}" for n in range(size)]
    bars = [[is_false(names[0])], [is_true(names[-1])]]
    bars += [[is_true(a), is_false(b)] for a, b in zip(names, names[1:])]
    return of_bars(Draws(seed).shuffled(bars), names)


def random3(size, seed):
    """Random clauses of three literals, more than can hold together."""
    draws = Draws(seed)
    names = [f"x{n}" for n in range(size)]
    clauses = size * (48 if size <= 40 else 45) // 10
    bars = [[literal(name, draws.below(2) == 0) for name in draws.some(names, 3)] for _ in range(clauses)]
    return of_bars(bars, names)


def pigeons(size, _seed):
    """One more pigeon than holes, each in a hole and no two in one."""
    names = [f"p{n}" for n in range(size + 1)]
    holes = [f"h{n}" for n in range(size)]
    bars = [[metadata(name, hole, "not_equal") for hole in holes] for name in names]
    for hole in holes:
        for place, name in enumerate(names):
            bars += [[metadata(name, hole), metadata(other, hole)] for other in names[place + 1 :]]
    return of_bars(bars, names)


def pebble(size, _seed):
    """A pyramid in which each node holds where its two sources do, but not the top; a node is the exclusive or of two keys."""

    def keys(row, place):
        return f"a{row}_{place}", f"b{row}_{place}"

    def worlds(row, place, truth):
        a, b = keys(row, place)
        return [[literal(a, one), literal(b, one != truth)] for one in (False, True)]

    bars = [bar for place in range(size + 1) for bar in worlds(0, place, False)]
    for row in range(1, size + 1):
        for place in range(size + 1 - row):
            for left in worlds(row - 1, place, True):
                for right in worlds(row - 1, place + 1, True):
                    bars += [left + right + top for top in worlds(row, place, False)]
    bars += worlds(size, 0, True)
    names = [name for row in range(size + 1) for place in range(size + 1 - row) for name in keys(row, place)]
    return of_bars(bars, names)


# Samples.

SAMPLED = [
    variant("payment_method", "card"),
    variant("currency", "USD"),
    variant("currency", "EUR", "not_equal"),
    number("greater_than", 10000),
    number("less_than", 50000),
    variants("card_network", ["Visa", "Mastercard"]),
    variant("billing_country", "US"),
    variant("capture_method", "manual"),
]


def sample(size, _seed):
    """The rules and settings that `euclidc sample` tries; the size is its number. The outputs are other ones."""
    draws = Draws(size)
    rules = []
    for _ in range(256):
        condition = [draws.pick(SAMPLED) for _ in range(3)]
        draws.below(4)
        rules.append([(condition, None)])
    currencies = {"type": "enable_only", "list": ["USD", "EUR"]}
    credit = {"payment_method_type": "credit", "accepted_currencies": currencies, "minimum_amount": 100}
    return rules, [connector(0, {"card": [credit]})]


FAMILIES = {
    "typical": typical,
    "dead": dead,
    "bands": bands,
    "matrix": matrix,
    "chain": chain,
    "rand3": random3,
    "php": pigeons,
    "pebble": pebble,
    "sample": sample,
}


# Files.


def comparison_json(comparison):
    key, operator, form, value = comparison
    return {"lhs": key, "comparison": operator, "value": {"type": form, "value": value}}


def statement_json(statement):
    comparisons, nested = statement
    return {
        "condition": [comparison_json(c) for c in comparisons],
        "nested": None if nested is None else [statement_json(s) for s in nested],
    }


def output_json(name):
    return {"type": "priority", "data": [{"connector": name}]}


def program_json(rules, connectors):
    """Each rule's output is a connector in turn."""
    return {
        "defaultSelection": output_json(connectors[0]["connector_name"]),
        "rules": [
            {
                "name": f"r{place}",
                "connectorSelection": output_json(connectors[place % len(connectors)]["connector_name"]),
                "statements": [statement_json(s) for s in rule],
            }
            for place, rule in enumerate(rules)
        ],
    }


def named(name, seed):
    """The rules and connectors of a family's member, named like `typical-64`."""
    family, size = name.rsplit("-", 1)
    return FAMILIES[family](int(size), seed)
