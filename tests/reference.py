# A second judge of offices, written apart from the crates: it reads house.ret and site.ret and answers the lines that
# retcheck prints for them. It tries set after set, so it is slow. tests/vectors.py puts the test vectors to it.
from itertools import product

FIELDS = {2: 0, 3: 1, 4: 2, 5: 4, 6: 12, 7: 44, 8: 4}  # the byte that a record's fault names

def word(record, at):
    return int.from_bytes(record[at:at + 4], "little")

def words(record):
    return [word(record, 12 + 4 * k) for k in range(8)]

def bits(record):
    return {i for i in range(256) if record[12 + i // 8] >> (i % 8) & 1}

def atoms(record):  # None where the list breaks its rule
    used = [a for a in record[4:12] if a != 255]
    ascends = used == sorted(set(used))
    return used if ascends and list(record[4:12]) == used + [255] * (8 - len(used)) else None

def literals(record):  # None where one breaks its rule
    pairs = [(record[12 + 2 * k], record[13 + 2 * k]) for k in range(16)]
    while pairs and pairs[-1] == (0, 0):
        pairs.pop()
    good = all(n <= {1: 254, 2: 254, 3: 63, 4: 63}.get(code, -1) for code, n in pairs)
    return pairs if good else None

def kind(record):  # a source goes by its form
    return chr(record[1]) if record[0] == ord("S") else chr(record[0])

def body_good(record, used):
    return {"T": max(bits(record), default=0) < 2**len(used), "R": literals(record) is not None,
            "C": 255 not in bits(record)}.get(kind(record), not any(words(record)[len(used):]))

def tail_good(record):
    a, b, c, d = record[44:48]
    return {"T": a == b == c == d == 0, "K": 1 <= a <= 8 and b <= 6 and c == d == 0}.get(kind(record), True)

def record_fault(record):
    letter, used = chr(record[0]), atoms(record)
    if letter not in "SRC":
        return 2
    if kind(record) not in "TWK" if letter == "S" else record[1] != 0:
        return 3
    if record[2] or record[3]:
        return 4
    if used is None or letter == "C" and used:
        return 5
    if not body_good(record, used):
        return 6
    if not tail_good(record):
        return 7
    return 8 if letter == "R" and not used and not literals(record) else None

# A plan is here the set of the atoms that are in.
class Office:
    def __init__(self):
        self.sources, self.rules, self.plans = [], [], []

    def read(self, data, in_house):  # None, or number, place and byte of the fault
        if len(data) % 48 or len(data) > 512 * 48:
            return 1, 0, 0
        order = "TWKRC"
        for place in range(len(data) // 48):
            record = data[48 * place:48 * place + 48]
            fault = record_fault(record)
            if fault:
                return fault, place, FIELDS[fault]
            if kind(record) not in order or in_house and kind(record) == "C":
                return 11, place, 0
            order = order[order.index(kind(record)):]
            held, most = {"R": (self.rules, 256), "C": (self.plans, 512)}.get(kind(record), (self.sources, 64))
            if len(held) == most:
                return 21, place, 0
            held.append(record)
        return None

    def truth(self, source, plan):
        inside = [k for k, a in enumerate(atoms(source)) if a in plan]
        if kind(source) == "T":
            return sum(2**k for k in inside) in bits(source)
        if kind(source) == "W":
            return sum(words(source)[k] for k in inside) >= word(source, 44)
        return len({(words(source)[k] + 10 - source[45]) // 7 for k in inside}) >= source[44]

    def holds(self, literal, plan):
        code, n = literal
        return (n in plan if code <= 2 else self.truth(self.sources[n], plan)) == (code in (1, 3))

    def body_holds(self, rule, plan):
        return all(self.holds(literal, plan) for literal in literals(rule))

    def satisfied(self, rule, plan):
        return not self.body_holds(rule, plan) or any(a in plan for a in atoms(rule))

    def is_circle(self, x, plan):
        return bool(x) and all(
            not self.body_holds(rule, plan) or not self.body_holds(rule, plan - x)
            or any(a in plan and a not in x for a in atoms(rule))
            for rule in self.rules if any(a in x for a in atoms(rule)))

    def earliest_of_all(self, plan):  # every set is tried, the earliest first, and by the reduct too
        ascending, reduct = sorted(plan), [rule for rule in self.rules if self.body_holds(rule, plan)]
        for choice in product((False, True), repeat=len(plan)):
            x = frozenset(a for a, chosen in zip(ascending, choice) if chosen)
            circle = self.is_circle(x, plan)
            assert circle == (bool(x) and all(self.satisfied(rule, plan - x) for rule in reduct))
            if circle:
                return x
        return None

    # Pairs of an atom and a set: a circle with the atom has one of the set. Such a rule names no source, its
    # body is true, and of its head one atom alone is in. They spare a long plan most of its sets.
    def wants(self, plan):
        for rule in self.rules:
            inside = [a for a in atoms(rule) if a in plan]
            if len(inside) == 1 and all(code <= 2 for code, _ in literals(rule)) and self.body_holds(rule, plan):
                yield inside[0], {n for code, n in literals(rule) if code == 1}

    def earliest(self, plan):
        wants = list(self.wants(plan))

        def search(rest, x, left):
            if any(atom in x and some <= left for atom, some in wants):
                return None
            if not rest:
                return x if self.is_circle(x, plan) else None
            return search(rest[1:], x, left | {rest[0]}) or search(rest[1:], x | {rest[0]}, left)

        found = search(sorted(plan), frozenset(), frozenset())
        assert len(plan) > 10 or found == self.earliest_of_all(plan)
        return found

    def judge(self, plan):
        if any(code >= 3 and n >= len(self.sources) for rule in self.rules for code, n in literals(rule)):
            return "refused 10"
        for rule in self.rules:
            if not self.satisfied(rule, plan):
                return f"breaks {word(rule, 44)}"
        if len(plan) > 24:
            return "refused 25"
        circle = self.earliest(plan)
        return "stands" if circle is None else " ".join(["circle", *map(str, sorted(circle))])

def lines(house, site):
    office = Office()
    for name, data in ("house", house), ("site", site):
        fault = office.read(data, name == "house")
        if fault:
            return ["%s refused %d record %d byte %d" % (name, *fault)]
    return [f"plan {word(record, 44)} {office.judge(frozenset(bits(record)))}" for record in office.plans]
