# The test vectors: offices that the crates and the second judge, tests/reference.py, must answer alike.
#
# Run `python3 tests/vectors.py` in the repository's root to write both files of the program `vectors` anew:
#   crates/vectors/data/cases.bin  for each case the lengths of house.ret and site.ret, four bytes each,
#                                  lowest first, and then the bytes of both files
#   crates/vectors/stdout          for each case the line `case N`, from 1, and then what retcheck prints
# Every run writes the same. `rt ci vectors` holds the crates to these answers.
import random
import sys
from itertools import product

sys.dont_write_bytecode = True
from reference import FIELDS, Office, lines

BIG = 2**32 - 1

def make(letter, form, listed, body, tail):
    start = bytes([ord(letter), form, 0, 0, *listed, *[255] * (8 - len(listed))])
    return start + body.ljust(32, b"\0") + tail.to_bytes(4, "little")

def table(inputs, value):
    return make("S", ord("T"), inputs, value.to_bytes(32, "little"), 0)

def weigh(inputs, weights, bound):
    return make("S", ord("W"), inputs, b"".join(w.to_bytes(4, "little") for w in weights), bound)

def weeks(inputs, days, wanted, first):
    return make("S", ord("K"), inputs, b"".join(d.to_bytes(4, "little") for d in days), wanted + 256 * first)

def rule(label, text):  # "0 1 < 2 -3 s0 -s1": atom 0 or 1, from atom 2, not 3, source 0, not source 1
    head, _, body = text.partition("<")
    pairs = [(1 + ("-" in t) + 2 * ("s" in t), int(t.strip("-s"))) for t in body.split()]
    return make("R", 0, [int(a) for a in head.split()], bytes(b for pair in pairs for b in pair), label)

def plan(label, *inside):
    return make("C", 0, [], sum(1 << a for a in set(inside)).to_bytes(32, "little"), label)

def spoil(record, at, *values):
    return record[:at] + bytes(values) + record[at + len(values):]

def rules(numbers, text):
    return b"".join(rule(n, text.replace("n", str(n % 255))) for n in numbers)

# ---- The cases: pairs of house and site

S0, S1, S2 = table([0], 2), table([0], 1), weigh([0, 1], [3, 4], 3)
GOOD = T, W, K, R, C = S0, S2, weeks([0, 1], [3, 4], 2, 0), rule(7, "0 < s0"), plan(1, 5)

def judged():
    pair, loop, fed = rule(1, "0 1 <"), rule(2, "0 < 1") + rule(3, "1 < 0"), rule(1, "0 <") + rule(2, "1 < s0")
    for house, inside in [
            (b"", []), (b"", [5]), (S0 + rule(1, "0 < s0"), []), (S0 + rule(1, "0 < s0"), [0]), (pair, [0]), (pair, []),
            (pair, [0, 1]), (loop, [0, 1]), (pair + loop, [0, 1]), (S1 + rule(1, "0 < -s0"), [0]),
            (S2 + fed, [0, 1]), (spoil(S2, 44, 4) + fed, [0, 1])]:
        yield house, plan(1, *inside)
    yield S0 + rule(100, "0 < s0"), rule(200, "1 2 <") + plan(1) + plan(2, 1) + plan(3, 0, 1)
    marks = range(100, 125)
    yield rules(marks[:24], "n <"), plan(24, *marks[:24]) + plan(25, *marks) + plan(23, *marks[1:24])
    yield rules(marks, "n <"), plan(25, *marks) + plan(24, *marks[:24]) + plan(255, *range(255))
    yield rule(9, "0 <") + rules(marks, "n <"), rule(8, "< 100") + plan(1, *marks) + plan(2, 0, *marks)
    yield rule(9, "0 < s1"), S0 + rule(8, "1 <") + plan(1) + plan(2, *marks) + plan(3, 1)
    yield b"", plan(1, 254) + plan(2, 0) + plan(3, *range(0, 240, 10)) + plan(4, *range(25)) + plan(5, *range(255))
    ring = b"".join(rule(a, f"{a} < {a + 1}") for a in range(231, 254)) + rule(254, "254 < 231")
    yield ring, plan(BIG, *range(231, 255)) + plan(0, *range(232, 255)) + plan(10)
    yield rule(0, "1 <") + rule(BIG, "2 <"), plan(0) + plan(BIG, 1) + plan(5, 1, 2) + plan(5, 1, 2, 0)
    yield rule(5, "3 <") + rule(4, "4 <"), rule(4, "5 <") + rule(1, "0 1 2 3 4 5 6 7 < 9") + plan(1, 3, 9) + plan(2, 9)
    yield rule(1, "0 <" + " -1" * 16), rule(2, "2 < 0 -0") + plan(1, 0) + plan(2, 0, 1) + plan(3, 0, 2)
    yield rule(1, "254 < -253"), T + rule(2, "< 254 -s0 1") + plan(1, 254) + plan(2, 253) + plan(3, 1, 254)
    yield b"", b""
    yield b"".join(GOOD[:4]), b""
    yield T + T + W + W + K + K + R + R, T + W + K + R + C + C
    early = b"".join(table([a], 2) for a in range(40)) + b"".join(weigh([a], [1], 1) for a in range(40, 50))
    late = b"".join(weeks([a], [a], 1, a % 7) for a in range(50, 64))
    yield early + rule(1, "64 < s63"), late + rule(2, "63 <") + rule(3, "39 < -s39") + plan(1, 63, 64) + plan(2, 39, 63)
    yield early[:48 * 45], early[48 * 45:] + late + rule(1, "64 < s63 -s45") + plan(1, 64) + plan(2, 63) + plan(3)
    yield b"", T + rule(1, "< s63") + plan(1)

def reckoned():  # sources at their edges
    for n, value in (8, 2**255 + 2**128 + 1), (8, 2**256 - 2), (0, 1), (0, 0), (7, 2**127 + 2**64), (1, 2):
        inputs = range(n)
        book = rule(1, "9 < s0") + rules(inputs, "n < -20")
        yield table(inputs, value), book + plan(1, *inputs) + plan(2, *inputs, 9) + plan(3, 20) + plan(4, 9, 20)
    for weights, bound in [([BIG] * 8, BIG), ([BIG, 1], 0), ([1, BIG - 1], BIG), ([], 0), ([], 1), ([0], 0), ([2] * 8, 17)]:
        inputs = range(len(weights))
        book = rules(inputs[:2], "n <") + rule(11, "11 < s0") + rule(10, "10 < -s0")
        marks = (*inputs[:2], 11), (*inputs[:2], 10), (*inputs, 11), inputs[:2]
        yield weigh(inputs, weights, bound), book + b"".join(plan(4, *inside) for inside in marks)
    for days, wanted, first in [([3, 4], 2, 0), ([3, 4], 2, 6), ([3, 4], 1, 6), ([BIG, BIG - 7], 2, 0), ([BIG - 1, BIG], 2, 2),
                                ([0], 1, 3), (range(0, 56, 7), 8, 6), (range(0, 40, 5), 8, 0), ([], 1, 0)]:
        inputs = range(len(days))
        book = rules(inputs, "n <") + rule(9, "9 < s0")
        yield weeks(inputs, days, wanted, first), book + plan(9, *inputs, 9) + plan(8, *inputs) + plan(7, *inputs[:1], 9)
    for first in range(7):
        book = rules([7, 8], "n <") + b"".join(rule(d, f"{d} < s{d}") for d in range(7))
        yield b"".join(weeks([7, 8], [d, d + 1], 2, first) for d in range(7)), book + plan(first, 7, 8, *range(7))

def odd_records():  # most of them bad
    yield from (spoil(R, 0, ord("X")), spoil(C, 0, 0), spoil(T, 0, ord("s")), bytes(48), b"\xff" * 48)
    yield from (spoil(T, 1, ord("X")), spoil(W, 1, 0), spoil(R, 1, ord("R")), spoil(C, 1, 1), spoil(K, 1, ord("C")))
    yield from (spoil(T, 2, 1), spoil(R, 3, 1), spoil(C, 3, 255), spoil(W, 2, 7), spoil(K, 3, 1))
    yield from (spoil(R, 4, 1, 0), spoil(T, 4, 1, 1), spoil(W, 4, 255, 3), spoil(K, 11, 9), spoil(C, 4, 0), spoil(C, 11, 0))
    yield from (spoil(R, 12, 5, 0), spoil(R, 12, 0, 1), spoil(R, 12, 0, 0, 1, 1), spoil(R, 12, 1, 255), spoil(R, 42, 1, 1))
    yield from (spoil(R, 12, 2, 255), spoil(R, 12, 3, 64), spoil(R, 12, 4, 64), spoil(R, 42, 0, 1), spoil(R, 14, 0, 3))
    yield from (spoil(T, 12, 4), spoil(T, 43, 128), table([], 2), table(range(7), 2**128), spoil(C, 43, 128))
    yield from (spoil(W, 20, 1), spoil(K, 43, 1), weigh([], [1], 0), weeks([3], [3, 3], 1, 0))
    yield from (spoil(T, 44, 1), spoil(T, 47, 1), spoil(K, 44, 0), spoil(K, 44, 1), spoil(K, 44, 8), spoil(K, 44, 9))
    yield from (spoil(K, 45, 6), spoil(K, 45, 7), spoil(K, 46, 1), spoil(K, 47, 1), rule(1, ""), spoil(rule(1, ""), 3, 1))
    yield from (spoil(R, 4, 254), rule(1, "254 < 254 -254 s63 -s63"), plan(3, 254), spoil(plan(3), 44, 1, 2, 3, 4))
    bad = bytes([0, 9, 9, 9, 255, 8, *[255] * 42])
    for record in GOOD:
        for number in range(2, 8):  # bad in this field and in all after it
            yield record[:FIELDS[number]] + bad[FIELDS[number]:]

def refused():
    for record in odd_records():
        yield T + record, C
        yield b"", record + C
    for size in 1, 47, 49, 95:
        yield bytes(size), C
        yield T, (R + C)[:size]
    yield from ((C, C), (T + R + C, C), (spoil(T, 2, 1), spoil(T, 0, 1)))
    for first, second in (W, T), (K, T), (K, W), (R, T), (R, W), (R, K), (R, rule(1, "")), (R, spoil(T, 1, 1)):
        yield first + second, C
        yield T, first + second + C
    for last in T, W, K, R, rule(1, ""), spoil(T, 3, 1):
        yield R, C + C + last
    many = table([], 0) * 40 + weigh([], [], 0) * 24
    yield from ((many + weeks([], [], 1, 0), C), (many, C), (many, weeks([], [], 1, 0) + C), (many, R + T + C))
    yield from ((many[:48 * 39], many[48 * 37:] + C), (many + R, spoil(T, 47, 1)))
    book = rules(range(256), "n < n")
    yield from ((book + R, C), (book, T + R + C))
    full = T * 64 + book + b"".join(plan(n, n % 255, n % 7) for n in range(192))
    yield from ((b"", full), (b"", full + C), (bytes(48 * 513), T))

# ---- Random books

def random_source(rng, form, names):
    inputs = sorted(rng.sample(names, rng.randint(0, min(4, len(names)))))
    if form == "T":
        return table(inputs, rng.getrandbits(2**len(inputs)))
    if form == "W":
        most = rng.choice([3, 6, BIG])
        return weigh(inputs, [rng.randint(0, most) for _ in inputs], rng.randint(0, min(BIG, 2 * most)))
    return weeks(inputs, [rng.randint(0, 30) for _ in inputs], rng.randint(1, 3), rng.randint(0, 6))

def random_rule(rng, names, count):
    head = sorted(rng.sample(names, min(len(names), rng.choice([0, 1, 1, 1, 1, 2, 2, 3]))))
    signs = rng.choices(["", "", "-"] + ["s", "-s"] * (count > 0), k=rng.choice([0, 1, 1, 1, 2, 2, 3, 4]) or not head)
    body = [sign + str(rng.randrange(count) if "s" in sign else rng.choice(names)) for sign in signs]
    return rule(rng.randint(0, 999), " ".join([*map(str, head), "<", *body]))

def random_book(rng):  # with a plan that stands, where one does, one with a long circle, and any
    names = sorted(rng.sample(range(rng.choice([8, 16, 255])), rng.randint(2, 8)))
    files = [b"".join(random_source(rng, form, names) for form in "TWK" for _ in range(rng.randint(0, most))) for most in (2, 1)]
    count = len(files[0] + files[1]) // 48 + (rng.random() < 0.05)
    for _ in range(rng.randint(1, 10)):
        files[rng.random() < 0.5] += random_rule(rng, names, count)
    office = Office()
    assert not office.read(files[0], True) and not office.read(files[1], False)
    tried = [frozenset(a for a, c in zip(names, choice) if c) for choice in product((0, 1), repeat=len(names))]
    said = {inside: office.judge(inside) for inside in tried}
    standing = [inside for inside in tried if said[inside] == "stands"]
    longest = max(tried, key=lambda inside: len(said[inside]) * ("circle" in said[inside]))
    chosen = rng.choice(standing or tried), longest, rng.choice(tried)
    return files[0], files[1] + b"".join(plan(n, *inside) for n, inside in enumerate(chosen))

def shaken(rng):  # a few records in any order, or with bytes changed
    if rng.random() < 0.3:
        return T, b"".join(rng.sample(GOOD, 3))
    site = b"".join(GOOD)
    for _ in range(rng.randint(1, 2)):
        site = spoil(site, rng.randrange(48 * 5), rng.choice([0, 1, 2, 3, 4, 8, 64, 128, 254, 255]))
    return T + rule(1, "0 < 1 -2 s0"), site

def main():
    rng = random.Random(48)
    cases = [*judged(), *reckoned(), *refused()]
    cases += [random_book(rng) for _ in range(60)] + [shaken(rng) for _ in range(60)]
    with open("crates/vectors/data/cases.bin", "wb") as data, open("crates/vectors/stdout", "w", newline="\n") as out:
        for n, (house, site) in enumerate(cases, 1):
            data.write(len(house).to_bytes(4, "little") + len(site).to_bytes(4, "little") + house + site)
            print(f"case {n}", *lines(house, site), sep="\n", file=out)

if __name__ == "__main__":
    main()
