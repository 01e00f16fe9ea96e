#!/usr/bin/env python3
"""Books for the comparison, and a chosen few of them as vectors.

    books.py books OUT [--seed N] [--random N] [--records N] [--oracle ORACLE]
    books.py saves OUT ..                    the same books, and those for saved monitors before them
    books.py vectors DIR --oracle ORACLE [--seed N]
    books.py largest OUT

OUT holds many books: each is its length as 8 decimal digits and LF, then its bytes. --random is the
number of random books (a sixth more have joined nodes only, a tenth more are opening lines with little
after them; for saved monitors a quarter more), --records the number of random records for every 64 small
formulas that compile, after the 256 records of four words over two signals. The same arguments give the
same books.
"""
import argparse
import itertools
import os
import random
import re
import subprocess
import sys

TOP = 2**64 - 1
LAST_STEP = 2**63 - 1
ATOMS = ["var", "in", "out"]
ONE = ["not", "next", "always", "eventually"]
BOUNDED = ["always-for", "within"]
TWO = ["and", "or", "implies", "until"]
PURE_TWO = ["and", "or", "implies"]
STATES = 65535
SLOTS = 32
WIDTH = 64

# A formula is a tuple: (atom, n), (word, f), (word, b, f), (word, f, g).


def size(f):
    return 1 + sum(size(x) for x in f[1:] if isinstance(x, tuple))


def depth(f):
    return 1 + max([depth(x) for x in f[1:] if isinstance(x, tuple)], default=0)


def node_lines(f, out):
    numbers = [str(x) for x in f[1:] if not isinstance(x, tuple)]
    out.append("\t".join([f[0]] + numbers))
    for x in f[1:]:
        if isinstance(x, tuple):
            node_lines(x, out)


def rule(label, kind, f):
    out = [f"rule\t{label}\t{kind}"]
    node_lines(f, out)
    return out


def step(s, w):
    return f"step\t{s}\t{w:016x}"


def text(lines):
    return "".join(line + "\n" for line in lines).encode("latin-1")


def opening(states, slots):
    """Opening lines. states: a count, or None for no such line; slots: (name, width)."""
    head = [] if states is None else [f"states\t{states}"]
    return head + [f"slot\t{name}\t{width}" for name, width in slots]


def book(rules, record, head=()):
    """rules: (label, kind, formula); record: (step, word); head: opening lines."""
    out = list(head)
    for label, kind, f in rules:
        out += rule(label, kind, f)
    return text(out + [step(s, w) for s, w in record])


def gapless(words):
    return list(enumerate(words))


# ---- every formula up to 5 nodes over two signals and bounds 0, 1, 2


def every_formula(nodes, cache={}):
    if nodes in cache:
        return cache[nodes]
    out = []
    if nodes == 1:
        out = [("var", 0), ("var", 1)]
    for f in every_formula(nodes - 1) if nodes > 1 else []:
        out += [(word, f) for word in ONE]
        out += [(word, b, f) for word in BOUNDED for b in range(3)]
    for left in range(1, nodes - 1):
        for f in every_formula(left):
            for g in every_formula(nodes - 1 - left):
                out += [(word, f, g) for word in TWO]
    cache[nodes] = out
    return out


def small_formulas():
    return [f for nodes in range(1, 6) for f in every_formula(nodes)]


def packs(items, many=64):
    return [items[i : i + many] for i in range(0, len(items), many)]


def with_letters(rng, f):
    """The same formula, its atoms taken from var, in and out."""
    if f[0] in ATOMS:
        return (rng.choice(ATOMS), f[1])
    return tuple(with_letters(rng, x) if isinstance(x, tuple) else x for x in f)


def as_rules(rng, formulas, letters=False):
    out = []
    for k, f in enumerate(formulas):
        kind = "A" if rng.random() < 0.25 else "P"
        out.append((f"r{k}", kind, with_letters(rng, f) if letters else f))
    return out


def compiled(oracle, formulas):
    """The formulas that compile, by the oracle's word."""
    books = [book([(f"r{k}", "A", f) for k, f in enumerate(pack)], []) for pack in packs(formulas)]
    answers = ask(oracle, books)
    out = []
    for pack, answer in zip(packs(formulas), answers):
        for line in answer.decode().splitlines():
            fields = line.split("\t")
            if fields[0] == "rule" and fields[4] == "0":
                out.append(pack[int(fields[1])])
    return out


def small_books(rng, oracle, records):
    formulas = small_formulas()
    for pack in packs(formulas):
        yield book(as_rules(rng, pack), random_record(rng, 2, 8))
    for pack in packs(formulas):
        yield book(as_rules(rng, pack, True), gapless([rng.randrange(4) for _ in range(6)]))
    if not oracle:
        return
    good = compiled(oracle, formulas)
    for pack in packs(good):
        for code in range(256):
            words = [(code >> (2 * i)) & 3 for i in range(4)]
            yield book(as_rules(rng, pack), gapless(words))
        for _ in range(records):
            yield book(as_rules(rng, pack, True), random_record(rng, 2, 9))


# ---- random formulas and records


BOUNDS = [0, 1, 2, 3, 4, 5, 7, 8, 9, 15, 16, 17, 31, 32, 255, 256, 2**31, 2**32 - 1, 2**32, 2**53, 2**62,
          LAST_STEP - 1, LAST_STEP, 2**63, 2**63 + 1, TOP - 2, TOP - 1, TOP]


class Maker:
    """Formulas of one random book: a few signals, small bounds more often than large ones."""

    def __init__(self, rng):
        self.rng = rng
        self.signals = [rng.randrange(64) for _ in range(rng.choice([1, 2, 2, 3, 3, 5, 12]))]
        if rng.random() < 0.3:
            self.signals = [0, 1]
        if rng.random() < 0.1:
            self.signals.append(63)
        self.letters = rng.choice([["var"], ["var"], ATOMS])
        self.large = rng.random() < 0.25

    def bound(self):
        if self.large and self.rng.random() < 0.5:
            return self.rng.choice(BOUNDS)
        return self.rng.choice([0, 1, 1, 2, 2, 3, 3, 4, 5, 6])

    def atom(self):
        return (self.rng.choice(self.letters), self.rng.choice(self.signals))

    def two(self, word, n, left, right):
        k = self.rng.randrange(1, n - 1)
        return (word, left(k), right(n - 1 - k))

    def pure(self, n):
        if n <= 1:
            return self.atom()
        if n == 2 or self.rng.random() < 0.25:
            return ("not", self.pure(n - 1))
        return self.two(self.rng.choice(PURE_TWO), n, self.pure, self.pure)

    def any(self, n):
        if n <= 1:
            return self.atom()
        r = self.rng.random()
        if n >= 3 and r < 0.5:
            return self.two(self.rng.choice(TWO), n, self.any, self.any)
        if r < 0.75:
            return (self.rng.choice(BOUNDED), self.bound(), self.any(n - 1))
        return (self.rng.choice(ONE), self.any(n - 1))

    def check(self, n, under=False):
        """A formula that compiles, bounds of always-for apart."""
        rng = self.rng
        r = rng.random()
        if n >= 3 and r < 0.35:
            word = rng.choice(["and", "or"])
            return self.two(word, n, lambda k: self.check(k, under), lambda k: self.check(k, under))
        if n >= 2 and r < 0.55:
            if not under and rng.random() < 0.4:
                return ("always-for", max(1, self.bound()), self.check(n - 1, True))
            return ("always", self.check(n - 1, True))
        if n >= 4 and r < 0.75:
            return self.two("implies", n - 1, self.pure, lambda k: ("within", self.bound(), self.pure(k)))
        if n >= 4 and r < 0.88:
            return self.two("implies", n - 1, self.pure, lambda k: ("next", self.pure(k)))
        if n >= 2 and r < 0.95:
            return rng.choice([("within", self.bound(), self.pure(n - 1)), ("next", self.pure(n - 1))])
        return self.pure(n)

    def live(self, n):
        rng = self.rng
        r = rng.random()
        if n >= 3 and r < 0.55:
            return self.two(rng.choice(PURE_TWO), n, self.live, self.live)
        if n >= 2 and r < 0.65:
            return ("not", self.live(n - 1))
        part = self.any if rng.random() < 0.06 else self.pure
        if n >= 3 and r < 0.8:
            return self.two("until", n, part, part)
        if n >= 2 and r < 0.93:
            return ("eventually", part(n - 1))
        if n >= 2 and r < 0.96:
            return rng.choice([("always", self.live(n - 1)), ("within", self.bound(), self.pure(n - 1))])
        return self.atom()

    def spoiled(self, f):
        """One part replaced by any formula of about its size."""
        places = []

        def walk(g, path):
            places.append(path)
            for i, x in enumerate(g):
                if isinstance(x, tuple):
                    walk(x, path + [i])

        walk(f, [])

        def put(g, path):
            if not path:
                return self.any(max(1, min(size(g), 12) + self.rng.randrange(-1, 3)))
            return tuple(put(x, path[1:]) if i == path[0] else x for i, x in enumerate(g))

        return put(f, self.rng.choice(places))

    def formula(self):
        rng = self.rng
        n = rng.choice([1, 2, 3, 4, 5, 6, 7, 8, 10, 12, 16, 24])
        f = rng.choice([self.check, self.check, self.check, self.live, self.any])(n)
        if rng.random() < 0.2:
            f = self.spoiled(f)
        return f


def random_words(rng, signals, count):
    p = rng.choice([0.1, 0.3, 0.5, 0.5, 0.7, 0.9])
    words = []
    for _ in range(count):
        w = sum(1 << n for n in set(signals) if rng.random() < p)
        if rng.random() < 0.05:
            w ^= rng.getrandbits(64)
        words.append(w)
    return words


def random_steps(rng, count):
    """Step numbers: most often 0, 1, 2 and on; else gaps, repeats, steps back, steps near 2^63."""
    r = rng.random()
    if r < 0.55:
        return list(range(count))
    if r < 0.65:
        s, out = rng.choice([0, 1, 3]), []
        for _ in range(count):
            out.append(s)
            s += rng.choice([0, 1, 1, 1, 2, 5])
        return out
    if r < 0.8:
        s, out = rng.randrange(6), []
        for _ in range(count):
            out.append(s)
            s = max(0, s + rng.choice([-3, -1, 0, 1, 1, 2]))
        return out
    if r < 0.9:
        return [rng.randrange(8) for _ in range(count)]
    if r < 0.95:
        return [max(0, LAST_STEP - count + 1) + k for k in range(count)]
    return [rng.choice([0, 1, 2, LAST_STEP, LAST_STEP - 1, 2**32, rng.getrandbits(63)]) for _ in range(count)]


def random_record(rng, signals, most):
    count = rng.randrange(most + 1)
    steps = random_steps(rng, count)
    return list(zip(steps, random_words(rng, range(signals), count)))


LABEL_BYTES = "".join(chr(c) for c in range(0x21, 0x7F))


def random_label(rng):
    n = rng.choice([1, 2, 3, 4, 5, 6, 8, 8, 31, 32])
    return "".join(rng.choice(LABEL_BYTES) for _ in range(n))


COUNTS = [0, 1, 2, 3, 4, 5, 255, 256, 257, STATES - 1, STATES]
WIDTHS = [0, 1, WIDTH - 1, WIDTH]


def random_slots(rng, many):
    out = []
    for _ in range(many):
        name = rng.choice(out)[0] if out and rng.random() < 0.15 else random_label(rng)
        out.append((name, rng.choice(WIDTHS) if rng.random() < 0.6 else rng.randrange(WIDTH + 1)))
    return out


def random_opening(rng):
    """One opening line or more."""
    states = rng.choice(COUNTS) if rng.random() < 0.8 else rng.randrange(STATES + 1)
    if rng.random() < 0.3:
        states = None
    many = rng.choice([1, 1, 2, 2, 3, 5, 8, 16, SLOTS - 1, SLOTS, SLOTS])
    if states is not None and rng.random() < 0.25:
        many = 0
    return opening(states, random_slots(rng, many))


def some_opening(rng):
    """Opening lines for one book of four."""
    return random_opening(rng) if rng.random() < 0.25 else []


def random_book(rng):
    """An accepted book."""
    maker = Maker(rng)
    rules, nodes = [], 0
    for _ in range(rng.choice([0, 1, 1, 1, 1, 2, 2, 3, 4, 6, 12])):
        f = maker.formula()
        if rules and rng.random() < 0.15:
            f = with_letters(rng, rng.choice(rules)[2])
        if depth(f) > 64 or nodes + size(f) > 1024:
            continue
        nodes += size(f)
        rules.append((random_label(rng), rng.choice("PPPA"), f))
    count = rng.choice([0, 1, 2, 3, 4, 5, 6, 8, 12, 20, 40])
    record = zip(random_steps(rng, count), random_words(rng, maker.signals, count))
    return book(rules, record, some_opening(rng))


def opening_book(rng):
    """Opening lines, then a rule or none, steps or none."""
    maker = Maker(rng)
    rules = [(random_label(rng), rng.choice("PA"), maker.check(rng.choice([1, 2, 4, 6]))) for _ in range(rng.choice([0, 1, 1, 2]))]
    count = rng.choice([0, 0, 1, 3])
    return book(rules, zip(random_steps(rng, count), random_words(rng, maker.signals, count)), random_opening(rng))


def long_book(rng):
    """Many nodes, or many steps."""
    maker = Maker(rng)
    r = rng.random()
    rules, nodes = [], 0
    if r < 0.5:
        while True:
            n = rng.choice([10, 40, 100, 200, 256])
            f = rng.choice([maker.check, maker.check, maker.live, maker.pure])(n)
            if depth(f) > 64:
                f = maker.check(20)
            if nodes + size(f) > 1024 or len(rules) == 64:
                break
            nodes += size(f)
            rules.append((random_label(rng), rng.choice("PPPA"), f))
        count = rng.randrange(30)
    else:
        for _ in range(rng.choice([1, 4, 16])):
            rules.append((random_label(rng), rng.choice("PPPA"), maker.check(rng.choice([3, 6, 12]))))
        count = rng.choice([100, 300, 1000, 2000])
    return book(rules, zip(random_steps(rng, count), random_words(rng, maker.signals, count)), some_opening(rng))


def joined_book(rng):
    """Joined nodes over obligations and checks that alarm at different steps: culprits, what stays alarmed."""

    def leaf():
        trigger, body = ("var", rng.randrange(3)), (rng.choice(ATOMS), rng.choice([3, 4]))
        r = rng.random()
        if r < 0.6:
            return ("implies", trigger, ("within", rng.choice([0, 1, 2, 2, 3, 4, 5]), body))
        if r < 0.7:
            return ("within", rng.choice([0, 1, 2, 3]), body)
        if r < 0.85:
            return ("implies", trigger, ("next", body))
        return ("var", rng.choice([5, 6]))

    def tree(leaves):
        if leaves == 1:
            return leaf()
        k = rng.randrange(1, leaves)
        return (rng.choice(["and", "or"]), tree(k), tree(leaves - k))

    def part(leaves):
        f = tree(leaves)
        return rng.choice([("always", f), ("always", f), ("always", f), ("always-for", rng.randrange(1, 9), f), f])

    rules = []
    for k in range(8):
        n = rng.choice([2, 2, 3, 3, 4, 5, 6])
        f = (rng.choice(["and", "or"]), part(n - 1), part(1)) if rng.random() < 0.3 else part(n)
        rules.append((f"j{k}", "PA"[rng.random() < 0.2], f))
    count = rng.choice([4, 8, 12, 16, 24])
    often = [rng.choice([0.2, 0.4])] * 3 + [rng.choice([0.05, 0.1, 0.2])] * 2 + [rng.choice([0.3, 0.6, 0.9])] * 2
    words = [sum(1 << n for n in range(7) if rng.random() < often[n]) for _ in range(count)]
    return book(rules, zip(random_steps(rng, count), words))


WORDS = ATOMS + ONE + BOUNDED + TWO + ["rule", "step", "states", "slot"]
OPERANDS = {w: 1 for w in ONE + BOUNDED} | {w: 2 for w in TWO} | {w: 0 for w in ATOMS}
OPENING = (b"states\t", b"slot\t")


def damaged(rng, data):
    """One to three faults in a book's bytes."""
    for _ in range(rng.choice([1, 1, 1, 2, 3])):
        lines = data.split(b"\n")
        kind = rng.randrange(16)
        i = rng.randrange(len(lines))
        j = rng.randrange(len(lines))
        at = rng.randrange(len(data) + 1)
        if kind == 0 and data:
            at = rng.randrange(len(data))
            data = data[:at] + bytes([rng.choice([rng.randrange(256), data[at] ^ (1 << rng.randrange(8))])]) + data[at + 1 :]
        elif kind == 1:
            data = data[:at] + bytes([rng.choice([0, 9, 10, 13, 32, 0x21, 0x2D, 0x30, 0x31, 0x7E, 0x7F, 0x80, 0xC3, 0xFF])]) + data[at:]
        elif kind == 2 and data:
            data = data[: max(0, at - 1)] + data[at:]
        elif kind == 3:
            data = b"\n".join(lines[:i] + lines[i + 1 :])
        elif kind == 4:
            data = b"\n".join(lines[:i] + [lines[i]] + lines[i:])
        elif kind == 5:
            lines[i], lines[j] = lines[j], lines[i]
            data = b"\n".join(lines)
        elif kind == 6:
            lines[i] += b"\t" + rng.choice([b"", b"0", b"1", b"x", b"\t"])
            data = b"\n".join(lines)
        elif kind == 7:
            fields = lines[i].split(b"\t")
            del fields[rng.randrange(len(fields))]
            lines[i] = b"\t".join(fields)
            data = b"\n".join(lines)
        elif kind == 8:
            lines[i] = lines[i].replace(b"\t", b" ", 1)
            data = b"\n".join(lines)
        elif kind == 9:
            data = data[:-1]
        elif kind == 10:
            lines[i] += b"\r"
            data = b"\n".join(lines)
        elif kind == 11:
            data = b"\n".join(lines[:i] + [b""] + lines[i:])
        elif kind == 12:
            lines[i] = rng.choice(WORDS).encode() + b"".join(b"\t" + f for f in lines[i].split(b"\t")[1:])
            data = b"\n".join(lines)
        elif kind == 13:
            fields = lines[i].split(b"\t")
            fields[rng.randrange(len(fields))] = rng.choice(FIELDS)
            lines[i] = b"\t".join(fields)
            data = b"\n".join(lines)
        elif kind == 14:
            lines[i] = lines[i].upper() if rng.random() < 0.5 else lines[i].capitalize()
            data = b"\n".join(lines)
        else:
            data = b"\n".join(lines[:i] + [rng.choice(LINES)] + lines[i:])
    return data


# ---- lines with each fault, and the places that they are put to


NUMBERS = [b"", b"0", b"1", b"00", b"01", b"+1", b"-1", b"-0", b" 1", b"1 ", b"62", b"63", b"64", b"65", b"100", b"063",
           b"0x1", b"1a", b"a", b"1.0", b"1e3", b"1_0", b"\x00", b"1\x00", b"\xef\xbc\x91", b"1\r", b"/", b":", b"2" * 19,
           b"9223372036854775806", b"9223372036854775807", b"9223372036854775808", b"9999999999999999999",
           b"10000000000000000000", b"18446744073709551614", b"18446744073709551615", b"18446744073709551616",
           b"18446744073709551617", b"18446744073709551625", b"36893488147419103232", b"99999999999999999999",
           b"100000000000000000000", b"184467440737095516150", b"340282366920938463463374607431768211456", b"1" * 40,
           b"0" * 20]
TRUTHS = [b"", b"0", b"0" * 15, b"0" * 16, b"0" * 17, b"f" * 16, b"F" * 16, b"0123456789abcdef", b"0123456789ABCDEF",
          b"000000000000000g", b"000000000000000`", b"000000000000000/", b"000000000000000:", b"000000000000000G",
          b"0x00000000000000", b"000000000000 000", b" 000000000000001", b"000000000000001 ", b"+000000000000001",
          b"00000000\x0000000000", b"000000000000000\r", b"8000000000000000", b"000000000000000@"]
LABELS = [b"", b"x", b"!", b"~", b" ", b"\x1f", b"\x7f", b"\x80", b"\xff", b"\x00", b"a b", b"a\r", b"a" * 31, b"a" * 32,
          b"a" * 33, b"a" * 64, b"\xc3\xa9", b"rule", b"0", b"-", b"'", b"a" * 300]
KINDS = [b"", b"P", b"A", b"p", b"a", b"PA", b"P ", b" P", b"B", b"\x00", b"P\r", b"0", b"E"]
COUNT_TEXTS = [b"2", b"3", b"4", b"5", b"255", b"256", b"257", b"32768", b"32769", b"65534", b"65535", b"65536", b"65537", b"065535", b"65535 ", b"99999",
               b"131071", b"655350", b"4294967296", b"4295032831"]
WIDTH_TEXTS = [b"2", b"8", b"31", b"32", b"064", b"128", b"256", b"4294967296", b"4294967360"]
FIELDS = NUMBERS + COUNT_TEXTS + TRUTHS + LABELS + KINDS + [w.encode() for w in WORDS]


def fault_lines():
    out = [b"", b"\t", b"\t\t", b"\t\t\t", b" ", b"\r", b"\x00", b"\xff\xfe", b"\xef\xbb\xbfrule\tx\tP", b"rules\tx\tP", b"rul\tx\tP",
           b"Rule\tx\tP", b"RULE\tx\tP", b" rule\tx\tP", b"rule \tx\tP", b"rule x P", b"step 0 " + b"0" * 16, b"steps\t0\t" + b"0" * 16,
           b"state\t3", b"statess\t3", b"States\t3", b"STATES\t3", b" states\t3", b"states \t3", b"states 3", b"\xef\xbb\xbfstates\t3",
           b"slo\ta\t1", b"slots\ta\t1", b"Slot\ta\t1", b"SLOT\ta\t1", b" slot\ta\t1", b"slot \ta\t1", b"slot a 1",
           b"plan\t0\t0\t0\t0\t0", b"trip\tx", b"either", b"event\ta\tb", b"field\ta\tbool", b"implies ", b"true", b"T", b"var0",
           b"always for\t2", b"alwaysfor\t2", b"always_for\t2", b"always-fo\t2", b"always-fors\t2", b"wthin\t2", b"never", b"#", b"an", b"andd",
           b"nott", b"no", b"nex", b"nextt", b"alway", b"alwayss", b"eventuall", b"eventuallyy", b"unti", b"untill", b"implie", b"impliess",
           b"o", b"orr", b"va", b"varr", b"i", b"inn", b"ou", b"outt", b"withi", b"withinn", b"ste\t0\t" + b"0" * 16]
    for word in WORDS:
        w = word.encode()
        for tail in [b"", b"\t", b"\t1", b"\t1\t", b"\t1\t2", b"\tx\tP", b"\t1\t" + b"0" * 16, b"\t1\t" + b"0" * 16 + b"\t", b"\tx\tP\t",
                     b"\t1\t2\t3", b"\t64", b"\t-1", b"\t\t", b"\r", b"\t1\r"]:
            out.append(w + tail)
    for word in [b"var", b"in", b"out", b"always-for", b"within"]:
        out += [word + b"\t" + n for n in NUMBERS]
    out += [b"step\t" + n + b"\t" + b"0" * 16 for n in NUMBERS]
    out += [b"step\t0\t" + t for t in TRUTHS]
    out += [b"step\t01\tx", b"step\t\t"]
    out += [b"rule\t" + label + b"\tP" for label in LABELS]
    out += [b"rule\tx\t" + kind for kind in KINDS]
    out += [b"rule\t" + b"a" * 33 + b"\tX", b"rule\t\t"]
    out += [b"states\t" + n for n in NUMBERS + COUNT_TEXTS]
    out += [b"slot\ta\t" + n for n in NUMBERS + WIDTH_TEXTS]
    out += [b"slot\t" + name + b"\t" + n for name in LABELS for n in [b"64", b"65"]]
    seen, kept = set(), []
    for line in out:
        if line not in seen:
            seen.add(line)
            kept.append(line)
    return kept


LINES = fault_lines()


def chain(n, word="not"):
    """n nodes, one below the other; the last is an atom."""
    f = ("var", 0)
    for _ in range(n - 1):
        f = (word, f)
    return f


def comb(n, word="or"):
    """n nodes (odd), at no great depth."""
    if n == 1:
        return ("var", 1)
    k = (n - 1) // 2
    k -= 1 - k % 2
    return (word, comb(k, word), comb(n - 1 - k, word))


def exactly(n, word="or"):
    return comb(n, word) if n % 2 else ("not", comb(n - 1, "or"))


def partial(f, keep):
    out = []
    node_lines(f, out)
    return out[:keep]


def places():
    """Name, lines before: the places that a line is put to."""
    whole = rule("a", "P", ("var", 0))
    some = [line for k in range(4) for line in rule(f"n{k}", "P", exactly(255))]
    return [
        ("start", []),
        ("root due", ["rule\ta\tP"]),
        ("left due", ["rule\ta\tP", "and"]),
        ("right due", ["rule\ta\tA", "implies", "var\t0"]),
        ("under within", ["rule\ta\tP", "always", "within\t2"]),
        ("after a rule", whole),
        ("after a step", whole + [step(0, 1)]),
        ("steps only", [step(5, 1)]),
        ("64 rules", [line for k in range(64) for line in rule(f"r{k}", "P", ("var", k))]),
        ("64th rule open", [line for k in range(63) for line in rule(f"r{k}", "P", ("var", k))] + ["rule\tlast\tA"]),
        ("256 nodes of a rule", ["rule\ta\tP"] + partial(comb(257), 256)),
        ("255 nodes of a rule", ["rule\ta\tP"] + partial(comb(257), 255)),
        ("1024 nodes", some + ["rule\tlast\tP"] + partial(comb(5), 4)),
        ("1023 nodes", some + ["rule\tlast\tP"] + partial(comb(5), 3)),
        ("depth 65", ["rule\ta\tP"] + ["not"] * 64),
        ("depth 64", ["rule\ta\tP"] + ["not"] * 63),
        ("behind states", ["states\t3"]),
        ("behind a slot", ["slot\ta\t5"]),
        ("31 slots", opening(3, [("a", 64)] * 31)),
        ("32 slots", opening(None, [("a", 64)] * 32)),
    ]


def fault_books():
    """Each line at each place, alone (so that the book may end inside a rule) and with lines after it; after an opening line they begin with a rule."""
    for name, before in places():
        head = text(before)
        heavy = len(head) > 2000
        for k, line in enumerate(LINES):
            yield head + line + b"\n"
            if heavy and k % 4:
                continue
            start = b"rule\tz\tA\nalways\nwithin\t1\n" if line.startswith(OPENING) else b""
            yield head + line + b"\n" + start + b"var\t3\nstep\t0\t0000000000000009\n"


# ---- words spelled right and misspelt, where the word is accepted


# Of each word: the lines before it, its fields, the lines after it.
FRAMES = {
    "states": ([], "\t3", []),
    "slot": ([], "\ta\t8", []),
    "rule": ([], "\tx\tP", ["var\t0"]),
    "step": (rule("x", "P", ("var", 0)), "\t0\t0000000000000001", []),
} | {w: (["rule\tx\tP"], "\t1" if w in ATOMS + BOUNDED else "", ["var\t0"] * n) for w, n in OPERANDS.items()}


def framed(word, spelling):
    """A book that is accepted if the spelling is taken for the word."""
    before, fields, after = FRAMES[word]
    return text(before + [spelling + fields] + after)


def spellings(word):
    """Each spelling and what it is. A letter is changed to its neighbours in the alphabet, to its capital, in its highest bit, and to those that words of
    the same length have at its place."""
    out = {word: "spelled right"}

    def add(what, cases):
        for spelling in cases:
            out.setdefault(spelling, what)

    for i, c in enumerate(word):
        near = [chr(ord(c) + d) for d in [-1, 1, -32, 128]]
        add("one letter changed", [word[:i] + x + word[i + 1 :] for x in near + [w[i] for w in WORDS if len(w) == len(word)]])
    inside = range(1, len(word))
    add("two letters swapped", [word[: i - 1] + word[i] + word[i - 1] + word[i + 1 :] for i in inside])
    add("one letter short", [word[:i] + word[i + 1 :] for i in range(len(word))])
    add("one letter long", [word[: i + 1] + word[i:] for i in range(len(word))])
    add("one letter long", [x for c in "s- \0\r" for x in [word + c, c + word]])
    if word.startswith("always"):
        add("another tail", ["always-", "always-f", "always-fo", "always-for-", "alwaysfor", "always-FOR"])
    add("a tab inside", [word[:i] + "\t" + word[i:] for i in inside])
    return out


# What a book with a word in its own frame shows.
SPELLED = {framed(word, spelling): f"{word}, {what}" for word in WORDS for spelling, what in spellings(word).items()}


def spelling_books():
    """Each spelling in its word's frame, and in those of the words of the spelling's own length."""
    out = dict.fromkeys(SPELLED)
    for spelling in [x for word in WORDS for x in spellings(word)]:
        out |= dict.fromkeys(framed(w, spelling) for w in WORDS if len(w) == len(spelling))
    yield from out


# ---- limits, met and passed


def filled(total, head):
    """A book of exactly `total` bytes: `head`, then step lines."""
    out = head
    s = 0
    plain = len(step(0, 0)) + 1
    while total - len(out) >= 2 * plain + 40:
        out += text([step(s, 2)])
        s = (s + 1) % 10
    rest = total - len(out)
    # two or three lines whose numbers are as long as needed (1 to 19 digits each)
    base = plain - 1
    for count in range(1, 5):
        digits = rest - count * base
        if count <= digits <= 19 * count:
            for k in range(count):
                d = min(19, digits - (count - 1 - k))
                digits -= d
                out += text([step(int("1" * d), 1)])
            break
    assert len(out) == total, (total, len(out))
    return out


def limit_books():
    atom = ("var", 0)
    head = book([("full", "P", ("always", ("or", ("var", 0), ("within", 2, ("var", 1)))))], [])
    for total in [65533, 65534, 65535, 65536, 65537]:
        yield filled(total, head)
        yield filled(total, b"")
    yield filled(65535, head)[:-1]
    yield filled(65536, head)[:-1]
    yield filled(65537, head)[:-1]
    yield filled(65535, b"")[:-1] + b"0"
    yield b"\n" * 65535
    yield b"\n" * 65536
    yield b"x" * 65535
    yield b"x" * 65536
    yield b"rule\t" + b"a" * 65527 + b"\tP\n"
    yield head + b"\xff" * (65534 - len(head)) + b"\n"
    for n in range(62, 67):
        yield book([(f"r{k}", "PA"[k % 2], ("var", k % 64)) for k in range(n)], [(0, 0), (1, TOP)])
        yield text([line for k in range(n) for line in rule(f"r{k}", "P", atom)][:-1])
    for n in [254, 255, 256, 257, 258]:
        for word in ["or", "and", "implies", "until"]:
            yield book([("a", "P", exactly(n, word))], gapless([0, 2, 0]))
        yield book([("a", "P", ("always", exactly(n - 1)))], gapless([2, 0]))
        yield book([("a", "P", ("always", exactly(n - 1, "and"))), ("b", "A", atom)], gapless([2, 0]))
    for sizes in [[256] * 4, [256] * 4 + [1], [255] * 4, [255] * 4 + [4], [255] * 4 + [5], [255] * 4 + [3], [16] * 64, [16] * 63 + [17],
                  [16] * 63 + [15], [256, 256, 256, 255, 1], [256, 256, 256, 255, 2], [1023 - 768, 256, 256, 256, 1], [257, 256, 256, 255]]:
        yield book([(f"r{k}", "P", exactly(n)) for k, n in enumerate(sizes)], gapless([0, 2, 0]))
        yield book([(f"r{k}", "P", ("always", exactly(n - 1, "and")) if n > 1 else atom) for k, n in enumerate(sizes)], gapless([2, 0]))
    for n in range(62, 68):
        for word in ["not", "always", "next", "eventually"]:
            yield book([("deep", "P", chain(n, word))], gapless([1, 0, 1]))
        yield book([("deep", "P", ("always", chain(n - 1)))], gapless([1, 0, 1]))
        deep = chain(n - 2)
        for word in TWO:
            yield book([("deep", "P", (word, deep, atom))], gapless([1, 0, 1]))
            yield book([("deep", "P", (word, atom, deep))], gapless([1, 0, 1]))
            yield book([("deep", "P", (word, atom, ("within", 2, chain(n - 3))))], gapless([1, 0, 0]))
        for left in [True, False]:
            f = ("var", 0)
            for k in range(n - 1):
                part = ("within", 2, ("var", 1)) if k % 2 and k > 3 else ("var", 1)
                f = (("and", "or")[k % 2], f, part) if left else (("and", "or")[k % 2], part, f)
            yield book([("spine", "P", ("always", f))], gapless([2, 0, 0, 0]))
            yield book([("spine", "P", f)], gapless([2, 0, 0, 0]))
    for n in range(30, 36):
        yield book([("l" * n, "P", atom)], [])
        yield book([("~" * n, "A", atom)], [(0, 0)])
    for n in range(60, 68):
        for a in ATOMS:
            yield book([("s", "P", (a, n))], [(0, 0), (1, 1 << 63), (2, 1 << 62)])
            yield book([("s", "P", ("always", ("within", 1, (a, n))))], [(0, TOP), (1, TOP ^ (1 << (n % 64)))])
    for s in [0, 1, 2**31, 2**32, 2**53, LAST_STEP - 1, LAST_STEP, LAST_STEP + 1, TOP, TOP + 1]:
        yield book([("s", "P", ("always", ("within", 1, atom)))], [(s, 0)])
        yield book([("s", "P", ("always", ("within", 2, atom)))], [(s, 0), (s, 0)])
    for b in BOUNDS + [TOP + 1, 10**20]:
        for f in [("within", b, atom), ("always", ("within", b, atom)), ("always-for", b, atom), ("always-for", b, ("next", atom)),
                  ("always-for", b, ("implies", atom, ("next", ("var", 1)))), ("always-for", b, ("within", b, atom)),
                  ("implies", atom, ("within", b, ("var", 1))), ("and", ("always-for", b, ("next", atom)), ("within", b, atom)),
                  ("always", ("always-for", b, atom)), ("always-for", b, ("always-for", b, atom)), ("always-for", b, ("eventually", atom)),
                  ("eventually", ("within", b, atom))]:
            yield book([("b", "P", f), ("c", "A", f)], gapless([1, 0, 0, 0, 0, 0, 0, 0, 0, 0]))
            yield book([("b", "P", f)], [(b - 1 if 0 < b <= 2**63 else 0, 1), (b if b < 2**63 else LAST_STEP, 0), (LAST_STEP, 0)])
    rules = [(f"r{k}", "PA"[k % 3 == 0], ("always", ("within", TOP, ("var", k)))) for k in range(64)]
    yield book(rules, [(0, TOP), (1, 0), (LAST_STEP, 0)])
    big = ("within", TOP, ("var", 5))
    for _ in range(6):
        big = ("and", big, big)
    yield book([(f"r{k}", "P", ("always", big)) for k in range(5)], gapless([0] * 4))
    yield book([(f"r{k}", "P", ("always", ("within", 200, ("var", k)))) for k in range(60)], gapless([0] * 250))
    # the widest lines, and full books of many rules
    wide = joined_by_and([("within", TOP, ("out", 63))] * 85)
    rules = [("w" * 32, "P", ("always-for", TOP, wide)) for _ in range(4)]
    yield book(rules, [(LAST_STEP, 0)])
    yield filled(65535, book(rules, []))
    rules = [("w" * 31 + "~", "PA"[k % 2], ("always-for", TOP, ("next", ("not", ("in", k))))) for k in range(64)]
    yield book(rules, [(0, 0), (LAST_STEP, TOP)])
    once = ("always", ("or", ("implies", ("var", 0), ("within", 2, ("var", 1))), ("implies", ("var", 1), ("next", ("or", ("var", 1), ("var", 2))))))
    yield filled(65535, book([(f"r{k}", "P", once) for k in range(64)], []))
    live = ("eventually", ("not", ("out", 63)))
    live = ("and", live, ("until", ("in", 10), live[1]))
    for _ in range(4):
        live = ("implies", live, live)
    yield book([(f"r{k}", "P", live) for k in range(7)], [])
    for data in [b"", b"\n", b"\n\n", b"\t\n", b"a", b"\n ", b"\x00\n", b"\r\n", b" \n", b"rule", b"rule\tx\tP", b"rule\tx\tP\n"]:
        yield data


# ---- books by hand: opening lines; forms, culprits, gaps, liveness


V0, V1, V2 = ("var", 0), ("var", 1), ("var", 2)


def joined_by_and(parts):
    while len(parts) > 1:
        parts = [("and", *parts[i : i + 2]) if i + 1 < len(parts) else parts[i] for i in range(0, len(parts), 2)]
    return parts[0]


MOST_BITS = 16 + SLOTS * WIDTH + 362 * 65


def most_bits_book():
    """As many bits as a book can have. A rule of k windows of 65 bits takes 3k - 1 nodes, so 64 rules of 1,024 nodes have 362 windows."""
    windows = [6] * 42 + [5] * 22
    rules = [(f"r{k}", "PA"[k % 5 == 4], joined_by_and([("within", TOP, ("var", k))] * n)) for k, n in enumerate(windows)]
    return book(rules, [(0, 0), (LAST_STEP, 0)], opening(STATES, [(f"slot{k}", WIDTH) for k in range(SLOTS)]))


def opening_books():
    """Counts at and beside each power of 2, each width, 30 to 34 slots, `states` at other lines, opening lines before nothing, steps, rules."""
    trip = [("trip", "P", ("always", ("implies", V0, ("within", 3, V1))))]
    four = [("window", "A", ("always", ("within", 7, V0))), ("next", "P", ("always", ("implies", V0, ("next", V1)))), ("owed", "P", ("eventually", V0)),
            ("bare", "A", V0)]
    record = gapless([1, 0, 0])
    for n in sorted({2**k + d for k in range(17) for d in [-1, 0, 1]} | {5, 6, 7, STATES - 1, STATES + 2, 10**5, 2**32, 2**64 - 1, 2**64}):
        yield text(opening(n, []))
        yield book([], [(3, 1)], opening(n, []))
        yield book(trip, record, opening(n, []))
        yield book(four, record, opening(n, [("a", 1), ("b", 9)]))
    for w in list(range(WIDTH + 3)) + [2**32, 2**32 + 1, 2**64]:
        yield text(opening(None, [("a", w)]))
        yield book([], [(3, 1)], opening(2, [("a", w)]))
        yield book(trip, record, opening(None, [("a", w)]))
        yield book(four, record, opening(3, [("a", w), ("b", 1), ("a", w)]))
    for many in range(SLOTS - 2, SLOTS + 3):
        for states in [None, 0, 1, 2, STATES]:
            for w in [0, 1, WIDTH]:
                head = opening(states, [(f"s{k}", w) for k in range(many)])
                yield text(head)
                yield book(four, record, head)
            yield book([], [(0, 0)], opening(states, [("n" * (k % 32 + 1), k * 37 % 65) for k in range(many)]))
    for n in [31, 32, 33]:
        yield text(opening(None, [("~" * n, 1)]))
        yield book(trip, record, opening(5, [("a", 1), ("!" * n, 2)]))
    # `states` at another line, a slot past the last, opening lines after rules and steps; each test against the next
    few, full = opening(None, [("a", 1), ("b", 2)]), opening(None, [("a", 64)] * SLOTS)
    after_rule, after_step = rule("t", "P", V0), [step(0, 1)]
    wrong = ["states\t3", "states\t0", "states\t65535", "states\t65536", "states\t00", "states\t", "states", "states\t1\t", "slot\ta\t1", "slot\ta\t65", "slot\t\t1",
             "slot\t\t65", f"slot\t{'a' * 33}\t64", "slot\ta b\t064", "slot\ta", "slot", "slot\ta\t1\t"]
    heads = [[], ["states\t3"], ["states\t3", "states\t3"], few, ["states\t0"] + few, full[1:], full, ["states\t65535"] + full, full + ["slot\ta\t1"]]
    for head in heads:
        for between in [[], after_rule, after_rule[:1], after_step, after_rule + after_step]:
            for line in wrong:
                yield text(head + between + [line])
                yield text(head + between + [line] + rule("z", "A", V1) + [step(5, 0)])
    yield most_bits_book()
    head = opening(STATES, [("n" * 32, WIDTH)] * SLOTS)
    for total in [65534, 65535, 65536]:
        yield filled(total, book(trip, [], head))
        yield filled(total, text(head))
    yield filled(65535, text(head))[:-1]
    yield text(head + ["states\t3"]) + b"\xff" * 60000 + b"\n"
    yield text(opening(9, []))[:-1]


def hand_books():
    def one(f, record, kind="P"):
        return book([("t", kind, f)], record)

    w = ("implies", V0, ("within", 3, V1))
    d = ("implies", V0, ("next", V1))
    n = ("implies", V0, ("within", 2, V1))
    # the document's own trips
    yield book([("trip", "P", ("always", w))], gapless([1, 0, 0]))
    yield book([("trip", "P", ("always", w))], gapless([1, 0, 2]))
    for b in [0, 1]:
        yield one(("always", ("within", b, V1)), gapless([0]))
    yield one(("always", n), gapless([1, 1]))
    yield one(("always", ("or", V0, V1)), gapless([1, 2, 0]))
    yield one(("always", d), gapless([1, 0]))
    yield one(("or", ("always", V0), ("always", V1)), gapless([2, 1]))
    yield one(V0, gapless([1, 0]))
    yield one(("within", 2, V0), gapless([0, 0]))
    yield one(("within", 2, V0), gapless([1, 0, 0, 0]))
    yield one(("always-for", 1, d), gapless([0, 1, 0]))
    yield book([(f"b{b}", "P", ("always", ("within", b, V0))) for b in [0, 1, 3, 4, TOP]], [])
    yield one(("always-for", 0, V0), [])
    yield one(("always", ("always-for", 0, V0)), [])
    yield one(("or", ("eventually", V0), V1), [])
    yield one(("and", ("eventually", V0), ("always", V1)), [])
    # windows and culprits
    for words in [[1, 1, 0], [1, 1, 1, 0], [1, 0, 2, 1, 0, 0], [1, 2, 1, 0, 0], [3, 1, 0, 0, 0], [0, 1, 0, 1, 2, 1, 0, 0], [1, 3, 1, 1, 0]]:
        for f in [("always", w), w, ("always-for", 2, w), ("always", n), ("and", ("always", w), ("always", n)),
                  ("or", ("always", w), ("always", n)), ("or", ("always", w), ("always", V2)), ("and", ("always", w), ("next", V1)),
                  ("or", ("always", w), ("or", ("always", d), ("always", n))), ("always", ("or", w, d)),
                  ("and", ("or", ("always", ("within", 0, V1)), ("always", w)), ("always", ("implies", V0, ("within", 0, V2))))]:
            yield one(f, gapless(words))
            yield one(f, [(2 * k + 3, x) for k, x in enumerate(words)])
            yield one(f, [(9 - k, x) for k, x in enumerate(words)])
            yield one(f, [(4, x) for x in words])
    # alike
    yield book([("a", "P", ("always", V0)), ("b", "A", ("always", ("in", 0))), ("c", "P", V0), ("d", "P", ("not", ("not", V0))),
                ("e", "P", ("implies", V0, V1)), ("f", "A", ("implies", ("out", 0), ("in", 1))), ("g", "P", ("always", ("implies", V0, V1))),
                ("h", "P", ("or", ("not", V0), V1)), ("i", "P", ("always", ("not", ("not", ("out", 0))))), ("j", "P", ("eventually", V0)),
                ("k", "P", ("eventually", V0)), ("l", "P", ("within", 1, V0)), ("m", "P", ("implies", V0, ("within", 1, V0))),
                ("n", "P", ("within", 2, V0)), ("o", "P", ("always-for", 1, ("within", 1, V0))), ("p", "P", ("or", V0, V1)),
                ("q", "P", ("and", V0, V1)), ("r", "P", ("and", ("in", 0), ("out", 1))), ("s", "P", ("and", V1, V0))], gapless([0, 3]))
    yield book([("a", "P", ("not", ("and", V0, V1))), ("b", "P", ("not", ("and", ("var", 10), V1))), ("c", "P", ("not", ("and", V1, ("var", 1)))),
                ("d", "P", ("not", ("or", ("not", V0), V1))), ("e", "P", ("not", ("implies", V0, V1)))], [])
    # layout: properties first, then assumptions; rules that do not compile take nothing
    yield book([("a", "A", ("always", ("within", 7, V0))), ("b", "P", ("always", d)), ("c", "P", ("eventually", V0)), ("d", "A", ("always", d)),
                ("e", "P", ("and", ("always", ("within", 8, V0)), ("or", d, ("within", 0, V1)))), ("f", "A", V0), ("g", "P", V0)], gapless([1, 0, 0]))
    # every refusal 11 to 23, alone and against its neighbours
    ev, un = ("eventually", V0), ("until", V0, V1)
    t = ("within", 1, V0)
    bad = [("always", ("always-for", 1, V0)), ("always-for", 1, ("always-for", 1, V0)), ("always-for", 0, V0), ("always-for", 0, ev),
           ("always", ("always-for", 0, V0)), ("implies", t, V0), ("implies", ev, t), ("implies", t, ("within", 1, t)), ("implies", t, ("next", t)),
           ("implies", t, t), ("within", 1, t), ("within", 0, ev), ("implies", V0, ("within", 1, t)), ("implies", V0, ("next", t)),
           ("implies", V0, ("next", ev)), ("implies", V0, ("always", V1)), ("implies", V0, ev), ("implies", V0, ("and", V0, t)),
           ("implies", V0, ("not", t)), ("next", t), ("next", ("next", V0)), ("next", ev), ("not", t), ("not", ("not", t)), ("not", ev), ev, un,
           ("and", ev, ("always-for", 0, V0)), ("and", ("always-for", 0, V0), ev), ("or", ("not", t), ("next", t)), ("or", ("next", t), ("not", t)),
           ("always", ev), ("always", un), ("always", ("not", ev)), ("and", V0, ("or", V0, ("and", ("next", un), ev))), ("eventually", t), ("eventually", ev),
           ("until", t, V0), ("until", V0, t), ("until", t, t), ("until", V0, ev), ("until", ev, t), ("next", un), ("within", 2, un), ("always-for", 2, ev),
           ("always-for", 0, un), ("and", ev, t), ("and", t, ev), ("and", ("always", V0), ev), ("or", ev, ("always", ev)), ("or", ("always", ev), ("eventually", t)),
           ("implies", ev, un), ("implies", ("not", ev), ("and", un, ("or", V0, ev))), ("not", un), ("and", ("eventually", t), ("always", ev)),
           ("and", ("always", ev), ("eventually", t)), ("and", un, ("until", t, V0)), ("or", ("next", V0), ev), ("or", ev, ("next", V0)),
           ("and", ("eventually", ("implies", V0, ("in", 1))), ("until", ("not", ("out", 2)), ("or", ("in", 3), ("implies", V0, V1)))),
           ("implies", ("in", 7), ("eventually", ("out", 7))), ("implies", ("implies", V0, V1), ("not", ("not", ev)))]
    for f in bad:
        yield one(f, gapless([0, 0]))
        yield one(f, gapless([0, 0]), "A")
        yield one(("and", ("always", V0), f), gapless([0, 0]))
        yield one(("always", f), gapless([0, 0]))
        yield one(("and", f, ev), gapless([1, 0]))
    yield text(rule("x", "P", V0) + [step(0, 1)] + rule("y", "P", V0))
    yield text([step(0, 0)])
    yield text([step(3, TOP), step(3, 0), step(0, 5)])


# ---- books for saved monitors: states of all widths, at each turn of the switching off


# Bounds at and beside each power of 2.
POWERS = sorted({b for k in range(65) for b in [2**k - 1, 2**k, 2**k + 1] if b <= TOP})


def window(b, trigger=0, body=1):
    return ("implies", ("var", trigger), ("within", b, ("var", body)))


def delayed(before=0, after=1):
    return ("implies", ("var", before), ("next", ("var", after)))


def joined(rng, parts):
    """`and` and `or` over the parts, in their order."""
    if len(parts) == 1:
        return parts[0]
    k = rng.randrange(1, len(parts))
    return (rng.choice(["and", "and", "or"]), joined(rng, parts[:k]), joined(rng, parts[k:]))


def turned(rules):
    """The rules behind 0, 1 and 2 others: a monitor is switched off by place and rule number."""
    for k in range(3):
        yield [("o", "P", ("var", 2))] * k + [(f"r{n}", "PA"[n % 4 == 3], f) for n, f in enumerate(rules)]


def power_books():
    """Each bound, alone and with parts before and behind it, over windows that stay open, are answered, fail; opened again."""
    records = [[1, 0, 0, 0, 0, 0], [1, 0, 2, 1, 1, 0, 2], [0, 1, 3, 1, 0, 0, 0], [3, 1, 2, 0, 1, 0, 0, 0, 0, 0]]
    for b in POWERS:
        rules = [("always", window(b)), ("within", b, V1), ("always-for", 3, window(b)), ("always", ("and", delayed(3, 4), ("and", window(b), window(3, 1, 0)))),
                 ("always", ("or", window(b), ("or", delayed(), V2)))]
        for k, words in enumerate(records):
            for turn in turned(rules):
                yield book(turn, gapless(words))
            yield book(list(turned(rules))[k % 3], [(5 * k + s // 2, w) for s, w in enumerate(words)])


def lasting_books():
    """Windows of up to 40 steps that run to their end, one longer and one shorter than the record."""
    for b in range(1, 41):
        for turn in turned([("always", window(b)), ("always", ("and", window(b), window(b + 1, 1, 0))), ("always", ("or", window(b), V2)), ("within", b, V1)]):
            yield book(turn, gapless([1] + [0] * b))
            yield book(turn, gapless([1] + [0] * (b - 1) + [2] + [0] * 3))


def layout_books(rng):
    """States of 0 to 40 bits, of windows, delayed checks and parts without bits in each order: what is read of a byte, unused bits, bits across bytes."""
    kinds = [delayed(), window(0), window(1), window(2), window(3), window(4), window(7), window(8), window(15), window(16), V2, ("next", V1), ("within", 5, V1)]
    shapes = [[a] for a in kinds] + [[a, b] for a in kinds for b in kinds] + [[rng.choice(kinds) for _ in range(rng.randrange(3, 9))] for _ in range(400)]
    for pack in packs([rng.choice([("always", f), ("always", f), f]) for f in (joined(rng, parts) for parts in shapes)], 16):
        for turn in turned(pack):
            for _ in range(4):
                yield book(turn, random_record(rng, 3, 9))


def wide_books(rng):
    """Rules of up to 256 nodes: as many windows, delayed checks and parts without bits as there is room for."""

    def leaf(least):
        r = rng.random()
        trigger, body, steady = ("var", rng.randrange(4)), ("var", rng.choice([4, 5])), ("var", rng.choice([6, 7]))
        bound = rng.choice([b for b in POWERS if least <= b])
        if r < 0.6:
            return ("implies", trigger, ("within", bound, body))
        if r < 0.85:
            return ("implies", trigger, ("next", steady))
        return rng.choice([("within", bound, body), ("next", steady), steady, ("within", 0, steady)])

    def record():
        often = [0.3] * 4 + [rng.choice([0.1, 0.4])] * 2 + [rng.choice([0.95, 1])] * 2
        words = [sum(1 << n for n in range(8) if rng.random() < often[n]) for _ in range(12)]
        return list(zip(random_steps(rng, 12), words))

    fixed = [[("within", TOP, V1)] * 85, [window(TOP)] * 51, [delayed()] * 51, [window(k) for k in range(51)], [window(0)] * 51, [V0] * 128,
             [window(b) for b in POWERS[:51]], [window(b) for b in POWERS[-51:]], [window(b, k % 4, 4 + k % 4) for k, b in enumerate(POWERS[60:111])]]
    for parts in fixed:
        f = joined_by_and(parts)
        for turn in turned([("always", f) if size(f) < 256 else f]):
            yield book(turn, gapless([1, 0, 0, 2, 1, 0]))
            yield book(turn, gapless([3, 2, 3, 3, 1]))
    for k in range(60):
        least = [13, 13, 2][k % 3]  # windows that outlast the record, or not
        parts = [leaf(least)]
        while sum(size(part) + 1 for part in parts) < 250:
            parts.append(leaf(least))
        f = ("always", joined(rng, parts))
        if depth(f) <= 64:
            for _ in range(3):
                yield book([("o", "P", V2)] * rng.randrange(3) + [("w", "P", f)], record())


def saving_book(rng):
    """Windows of random bounds that are open, answered or fail around the switching off."""
    near = [0, 1, 2, 3, 4, 5, 6, 7, 8, 9]

    def leaf():
        r = rng.random()
        trigger, body = rng.randrange(3), rng.choice([3, 3, 4])
        bound = rng.choice(near) if rng.random() < 0.8 else rng.choice(POWERS)
        if r < 0.55:
            return window(bound, trigger, body)
        if r < 0.65:
            return ("within", bound, ("var", body))
        if r < 0.85:
            return delayed(trigger, body)
        return rng.choice([("var", 5), ("var", 6), ("next", ("var", 5)), ("not", ("var", trigger))])

    rules = []
    for k in range(rng.choice([1, 3, 6, 9])):
        f = joined(rng, [leaf() for _ in range(rng.choice([1, 1, 2, 2, 3, 4, 6]))])
        f = rng.choice([("always", f), ("always", f), ("always", f), ("always-for", rng.randrange(1, 9), f), f])
        rules.append((f"s{k}", "PA"[rng.random() < 0.2], f))
    count = rng.choice([3, 5, 8, 12, 20, 40])
    often = [rng.choice([0.1, 0.3, 0.6])] * 3 + [rng.choice([0.1, 0.3, 0.5])] * 2 + [rng.choice([0.6, 0.95])] * 2
    words = [sum(1 << n for n in range(7) if rng.random() < often[n]) for _ in range(count)]
    return book(rules, zip(random_steps(rng, count), words))


def saved_books(seed, count, oracle):
    yield from power_books()
    yield from lasting_books()
    rng = random.Random(f"{seed} saved")
    yield from layout_books(rng)
    yield from wide_books(rng)
    if oracle:
        for pack in packs(compiled(oracle, small_formulas()), 62):
            for turn in turned(pack):
                for _ in range(6):
                    yield book(turn, random_record(rng, 2, 9))
    for _ in range(count // 4):
        yield saving_book(rng)


# ---- the largest book, for the bench


def largest_book():
    """65,535 bytes: 64 rules of one node each, and steps without a report, the last after a gap."""
    forms = [("always", ("implies", V0, ("within", 3, V1))), ("always", V2), ("always", ("implies", V0, ("next", V1)))]
    out = book([(f"r{k}", "P", forms[k % 3]) for k in range(64)], [])
    s, line = 0, b""
    while len(out + line) <= 65535 - 24:
        out += line
        line = text([step(s, [5, 6, 4, 4, 4][s % 5])])
        s += 1
    return out + text([step(10 ** (65535 - len(out) - 24), 4)])


# ---- all of it


def all_books(seed, count, records, oracle):
    yield from hand_books()
    yield from opening_books()
    yield from limit_books()
    yield from fault_books()
    yield from spelling_books()
    rng = random.Random(f"{seed} small")
    yield from small_books(rng, oracle, records)
    rng = random.Random(f"{seed} joined")
    for _ in range(count // 6):
        yield joined_book(rng)
    rng = random.Random(f"{seed} opening")
    for k in range(count // 10):
        yield opening_book(rng) if k % 2 else damaged(rng, opening_book(rng))
    rng = random.Random(f"{seed} random")
    for _ in range(count):
        r = rng.random()
        if r < 0.015:
            yield long_book(rng)
        elif r < 0.6:
            yield random_book(rng)
        else:
            yield damaged(rng, random_book(rng))


def frame(data):
    return b"%08d\n" % len(data) + data


def unframe(data):
    out, at = [], 0
    while at < len(data):
        n = int(data[at : at + 8])
        out.append(data[at + 9 : at + 9 + n])
        at += 9 + n
    return out


def ask(oracle, books, mode="batch"):
    run = subprocess.run([oracle, mode], input=b"".join(frame(b) for b in books), stdout=subprocess.PIPE, check=True)
    return unframe(run.stdout)


# ---- vectors


SOURCE = "d1c1b31563"  # the source's commit, as in NOTICE
MADE = """{count} books and the Rust's answers: compare/run --seed {seed} vectors crates/replay/data, the source at commit {commit}.
"""


def reached(lines):
    """How many slots and rules the lines have, nodes of one rule, nodes, depth; the longest label, of a rule and of a slot."""
    rules, nodes, most, total, deepest, label, due, slots, name = 0, 0, 0, 0, 0, 0, [], 0, 0
    for line in lines:
        fields = line.split(b"\t")
        word = fields[0].decode("latin-1")
        if word == "slot" and len(fields) == 3:
            slots, name = slots + 1, max(name, len(fields[1]))
        elif word == "rule" and len(fields) == 3:
            rules, nodes, due, label = rules + 1, 0, [1], max(label, len(fields[1]))
        elif word in OPERANDS:
            here = due.pop() if due else 0
            nodes, total, deepest = nodes + 1, total + 1, max(deepest, here)
            most = max(most, nodes)
            due += [here + 1] * OPERANDS[word]
    return {"rules": rules, "nodes of a rule": most, "nodes": total, "depth": deepest, "bytes of a label": label, "slots": slots, "bytes of a slot's name": name}


LIMITS = {"rules": 64, "nodes of a rule": 256, "nodes": 1024, "depth": 64, "bytes of a label": 32, "slots": SLOTS, "bytes of a slot's name": 32}
PASSED = {"bytes of a label": "7", "bytes of a slot's name": "7", "slots": "25"}  # the refusal of a limit passed, where it is not 9
NAME = re.compile(rb"[!-~]{1,32}")
DECIMAL = re.compile(rb"0|[1-9][0-9]*")


def shown_opening_line(number, fields):
    """What a refused `states` or `slot` line shows: the tests that it would meet after its own, too."""
    word = fields[0].decode()
    out = {f"refused {number} for {word}"}
    if number == "5":
        return out
    most = {"states": STATES, "slot": WIDTH}[word]
    if word == "slot" and not NAME.fullmatch(fields[1]) and number != "7":
        out.add(f"{number} before 7")
    if not (DECIMAL.fullmatch(fields[-1]) and int(fields[-1]) <= most) and number != "8":
        out.add(f"{number} before 8")
    if number == "8" and fields[-1] == b"%d" % (most + 1):
        out.add(f"refused for {most + 1} {'states' if word == 'states' else 'bits of a slot'}")
    return out


def shown_refused(data, number, line):
    out = {f"refused {number}"}
    lines = data.split(b"\n")[: int(line)]
    at = reached(lines)
    out |= {f"refused for {limit + 1} {name}" for name, limit in LIMITS.items() if number == PASSED.get(name, "9") and at[name] == limit + 1}
    fields = lines[-1].split(b"\t") if lines else [b""]
    if fields[0] in [b"states", b"slot"] and number != "10":
        out |= shown_opening_line(number, fields)
    if data in SPELLED:
        out.add(f"refused {number} for {SPELLED[data]}")
    if number == "3" and len(data) == 65536:
        out.add("refused for 65536 bytes")
    if number == "4" and len(data) == 65535:
        out.add("refused for no LF at byte 65535")
    return out


def shown_opening(data, rules, plan):
    """What the opening lines of an accepted book and its `plan` line show."""
    heads = [line.split(b"\t") for line in data.splitlines() if line.startswith(OPENING)]
    counts = [int(fields[1]) for fields in heads if fields[0] == b"states"]
    slots = [(fields[1], int(fields[2])) for fields in heads if fields[0] == b"slot"]
    out = {f"states {n}" for n in counts} | {f"slot width {w}" for _, w in slots}
    if slots:
        out.add("slots behind states" if counts else "slots without states")
    if len(dict(slots)) < len(slots):
        out.add("two slots of one name")
    state, slot, monitor, total, octets = [int(x) for x in plan]
    if heads and not rules:
        out.add("opening lines, then steps" if b"\nstep\t" in data else "opening lines alone")
    if state and slot and monitor:
        out.add("state, slot and monitor bits")
    if total == MOST_BITS:
        out.add(f"{MOST_BITS} bits")
    if total:
        out.add("whole bytes" if total == 8 * octets else f"bytes rounded up by {8 * octets - total}")
    return out


def shown_steps(data):
    steps = [int(line.split(b"\t")[1]) for line in data.splitlines() if line.startswith(b"step\t")]
    out = set()
    for s, t in zip(steps, steps[1:]):
        out.add("a gap" if s + 1 < t else "a repeat" if s == t else "a step back" if t < s else "the next step")
    return out | ({"step 2^63-1"} if LAST_STEP in steps else set()) | ({"first step above 0"} if steps and 0 < steps[0] else set())


def shown(data, answer):
    """What a book and its answer show: a refusal, or limits met, kinds of lines, of nodes, of reports."""
    text_lines = [line.split("\t") for line in answer.decode().splitlines()]
    if text_lines[0][0] == "refused":
        return shown_refused(data, *text_lines[0][1:])
    out, kinds, roots, rule_words = set(), {}, {}, set()
    at = reached(data.splitlines())
    out |= {f"{limit} {name}" for name, limit in LIMITS.items() if at[name] == limit}
    if len(data) == 65535:
        out |= {"65535 bytes"} | ({"65535 bytes with 64 rules"} if at["rules"] == 64 else set())
    if data in SPELLED:
        out.add(SPELLED[data])
    if not data:
        out.add("the empty book")
    if data.startswith(b"step\t"):
        out.add("steps without rules")
    out |= shown_opening(data, at["rules"], next(fields[1:] for fields in text_lines if fields[0] == "plan"))
    number = "-"
    for fields in text_lines:
        if fields[0] == "rule":
            number = fields[1]
            kinds[number] = fields[3]
            out |= {f"rule {fields[4]}", f"rule {fields[4]} {fields[3]}"} | ({"alike"} if fields[7] != "-" else set())
        elif fields[0] == "node":
            form, bound, start, end = fields[2:6]
            roots.setdefault(number, form)
            if form == "B":
                out.add(f"bound {bound}")
            out |= {f"node {form}", f"start {start}", f"{form} {'open' if end == '*' else 'ends'}", f"end {end}"}
            out |= {f"signal {c}" for c in "!&|vio" if c in "".join(fields[6:])}
            if form == "B" and fields[6] == "T":
                out.add("signal T")
        elif fields[0] == "live":
            out |= {f"live {fields[1]}"} | {f"skeleton {c}" for c in "!&|>#s" if c in fields[2]}
        elif fields[0] == "owe":
            out |= {f"owe {fields[2]}"}
        elif fields[0] == "report":
            blamed = "-1" if fields[3] == "-1" else "0" if fields[3] == "0" else "later"
            out |= {f"report of {roots[fields[2]]}, culprit {blamed}", f"report of a rule {kinds[fields[2]]}"}
    if any(x.startswith("report") for x in out):
        out |= {f"report after {x}" for x in shown_steps(data)} | ({"report after opening lines"} if data.startswith(OPENING) else set())
    return out


# Shown by one vector each.
WANTED_SPELLED = {f"{word}, spelled right" for word in WORDS} | {
    f"refused 5 for {word}, {what}" for word in WORDS for what in ["one letter changed", "two letters swapped", "one letter short", "one letter long"]
}
WANTED = (
    {f"refused {n}" for n in [*range(3, 11), 25]}
    | {f"rule {n}{kind}" for n in [0] + list(range(11, 20)) for kind in [" P", " A"]}
    | {f"live {n}" for n in ["none", 0, 20, 21, 22, 23]}
    | {f"node {form}" for form in "CDBAO"}
    | {f"{form} {end}" for form in "CDB" for end in ["open", "ends"]}
    | {f"bound {b}" for b in [0, 1, 2, 3, 4, TOP]}
    | {f"end {b}" for b in [0, 1, TOP - 1, TOP]}
    | {"start 0", "start 1", "owe E", "owe U", "alike", "the empty book", "steps without rules"}
    | {f"signal {c}" for c in "!&|vioT"}
    | {f"skeleton {c}" for c in "!&|>#s"}
    | {f"{limit} {name}" for name, limit in LIMITS.items()}
    | {f"refused for {limit + 1} {name}" for name, limit in LIMITS.items()}
    | {"65535 bytes", "65535 bytes with 64 rules", "refused for 65536 bytes", "refused for no LF at byte 65535", "report of a rule P", "report of a rule A"}
    | {f"report of {form}, culprit -1" for form in "CDAO"}
    | {f"report of {form}, culprit {b}" for form in "BAO" for b in ["0", "later"]}
    | {f"report after {x}" for x in ["a gap", "a repeat", "a step back", "the next step", "step 2^63-1", "first step above 0", "opening lines"]}
    | {f"states {n}" for n in [0, 1, 2, 3, 4, 255, 256, 257, STATES - 1, STATES]}
    | {f"slot width {w}" for w in [0, 1, WIDTH - 1, WIDTH]}
    | {f"refused {n} for {word}" for n in [5, 6, 25, 8] for word in ["states", "slot"]}
    | {f"refused for {STATES + 1} states", f"refused for {WIDTH + 1} bits of a slot", "refused 7 for slot", "6 before 7", "6 before 8", "25 before 7", "25 before 8", "7 before 8"}
    | {"slots behind states", "slots without states", "two slots of one name", "opening lines alone", "opening lines, then steps"}
    | {"state, slot and monitor bits", f"{MOST_BITS} bits", "whole bytes", "bytes rounded up by 1", "bytes rounded up by 7"}
)


def vector_groups(rng, oracle):
    """The books to choose from: a group and its number of vectors, at least."""
    small = small_formulas()
    good = compiled(oracle, small)
    hand = list(hand_books())
    yield 17, hand[:17]
    yield 100, hand[17:]
    yield 60, list(opening_books())
    yield 40, list(limit_books())
    yield 90, list(fault_books())
    yield 14, [book(as_rules(rng, rng.sample(small, 12), True), random_record(rng, 2, 6)) for _ in range(60)]
    yield 26, [book(as_rules(rng, rng.sample(good, 16), True), random_record(rng, 2, 8)) for _ in range(100)]
    yield 36, [joined_book(rng) for _ in range(200)]
    yield 44, [random_book(rng) for _ in range(600)]
    yield 16, [damaged(rng, random_book(rng)) for _ in range(300)]
    yield 12, [opening_book(rng) for _ in range(200)]
    yield 16, [damaged(rng, opening_book(rng)) for _ in range(300)]


def vectors(folder, oracle, seed):
    """Document 01's trips; for each thing wanted the two shortest books and one more, as long as fewer than three show it; a spread of each group; spellings."""
    rng = random.Random(f"{seed} vectors")
    traits, spread, chosen, counts = {}, [], [], {}
    for many, group in vector_groups(rng, oracle):
        group = [b for b in dict.fromkeys(group) if b not in traits and len(b) <= 65536]
        pairs = [(b, a) for b, a in zip(group, ask(oracle, group)) if len(a) <= 65535]
        spread.append((many, [b for b, _ in pairs if len(b) < 3000]))
        traits.update((b, shown(b, a)) for b, a in pairs)

    def take(b):
        chosen.append(b)
        for x in traits[b]:
            counts[x] = counts.get(x, 0) + 1

    for b in spread.pop(0)[1]:
        take(b)
    for x in sorted(WANTED):
        having = sorted((b for b in traits if x in traits[b] and b not in chosen), key=len)
        more = [b for b in having[2:] if len(b) < 3000]
        for b in having[:2] + rng.sample(more, min(1, len(more))):
            if counts.get(x, 0) < 3:
                take(b)
    for many, group in spread:
        left = [b for b in group if b not in chosen]
        for b in rng.sample(left, max(0, many - len(group) + len(left))):
            take(b)
    traits.update((b, shown(b, a)) for b, a in zip(SPELLED, ask(oracle, SPELLED)))
    for x in sorted(WANTED_SPELLED - counts.keys()):
        having = [b for b in SPELLED if x in traits[b]]
        for b in rng.sample(having, min(1, len(having))):
            take(b)
    wanted = WANTED | WANTED_SPELLED
    missing = sorted(wanted - counts.keys())
    if missing:
        sys.exit(f"no vector shows: {missing}")
    answers = ask(oracle, chosen)
    os.makedirs(folder, exist_ok=True)
    with open(os.path.join(folder, "books"), "wb") as f:
        f.write(b"".join(frame(b) for b in chosen))
    with open(os.path.join(folder, "answers"), "wb") as f:
        f.write(b"".join(frame(a) for a in answers))
    with open(os.path.join(folder, "made"), "w") as f:
        f.write(MADE.format(count=len(chosen), seed=seed, commit=SOURCE))
    total = sum(os.path.getsize(os.path.join(folder, name)) for name in ["books", "answers", "made"])
    print(f"{len(chosen)} vectors, {total} bytes; each of {len(wanted)} things wanted is shown by {min(counts[x] for x in wanted)} or more")
    if total > 1_500_000:
        sys.exit("over 1.5 MB")


def main():
    parser = argparse.ArgumentParser(description=__doc__, formatter_class=argparse.RawDescriptionHelpFormatter)
    parser.add_argument("what", choices=["books", "saves", "vectors", "largest"])
    parser.add_argument("out")
    parser.add_argument("--seed", type=int, default=1)
    parser.add_argument("--random", type=int, default=20000)
    parser.add_argument("--records", type=int, default=48)
    parser.add_argument("--oracle")
    words = parser.parse_args()
    if words.what == "vectors":
        vectors(words.out, words.oracle, words.seed)
        return
    if words.what == "largest":
        with open(words.out, "wb") as f:
            f.write(largest_book())
        return
    books = all_books(words.seed, words.random, words.records, words.oracle)
    if words.what == "saves":
        books = itertools.chain(saved_books(words.seed, words.random, words.oracle), books)
    count = 0
    with open(words.out, "wb") as f:
        for data in books:
            f.write(frame(data))
            count += 1
    print(f"{count} books")


if __name__ == "__main__":
    main()
