#!/usr/bin/env python3
"""Writes data/b000, b001, .. and stdout: the books of this program and what it has to print.

python3 crates/book_tests/make_books.py, at the repository's root. The answers come from the reader written here in Python,
straight from documents 01 and 02, and not from the proved one.
"""
import os

HERE = os.path.dirname(os.path.abspath(__file__))
WORDS = ["var", "in", "out", "not", "next", "always", "eventually", "always-for", "within", "and", "or", "implies", "until"]


def decimal(b):
    if not b or any(c not in b"0123456789" for c in b):
        return None
    if len(b) > 1 and b[0] == ord("0"):
        return None
    return int(b) if int(b) < 2**64 else None


def is_label(b):
    return 1 <= len(b) <= 32 and all(0x21 <= c <= 0x7E for c in b)


def read(t):
    if len(t) > 65535:
        return ("refused", 3, 0)
    if t and t[-1] != 10:
        return ("refused", 4, 0)
    states, slots, rules, nodes, steps, due, head = None, [], [], [], [], [], 0
    lines = t.split(b"\n")[:-1] if t else []
    for k, line in enumerate(lines, 1):
        f = line.split(b"\t")
        word = f[0].decode("latin1")
        op = WORDS.index(word) if word in WORDS else None
        want = {"states": 2, "slot": 3, "rule": 3, "step": 3}.get(word, None if op is None else 2 if op in (0, 1, 2, 7, 8) else 1)
        if want is None or len(f) != want:
            return ("refused", 5, k)
        if word in ("states", "slot"):
            if rules or steps:
                return ("refused", 6, k)
            if (word == "states" and k > 1) or (word == "slot" and len(slots) == 32):
                return ("refused", 25, k)
            if word == "slot" and not is_label(f[1]):
                return ("refused", 7, k)
            n = decimal(f[-1])
            if n is None or n > (65535 if word == "states" else 64):
                return ("refused", 8, k)
            if word == "states":
                states = n
            else:
                slots.append((f[1], n))
        elif word == "rule":
            if due or steps:
                return ("refused", 6, k)
            label = f[1]
            if not is_label(label) or f[2] not in (b"P", b"A"):
                return ("refused", 7, k)
            if len(rules) == 64:
                return ("refused", 9, k)
            rules.append([label, 0 if f[2] == b"P" else 1, len(nodes), 0])
            due = [1]
        elif word == "step":
            if due:
                return ("refused", 6, k)
            s, w = decimal(f[1]), f[2]
            if s is None or s >= 2**63 or len(w) != 16 or any(c not in b"0123456789abcdef" for c in w):
                return ("refused", 8, k)
            steps.append((s, int(w, 16)))
        else:
            if not due:
                return ("refused", 6, k)
            n = decimal(f[1]) if want == 2 else 0
            if n is None or (op < 3 and n > 63):
                return ("refused", 8, k)
            if rules[-1][3] == 256 or len(nodes) == 1024 or due[-1] > 64:
                return ("refused", 9, k)
            d = due.pop()
            due += [d + 1] * (0 if op < 3 else 1 if op < 9 else 2)
            nodes.append((op, n))
            rules[-1][3] += 1
        if word != "step":
            head += len(line) + 1
    if due:
        return ("refused", 10, len(lines))
    return ("read", states, slots, rules, nodes, steps, head)


def shown(t):
    a = read(t)
    kept = b" kept" * 10 + b"\n"
    if a[0] == "refused":
        return b" refused\t%d\t%d" % (a[1], a[2]) + kept
    _, states, slots, rules, nodes, steps, head = a
    stood = b"-" if states is None else b"%d" % states
    out = b" read\t%d\t%d\t%d\t%d\t" % (len(rules), len(nodes), head, len(slots)) + stood + kept
    for name, width in slots:
        out += b"slot " + name + b"." * (32 - len(name)) + b"\t%d\t%d\n" % (len(name), width)
    for label, kind, first, count in rules:
        out += b"rule " + label + b"." * (32 - len(label)) + b"\t%d\t%d\t%d\t%d\n" % (len(label), kind, first, count)
    for op, n in nodes:
        out += b"node\t%d\t%d\n" % (op, n)
    for s, w in steps[:100]:
        out += b"step\t%d\t%d\n" % (s, w)
    return out


def text(*lines):
    return b"".join((l if isinstance(l, bytes) else l.replace(" ", "\t").encode()) + b"\n" for l in lines)


WHOLE = ["rule trip P", "always", "implies", "var 0", "within 3", "var 1", "step 0 0000000000000001", "step 1 0000000000000000",
         "step 2 0000000000000000"]


def balanced(n):
    """n nodes in prefix order, as flat as they can be."""
    if n == 1:
        return ["var 0"]
    if n == 2:
        return ["not", "var 0"]
    left = (n - 1) // 2
    return ["and"] + balanced(left) + balanced(n - 1 - left)


def deep(d):
    return ["not"] * (d - 1) + ["var 63"]


def sized(n, *before):
    """A book of exactly n bytes: step lines behind some others, the first numbers made longer."""
    head = text(*before)
    step = "step 0 0000000000000000"
    each = len(step) + 1
    rows = [step] * ((n - len(head)) // each)
    rest = n - len(head) - each * len(rows)
    for i in range(rest):
        rows[i] = "step 10 0000000000000000"
    return head + text(*rows)


def slots(n):
    """n slot lines: names of 1 to 32 bytes, widths 0 to 64."""
    return ["slot %s %d" % ("s" * (i % 32 + 1), 64 if i == 31 else 2 * i) for i in range(n)]


BOOKS = [
    b"",                                                              # the empty book
    text(*WHOLE),
    text("step 5 00000000000000ff", "step 5 ffffffffffffffff", "step 2 0123456789abcdef"),  # steps without rules, back and again
    text("rule a P", "var 0", "rule b A", "until", "in 1", "out 2", "rule c P", "or", "eventually", "in 63", "next", "not", "out 0"),
    text("rule x A", "always-for 18446744073709551615", "within 0", "var 9"),
    # 3 and 4
    sized(65535), sized(65536), text("rule a P", "var 0")[:-1], b"\n", b"x", b"\t", b"\t\t\n",
    # 5
    text("rules a P"), text("rule a"), text("rule a P P"), text("rule a P", "and 1"), text("rule a P", "var"), text("rule a P", "var 1 2"),
    text("rule a P", "not", ""), text(""), text("Rule a P"), text(" rule a P"), text("step 0"), text("step 0 0000000000000000 "),
    text("rule a P", "within"), text("rule a P", "alway"), text("rule a P", "always-for2 3"),
    b"rule\ta\tP\r\n", b"rule\ta\tP\nvar\t0\r\n", b"rule\ta\tP\nnot\r\n", b"\x00\n", b"\xff\xfe\n", b"rule\ta\tP\nvar\t0\n\n",
    # 6
    text("var 0"), text("not"), text("rule a P", "rule b P"), text("rule a P", "not", "step 0 0000000000000000"), text("rule a P", "var 0", "var 1"),
    text("step 0 0000000000000000", "rule a P"), text("step 0 0000000000000000", "var 0"),
    # 6 before 7, 8 and 9; 5 before 6
    text("var 99"), text("rule a P", "rule  Q"), text("rule a P", "step x y"), text("step 0 0000000000000000", "rule  P"), text("rule a P", "zzz"),
    text("rule a P", "rule"),
    # 7
    text("rule  P"), text("rule a p"), text("rule a "), text("rule a PA"), text("rule a B"), b"rule\ta b\tP\n", b"rule\ta\x7f\tP\n",
    b"rule\t\xc3\xa9\tP\n", b"rule\ta\x00\tP\n", text("rule " + "L" * 32 + " P", "var 0"), text("rule " + "L" * 33 + " P", "var 0"),
    text("rule !~ A", "var 0"),
    # 8
    text("rule a P", "var 63"), text("rule a P", "var 64"), text("rule a P", "var 00"), text("rule a P", "var 01"), text("rule a P", "var "),
    text("rule a P", "var +1"), text("rule a P", "var -1"), text("rule a P", "var 1x"), text("rule a P", "var a"),
    text("rule a P", "within 18446744073709551615", "var 0"), text("rule a P", "within 18446744073709551616", "var 0"),
    text("rule a P", "within 99999999999999999999", "var 0"), text("rule a P", "within 100000000000000000000000000000000000001", "var 0"),
    text("rule a P", "within 18446744073709551620", "var 0"), text("rule a P", "always-for 007", "var 0"), text("rule a P", "within 0", "var 0"),
    text("step 9223372036854775807 0000000000000000"), text("step 9223372036854775808 0000000000000000"), text("step 00 0000000000000000"),
    text("step 1 000000000000000"), text("step 1 00000000000000000"), text("step 1 000000000000000A"), text("step 1 000000000000000g"),
    text("step 1 "), text("step  0000000000000000"), text("step 0 :000000000000000"), text("step 0 /000000000000000"), text("step 0 `000000000000000"),
    b"rule\ta\tP\nvar\t1\x00\n", b"rule\ta\tP\nvar\t\xb2\n",
    # 9
    text(*[l for i in range(64) for l in ("rule r%d P" % i, "var %d" % i)]), text(*[l for i in range(65) for l in ("rule r%d P" % i, "var 1")]),
    text("rule a P", *balanced(256)), text("rule a P", *balanced(257)), text(*[l for i in range(4) for l in ["rule r%d A" % i] + balanced(256)]),
    text(*[l for i in range(4) for l in ["rule r%d A" % i] + balanced(256)], "rule s P", "var 0"),
    text("rule a P", *deep(64)), text("rule a P", *deep(65)), text("rule a P", *(["and", "var 0"] * 63), "var 1"),
    text("rule a P", *(["and", "var 0"] * 64), "var 1"), text("rule a P", "and", *deep(63), *deep(63)), text("rule a P", "and", *deep(63), *deep(64)),
    # 8 before 9, 7 before 9
    text("rule a P", *(["not"] * 64), "var 64"), text(*[l for i in range(64) for l in ("rule r%d P" % i, "var 1")], "rule  P"),
    # 10
    text("rule a P"), text("rule a P", "and", "var 0"), text("rule a P", "var 0", "rule b A", "until", "not", "var 1"),
    # opening lines: before nothing, steps, rules
    text("states 0"), text("states 65535", "slot a 64", "slot a 0", "slot " + "~" * 32 + " 1", *WHOLE), text("slot depth 63", *WHOLE),
    text("states 1", "step 5 00000000000000ff"), text("slot ! 64", "step 5 00000000000000ff"), text("states 2", "rule a P", "var 0"),
    text(*slots(32)), text("states 4", *slots(32), *WHOLE), sized(65535, "states 3", *slots(32)), sized(65536, "states 3"),
    text("states 3")[:-1], text("states 3", "slot a 1", "rule a P", "not"),
    # 25, before 7 and 8; 5 before 25
    text("states 1", "states 1"), text("states 1", "states 01"), text("slot a 1", "states 1"), text("states 1", "slot a 1", "states 65536"),
    text(*slots(32), "states 1"), text(*slots(32), "slot a 1"), text("states 1", *slots(32), "slot a 1"), text(*slots(32), "slot  1"),
    text(*slots(32), "slot a 65"), text("states 1", "states"), text(*slots(32), "slot a"),
    # 5
    text("states"), text("states 1 "), text("slot a"), text("slot a 1 1"), text("state 1"), text("slots a 1"), text("Slot a 1"),
    # 6, before 25, 7 and 8
    text("rule a P", "states 1"), text("rule a P", "var 0", "states x"), text("step 0 0000000000000000", "states 1"), text("rule a P", "and", "slot a 1"),
    text("rule a P", "var 0", "slot  65"), text("step 0 0000000000000000", "slot a 1"), text(*slots(32), "rule a P", "var 0", "slot a 1"),
    text("states 1", "slot a 1", "var 99"), text("slot a 1", "step 0 0000000000000000", "rule b P"),
    # 7, before 8
    text("slot  1"), text("slot " + "n" * 33 + " 1"), text("slot  65"), b"slot\ta b\t1\n", b"slot\t\x7f\t00\n", text(*slots(31), "slot  "),
    # 8
    text("states 65536"), text("states 00"), text("states "), text("states -1"), text("states 18446744073709551616"), b"states\t1\r\n",
    text("slot a 65"), text("slot a 064"), text("slot a "), text("slot a 18446744073709551616"),
]

if __name__ == "__main__":
    out = b""
    data = os.path.join(HERE, "data")
    os.makedirs(data, exist_ok=True)
    for name in os.listdir(data):
        os.remove(os.path.join(data, name))
    for n, book in enumerate(BOOKS):
        name = "b%03d" % n
        with open(os.path.join(data, name), "wb") as f:
            f.write(book)
        out += name.encode() + shown(book)
    with open(os.path.join(HERE, "stdout"), "wb") as f:
        f.write(out + b"short tables refused\t1\t0\n")
    print(len(BOOKS), "books")
