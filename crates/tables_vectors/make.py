#!/usr/bin/env python3
"""Makes this crate's stdin (cases) and stdout (what the program must write).

    python3 make.py            write both beside this file
    python3 make.py --check    only say whether they are as this script makes them

The list was written from document 01 alone (its sections "Tables" and "Answers by number", and the readings of them that
docs/DECISIONS.md gives), without a look at the code or the definitions. Each case is a good base with one named rule broken at a
known record, or with none broken, or with two; the builder states by hand the table and the record that answer 20 must name.
`judge`, a second reading of 01 that sees only the words, must give the same, or nothing is written. A line of stdin is a case:
its name, which has no digit, nine slices (pool, texts, nodes, notes, schemas, registry, patterns, links, numbers), and the table and record
expected, 0 0 where all is good. A slice is its length, 'x' and the words that repeat, '+' and the patches, place and word.
"""
import os
import sys

NONE = 4294967295
HALF = 2147483648
NAMES = ["pool", "texts", "nodes", "notes", "schemas", "registry", "patterns", "links", "numbers"]
WIDTH = {"pool": 1, "texts": 2, "nodes": 4, "notes": 9, "schemas": 16, "registry": 2, "patterns": 3, "links": 1, "numbers": 1}
MOST = {"pool": 65536, "texts": 4096, "nodes": 4096, "notes": 1024, "schemas": 4096, "registry": 256, "patterns": 4096,
        "links": 16384, "numbers": 4096}
TABLE = {"pool": 1, "texts": 1, "nodes": 2, "notes": 3, "schemas": 4, "registry": 5, "patterns": 6, "links": 7, "numbers": 8}
GOOD = (0, 0)


# ---- a second reading of 01, over the words alone ----

def is_utf8(b):
    """RFC 3629, section 4, row by row."""
    def tails(at, first_low, first_high, count):
        got = b[at:at + count]
        return len(got) == count and first_low <= got[0] <= first_high and all(0x80 <= x <= 0xBF for x in got[1:])
    at = 0
    while at < len(b):
        x = b[at]
        if x <= 0x7F:
            at += 1
        elif 0xC2 <= x <= 0xDF and tails(at + 1, 0x80, 0xBF, 1):
            at += 2
        elif 0xE0 <= x <= 0xEF and tails(at + 1, 0xA0 if x == 0xE0 else 0x80, 0x9F if x == 0xED else 0xBF, 2):
            at += 3
        elif 0xF0 <= x <= 0xF4 and tails(at + 1, 0x90 if x == 0xF0 else 0x80, 0x8F if x == 0xF4 else 0xBF, 3):
            at += 4
        else:
            return False
    return True


def judge(t):
    for name in ["texts", "pool", "nodes", "notes", "schemas", "registry", "patterns", "links", "numbers"]:
        if len(t[name]) % WIDTH[name] or len(t[name]) // WIDTH[name] > MOST[name]:
            return (TABLE[name], NONE)
    count = {name: len(t[name]) // WIDTH[name] for name in NAMES}
    links = t["links"]

    def listed(first, number, below):
        return first + number <= count["links"] and all(x < below for x in links[first:first + number])

    def pairs(first, number, below):
        if first + 2 * number > count["links"]:
            return False
        keys, values = links[first:first + 2 * number:2], links[first + 1:first + 2 * number:2]
        if any(k >= count["texts"] for k in keys) or any(v >= below for v in values):
            return False
        spelled = [bytes(t["pool"][t["texts"][2 * k]:t["texts"][2 * k] + t["texts"][2 * k + 1]]) for k in keys]
        return len(set(spelled)) == len(spelled)

    def optional(word, below):
        return word == NONE or word < below

    def text(n, r):
        start, length = r
        return start + length <= count["pool"] and is_utf8(t["pool"][start:start + length])

    def node(n, r):
        kind, a, b, c = r
        if c:
            return False
        if kind in (0, 7, 8):
            return a == 0 and b == 0
        if kind == 1:
            return a in (0, 1) and b == 0
        if kind == 2:
            return a < count["numbers"] and b == 0
        if kind == 3:
            return optional(a, count["numbers"]) and optional(b, count["numbers"])
        if kind == 4:
            return a < count["texts"] and b == 0
        if kind == 5:
            return listed(a, b, n)
        return kind == 6 and listed(a, 2 * b, n)

    def note(n, r):
        return r[8] in (0, 1) and not (r[7] == NONE and r[8])

    def schema(n, r):
        kind, own = r[0], r[1]
        if kind > 11 or not (own == NONE if kind == 0 else optional(own, count["notes"])):
            return False
        used = {0: 2, 1: 2, 2: 7, 3: 5, 4: 2, 5: 4, 6: 2, 7: 4, 8: 4, 9: 6, 10: 16, 11: 4}[kind]
        if any(r[used:]):
            return False
        if kind == 2:
            return all(optional(w, count["numbers"]) for w in r[2:7])
        if kind == 3:
            return optional(r[4], count["texts"])
        if kind == 5:
            return listed(r[2], r[3], count["nodes"])
        if kind in (7, 8):
            return listed(r[2], r[3], n)
        if kind == 9:
            return optional(r[2], n) and r[5] in (0, 1, NONE)
        if kind == 10:
            return (pairs(r[2], r[3], n) and pairs(r[4], r[5], n) and optional(r[6], n)
                    and listed(r[7], r[8], count["texts"]) and r[11] in (0, 1) and optional(r[12], n)
                    and ((r[14], r[15]) == (NONE, 0) or listed(r[14], r[15], n)))
        if kind == 11:
            return r[2] < count["texts"] and r[3] in (0, 1)
        return True

    def entry(n, r):
        return r[0] < count["texts"] and r[1] < count["schemas"]

    def pattern(n, r):
        return r[0] < count["texts"] and r[1] < count["texts"] and r[2] <= 2

    rules = [("texts", text), ("nodes", node), ("notes", note), ("schemas", schema), ("registry", entry), ("patterns", pattern)]
    for name, rule in rules:
        for n in range(count[name]):
            if not rule(n, t[name][WIDTH[name] * n:WIDTH[name] * (n + 1)]):
                return (TABLE[name], n)
    return GOOD


# ---- the cases ----

CASES = []


def case(name, expected, t):
    assert not any(ch.isdigit() for ch in name), name
    whole = {n: list(t.get(n, [])) for n in NAMES}
    found = judge(whole)
    assert found == expected, (name, expected, found)
    CASES.append((name, expected, whole))


def flat(records):
    return [w for r in records for w in r]


def with_(t, **changed):
    return {**t, **changed}


# Seven texts over "abcab": a, b, ab, a again, two empty ones, c.
TEXTS = [(0, 1), (1, 1), (0, 2), (3, 1), (5, 0), (2, 0), (2, 1)]
BASE = {"pool": b"abcab", "texts": flat(TEXTS), "numbers": [7, 0, 9], "links": [0] * 6}
NULL = [0, 0, 0, 0]
NOTE = [NONE] * 8 + [0]


def schema(kind, note, *words):
    return [kind, note] + list(words) + [0] * (14 - len(words))


BOOLEAN = schema(1, NONE)
UNDER_SCHEMAS = with_(BASE, nodes=NULL * 3, notes=[0] * 18)
PLACES = [("first", 0), ("middle", 2), ("last", 4)]


def broken(table, base, filler, what, make, places=PLACES, links=None):
    """Five records, one of them broken. `make` and `links` take the place."""
    for where, p in places:
        records = [list(filler) for _ in range(5)]
        records[p] = make(p)
        t = with_(base, **{table: flat(records)})
        if links:
            t["links"] = links(p)
        case(f"{table}, {where} record: {what}", (TABLE[table], p), t)


def sound(table, base, filler, what, record, place=4, links=None):
    records = [list(filler) for _ in range(5)]
    records[place] = record
    t = with_(base, **{table: flat(records)})
    if links is not None:
        t["links"] = links
    case(f"{table}, good: {what}", GOOD, t)


ORDINAL = ["kind", "note", "third", "fourth", "fifth", "sixth", "seventh", "eighth", "ninth", "tenth", "eleventh", "twelfth",
           "thirteenth", "fourteenth", "fifteenth", "sixteenth"]


def one_place(number):
    return [PLACES[number % 3]]


def empty_and_alone():
    case("all tables empty", GOOD, {})
    case("only a pool, which need not be UTF", GOOD, {"pool": [255, 128, 192]})
    case("only links, which mean nothing by themselves", GOOD, {"links": [NONE, 5, 9]})
    case("only numbers", GOOD, {"numbers": [1, 2]})
    case("only an empty text", GOOD, {"texts": [0, 0]})
    case("an empty text one past an empty pool", (1, 0), {"texts": [1, 0]})
    case("only a null node", GOOD, {"nodes": NULL})
    case("only a note", GOOD, {"notes": NOTE})
    case("only a schema", GOOD, {"schemas": schema(0, NONE)})
    case("a registry entry without texts", (5, 0), {"registry": [0, 0], "schemas": BOOLEAN})
    case("a registry entry without schemas", (5, 0), {"registry": [0, 0], "texts": [0, 0]})
    case("a registry entry over one text and one schema", GOOD, {"registry": [0, 0], "texts": [0, 0], "schemas": BOOLEAN})
    case("a pattern answer without texts", (6, 0), {"patterns": [0, 0, 0]})
    case("a pattern answer over one text", GOOD, {"patterns": [0, 0, 2], "texts": [0, 0]})
    case("a string node without texts", (2, 0), {"nodes": [4, 0, 0, 0]})
    case("an integer node without numbers", (2, 0), {"nodes": [2, 0, 0, 0]})
    case("an unparsed real without numbers", GOOD, {"nodes": [3, NONE, NONE, 0]})
    case("a real without numbers", (2, 0), {"nodes": [3, 0, NONE, 0]})
    case("an empty array without links", GOOD, {"nodes": [5, 0, 0, 0]})
    case("an empty array one past no links", (2, 0), {"nodes": [5, 1, 0, 0]})
    case("an empty object without links", GOOD, {"nodes": [6, 0, 0, 0]})
    case("an empty object one past no links", (2, 0), {"nodes": [6, 1, 0, 0]})
    case("a schema with a note where there are none", (4, 0), {"schemas": schema(1, 0)})
    for kind, what, words in KINDS[:-1]:
        case(f"only {what}, with nothing in any other table", GOOD, {"schemas": schema(kind, NONE, *words) * 2})
        if kind:
            case(f"only {what}, with one note", GOOD, {"notes": NOTE, "schemas": schema(kind, 0, *words) * 2})
    case("only an object, with nothing in any other table", GOOD, {"schemas": thing() * 2})
    case("only an object, with one note", GOOD, {"notes": NOTE, "schemas": thing(note=0) * 2})
    case("a ref without texts", (4, 0), {"schemas": schema(11, NONE, 0, 0)})
    case("a ref and one text", GOOD, {"texts": [0, 0], "schemas": schema(11, NONE, 0, 0)})
    case("the base of the cases below", GOOD, UNDER_SCHEMAS)


def sizes():
    words = {1: "one word", 2: "two words", 3: "three words", 4: "four words", 5: "five words", 6: "six words", 7: "seven words",
             8: "eight words", 9: "nine words", 10: "ten words", 11: "eleven words", 12: "twelve words", 13: "thirteen words",
             14: "fourteen words", 15: "fifteen words"}
    one = {"texts": [0, 0], "nodes": NULL, "notes": NOTE, "schemas": BOOLEAN, "registry": [0, 0], "patterns": [0, 0, 0]}
    for name, record in one.items():
        for more in range(1, WIDTH[name]):
            case(f"{name}: {words[more]} and no record", (TABLE[name], NONE), {name: record[:more]})
            case(f"{name}: a record and {words[more]}", (TABLE[name], NONE), with_({"texts": [0, 0], "schemas": BOOLEAN}, **{name: record + record[:more]}))
    under = {"texts": [0, 0], "schemas": BOOLEAN}
    for name in NAMES:
        record = one.get(name, [0])
        most = MOST[name]
        case(f"{name}: as long as may be", GOOD, with_(under, **{name: record * most}))
        case(f"{name}: one record too long", (TABLE[name], NONE), with_(under, **{name: record * (most + 1)}))
        if WIDTH[name] > 1:
            case(f"{name}: as long as may be and ragged", (TABLE[name], NONE), with_(under, **{name: record * most + record[:1]}))
            case(f"{name}: as long as may be, short of one word", (TABLE[name], NONE), with_(under, **{name: (record * most)[:-1]}))
    full = {name: one.get(name, [0]) * MOST[name] for name in NAMES}
    case("all tables as long as may be", GOOD, full)
    case("the pool too long with texts ragged", (1, NONE), {"pool": [0] * 65537, "texts": [0]})
    case("the pool too long with nodes ragged", (1, NONE), {"pool": [0] * 65537, "nodes": [0]})
    case("the pool too long and a text off its end", (1, NONE), {"pool": [0] * 65537, "texts": [65537, 1]})
    last = {"texts": [1, 65536], "nodes": [9, 0, 0, 0], "notes": NOTE[:8] + [2], "schemas": schema(0, 0), "registry": [4096, 0],
            "patterns": [0, 0, 3]}
    for name, bad in last.items():
        width = WIDTH[name]
        case(f"all tables as long as may be, the last of {name} bad", (TABLE[name], MOST[name] - 1), with_(full, **{name: full[name][:-width] + bad}))
        case(f"{name} as long as may be, the last bad", (TABLE[name], MOST[name] - 1), with_(under, **{name: full[name][:-width] + bad}))


def at_the_limits():
    long_pool = with_({}, pool=[97] * 65536)
    case("a text over the whole longest pool", GOOD, with_(long_pool, texts=[0, 65536]))
    case("a text one past the longest pool", (1, 0), with_(long_pool, texts=[1, 65536]))
    case("a text one longer than the longest pool", (1, 0), with_(long_pool, texts=[0, 65537]))
    case("an empty text at the longest pool's end", GOOD, with_(long_pool, texts=[65536, 0]))
    case("an empty text past the longest pool's end", (1, 0), with_(long_pool, texts=[65537, 0]))
    case("the longest pool with a bad last byte", (1, 0), with_(long_pool, pool=[97] * 65535 + [128], texts=[0, 65536]))
    case("the longest pool with a bad last byte, left out", GOOD, with_(long_pool, pool=[97] * 65535 + [128], texts=[0, 65535]))
    case("the last of all numbers", GOOD, {"numbers": [0] * 4096, "nodes": [2, 4095, 0, 0]})
    case("one past all numbers", (2, 0), {"numbers": [0] * 4096, "nodes": [2, 4096, 0, 0]})
    links = [0] * 16384
    over = {"nodes": NULL, "links": links}
    for first, count, answer in [(0, 16384, GOOD), (1, 16384, (2, 1)), (16384, 0, GOOD), (16385, 0, (2, 1)), (16383, 1, GOOD), (16384, 1, (2, 1)), (0, 16385, (2, 1))]:
        case("an array near the end of all links", answer, with_(over, nodes=NULL + [5, first, count, 0]))
    for first, count, answer in [(0, 8192, GOOD), (1, 8192, (2, 1)), (2, 8191, GOOD), (16382, 1, GOOD), (16383, 1, (2, 1)), (16384, 0, GOOD), (16385, 0, (2, 1)), (0, 8193, (2, 1))]:
        case("an object near the end of all links", answer, with_(over, nodes=NULL + [6, first, count, 0]))
    case("an array over all links, the last its own number", (2, 1), {"nodes": NULL + [5, 0, 16384, 0], "links": [0] * 16383 + [1]})
    case("an object over all links, the last its own number", (2, 1), {"nodes": NULL + [6, 0, 8192, 0], "links": [0] * 16383 + [1]})
    case("an object over all links, the last key its own number", (2, 1), {"nodes": NULL + [6, 0, 8192, 0], "links": [0] * 16382 + [1, 0]})
    for kind, what in [(7, "an anyOf"), (8, "an allOf")]:
        case(f"{what} over all links", GOOD, {"schemas": BOOLEAN + schema(kind, NONE, 0, 16384), "links": links})
        case(f"{what} over all links, the last its own number", (4, 1), {"schemas": BOOLEAN + schema(kind, NONE, 0, 16384), "links": [0] * 16383 + [1]})
        case(f"{what} one past all links", (4, 1), {"schemas": BOOLEAN + schema(kind, NONE, 1, 16384), "links": links})
    case("an enum over all links", GOOD, {"nodes": NULL, "schemas": schema(5, NONE, 0, 16384), "links": links})
    case("an enum over all links, the last no node", (4, 0), {"nodes": NULL, "schemas": schema(5, NONE, 0, 16384), "links": [0] * 16383 + [1]})
    case("the last node's parent chain", GOOD, {"nodes": NULL + flat([5, n - 1, 1, 0] for n in range(1, 40)), "links": list(range(39))})
    case("a required list over all links", GOOD, {"texts": [0, 0], "schemas": thing(required=(0, 16384)), "links": links})
    case("a required list over all links, the last no text", (4, 0), {"texts": [0, 0], "schemas": thing(required=(0, 16384)), "links": [0] * 16383 + [1]})
    case("bases over all links", GOOD, {"schemas": BOOLEAN + thing(bases=(0, 16384)), "links": links})
    case("bases over all links, the last its own number", (4, 1), {"schemas": BOOLEAN + thing(bases=(0, 16384)), "links": [0] * 16383 + [1]})
    texts = flat((0, n) for n in range(150))
    keys = flat((n, 0) for n in range(150))
    many = {"pool": [97] * 150, "texts": texts, "schemas": BOOLEAN + thing(properties=(0, 150)), "links": keys}
    case("many keys, all different", GOOD, many)
    case("many keys, the last like the first", (4, 1), with_(many, links=keys[:-2] + [0, 0]))
    case("many keys, the last like the one before it", (4, 1), with_(many, links=keys[:-2] + [148, 0]))
    case("many pattern keys, the last like the first", (4, 1), with_(many, schemas=BOOLEAN + thing(patterns=(0, 150)), links=keys[:-2] + [0, 0]))


def texts():
    base = {"pool": b"abcab"}
    off = [("starts past the pool, empty", (6, 0)), ("starts at NONE, empty", (NONE, 0)), ("runs one past the pool", (5, 1)), ("is one longer than the pool", (0, 6)),
           ("starts late and is one too long", (3, 3)), ("sum is two to the thirty-second", (NONE, 1)), ("sum is two to the thirty-second, from one", (1, NONE)),
           ("sum of two halves wraps to none", (HALF, HALF)), ("sum wraps to a good end", (NONE, 4)), ("both words NONE", (NONE, NONE)), ("length NONE", (0, NONE))]
    for what, record in off:
        broken("texts", base, (0, 5), what, lambda p: list(record))
    for what, record in [("the whole pool", (0, 5)), ("its last byte", (4, 1)), ("empty at its start", (0, 0)), ("empty in its middle", (3, 0)), ("empty at its end", (5, 0))]:
        sound("texts", base, (0, 1), what, list(record))
    case("texts overlap and repeat", GOOD, with_(base, texts=[0, 5, 0, 5, 1, 3, 4, 1]))

    bad = [("a tail byte alone", "80"), ("the last tail byte alone", "bf"), ("a tail byte after a letter", "6180"), ("an overlong two byte nul", "c080"),
           ("an overlong two byte form", "c1bf"), ("an overlong three byte nul", "e08080"), ("an overlong three byte form", "e09fbf"), ("an overlong four byte nul", "f0808080"),
           ("an overlong four byte form", "f08fbfbf"), ("the first surrogate", "eda080"), ("the last surrogate", "edbfbf"), ("a pair of surrogates", "eda18cedbeb4"),
           ("past the last code point", "f4908080"), ("a lead byte past the last", "f5808080"), ("a lead byte of five", "f888808080"), ("a byte that never stands", "fe"),
           ("the other byte that never stands", "ff"), ("a two byte form cut off", "c3"), ("a three byte form without tails", "e2"), ("a three byte form cut off", "e282"),
           ("a four byte form without tails", "f0"), ("a four byte form cut at two", "f09f"), ("a four byte form cut off", "f09f98"), ("a letter for a tail", "c361"),
           ("a lead byte for a tail", "c3c3"), ("a letter for the second of three", "e261ac"), ("a letter for the last of three", "e28261"), ("a letter for the second of four", "f0619880"),
           ("a letter for the third of four", "f09f6180"), ("a letter for the last of four", "f09f9861"), ("one tail too many", "c3a9a9"), ("a good text and a bad byte", "c3a961ff"),
           ("a bad byte and a good text", "ff61c3a9")]
    # each tail of each row of the grammar, one below its lowest and one above its highest
    rows = [("df", ["80-bf"]), ("e0", ["a0-bf", "80-bf"]), ("e1", ["80-bf", "80-bf"]), ("ed", ["80-9f", "80-bf"]), ("ef", ["80-bf", "80-bf"]),
            ("f0", ["90-bf", "80-bf", "80-bf"]), ("f1", ["80-bf", "80-bf", "80-bf"]), ("f4", ["80-8f", "80-bf", "80-bf"])]
    for lead, tails in rows:
        for n in range(len(tails)):
            for how, value in [("below", int(tails[n][:2], 16) - 1), ("above", int(tails[n][3:], 16) + 1)]:
                spelled = lead + "".join(f"{value:02x}" if k == n else tail[:2] for k, tail in enumerate(tails))
                bad.append((f"{['second', 'third', 'fourth'][n]} byte {how} its range", spelled))
    named = {}
    for what, spelled in bad:
        named.setdefault(spelled, what)
    for n, (spelled, what) in enumerate(named.items()):
        pool = bytes.fromhex(spelled)
        for where, p in PLACES if n % 8 == 0 else one_place(n):
            records = [(0, 0)] * 5
            records[p] = (0, len(pool))
            case(f"texts, {where} record: {what}", (1, p), {"pool": pool, "texts": flat(records)})
        case(f"texts: {what}, in no text", GOOD, {"pool": pool, "texts": flat([(0, 0)] * 5)})
    good = [("a nul byte", "00"), ("the last of one byte", "7f"), ("the first of two", "c280"), ("the last of two", "dfbf"), ("the first of three", "e0a080"),
            ("the last before the surrogates", "ed9fbf"), ("the first after the surrogates", "ee8080"), ("the last of three", "efbfbf"), ("the first of four", "f0908080"),
            ("the last code point", "f48fbfbf"), ("second tails of each size", "e18080ecbfbff1808080f3bfbfbf"), ("words of three bytes", "e697a5e69cace8aa9e"), ("a mark and a letter", "efbbbff0a38eb4")]
    for what, spelled in good:
        pool = bytes.fromhex(spelled)
        case(f"texts, good: {what}", GOOD, {"pool": pool, "texts": flat([(0, len(pool)), (len(pool), 0), (0, len(pool))])})
    cut = {"pool": bytes.fromhex("c3a9e282ac")}
    case("texts that cut a pool where its letters end", GOOD, with_(cut, texts=[0, 2, 2, 3, 0, 5]))
    case("a text that ends inside a letter, whose tail follows in the pool", (1, 1), with_(cut, texts=[0, 2, 0, 1]))
    case("a text that ends inside a later letter", (1, 2), with_(cut, texts=[0, 2, 0, 5, 0, 4]))
    case("a text that starts inside a letter", (1, 1), with_(cut, texts=[0, 2, 1, 4]))
    case("a text that is one tail byte", (1, 0), with_(cut, texts=[1, 1]))


# What may be wrong with a list over six links: name, first, count. A pair is two links.
PAST = [("starts past the links, empty", 7, 0), ("starts at the links' end, one entry", 6, 1), ("one entry past the links", 0, 7),
        ("starts at NONE, one entry", NONE, 1), ("sum is two to the thirty-second", 1, NONE), ("two halves", HALF, HALF), ("both words NONE", NONE, NONE)]
PAST_PAIRS = [("starts past the links, empty", 7, 0), ("starts at the links' end, one pair", 6, 1), ("half a pair past the links", 5, 1), ("one pair past the links", 0, 4),
              ("half a pair past the links, from one", 1, 3), ("twice the count is two to the thirty-second", 0, HALF), ("twice the count and first wrap to none", 2, HALF - 1),
              ("first NONE, one pair", NONE, 1), ("first before NONE wraps to none", NONE - 1, 1), ("count NONE", 0, NONE), ("first and count NONE", NONE, NONE), ("half and half", HALF, HALF // 2)]
NOT_ABSENT = [("first NONE, count none", NONE, 0)]


def nodes():
    def bad(what, make, places=PLACES, links=None):
        broken("nodes", BASE, NULL, what, make, places, links)

    def good(what, record, place=4, links=None):
        sound("nodes", BASE, NULL, what, record, place, links)

    for kind, what in [(9, "a kind one past the last"), (255, "a far kind"), (HALF, "a kind of half the range"), (NONE, "kind NONE")]:
        bad(what, lambda p: [kind, 0, 0, 0])
    for kind, what in [(0, "null"), (7, "alias"), (8, "bad value")]:
        for word, letter in [(1, "a"), (2, "b"), (3, "c")]:
            bad(f"{what} with {letter}", lambda p: [kind] + [1 if k == word else 0 for k in (1, 2, 3)])
        good(what, [kind, 0, 0, 0])
    bad("null with a NONE", lambda p: [0, NONE, 0, 0], one_place(1))
    for kind, what, a in [(1, "boolean", 1), (2, "integer", 1), (4, "string", 1), (5, "array", 0), (6, "object", 0), (3, "real", 1)]:
        if kind in (1, 2, 4):
            bad(f"{what} with b", lambda p: [kind, a, 1, 0])
            bad(f"{what} with b NONE", lambda p: [kind, a, NONE, 0], one_place(kind))
        bad(f"{what} with c", lambda p: [kind, a, 0, 1])
        bad(f"{what} with c NONE", lambda p: [kind, a, 0, NONE], one_place(kind))
    for a, what in [(2, "boolean of two"), (NONE, "boolean of NONE"), (256, "boolean of two hundred and fifty-six")]:
        bad(what, lambda p: [1, a, 0, 0])
    good("boolean false", [1, 0, 0, 0])
    good("boolean true", [1, 1, 0, 0])
    for a, what in [(3, "integer one past the numbers"), (NONE, "integer NONE")]:
        bad(what, lambda p: [2, a, 0, 0])
    good("integer of the first number", [2, 0, 0, 0])
    good("integer of the last number", [2, 2, 0, 0])
    for a, b, what in [(3, 0, "real, a one past the numbers"), (0, 3, "real, b one past the numbers"), (NONE, 3, "real, a absent and b bad"),
                       (3, NONE, "real, a bad and b absent"), (NONE - 1, 0, "real, a one before NONE"), (0, NONE - 1, "real, b one before NONE")]:
        bad(what, lambda p: [3, a, b, 0])
    for a, b, what in [(0, 2, "both"), (2, 0, "both the other way"), (NONE, 0, "a absent"), (0, NONE, "b absent"), (NONE, NONE, "both absent")]:
        good(f"real, {what}", [3, a, b, 0])
    for a, what in [(7, "string one past the texts"), (NONE, "string NONE")]:
        bad(what, lambda p: [4, a, 0, 0])
    good("string of the first text", [4, 0, 0, 0])
    good("string of the last text", [4, 6, 0, 0])
    for what, first, count in PAST + NOT_ABSENT:
        bad(f"array {what}", lambda p: [5, first, count, 0])
    for what, first, count in PAST_PAIRS + NOT_ABSENT:
        bad(f"object {what}", lambda p: [6, first, count, 0])
    wrong = [("itself", lambda p: p), ("the next node", lambda p: p + 1), ("past all nodes", lambda p: 6), ("NONE", lambda p: NONE)]
    for what, child in wrong:
        bad(f"array whose child is {what}", lambda p: [5, 3, 1, 0], links=lambda p: [0, 0, 0, child(p), 0, 0])
        bad(f"object whose key is {what}", lambda p: [6, 2, 1, 0], links=lambda p: [0, 0, child(p), 0, 0, 0])
        bad(f"object whose value is {what}", lambda p: [6, 2, 1, 0], PLACES[1:], links=lambda p: [0, 0, 0, child(p), 0, 0])
    for n in range(6):
        bad("array over all links with a bad child", lambda p: [5, 0, 6, 0], one_place(1 + n % 2), lambda p: [p if k == n else 0 for k in range(6)])
        bad("object over all links with a bad child", lambda p: [6, 0, 3, 0], one_place(1 + n % 2), lambda p: [p if k == n else 0 for k in range(6)])
    for n in (0, 5):
        good("array beside a bad link", [5, 1, 4, 0], links=[9 if k == n else 0 for k in range(6)])
        good("object beside a bad link", [6, 1, 2, 0], links=[9 if k == n else 0 for k in range(6)])
    for first, count, what in [(0, 0, "empty"), (6, 0, "empty at the links' end"), (0, 6, "over all links"), (5, 1, "over the last link"), (1, 4, "in the middle")]:
        good(f"array {what}", [5, first, count, 0], links=[0, 1, 2, 3, 3, 0])
    for first, count, what in [(0, 0, "empty"), (6, 0, "empty at the links' end"), (0, 3, "over all links"), (4, 1, "over the last links"), (1, 2, "in the middle")]:
        good(f"object {what}", [6, first, count, 0], links=[0, 1, 2, 3, 3, 0])
    good("array, empty, at the first place", [5, 6, 0, 0], 0)
    good("object, empty, at the first place", [6, 6, 0, 0], 0)
    good("object with one key twice, which is answered later", [6, 0, 3, 0], links=[1, 0, 1, 0, 1, 0])
    case("nodes of every kind", GOOD, with_(BASE, nodes=flat([[0, 0, 0, 0], [1, 1, 0, 0], [2, 2, 0, 0], [3, 0, NONE, 0], [4, 6, 0, 0], [5, 0, 3, 0], [6, 0, 3, 0], [7, 0, 0, 0], [8, 0, 0, 0]]),
                                            links=[4, 0, 2, 3, 1, 4]))


def notes():
    for what, make in [("last word two", NOTE[:7] + [5, 2]), ("last word NONE", NOTE[:7] + [5, NONE]), ("last word one without tags", NOTE[:8] + [1]),
                       ("last word two without tags", NOTE[:8] + [2]), ("last word NONE without tags", NOTE[:8] + [NONE])]:
        broken("notes", {}, NOTE, what, lambda p: make)
        broken("notes", {}, [0, 1, 2, 3, 4, 5, 6, 7, 1], what + ", among full ones", lambda p: make, one_place(1))
    for what, record in [("all absent", NOTE), ("all nought", [0] * 9), ("tags and case detection", [NONE] * 7 + [0, 1]), ("tags without case detection", [NONE] * 7 + [0, 0]),
                         ("all at the half", [HALF] * 8 + [1]), ("all one before NONE", [NONE - 1] * 8 + [1]), ("all different", [9, 8, 7, 6, 5, 4, 3, 2, 1])]:
        sound("notes", {}, NOTE, what, record)
    for k, what in enumerate(["id", "description", "documentation", "error message", "hidden", "completions", "additional completions"]):
        sound("notes", {}, NOTE, f"only {what}", [77 if n == k else NONE for n in range(8)] + [0])
        broken("notes", {}, NOTE, f"{what} and case detection without tags", lambda p: [77 if n == k else NONE for n in range(8)] + [1], one_place(k))


def thing(note=NONE, properties=(0, 0), patterns=(0, 0), additional=NONE, required=(0, 0), minimum=NONE, maximum=NONE, closed=0, names=NONE,
          naming=NONE, bases=(NONE, 0)):
    """An object schema, word by word."""
    return [10, note, *properties, *patterns, additional, *required, minimum, maximum, closed, names, naming, *bases]


KINDS = [(0, "True", []), (1, "boolean", []), (2, "number", [NONE] * 5), (3, "string", [NONE] * 3), (4, "null", []), (5, "enum", [0, 0]), (6, "any", []),
         (7, "anyOf", [0, 0]), (8, "allOf", [0, 0]), (9, "array", [NONE] * 4), (11, "ref", [0, 0])]


def schemas():
    def bad(what, make, places=PLACES, links=None):
        broken("schemas", UNDER_SCHEMAS, BOOLEAN, what, make, places, links)

    def good(what, record, place=4, links=None):
        sound("schemas", UNDER_SCHEMAS, BOOLEAN, what, record, place, links)

    for kind, what in [(12, "a kind one past the last"), (255, "a far kind"), (HALF, "a kind of half the range"), (NONE, "kind NONE")]:
        bad(what, lambda p: schema(kind, NONE))
    for note, what in [(0, "True with the first note"), (1, "True with the last note"), (2, "True with a note past all"), (NONE - 1, "True with a note one before NONE")]:
        bad(what, lambda p: schema(0, note))
    for kind, what, words in KINDS:
        if kind:
            bad(f"{what} with a note one past the last", lambda p: schema(kind, 2, *words))
            bad(f"{what} with a note one before NONE", lambda p: schema(kind, NONE - 1, *words), one_place(kind))
            good(f"{what} with the first note", schema(kind, 0, *words))
            good(f"{what} with the last note", schema(kind, 1, *words))
        good(f"{what} with nothing", schema(kind, NONE, *words))
        if kind != 1:
            good(f"{what} at the first place", schema(kind, NONE, *words), 0)
        for k in range(2 + len(words), 16):
            bad(f"{what} with a {ORDINAL[k]} word", lambda p: [1 if n == k else w for n, w in enumerate(schema(kind, NONE, *words))], one_place(k))
        if words != [] or kind == 0:
            bad(f"{what} with the last word NONE", lambda p: schema(kind, NONE, *words)[:15] + [NONE], one_place(kind))
    bad("object with a note one past the last", lambda p: thing(note=2))
    bad("object with a note one before NONE", lambda p: thing(note=NONE - 1), one_place(1))
    good("object with the last note", thing(note=1))
    good("object at the first place", thing(), 0)

    for k, what in enumerate(["minimum", "maximum", "exclusive minimum", "exclusive maximum", "multiple"]):
        words = [NONE] * 5
        for value, how in [(3, "one past the numbers"), (NONE - 1, "one before NONE")]:
            bad(f"number, {what} {how}", lambda p: schema(2, NONE, *words[:k], value, *words[k + 1:]), PLACES if value == 3 else one_place(k))
        good(f"number, only {what}", schema(2, NONE, *words[:k], 2, *words[k + 1:]))
        bad(f"number, all but {what} absent and that past the numbers", lambda p: schema(2, 0, *[3 if n == k else 2 for n in range(5)]), one_place(k))
    good("number with all", schema(2, 0, 0, 1, 2, 0, 1))

    bad("string, pattern one past the texts", lambda p: schema(3, NONE, 0, 1, 7))
    bad("string, pattern one before NONE", lambda p: schema(3, NONE, NONE, NONE, NONE - 1))
    good("string, pattern the first text", schema(3, NONE, NONE, NONE, 0))
    good("string, pattern the last text", schema(3, NONE, NONE, NONE, 6))
    good("string, minimum above maximum", schema(3, NONE, 9, 3, NONE))
    good("string, limits that are plain numbers past every table", schema(3, NONE, NONE - 1, HALF, NONE))

    lists = [("enum", lambda f, c: schema(5, NONE, f, c), lambda p: 3), ("anyOf", lambda f, c: schema(7, NONE, f, c), lambda p: p), ("allOf", lambda f, c: schema(8, NONE, f, c), lambda p: p),
             ("object, required", lambda f, c: thing(required=(f, c)), lambda p: 7), ("object, bases", lambda f, c: thing(bases=(f, c)), lambda p: p)]
    for what, make, below in lists:
        for how, first, count in PAST + ([] if "bases" in what else NOT_ABSENT):
            bad(f"{what} {how}", lambda p: make(first, count))
        for how, entry in [("at the limit", below), ("one past the limit", lambda p: below(p) + 1), ("NONE", lambda p: NONE)]:
            bad(f"{what} with its only entry {how}", lambda p: make(3, 1), links=lambda p: [0, 0, 0, entry(p), 0, 0])
        for n in range(6):
            bad(f"{what} over all links with a bad entry", lambda p: make(0, 6), one_place(1 + n % 2), lambda p: [below(p) if k == n else 0 for k in range(6)])
        good(f"{what} beside bad links", make(1, 4), links=[99, 0, 0, 0, 0, 99])
        good(f"{what} over all links, repeated", make(0, 6), links=[2, 2, 1, 1, 0, 0])
        good(f"{what}, empty at the links' end", make(6, 0), 0)
        good(f"{what}, empty in the middle", make(3, 0))
        good(f"{what}, the last entry allowed", make(5, 1), links=[0] * 5 + [below(4) - 1])

    for k, what in enumerate(["items", "minimum", "maximum", "unique"]):
        good(f"array, only {what}", schema(9, NONE, *[0 if n == k else NONE for n in range(4)]))
    good("array with all", schema(9, 1, 3, NONE - 1, HALF, 1))
    for how, value in [("itself", lambda p: p), ("the next", lambda p: p + 1), ("past all schemas", lambda p: 6), ("one before NONE", lambda p: NONE - 1)]:
        bad(f"array, items {how}", lambda p: schema(9, NONE, value(p), NONE, NONE, 0))
        bad(f"object, additional {how}", lambda p: thing(additional=value(p)))
        bad(f"object, names {how}", lambda p: thing(names=value(p)))
    for how, value in [("two", 2), ("one before NONE", NONE - 1), ("two hundred and fifty-six", 256)]:
        bad(f"array, unique {how}", lambda p: schema(9, NONE, NONE, NONE, NONE, value))
        bad(f"object, closed {how}", lambda p: thing(closed=value))
        bad(f"ref, eager {how}", lambda p: schema(11, NONE, 0, value))
    bad("object, closed NONE", lambda p: thing(closed=NONE))
    bad("ref, eager NONE", lambda p: schema(11, NONE, 0, NONE))
    bad("ref, text one past the last", lambda p: schema(11, NONE, 7, 1))
    bad("ref, text NONE", lambda p: schema(11, NONE, NONE, 0))
    good("ref, the last text, eager", schema(11, 1, 6, 1))
    good("ref, the first text, eager, at the first place", schema(11, NONE, 0, 1), 0)

    for what, make in [("object, properties", lambda f, c: thing(properties=(f, c))), ("object, pattern properties", lambda f, c: thing(patterns=(f, c)))]:
        for how, first, count in PAST_PAIRS + NOT_ABSENT:
            bad(f"{what} {how}", lambda p: make(first, count))
        for how, key in [("one past the texts", 7), ("NONE", NONE)]:
            bad(f"{what} with its only key {how}", lambda p: make(2, 1), PLACES[1:], lambda p: [0, 0, key, 0, 0, 0])
            bad(f"{what} with its last key {how}", lambda p: make(0, 3), PLACES[1:], lambda p: [0, 0, 1, 0, key, 0])
        for how, value in [("itself", lambda p: p), ("the next", lambda p: p + 1), ("past all schemas", lambda p: 6), ("NONE", lambda p: NONE)]:
            bad(f"{what} with its only value {how}", lambda p: make(2, 1), links=lambda p: [0, 0, 0, value(p), 0, 0])
            bad(f"{what} with its last value {how}", lambda p: make(0, 3), PLACES[1:], lambda p: [0, 0, 1, 0, 2, value(p)])
            bad(f"{what} with its first value {how}", lambda p: make(0, 3), PLACES[1:], lambda p: [0, value(p), 1, 0, 2, 0])
        places = [("second", 1), ("middle", 2), ("last", 4)]
        for how, keys in [("one text twice", (0, 0, 2)), ("one text twice, apart", (2, 0, 2)), ("one text twice, at the end", (2, 0, 0)), ("equal bytes under two numbers", (0, 3, 1)),
                          ("equal bytes under two numbers, apart", (3, 2, 0)), ("equal bytes under two numbers, at the end", (2, 3, 0)), ("two empty texts", (4, 2, 5)), ("all alike", (0, 3, 0))]:
            bad(f"{what} with {how}", lambda p: make(0, 3), places, lambda p: [keys[0], 0, keys[1], 0, keys[2], 0])
        for how, keys in [("a key and a longer one", (0, 2, 1)), ("keys of one length", (0, 1, 6)), ("an empty key", (4, 0, 2)), ("a later equal text unused", (3, 1, 2))]:
            good(f"{what} with {how}", make(0, 3), links=[keys[0], 0, keys[1], 0, keys[2], 0])
        for how, first, links in [("before", 0, [0, 0, 1, 0, 99, 99]), ("after", 2, [99, 99, 0, 0, 1, 0]), ("after", 1, [99, 0, 0, 1, 0, 99])]:
            good(f"{what} {how} bad links", make(first, 2), links=links)
        good(f"{what} between bad links", make(2, 1), links=[99, 99, 0, 0, 99, 99])
        good(f"{what} beside an equal key", make(2, 2), links=[0, 0, 0, 0, 1, 0])
        good(f"{what}, a value used twice", make(0, 3), links=[0, 3, 1, 3, 2, 3])
        good(f"{what}, empty at the links' end", make(6, 0), 0)
        good(f"{what}, first odd", make(1, 2), links=[99, 0, 1, 1, 2, 99])
    good("object, one key in properties and in patterns", thing(properties=(0, 2), patterns=(2, 2)), links=[0, 0, 1, 0, 0, 0])
    good("object, one list as properties and patterns", thing(properties=(0, 3), patterns=(0, 3)), links=[0, 0, 1, 0, 2, 0])
    good("object, required repeated under two numbers", thing(required=(0, 4)), links=[0, 0, 3, 3, 9, 9])
    bad("object, good properties and bad patterns", lambda p: thing(properties=(0, 1), patterns=(2, 2)), PLACES[1:], lambda p: [0, 0, 1, 0, 1, 0])
    bad("object, bad properties and good patterns", lambda p: thing(patterns=(0, 1), properties=(2, 2)), PLACES[1:], lambda p: [0, 0, 1, 0, 1, 0])
    good("object, limits and naming that are plain words", thing(minimum=HALF, maximum=0, naming=NONE - 1, closed=1))
    good("object, limits and naming nought", thing(minimum=0, maximum=NONE - 1, naming=0))
    good("object with all", thing(1, (0, 1), (2, 1), 3, (4, 2), 1, 2, 1, 2, 5, (4, 2)), links=[0, 3, 0, 2, 1, 3])
    bad("object, bases absent with a count of two", lambda p: thing(bases=(NONE, 2)))
    good("object, bases (none, present)", thing(bases=(0, 0)), 0)
    case("schemas of every kind", GOOD, with_(UNDER_SCHEMAS, links=[0, 1, 1, 2, 6, 3], schemas=flat(
        [schema(0, NONE), BOOLEAN, schema(2, 0, 0, 1, 2, NONE, NONE), schema(3, 1, 1, 9, 6), schema(4, NONE), schema(5, NONE, 0, 3), schema(6, NONE), schema(7, 0, 0, 4),
         schema(8, NONE, 2, 2), schema(9, NONE, 8, 0, 5, 1), thing(0, (0, 3), (2, 2), 9, (4, 2), 0, 4, 1, 3, 8, (3, 3)), schema(11, NONE, 2, 1)])))
    case("two objects with one key", GOOD, with_(UNDER_SCHEMAS, links=[0, 0, 1, 0, 3, 0], schemas=BOOLEAN + thing(properties=(0, 2)) + thing(properties=(2, 2))))
    letters = {"pool": "\u00e9\u00e8\u00e9".encode(), "texts": [0, 2, 2, 2, 4, 2], "schemas": BOOLEAN + thing(properties=(0, 2))}
    case("keys that differ in their last byte", GOOD, with_(letters, links=[0, 0, 1, 0]))
    case("keys of two bytes, equal at two places of the pool", (4, 1), with_(letters, links=[0, 0, 2, 0]))


REGISTRY = with_(BASE, schemas=BOOLEAN * 3)


def registry():
    for what, record in [("text one past the last", [7, 0]), ("text NONE", [NONE, 0]), ("schema one past the last", [0, 3]), ("schema NONE", [0, NONE]), ("both past the last", [7, 3]), ("text and schema changed about", [6, 6])]:
        broken("registry", REGISTRY, [0, 0], what, lambda p: record)
    sound("registry", REGISTRY, [0, 0], "the last text and the last schema", [6, 2])
    sound("registry", REGISTRY, [0, 0], "one name twice", [0, 1])
    sound("registry", REGISTRY, [1, 0], "one name twice in bytes", [3, 1])


def patterns():
    for what, record in [("pattern one past the texts", [7, 0, 0]), ("pattern NONE", [NONE, 0, 0]), ("subject one past the texts", [0, 7, 0]), ("subject NONE", [0, NONE, 0]),
                         ("answer three", [0, 0, 3]), ("answer NONE", [0, 0, NONE]), ("answer two hundred and fifty-six", [0, 0, 256])]:
        broken("patterns", BASE, [0, 1, 1], what, lambda p: record)
    for what, record in [("no", [6, 6, 0]), ("match", [0, 6, 1]), ("invalid", [6, 0, 2]), ("one question twice, answered differently", [0, 1, 0])]:
        sound("patterns", BASE, [0, 1, 1], what, record)


FIVE = {"pool": b"abcab", "texts": [0, 1] * 5, "nodes": NULL * 5, "notes": NOTE * 5, "schemas": BOOLEAN * 5, "registry": [0, 1] * 5, "patterns": [0, 1, 1] * 5,
        "links": [0] * 5, "numbers": [0] * 5}
WRONG = {"texts": [5, 1], "nodes": [9, 0, 0, 0], "notes": NOTE[:8] + [1], "schemas": schema(0, 0), "registry": [0, 5], "patterns": [0, 0, 3]}
RECORDS = list(WRONG)


def spoiled(t, name, place):
    width = WIDTH[name]
    return with_(t, **{name: t[name][:width * place] + WRONG[name] + t[name][width * (place + 1):]})


def resized(t, name):
    return with_(t, **{name: [0] * 65537 if name == "pool" else t[name] + [0] if WIDTH[name] > 1 else [0] * (MOST[name] + 1)})


def two_faults():
    case("five good records of each table", GOOD, FIVE)
    for n, name in enumerate(RECORDS):
        case(f"{name}: two bad records", (TABLE[name], 1), spoiled(spoiled(FIVE, name, 1), name, 3))
        case(f"{name}: two bad records, the first and the last", (TABLE[name], 0), spoiled(spoiled(FIVE, name, 0), name, 4))
        case(f"{name}: all records bad", (TABLE[name], 0), with_(FIVE, **{name: WRONG[name] * 5}))
        for other in RECORDS[n + 1:]:
            case(f"{name} late and {other} early", (TABLE[name], 4), spoiled(spoiled(FIVE, name, 4), other, 0))
        for other in NAMES:
            if other != name:
                case(f"a bad record of {name} and a wrong size of {other}", (TABLE[other], NONE), resized(spoiled(FIVE, name, 0), other))
        case(f"a bad record of {name} and a wrong size of it", (TABLE[name], NONE), resized(spoiled(FIVE, name, 2), name))
    for n, name in enumerate(NAMES):
        for other in NAMES[n + 1:]:
            case(f"wrong sizes of {name} and {other}", (min(TABLE[name], TABLE[other]), NONE), resized(resized(FIVE, name), other))
    everything = FIVE
    for name in RECORDS:
        everything = spoiled(everything, name, 3)
    case("a bad record in each table", (1, 3), everything)
    case("a bad record in each table and too many numbers", (8, NONE), resized(everything, "numbers"))
    case("a bad record in each table and too many links", (7, NONE), resized(everything, "links"))
    bad_text = {"pool": b"ab", "texts": [0, 3, 0, 1], "nodes": [4, 0, 0, 0]}
    case("a node whose text is bad", (1, 0), bad_text)
    case("a bad child of a good array", (2, 0), with_(BASE, nodes=[9, 0, 0, 0] + [5, 0, 1, 0]))
    case("a bad note under a good schema", (3, 0), {"notes": NOTE[:8] + [1], "schemas": schema(1, 0)})
    case("a bad schema in a good registry", (4, 0), {"texts": [0, 0], "schemas": schema(12, NONE), "registry": [0, 0]})


# ---- writing them ----

def encode(words, width):
    """The shortest of a few periods, with a patch for each word that does not follow it."""
    if not words:
        return [], []
    best = None
    for period in sorted({1, width, 2 * width, min(len(words), 700)}):
        if period <= len(words):
            patches = [(n, w) for n, w in enumerate(words) if w != words[n % period]]
            if best is None or period + 2 * len(patches) < best[0]:
                best = (period + 2 * len(patches), words[:period], patches)
    return best[1], best[2]


def decode(length, period, patches):
    words = [period[n % len(period)] for n in range(length)]
    for place, word in patches:
        words[place] = word
    return words


def line(name, expected, t):
    parts = []
    for n in NAMES:
        period, patches = encode(t[n], WIDTH[n])
        assert decode(len(t[n]), period, patches) == t[n]
        parts.append(" ".join([str(len(t[n])), f"x{len(period)}", *map(str, period), f"+{len(patches)}", *(f"{a} {b}" for a, b in patches)]))
    return f"{name}: {' | '.join(parts)} = {expected[0]} {expected[1]}\n"


def main():
    for part in (empty_and_alone, sizes, at_the_limits, texts, nodes, notes, schemas, registry, patterns, two_faults):
        part()
    lines = [line(*c) for c in CASES]
    assert len(set(lines)) == len(lines)
    made = {"stdin": f"{len(lines)} cases\n" + "".join(lines), "stdout": f"{len(lines)} cases, 0 wrong\n"}
    # the program's buffers
    assert len(made["stdin"].encode()) <= 524288 and all(sum(map(len, t.values())) <= 262144 for _, _, t in CASES)
    here = os.path.dirname(os.path.abspath(__file__))
    for name, text in made.items():
        path = os.path.join(here, name)
        if "--check" in sys.argv[1:]:
            if open(path).read() != text:
                sys.exit(f"make.py: {name} is not what make.py makes")
        else:
            open(path, "w").write(text)
    good = sum(1 for c in CASES if c[1] == GOOD)
    print(f"{len(lines)} cases, {good} good, {len(lines) - good} damaged")


main()
