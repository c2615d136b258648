"""The shapes of texts that are hard on one part of the library, each of any size: one that is eight
times as large has eight times the bytes. So numbers have five digits."""

import random
from dataclasses import dataclass
from typing import Callable


@dataclass(frozen=True)
class Shape:
    """A text of a kind for each size. The lines of several are separated by line feeds."""

    name: str
    kind: str
    size: int  # It is tried at this size, and at eight times that.
    make: Callable[[int], bytes]
    mistake: str = ""  # Where the text is refused: "early", "middle" or "late"; empty: accepted.


def members(made):
    return b", ".join(made)


def lines(made):
    return b"\n".join(made)


def parameters(count, key=lambda i: b"k%05d" % i):
    return b"".join(b";%s=%05d" % (key(i), i) for i in range(count))


def entries(keys):
    return members(b"%s=1" % key for key in keys)


def numbered(count, first=0):
    return [b"k%05d" % i for i in range(first, first + count)]


def strings(count, text):
    return members([b'"' + text + b'"'] * count)


def keys_of_one_tag(count, prefix=b"k", pairs=4):
    """Keys of which each 2 ** pairs have one hash where nodes are made, which has no seed: there
    `d*` counts as `bh`."""
    same = (b"bh", b"d*")
    keys = [
        prefix + b"%04d" % group + b"".join(same[i >> pair & 1] for pair in range(pairs))
        for group in range((count >> pairs) + 1)
        for i in range(1 << pairs)
    ]
    random.Random(5).shuffle(keys)
    return keys[:count]


def one_often(count, length):
    """64 keys of one tag, and the last one so many times more."""
    keys = keys_of_one_tag(64, b"k" * length, 6)
    return keys + keys[-1:] * count


# The bytes of the seed of `sf_calls` are all 1.
SEED = int.from_bytes(b"\1" * 8, "little")
WORD = (1 << 64) - 1


def sip_hash(text):
    """SipHash-1-3 with the seed of `sf_calls`, by which a map finds its keys."""
    v0, v1 = SEED ^ 0x736F6D6570736575, SEED ^ 0x646F72616E646F6D
    v2, v3 = SEED ^ 0x6C7967656E657261, SEED ^ 0x7465646279746573
    padded = text + bytes(7 - len(text) % 8) + bytes([len(text) & 255])
    words = [int.from_bytes(padded[at : at + 8], "little") for at in range(0, len(padded), 8)]
    for turn, word in enumerate(words + [0, 0, 0]):
        if turn == len(words):
            v2 ^= 0xFF
        v3 ^= word
        v0, v2 = (v0 + v1) & WORD, (v2 + v3) & WORD
        v1, v3 = (v1 << 13 | v1 >> 51) & WORD ^ v0, (v3 << 16 | v3 >> 48) & WORD ^ v2
        v0 = (v0 << 32 | v0 >> 32) & WORD
        v2, v0 = (v2 + v1) & WORD, (v0 + v3) & WORD
        v1, v3 = (v1 << 17 | v1 >> 47) & WORD ^ v2, (v3 << 21 | v3 >> 43) & WORD ^ v0
        v2 = (v2 << 32 | v2 >> 32) & WORD
        v0 ^= word
    return v0 ^ v1 ^ v2 ^ v3


def keys_of_one_hash(count, made=[], tried=[0]):
    """Keys of which someone who knows the seed chose the low 8 bits of the hash in a map."""
    while len(made) < count:
        key = b"k%07d" % tried[0]
        tried[0] += 1
        found = sip_hash(key)
        if (found ^ found >> 32) & 0xFF == 0:
            made.append(key)
    return made[:count]


LONG = b"a-key-of-more-than-16-bytes-"
MISTAKE = b"="

SHAPES = [
    # Keys.
    Shape("keys", "dict", 300, lambda n: entries(numbered(n))),
    Shape("keys alike", "dict", 300,
          lambda n: entries(b"x-a-beginning-%08d-and-an-end" % i for i in range(n))),
    Shape("long keys", "dict", 300, lambda n: entries(LONG + b"%05d" % i for i in range(n))),
    Shape("one long key", "dict", 4000, lambda n: b"k" * n + b"=1"),
    Shape("one long key of a List", "dict", 4000, lambda n: b"k" * n + b"=(a)"),
    Shape("keys all repeated", "dict", 200, lambda n: entries(numbered(n) + numbered(n))),
    Shape("each key twice", "dict", 200, lambda n: entries(k for k in numbered(n) for _ in "ab")),
    Shape("each eighth key repeated", "dict", 320,
          lambda n: entries(b"key%05d" % (i - 5 if i % 8 == 7 else i) for i in range(n))),
    Shape("the first key repeated", "dict", 300, lambda n: entries(numbered(n) + [b"k0"])),
    Shape("one key", "dict", 400, lambda n: entries([b"a"] * n)),
    Shape("two long keys", "dict", 100, lambda n: entries([LONG + b"a", LONG + b"b"] * n)),
    Shape("seven alike, and one", "dict", 400,
          lambda n: entries([b"k" * 15 + b"%d" % i for i in range(7)] + [b"k" * 15 + b"g"] * n)),
    Shape("keys of one tag", "dict", 320, lambda n: entries(keys_of_one_tag(n))),
    Shape("keys of one tag repeated", "dict", 160, lambda n: entries(keys_of_one_tag(n) * 2)),
    # From some 32 such keys on, the search for keys ends at its bound, and a tree is built after
    # it: each key costs up to 2.5 times as much. That is a step, so both sizes are behind it.
    Shape("long keys of one tag", "dict", 64, lambda n: entries(keys_of_one_tag(n, b"k" * 500))),
    Shape("long keys of one tag repeated", "dict", 32,
          lambda n: entries(keys_of_one_tag(n, b"k" * 500) * 2)),
    Shape("64 long keys of one tag, and the last", "dict", 50,
          lambda n: entries(one_often(n, 200))),
    Shape("keys of one hash", "dict", 200, lambda n: entries(keys_of_one_hash(n))),
    Shape("directives", "dict", 150,
          lambda n: members([b'max-age=60, no-store, private="a, b", max-age=5'] * n)),
    # Parameters.
    Shape("parameters", "item", 300, lambda n: b"a" + parameters(n)),
    Shape("parameters with long keys", "item", 200,
          lambda n: b"a" + parameters(n, lambda i: LONG + b"%05d" % i)),
    Shape("parameters repeated", "item", 200, lambda n: b"a" + parameters(n) + parameters(n)),
    Shape("one parameter", "item", 400, lambda n: b"a" + b";k=1" * n),
    Shape("members with parameters", "list", 200, lambda n: members([b'a;b=1;c="x";d'] * n)),
    Shape("parameters of one member", "list", 300, lambda n: b"a, b" + parameters(n) + b", c"),
    Shape("parameters of an inner Item", "list", 300, lambda n: b"(a b" + parameters(n) + b")"),
    Shape("parameters of an Inner List", "list", 300, lambda n: b"(a b)" + parameters(n)),
    Shape("parameters of a member", "dict", 300, lambda n: b"k=a" + parameters(n)),
    Shape("parameters repeated in members", "list", 120,
          lambda n: members([b"(a;x;y;x b;y;y);q=1;q=2"] * n)),
    # Members and Items.
    Shape("Integers", "list", 600, lambda n: members(b"%05d" % i for i in range(n))),
    Shape("Tokens", "list", 400, lambda n: members(b"t%05d;q=0.5" % i for i in range(n))),
    Shape("Decimals, Dates, Booleans", "list", 200,
          lambda n: members([b"1.5, @1659578233, ?0"] * n)),
    Shape("Items of an Inner List", "list", 400, lambda n: b"(" + b" ".join(numbered(n)) + b")"),
    Shape("Inner Lists", "list", 200, lambda n: members([b'(a b;c=1 "d e";f);g=1'] * n)),
    Shape("empty Inner Lists", "list", 600, lambda n: members([b"()"] * n)),
    Shape("Inner Lists of a Dictionary", "dict", 200,
          lambda n: members(b"k%05d=(a b);x" % i for i in range(n))),
    Shape("Byte Sequences", "list", 200, lambda n: members([b":QUJDREVGRw==:"] * n)),
    Shape("a Byte Sequence", "item", 1000, lambda n: b":" + b"QUJD" * n + b":"),
    Shape("Display Strings", "list", 200, lambda n: members([b'%"a%c3%bc"'] * n)),
    Shape("a Display String", "item", 600, lambda n: b'%"' + b"%c3%bc" * n + b'"'),
    Shape("a String", "item", 4000, lambda n: b'"' + b"x" * n + b'"'),
    Shape("a Token", "item", 4000, lambda n: b"x" * n),
    # Blanks.
    Shape("blanks between members", "list", 600, lambda n: b" \t  , \t ".join([b"a"] * n)),
    Shape("one run of blanks", "list", 4000, lambda n: b"a," + b" \t" * (n // 2) + b"b"),
    Shape("blanks before", "item", 4000, lambda n: b" " * n + b"a"),
    Shape("blanks behind", "item", 4000, lambda n: b"a" + b" " * n),
    Shape("blanks behind a semicolon", "item", 4000, lambda n: b"a;" + b" " * n + b"b=1"),
    Shape("blanks in an Inner List", "list", 4000, lambda n: b"(" + b" " * n + b"a)"),
    Shape("blanks between inner Items", "list", 300,
          lambda n: b"(" + (b"a" + b" " * 20) * n + b")"),
    # What is within Strings.
    Shape("a String of escapes", "item", 2000, lambda n: b'"' + b'\\"' * n + b'"'),
    Shape("Strings with escapes", "list", 200, lambda n: strings(n, b'a\\"b\\\\c')),
    Shape("a String of commas", "list", 4000, lambda n: b'"' + b"," * n + b'"'),
    Shape("Strings of commas", "list", 160, lambda n: strings(n, b"," * 60)),
    Shape("Strings of brackets", "list", 160, lambda n: strings(n, b"() (;" * 12)),
    Shape("Strings of percent signs", "list", 160, lambda n: strings(n, b'%\\"' * 20)),
    Shape("Strings of commas in parameters", "list", 120,
          lambda n: members([b'"a,b";c="d,e";f'] * n)),
    Shape("Strings longer than a kibibyte", "list", 20,
          lambda n: members([b'a;b="' + b"x" * 1100 + b'"'] * n)),
    # What is not closed.
    Shape("an open String", "list", 4000, lambda n: b'"' + b"x" * n, "late"),
    Shape("an open String of escapes", "list", 2000, lambda n: b'"' + b'\\"' * n, "late"),
    Shape("an open String of commas", "dict", 4000, lambda n: b'k="' + b"," * n, "late"),
    Shape("an open Display String", "item", 600, lambda n: b'%"' + b"%c3%bc" * n, "late"),
    Shape("an open Display String in a parameter", "list", 600,
          lambda n: b'(a;b;c=%"' + b"%c3%bc" * n, "late"),
    Shape("an open Byte Sequence", "item", 1000, lambda n: b":" + b"QUJD" * n, "late"),
    Shape("an open Inner List", "list", 200,
          lambda n: b"(" + b" ".join(b'"a%05d";x' % i for i in range(n)), "late"),
    Shape("members, then an open String", "dict", 300,
          lambda n: entries(numbered(n)) + b', z="abc', "late"),
    # Mistakes.
    Shape("a mistake, then members", "list", 400,
          lambda n: MISTAKE + members([b"a;q=1"] * n), "early"),
    Shape("a member, a mistake, then members", "list", 800,
          lambda n: b"a, =" + b", a" * n, "early"),
    Shape("an entry, a mistake, then entries", "dict", 400,
          lambda n: b"a=1, =, " + entries(numbered(n)), "early"),
    Shape("a mistake, then no comma", "list", 8000, lambda n: b'x"' + b"x" * n, "early"),
    Shape("a mistake, then quotes", "list", 2000, lambda n: b"x=" + b',""' * n, "early"),
    Shape("a mistake, then blanks", "item", 8000, lambda n: b"a=" + b" " * n, "early"),
    Shape("a mistake, then semicolons", "item", 8000, lambda n: b"a;=" + b";" * n, "early"),
    Shape("two commas, then commas", "dict", 8000, lambda n: b"a," + b"," * n, "early"),
    Shape("a bad escape, then escapes", "dict", 2000,
          lambda n: b'x="' + b"\\a" * n + b'"', "early"),
    Shape("a mistake in a key, then entries", "dict", 400,
          lambda n: b"K=1, " + entries(numbered(n)), "early"),
    Shape("a mistake in an Inner List, then Items", "list", 800,
          lambda n: b"(a;X " + b" ".join(numbered(n)), "early"),
    Shape("a mistake in a parameter, then more", "list", 400,
          lambda n: b"(a;b;=" + parameters(n), "early"),
    Shape("a mistake in the middle", "list", 400,
          lambda n: members([b"a;q=1"] * (n // 2) + [b"a="] + [b"a;q=1"] * (n // 2)), "middle"),
    Shape("a mistake in a third", "dict", 400,
          lambda n: entries(numbered(n // 3)) + b", =, " + entries(numbered(n * 2 // 3, n)),
          "middle"),
    Shape("members, then a mistake", "list", 400,
          lambda n: members([b"a;q=1"] * n) + MISTAKE, "late"),
    Shape("entries, then a mistake", "dict", 300, lambda n: entries(numbered(n)) + b", K", "late"),
    Shape("a long key, then a mistake", "dict", 4000, lambda n: b"k" * n + b"=(#", "late"),
    Shape("a long key of a parameter, then a mistake", "list", 4000,
          lambda n: b"(a;b;" + b"k" * n + b"=#", "late"),
    Shape("blanks, then a mistake", "list", 4000, lambda n: b"(a;b;" + b" " * n + b"#", "late"),
    Shape("parameters, then a mistake", "item", 300, lambda n: b"a" + parameters(n) + b"!", "late"),
    Shape("inner parameters, then a mistake", "list", 300,
          lambda n: b"(a" + parameters(n) + b";X)", "late"),
    Shape("Items, then a mistake", "list", 200,
          lambda n: b"(" + b" ".join(b'"a%05d";x' % i for i in range(n)) + b' "b";X)', "late"),
    Shape("escapes, then a bad one", "item", 600,
          lambda n: b'%"' + b"%c3%bc" * n + b'%zz"', "late"),
    Shape("a Token, then a mistake", "list", 4000, lambda n: b"(a;b=c" + b"x" * n + b'"', "late"),
    Shape("digits", "list", 4000, lambda n: b"1" * n, "early"),
    # Lines.
    Shape("lines of a List", "list", 300, lambda n: lines([b"abc;q=1"] * n)),
    Shape("lines of Strings with commas", "list", 200, lambda n: lines([b'"a,b,c"'] * n)),
    Shape("lines of a Dictionary", "dict", 200,
          lambda n: lines(b"key%05d=(a b);x=1" % i for i in range(n))),
    Shape("lines with one key", "dict", 300,
          lambda n: lines(b"k%05d=1" % (i % 50) for i in range(n))),
    Shape("lines that cut Strings", "list", 200, lambda n: lines([b'"ab', b'cd"'] * n)),
    Shape("a line, then empty ones", "list", 600, lambda n: lines([b"a, b"] + [b""] * n), "early"),
    Shape("a mistake, then lines", "list", 1000,
          lambda n: lines([b"="] + [b"abc;q=1"] * n), "early"),
    Shape("a mistake, then short lines", "list", 16, lambda n: lines([b"="] + [b"a"] * n), "early"),
    Shape("a mistake, then short lines of a Dictionary", "dict", 16,
          lambda n: lines([b"="] + [b"a"] * n), "early"),
    Shape("a mistake, then few empty lines", "list", 2,
          lambda n: lines([b"="] + [b""] * n), "early"),
    Shape("a mistake, then few empty lines of a Dictionary", "dict", 2,
          lambda n: lines([b"="] + [b""] * n), "early"),
    Shape("a mistake, then empty lines", "list", 1000,
          lambda n: lines([b"="] + [b""] * n), "early"),
    Shape("long lines, a mistake, then lines", "list", 1000,
          lambda n: lines([b'"' + b"x" * n + b'"'] * 4 + [b"="] + [b""] * n * 4), "middle"),
    Shape("lines, then a mistake", "list", 300, lambda n: lines([b"abc;q=1"] * n + [b"="]), "late"),
    Shape("lines, a mistake in a third", "list", 300,
          lambda n: lines([b"abc;q=1"] * (n // 3) + [b"="] + [b"abc;q=1"] * (n * 2 // 3)),
          "middle"),
    Shape("lines, a mistake in every other one", "list", 300,
          lambda n: lines([b"abc;q=1", b"a="] * n), "early"),
]
