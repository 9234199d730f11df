"""Strings to read: valid ones of every kind, and copies of them that are wrong in one way or another. All are UTF-8, as the Rust wants them."""

import itertools
import random

from bip350 import BECH32, BECH32M, CHARSET, polymod

AWKWARD = "1qpQ b\x7f\xe9lA"  # separator, symbols of both cases, a blank, a letter outside the charset, 127, a character of two bytes


def write(prefix, symbols, constant):
    expanded = [ord(c) >> 5 for c in prefix] + [0] + [ord(c) & 31 for c in prefix]
    check = polymod(expanded + symbols + [0] * 6) ^ constant
    symbols = symbols + [check >> 5 * (5 - i) & 31 for i in range(6)]
    return prefix + "1" + "".join(CHARSET[v] for v in symbols)


def regrouped(program):
    bits = "".join(format(byte, "08b") for byte in program)
    bits += "0" * (-len(bits) % 5)
    return [int(bits[at:at + 5], 2) for at in range(0, len(bits), 5)]


def address(prefix, version, program, constant=None):
    constant = constant or (BECH32 if version == 0 else BECH32M)
    return write(prefix, [version] + regrouped(program), constant)


def short(length):
    """Every string of this length over the awkward alphabet."""
    for characters in itertools.product(AWKWARD, repeat=length):
        yield "".join(characters)


def some_prefix(rng, length):
    return "".join(chr(rng.randint(33, 126)) for _ in range(length)).lower()


def valid(rng):
    """A valid address or string, sometimes at a limit."""
    kind = rng.randrange(4)
    if kind == 0:
        return address(rng.choice(("bc", "tb", "bcrt", some_prefix(rng, rng.randint(1, 12)))), rng.randint(0, 16),
                       rng.randbytes(rng.choice((2, 20, 32, 40, rng.randint(1, 41)))))
    if kind == 1:
        prefix = some_prefix(rng, rng.choice((1, 83, 84, rng.randint(1, 83))))
        return write(prefix, [rng.randrange(32) for _ in range(rng.randint(0, 20))], rng.choice((BECH32, BECH32M)))
    if kind == 2:  # around 90 bytes
        program = rng.randbytes(rng.choice((20, 32, 40)))
        prefix = some_prefix(rng, max(1, 90 - 8 - len(regrouped(program)) + rng.randint(-2, 2)))
        return address(prefix, rng.randint(0, 17), program, rng.choice((None, BECH32, BECH32M)))
    total = rng.choice((1021, 1022, 1023, 1024, 1025, rng.randint(90, 1030)))
    prefix = some_prefix(rng, rng.randint(1, 83))
    return write(prefix, [rng.randrange(32) for _ in range(total - len(prefix) - 7)], rng.choice((BECH32, BECH32M)))


def damaged(rng, text):
    """A copy that is wrong in one way, or not wrong at all."""
    way = rng.randrange(10)
    at = rng.randrange(len(text))
    if way == 0:
        return text
    if way == 1:
        return text.upper()
    if way == 2:
        return text[:at] + text[at:].upper()
    if way == 3:  # one to four symbols
        for _ in range(rng.randint(1, 4)):
            at = rng.randrange(len(text))
            text = text[:at] + rng.choice(CHARSET) + text[at + 1:]
        return text
    if way == 4:
        return text[:at] + rng.choice("1bioBIO \x7f\x80\u0130\u212a\U0001f511") + text[at + 1:]
    if way == 5:
        return text[:at] + text[at + 1:]
    if way == 6:
        return text[:at] + rng.choice(CHARSET + "1") + text[at:]
    if way == 7:
        return text[at:]
    if way == 8:
        return text[:at]
    return text.replace("1", "", 1)


def symbols_of_every_length(rng, versions):
    """Addresses whose program is any number of symbols, so that every leftover comes, zero or not."""
    for count in range(0, 70):
        for version in versions:
            symbols = [rng.randrange(32) for _ in range(count)]
            for constant in (BECH32, BECH32M):
                yield write("bc", [version] + symbols, constant)
                yield write("bc", [version] + [0] * count, constant)


def stream(rng):
    """Without end."""
    while True:
        yield damaged(rng, valid(rng))


def seeded(seed):
    return random.Random(seed)
