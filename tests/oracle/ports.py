"""The cases of crates/port_replay, and what the Rust answers. See PORTS.md."""

import build
import cases
import inputs
from bip350 import BECH32, BECH32M

PREFIXES = ("bc", "BC", "tb", "TB", "bcrt", "BCRT", "b", "bcr", "bcrtt", "BD", "1", "~", "A[", "`", "x" * 83, "X" * 82 + "Y")
NO_PREFIXES = ("", "x" * 84, "a b", "a\x7f", "aB", "\u00e9")


def case(kind, number, a, b=b""):
    a, b = (s.encode() if isinstance(s, str) else s for s in (a, b))
    return kind.encode() + bytes([number]) + len(a).to_bytes(2, "little") + len(b).to_bytes(2, "little") + a + b


def reading(rng):
    """Strings: document 01's, then with numbers of symbols around the room, around each limit, and valid and damaged ones."""
    yield from (text for text, _ in cases.CASES)
    for constant in (BECH32, BECH32M):
        yield from (inputs.write("a", [rng.randrange(32) for _ in range(count)], constant) for count in (0, 1, 63, 64, 65))
        yield from (inputs.write("a" * 83, [rng.randrange(32) for _ in range(total - 90)], constant).upper() for total in (90, 91, 1023, 1024))
        yield from (inputs.write(prefix, [rng.randrange(32)], constant) for prefix in ("", "a" * 84))
    for turn in range(150):
        text = inputs.valid(rng)
        while len(text) > 200:
            text = inputs.valid(rng)
        yield inputs.damaged(rng, text) if turn % 2 else text


def writing(rng):
    """(version, prefix, bytes): each program length, each version, totals around the room, 90 and 1023, and what is no prefix."""
    for length in range(43):
        yield rng.choice((0, 1, 16)), rng.choice(("bc", "TB", "bcrt")), rng.randbytes(length)
    for version in range(32):
        yield version, "bc", rng.randbytes(rng.choice((2, 20, 32, 40)))
    for total in (63, 64, 65, 89, 90, 91):
        yield 0, inputs.some_prefix(rng, total - 60), rng.randbytes(32)
    for length in (582, 583, 584, 629, 630, 631, 632, 633, 634):
        yield 0, inputs.some_prefix(rng, 83 if length < 600 else 5), rng.randbytes(length)
    for prefix in NO_PREFIXES:
        yield 0, prefix, rng.randbytes(20)
        yield 17, prefix, rng.randbytes(41)


def regrouping(rng):
    """(symbols, bytes) of each length to 40, and around the room; leftover bits random, and zero."""
    for length in [*range(41), 101, 102, 103, 104, 105]:
        yield bytes(rng.randrange(32) for _ in range(length)), rng.randbytes(length)
        yield bytes(rng.randrange(32) for _ in range(max(length - 1, 0))) + bytes(min(length, 1)), rng.randbytes(length // 2)


def given():
    rng = inputs.seeded(15)
    return b"".join([*(case("r", 0, text) for text in reading(rng)), *(case("w", *words) for words in writing(rng)),
                     *(case("p", 0, a, b) for a in PREFIXES for b in PREFIXES), *(case("i", 0, *lists) for lists in regrouping(rng))])


def made():
    stdin = given()
    folder = build.ROOT / "crates/port_replay"
    return {folder / "stdin": stdin, folder / "stdout": build.printed("ports", given=stdin)}
