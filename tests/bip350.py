"""A reader of strings and segwit addresses, written from BIP-173 and BIP-350 alone: the second program that checks what ours writes.

It knows nothing of document 01's numbers: it gives what a valid string means, or None.
"""

CHARSET = "qpzry9x8gf2tvdw0s3jn54khce6mua7l"
BECH32, BECH32M = 1, 0x2BC830A3


def polymod(values):
    check = 1
    for value in values:
        top = check >> 25
        check = (check & 0x1FFFFFF) << 5 ^ value
        for bit, number in enumerate((0x3B6A57B2, 0x26508E6D, 0x1EA119FA, 0x3D4233DD, 0x2A1462B3)):
            check ^= number if top >> bit & 1 else 0
    return check


def read(text, constant, limit):
    """The prefix in lower case and the symbols before the checksum of a valid string of at most `limit` bytes."""
    if len(text) > limit or not all(33 <= byte <= 126 for byte in text):
        return None
    text = text.decode("ascii")
    if text.lower() != text and text.upper() != text:
        return None
    prefix, separator, part = text.lower().rpartition("1")
    if not separator or not 1 <= len(prefix) <= 83 or len(part) < 6 or not set(part) <= set(CHARSET):
        return None
    symbols = [CHARSET.index(character) for character in part]
    expanded = [ord(c) >> 5 for c in prefix] + [0] + [ord(c) & 31 for c in prefix]
    if polymod(expanded + symbols) != constant:
        return None
    return prefix.encode(), symbols[:-6]


def to_bytes(symbols):
    """The whole bytes of symbols, most significant bit first, and the bits left over as a text of 0 and 1."""
    bits = "".join(format(symbol, "05b") for symbol in symbols)
    whole = len(bits) // 8 * 8
    return bytes(int(bits[at:at + 8], 2) for at in range(0, whole, 8)), bits[whole:]


def read_address(text):
    """(prefix, version, program) of a valid address, whatever its prefix."""
    for constant in (BECH32, BECH32M):
        found = read(text, constant, 90)
        if not found or not found[1]:
            continue
        prefix, (version, *symbols) = found
        if version > 16 or (constant == BECH32) != (version == 0):
            continue
        program, left = to_bytes(symbols)
        if len(left) > 4 or "1" in left or not 2 <= len(program) <= 40:
            continue
        if version == 0 and len(program) not in (20, 32):
            continue
        return prefix, version, program
    return None
