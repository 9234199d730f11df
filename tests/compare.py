"""Holds what our readers give to what they should give. Each function gives what is wrong, or None."""

ROOM = 1024


def address_problem(ours, text, number, version, program):
    """Segwit reading: verdict alone, with ample room, with just enough and with one byte too few."""
    if ours.check_address(text) != (number, version, len(program)):
        return f"check_address gives {ours.check_address(text)}"
    for room in {ROOM, len(program)}:
        wanted = number, version, len(program), program + b"\xaa" * (room - len(program))
        if ours.read_address(text, room) != wanted:
            return f"read_address in {room} gives {ours.read_address(text, room)}"
    if number == 0 and ours.read_address(text, len(program) - 1) != (17, 0, 0, b"\xaa" * (len(program) - 1)):
        return "a room one byte too small is not refused with 17"
    return None


def string_problem(ours, code, text, number, prefix, part, content):
    """Generic reading: the parts of the caller's own text, and its bytes with ample room, with just enough and with one byte too few."""
    got, prefix_length, part_length = ours.read(code, text)
    if (got, prefix_length, part_length) != (number, len(prefix), len(part)):
        return f"read gives {got} {prefix_length} {part_length}"
    if number == 0:
        start = prefix_length + 1
        if text[:prefix_length].lower() != prefix or text[start:start + part_length] != part:
            return "the parts of the text are others"
    for room in {ROOM, len(content)}:
        if ours.read_bytes(code, text, room) != (number, len(content), content + b"\xaa" * (room - len(content))):
            return f"read_bytes in {room} gives {ours.read_bytes(code, text, room)}"
    if content and ours.read_bytes(code, text, len(content) - 1) != (17, 0, b"\xaa" * (len(content) - 1)):
        return "a room one byte too small is not refused with 17"
    return None
