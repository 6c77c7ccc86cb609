"""Frames as lines of hexadecimal."""

from floors import Refused

MOST_CHARACTERS = 80
DIGITS = "0123456789abcdef"

# kind: the frame's word and the number of bytes of each field
KINDS = {
    0x4D: ("map", (2, 1, 1)),
    0x4E: ("node", (2, 2)),
    0x50: ("packet", (1, 1)),
    0x57: ("withdraw", (1,)),
    0x52: ("return", (1,)),
    0x48: ("hop", (1, 1)),
    0x44: ("end", (1, 1, 1, 2)),
}


def read(line):
    """The word and the fields of a frame."""
    if len(line) > MOST_CHARACTERS:
        raise Refused(10)
    for place, character in enumerate(line):
        if character not in DIGITS:
            raise Refused(11, place)
    if len(line) % 2:
        raise Refused(12)
    data = bytes.fromhex(line)
    if len(data) < 2:
        raise Refused(13)
    if sum(data[:-1]) % 256 != data[-1]:
        raise Refused(14)
    if data[0] not in KINDS:
        raise Refused(15)
    word, sizes = KINDS[data[0]]
    if len(data) != sum(sizes) + 2:
        raise Refused(16)
    fields, place = [], 1
    for size in sizes:
        fields.append(int.from_bytes(data[place:place + size], "big"))
        place += size
    return word, fields


def write(word, fields, room=MOST_CHARACTERS):
    """The line of a frame, refused when it is longer than the room for it."""
    kind, sizes = next((kind, sizes) for kind, (name, sizes) in KINDS.items() if name == word)
    data = bytes([kind]) + b"".join(field.to_bytes(size, "big") for field, size in zip(fields, sizes))
    line = (data + bytes([sum(data) % 256])).hex()
    if len(line) > room:
        raise Refused(17)
    return line
