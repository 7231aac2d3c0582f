"""01's byte layouts, for the scripts that make images: geometry records, blocks and objects under each granularity."""

BIT, WORD1, WORD4 = 0, 1, 4
METADATA, DATA, UNDEFINED = 0x55, 0xAA, 0xFF
FILE_METADATA, FILE_DATA, FILE_NAME = 0x8F, 0x8E, 0x8D


def low_first(n, width):
    return n.to_bytes(width, "little")


class Geometry:
    def __init__(self, granularity, size, count, s=1, c=1, strict=0):
        self.granularity, self.size, self.count, self.s, self.c, self.strict = granularity, size, count, s, c, strict

    def record(self):
        """The 16-byte record."""
        return bytes([self.granularity, self.s, self.c, self.strict]) + low_first(self.size, 4) + low_first(self.count, 4) + bytes(4)

    def block_header(self, kind, erases):
        layout = self.s * 64 + self.c * 4 + (0 if self.granularity == BIT else 1)
        if self.granularity == WORD4:
            return bytes([0xBA, 0x01, layout, 0xFF]) + low_first(erases, 4) + bytes([kind, 0xFF, 0xFF, 0xFF])
        return bytes([0xBA, 0x01, layout, kind]) + low_first(erases, 4)

    def object(self, kind, payload, state="finalized", size="set"):
        """An object's bytes, padded to whole units: state "allocated", "finalized" or "deleted"; size "set" or "unset"."""
        marks = {"allocated": (0xFF, 0xFF), "finalized": (0x00, 0xFF), "deleted": (0x00, 0x00)}[state]
        field = low_first(len(payload), self.s) if size == "set" else b"\xff" * self.s
        if self.granularity == BIT:
            head = bytes([kind, {"allocated": 0xFF, "finalized": 0xF0, "deleted": 0x00}[state]]) + field
        elif self.granularity == WORD1:
            head = bytes([kind, *marks]) + field
        else:
            word = lambda b: bytes([b, 0xFF, 0xFF, 0xFF])
            head = word(kind) + word(marks[0]) + word(marks[1]) + field + b"\xff" * (4 - self.s)
        whole = head + payload
        unit = 4 if self.granularity == WORD4 else 1
        return whole + b"\xff" * (-len(whole) % unit)

    def block(self, *parts):
        """A block of these bytes, and FF behind them."""
        raw = b"".join(parts)
        assert len(raw) <= self.size, (len(raw), self.size)
        return raw + b"\xff" * (self.size - len(raw))

    def location(self, block, offset):
        return low_first(block, self.c) + low_first(offset, self.s)
