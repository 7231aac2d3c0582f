"""01's, 7/12's and 8/12's rules read a second time, for the scripts that say what a program has to print of an image."""
import collections

from flash import *

Object = collections.namedtuple('Object', 'offset type state size')


class Refused(Exception):
    """A number; `at` is where a listing met it."""


class Reading:
    """What 01, 7/12 and 8/12 say of an image, read by itself."""

    def __init__(self, g, image):
        self.g, self.image = g, image
        self.header = 16 if g.granularity == WORD4 else (3 if g.granularity == WORD1 else 2) + g.s

    def bytes(self, block, offset, n):
        if block >= self.g.count or offset + n > self.g.size:
            raise Refused(3)
        at = block * self.g.size + offset
        return self.image[at:at + n]

    def object(self, block, offset):
        """The object at a place, None where it is free."""
        g = self.g
        marks, size_at = {BIT: ((1, 1), 2), WORD1: ((1, 2), 3), WORD4: ((4, 8), 12)}[g.granularity]
        head = self.bytes(block, offset, marks[1] + (4 if g.granularity == WORD4 else 1))
        if head[0] == 0xFF:
            self.bytes(block, offset + size_at, g.s)
            return None
        pair = tuple(head[m] for m in marks)
        state = ({(0xFF, 0xFF): 1, (0xF0, 0xF0): 2, (0, 0): 3} if g.granularity == BIT else {(0xFF, 0xFF): 1, (0, 0xFF): 2, (0, 0): 3}).get(pair)
        if head[0] not in (FILE_METADATA, FILE_DATA, FILE_NAME) or not state:
            raise Refused(2)
        field = self.bytes(block, offset + size_at, g.s)
        return Object(offset, head[0], state, None if field == b'\xff' * g.s else int.from_bytes(field, 'little'))

    def finished(self, block, offset):
        found = self.object(block, offset)
        if not found or found.state != 2:
            raise Refused(2)
        return found

    def span(self, found):
        total = self.header + (found.size or 0)
        return -(-total // 4) * 4 if self.g.granularity == WORD4 else total

    def place(self, block, offset):
        raw = self.bytes(block, offset, self.g.c + self.g.s)
        return int.from_bytes(raw[:self.g.c], 'little'), int.from_bytes(raw[self.g.c:], 'little')

    def payload(self, block, found):
        return self.bytes(block, found.offset + self.header, found.size or 0)

    def places(self, block, found):
        """Where a metadata object points to, its name's place first; None where it is no hash and whole places within its block."""
        step = self.g.c + self.g.s
        try:
            n = len(self.payload(block, found))
        except Refused:
            return None
        if n < 4 + step or (n - 4) % step:
            return None
        return [self.place(block, found.offset + self.header + at) for at in range(4, n, step)]

    def name(self, block, found):
        self.bytes(block, found.offset + self.header, 4)
        at = self.place(block, found.offset + self.header + 4)
        return self.bytes(at[0], at[1] + self.header, self.finished(*at).size or 0)

    def size(self, block, found):
        least, step, total = 4 + self.g.c + self.g.s, self.g.c + self.g.s, 0
        if found.size is None:
            return 0
        if found.size < least:
            raise Refused(9)
        for at in range(least, found.size, step):
            total += self.finished(*self.place(block, found.offset + self.header + at)).size or 0
        return total

    def is_of(self, block, kind):
        kinds = self.g.block_header(kind, 0)
        raw = self.bytes(block, 0, len(kinds))
        return raw[:4] + raw[8:] == kinds[:4] + kinds[8:]

    def listing(self, block):
        """The objects of a block in order."""
        offset = len(self.g.block_header(METADATA, 0))
        while offset + self.header < self.g.size:
            try:
                found = self.object(block, offset)
            except Refused as e:
                e.at = block, offset
                raise
            if not found:
                return
            yield found
            offset += self.span(found)

    def all_finished(self, kind):
        """Those of all blocks of a kind."""
        return [(block, found) for block in range(self.g.count) if self.is_of(block, kind) for found in self.listing(block) if found.state == 2]


def said(number):
    try:
        return str(number())
    except Refused as e:
        return f'refused {e}'


def escaped(name):
    return ''.join('\\\\' if b == 92 else chr(b) if 32 <= b < 127 else f'\\x{b:02x}' for b in name)
