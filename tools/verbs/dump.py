"""Dumps that are longer than a program's buffer, handed to it in parts.

01 gives the programs a buffer of 65,536 bytes, and a geometry may have 16,777,216. What a program says of a block depends on granularity, widths
and strict mark and on the bytes of that block alone, so a part is some of the blocks behind a record with the same and their number as the count."""
import os
import struct
import tempfile

from verbs import program

BUFFER = 65536
REFUSED_ROOM = b'refused 7\n'


class Dump:
    """A geometry record that a program has found sound, and the image that it describes."""

    def __init__(self, record, image):
        self.laid = record[:4]
        self.size, self.count = struct.unpack_from('<II', record, 4)
        self.image = image

    def block(self, n):
        return self.image[n * self.size:(n + 1) * self.size]

    def say(self, name, blocks, words=()):
        """What the program NAME says of these blocks, which it sees as 0, 1, 2 .."""
        with tempfile.TemporaryDirectory(prefix='stumpchoir-') as room:
            with open(os.path.join(room, 'geometry.bin'), 'wb') as f:
                f.write(self.laid + struct.pack('<III', self.size, len(blocks), 0))
            with open(os.path.join(room, 'image.bin'), 'wb') as f:
                f.writelines(self.block(n) for n in blocks)
            return program.run(name, words, room)


def too_long(said, geometry, image):
    """The dump, where the program has refused it only because its image is longer than the buffer; otherwise None.

    6 comes before 7, so the record of an image that is refused with 7 is sound: what is left to test is the image's length."""
    if said != REFUSED_ROOM or os.path.getsize(image) <= BUFFER:
        return None
    with open(geometry, 'rb') as g, open(image, 'rb') as i:
        record = g.read(16)
        size, count = struct.unpack_from('<II', record, 4)
        held = i.read(size * count + 1)
    return Dump(record, held) if len(held) == size * count else None
