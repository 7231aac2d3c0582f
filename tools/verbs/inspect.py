"""inspect FOLDER            what stands in FOLDER/image.bin, whose geometry is FOLDER/geometry.bin
inspect GEOMETRY IMAGE    the same of two files

A line a block: its number, kind, erase count, used bytes, and whether objects may be allocated in it; or `refused` and a number. Behind it a
line an object: block, offset, type, state and payload size, or `-` for a size that is not set. docs/FORMAT.md has the bytes and the numbers."""
import os
import re

from verbs import dump, program

NUMBERED = re.compile(rb'^(block|object) (\d+)', re.M)


def files_of(words):
    if len(words) == 1:
        return [os.path.join(words[0], name) for name in ('geometry.bin', 'image.bin')]
    if len(words) == 2:
        return words
    raise program.Failed('usage: stumpchoir inspect FOLDER, or stumpchoir inspect GEOMETRY IMAGE')


def renumbered(said, first):
    """The lines of a part of a dump whose block 0 is the dump's block FIRST."""
    return NUMBERED.sub(lambda m: b'%s %d' % (m[1], int(m[2]) + first), said)


def inspect_parts(whole, write, room=dump.BUFFER):
    """As many blocks at a time as the program's buffer holds."""
    step = room // whole.size
    for first in range(0, whole.count, step):
        said = whole.say('inspector', range(first, min(first + step, whole.count)))
        if program.status(said):
            raise program.Failed(f'blocks from {first} on, handed over by themselves: {said.decode().strip()}')
        write(renumbered(said, first))
    return 0


def run(words, write):
    geometry, image = files_of(words)
    program.prove('inspector')
    said = program.run('inspector', [geometry, image])
    whole = dump.too_long(said, geometry, image)
    if whole:
        return inspect_parts(whole, write)
    write(said)
    return program.status(said)
