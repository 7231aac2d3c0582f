"""cutmap FOLDER BLOCK OFFSET TO-BLOCK TO-OFFSET    a move of one object, as a power cut after 0, 1, 2 .. units leaves it

The object stands in FOLDER/image.bin at BLOCK and OFFSET, as `inspect` prints them; the destination is TO-BLOCK and TO-OFFSET. Nothing is
written to the files. A line for each number of units: the answer, what original and copy read as, whether they agree. The last line names
the moment of the twin."""
import os
import re

from verbs import dump, program

NAMES = ('BLOCK', 'OFFSET', 'TO-BLOCK', 'TO-OFFSET')


def number(name, word):
    if not re.fullmatch('0*[0-9]{1,10}', word, re.ASCII) or int(word) >= 2 ** 32:
        raise program.Failed(f"{name} is '{word}': it has to be a number from 0 to 4294967295")
    return int(word)


def arguments(words):
    if len(words) != 1 + len(NAMES):
        raise program.Failed(f'usage: stumpchoir cutmap FOLDER {" ".join(NAMES)}')
    return [number(name, word) for name, word in zip(NAMES, words[1:])]


def map_pair(whole, block, offset, to_block, to_offset):
    """A move touches its two blocks alone, so these are handed over. A block that the dump does not have is none there either: a dump
    that is too long has two blocks at least, and the part has two at most."""
    blocks = [b for b in dict.fromkeys((block, to_block)) if b < whole.count] or [0]
    if len(blocks) * whole.size > dump.BUFFER:
        raise program.Failed(f'a move between two blocks of {whole.size} bytes: the program holds {dump.BUFFER} bytes, so one such block')
    seen = {b: i for i, b in enumerate(blocks)}
    return whole.say('cutmap', blocks, [str(n) for n in (seen.get(block, block), offset, seen.get(to_block, to_block), to_offset)])


def run(words, write):
    places = arguments(words)
    folder = words[0]
    program.prove('cutmap')
    if not os.path.isdir(folder):
        raise program.Failed(f'{folder}: no such folder')
    said = program.run('cutmap', [str(n) for n in places], folder)
    whole = dump.too_long(said, *(os.path.join(folder, name) for name in ('geometry.bin', 'image.bin')))
    if whole:
        said = map_pair(whole, *places)
    write(said)
    return program.status(said)
