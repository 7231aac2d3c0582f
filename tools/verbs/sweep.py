"""sweep FOLDER [--dry-run] [--out FILE]    what a sweep of FOLDER/image.bin would delete; with --out the swept image, in FILE

A sweep tidies up after power cuts. Of metadata objects that are equal in type and content (twins: the street stands twice) the first stays,
and the others are deleted; then each finished name and content that belongs to no street. Every street is found and read as before.

A line for each object that is deleted: `twin`, its block and offset, `of`, the block and offset of the one that stays, and the street's name,
which is all that follows (`nameless .. refused N` where it cannot be read); `unreferred`, its block and offset, its type, its size, and behind
a FileName the name. Then `twins N unreferred N`, how many there are of each, the same in words, and what was written. Names are printed as
`streets` prints them.

Without --out nothing is written; --dry-run says the same aloud, and does not go with --out. With --out the swept image is written to FILE, whole or
not at all. A FILE that is there already is never written over, and so neither is the input. Options may stand before or behind FOLDER; behind `--`
a folder's name may begin with a dash.

What stays: a street whose two metadata objects differ, as a cut in changing it or in moving a content leaves them (`streets` shows it as
`twice`); unfinished objects; and the room of what was deleted, which only the collector gets back. A store in which a block cannot be listed
(`refused 2`), or in which metadata refers to what is not there (`refused 14`), is not swept, nor is one with the strict mark (`refused 14` too);
standard error says why and where, and the status is 2."""
import argparse
import os
import tempfile

from verbs import host, program


class Words(argparse.ArgumentParser):
    def error(self, message):
        raise program.Failed(f'{message}\nusage: stumpchoir sweep FOLDER [--dry-run] [--out FILE]')


def arguments(words):
    parser = Words(add_help=False, allow_abbrev=False)
    parser.add_argument('FOLDER')
    written = parser.add_mutually_exclusive_group()
    written.add_argument('--dry-run', action='store_true')
    written.add_argument('--out', metavar='FILE')
    given = parser.parse_args(words)
    if given.out == '':
        parser.error('argument --out: the name of a file')
    return given.FOLDER, given.out


def check_new(out, folder):
    """Fails where something is there already, and first of all where it is the input."""
    for name in ('image.bin', 'geometry.bin'):
        path = os.path.join(folder, name)
        if os.path.exists(out) and os.path.exists(path) and os.path.samefile(out, path):
            raise program.Failed(f'{out}: this is {path}, and the input is not written over')
    if os.path.lexists(out):
        raise program.Failed(f'{out}: is there already, and is not written over')


def place(made, out):
    """Gives a file that is whole its name."""
    with open(made, 'rb') as f:
        os.fsync(f.fileno())
    try:
        os.link(made, out)  # other than a renaming, this never takes the place of a file that came there meanwhile
    except FileExistsError:
        raise program.Failed(f'{out}: is there already, and is not written over')
    except OSError:
        os.rename(made, out)  # a file system without links


def sweep(words, folder, write):
    return host.run(['sweep', *words], write, (folder, ('sweeping', 'swept'), 'a full image of 16 MiB takes seconds'))


def sweep_into(folder, out, write):
    check_new(out, folder)
    try:
        room = tempfile.TemporaryDirectory(prefix='.stumpchoir-', dir=os.path.dirname(out) or '.')
    except OSError as e:
        raise program.Failed(f'{out}: cannot be written: {e.strerror}')
    with room:
        made = os.path.join(room.name, 'image.bin')
        status = sweep([folder, made], folder, write)
        if status == 0:
            place(made, out)
            write(b'The swept image is in ' + os.fsencode(out) + b'.\n')
    return status


def run(words, write):
    folder, out = arguments(words)
    if out is not None:
        return sweep_into(folder, out, write)
    status = sweep([folder], folder, write)
    if status == 0:
        write(b'Nothing was written.\n')
    return status
