"""streets FOLDER            the streets of FOLDER/image.bin by their names, and which of them stand more than once

A street is a file. A line for each, in the order in which the store looks them up: `street`, the block and offset of its metadata object, its
size in bytes, and its name, which is all that follows. Behind them a line for each name that stands more than once, with the places:
`twice 0 30 2 8 Am Markt`, `3 times ..`. The last line says how many streets there are, how many names stand more than once, and whether the
list is complete. Where a name cannot be read (`nameless`) or a block cannot be listed to its end (`unlisted`), a line says the place and why,
the list goes on behind it, the last line says `not complete`, and the status is 2.

Printable ASCII stands as it is in a name, but for the backslash, which is \\\\; any other byte is \\x and two digits."""
from verbs import host, program


def run(words, write):
    if len(words) != 1:
        raise program.Failed('usage: stumpchoir streets FOLDER')
    return host.run(['streets', *words], write)
