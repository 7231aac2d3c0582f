"""The host program (host/): making the library for C that it is linked with, compiling it, and running it."""
import fcntl
import glob
import os
import select
import subprocess
import tempfile

from verbs import program


def interface():
    """The crates that the C interface is in: beside each is a thin one, whose archive it is."""
    return sorted(os.path.basename(path)[:-2] for path in glob.glob(os.path.join(program.ROOT, 'crates', 'cface*_c')))


def is_made(crate):
    """Whether the crate's archive is there, and no code below it is newer."""
    return program.is_made(os.path.join(program.ROOT, 'target', 'staticlib', f'lib{crate}.a'), f'{crate}_c', ('src',))


def make_library():
    missing = [crate for crate in interface() if not is_made(crate)]
    if missing:
        program.able_to_prove()
    for i, crate in enumerate(missing, 1):
        program.work(['tools/library', crate], f'the library for C: {crate}', ('making', 'made'), f'step {i} of {len(missing)}; some minutes')


def make():
    """Has the program made of what there is now; what did not change is not made again."""
    with open(os.path.join(program.ROOT, 'crates.txt'), encoding='utf-8') as lock:
        fcntl.flock(lock, fcntl.LOCK_EX)  # as in a proof: two at once would write the same files
        make_library()
        program.work(['tools/host-program', '--make'], 'the host program', ('compiling', 'compiled'), 'the first time only')


def pieces(pipe, told=None):
    """What comes through a pipe, piece by piece."""
    while True:
        if not select.select([pipe], [], [], told and told.wait())[0]:
            told.more()
        elif piece := os.read(pipe.fileno(), 65536):
            yield piece
        else:
            return


def run(words, write, long=()):
    """Hands on what the program writes, piece by piece, and answers its status. What it says on standard error is a failure, but where the
    input is refused, of which it may say more there. LONG is what to tell of a long run, as for `Told`."""
    make()
    command = [os.path.join(program.ROOT, 'tools', 'host-program'), *words]
    told = program.Told(*long) if long else None
    with tempfile.TemporaryFile() as message:
        with subprocess.Popen(command, stdin=subprocess.DEVNULL, stdout=subprocess.PIPE, stderr=message) as running:
            try:
                for piece in pieces(running.stdout, told):
                    write(piece)
            except BaseException:
                running.kill()
                raise
        message.seek(0)
        said = message.read().decode(errors='replace').strip()
    if running.returncode not in (0, 2) or said and running.returncode == 0:
        raise program.Failed(said or f'the host program ended with status {running.returncode}')
    if said:
        program.note(said)
    elif told:
        told.done()
    return running.returncode
