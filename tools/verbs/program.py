"""The proved programs: proving what one of them stands on, and running it."""
import fcntl
import os
import shutil
import subprocess
import sys
import time

ROOT = os.path.dirname(os.path.dirname(os.path.dirname(os.path.realpath(__file__))))


class Failed(Exception):
    """What went wrong, for standard error: the command ends with 1."""


def note(words):
    print(f'stumpchoir: {words}', file=sys.stderr, flush=True)


def dependencies():
    """The crates of crates.txt, each with those of the repository that it stands on."""
    with open(os.path.join(ROOT, 'crates.txt'), encoding='utf-8') as f:
        lines = [line.split('#')[0].partition(':') for line in f]
    listed = {name.split()[0]: below.split() for name, _, below in lines if name.strip()}  # `staticlib` may stand behind the name
    return {name: [d for d in below if d in listed] for name, below in listed.items()}


def levels(name):
    """What NAME stands on and then itself, in groups: the crates of one group need nothing of each other."""
    below, level = dependencies(), {}

    def visit(crate):
        if crate not in level:
            level[crate] = 1 + max((visit(d) for d in below[crate]), default=-1)
        return level[crate]

    visit(name)
    return [[c for c in level if level[c] == n] for n in range(level[name] + 1)]


class Told:
    """Work that may take long, told on standard error: after three seconds, then each minute, and its end where it was told. DOING is what
    one says while it is done, and then."""
    FIRST, AGAIN = 3, 60

    def __init__(self, what, doing, place):
        self.what, self.doing, self.place = what, doing, place
        self.began, self.told = time.time(), False

    def wait(self):
        """Seconds until there is more to tell."""
        return self.AGAIN if self.told else self.FIRST

    def more(self):
        took = f', {time.time() - self.began:.0f} s so far' if self.told else f' ({self.place})'
        note(f'{self.doing[0]} {self.what}{took} ..')
        self.told = True

    def done(self):
        if self.told:
            note(f'{self.doing[1]} {self.what} in {time.time() - self.began:.0f} s')


def work(command, what, doing, place, folder='', sign=None):
    """Runs a command in a folder of the repository. What it does is told once it takes longer than a look at unchanged files. It went well where
    its status is 0, or where a line begins with SIGN."""
    run = subprocess.Popen(command, cwd=os.path.join(ROOT, folder), stdin=subprocess.DEVNULL, stdout=subprocess.PIPE, stderr=subprocess.STDOUT,
                           text=True, errors='replace')
    told = Told(what, doing, place)
    while True:
        try:
            said, _ = run.communicate(timeout=told.wait())
            break
        except subprocess.TimeoutExpired:
            told.more()
    well = any(line.startswith(sign) for line in said.splitlines()) if sign else run.returncode == 0
    if not well:
        raise Failed(f'{what}: not {doing[1]}. The last lines of `{" ".join(command)}`:\n' + '\n'.join(said.splitlines()[-5:]))
    told.done()


def able_to_prove():
    """Without its folders `rt` would go by what an earlier run left there."""
    if not shutil.which('rt'):
        raise Failed('no rt on PATH: install the Rattle kit and put its bin folder there')
    for folder in (os.path.join(ROOT, 'crates'), os.path.join(ROOT, 'target')):
        if not os.access(folder if os.path.exists(folder) else ROOT, os.W_OK):
            raise Failed(f'{folder}: this user cannot write there, and rt keeps its proofs in the crates: work in a copy of your own')


def program(name):
    """The program, which `rt run` and `rt ci` make, each once it is proved."""
    return os.path.join(ROOT, 'crates', name, 'out', name)


def is_made(made, name, parts):
    """Whether a file is there, and in none of the crates that NAME stands on, nor in itself, a file of these parts is newer."""
    crates = [os.path.join(ROOT, 'crates', crate) for names in levels(name) for crate in names]
    files = [os.path.join(at, file) for crate in crates for part in parts for at, _, found in os.walk(os.path.join(crate, part)) for file in ['.', *found]]
    return os.path.exists(made) and all(os.path.getmtime(path) <= os.path.getmtime(made) for path in files)


def prove(name):
    """Has the program made by `rt`, which proves again only what changed since."""
    able_to_prove()
    with open(os.path.join(ROOT, 'crates.txt'), encoding='utf-8') as lock:
        fcntl.flock(lock, fcntl.LOCK_EX)  # two proofs at once would write the same files
        if not is_made(program(name), name, ('src', 'specs', 'proofs')):
            # rt also runs it; whatever it then says of a folder without a dump, it was proved and compiled
            work(['rt', 'run'], name, ('proving', 'proved'), 'and what it stands on; some minutes, the first time only', f'crates/{name}', f'rt: running out/{name}')
            os.utime(program(name))


def run(name, words=(), folder=None):
    """What the program writes to standard output. What it says on standard error is a failure."""
    words = [os.path.join(ROOT, 'tools', 'run-program'), name, *words]
    ended = subprocess.run(words, cwd=folder, stdin=subprocess.DEVNULL, stdout=subprocess.PIPE, stderr=subprocess.PIPE)
    if ended.stderr:
        raise Failed(ended.stderr.decode(errors='replace').strip())
    if ended.returncode:
        raise Failed(f'{name} ended with status {ended.returncode}')
    return ended.stdout


def status(said):
    """2 where the program refused the whole input, which is then all that it says."""
    return 2 if said.startswith(b'refused ') else 0
