"""What command-cases and host-cases share: dumps that are made for one run of ./stumpchoir, and its output, message and status compared."""
import os
import re
import subprocess
import sys
import tempfile

from verbs import program

COMMAND = [os.path.join(program.ROOT, 'stumpchoir')]
ROOM = tempfile.TemporaryDirectory(prefix='command-cases-')
counts = {'passed': 0, 'failed': 0}


def folder(g, image):
    """A new folder with a dump."""
    path = tempfile.mkdtemp(dir=ROOM.name)
    for name, raw in (('geometry.bin', g.record()), ('image.bin', image)):
        with open(os.path.join(path, name), 'wb') as f:
            f.write(raw)
    return path


def text_of(path):
    with open(os.path.join(program.ROOT, path), encoding='utf-8') as f:
        return f.read()


def judge(name, wanted, got):
    counts['passed' if wanted == got else 'failed'] += 1
    if wanted != got:
        print(f'{os.path.basename(sys.argv[0])}: {name}: wanted {str(wanted)[:400]}\n  and got {str(got)[:400]}')


def case(name, words, status, lines='', said='', **how):
    """A run of the command: its status, its lines, and words of its message."""
    ended = subprocess.run(COMMAND + [str(w) for w in words], stderr=subprocess.PIPE, text=True,
                           **{'stdout': subprocess.PIPE, 'cwd': program.ROOT, **how})
    got = (ended.returncode, ended.stdout or '', said in ended.stderr and bool(said) == bool(ended.stderr))
    judge(name, (status, lines, True), got)


def unwritable(words):
    """Output that cannot be written is told, and no silence."""
    with open('/dev/full', 'w') as full:
        case('a full disk', words, 1, said='cannot be written: No space left', stdout=full)
    unread, written = os.pipe()
    os.close(unread)
    case('a closed pipe', words, 1, said='cannot be written: Broken pipe', stdout=written)
    os.close(written)
    case('no output', words, 1, said='Bad file descriptor', preexec_fn=lambda: os.close(1))


def shown(path, command):
    """The lines that a document shows below a command, indented as the command is."""
    found = re.search(rf'^    {re.escape(command)}\n((?:    .*\n)+)', text_of(path), re.M)
    return re.sub(r'^    ', '', found[1], flags=re.M) if found else f'{path} shows no {command}'


def run_groups(groups):
    """The status of a script of cases."""
    for group in groups:
        group()
    ROOM.cleanup()
    print(f'{os.path.basename(sys.argv[0])}: {counts["passed"]} passed, {counts["failed"]} failed')
    return 1 if counts['failed'] or not counts['passed'] else 0
