"""The public functions of the libraries, as their sources have them: for tools/promises, outcomes and cface."""
import collections
import glob
import os
import re

from common import ITEM, code, listed, past, read

CLAUSE = re.compile(r'\s*\b(requires|ensures)\b\*?\s*(\w*)[^{]*\{')

# name: crate::module::function; clauses: (kind, name or '', text) in order; params: (name, type) in order; answers: whether it returns a value;
# types: its type parameters, as they are written
Function = collections.namedtuple('Function', 'name clauses params answers types', defaults=('',))


def parameters(text):
    """The parameters between a function's brackets: a comma within brackets of a type ends none."""
    depth, parts = 0, ['']
    for c in text:
        depth += (c in '([<') - (c in ')]>')
        if c == ',' and not depth:
            parts.append('')
        else:
            parts[-1] += c
    for part in parts:
        name, _, kind = (p.strip() for p in part.partition(':'))
        if name:
            yield name.removeprefix('mut '), kind


def clauses(text, at):
    """The clauses of the function whose name ends at AT, as (kind, name, text), and the place after its body."""
    found = []
    while at < len(text):
        m = CLAUSE.match(text, at)
        if m:
            end = past(text, m.end() - 1)
            found.append((m[1], m[2], text[m.end():end - 1]))
            at = end
        elif text[at] == '{':
            return found, past(text, at)
        elif text[at] == ';':
            break
        else:
            at = past(text, at) if text[at] in '([' else at + 1
    return found, None


def in_name(kind):
    """A type as the kit writes it into a name: [u32; 6] is ArrayU326."""
    return ''.join(w[0].upper() + w[1:] for w in re.findall(r'\w+', f'Array {kind}' if kind.startswith('[') else kind))


CONVERSION = re.compile(r'^impl (From|TryFrom)<([^>]*)> for (\w+) \{\n(.*?)^\}', re.M | re.S)


def conversions(home, text):
    """The conversions that a file's types have by From and TryFrom: their contract is the ghost member, a relation of what goes in and what comes out."""
    for trait, source, target, body in CONVERSION.findall(text):
        put, got, says = re.search(r'_gives = \{ λ (\w+) (\w+)\. (.*) \};', body).groups()
        told = re.sub(rf'(?<![\w.]){got}(?![\w.])', 'result', says)
        method = {'From': 'from', 'TryFrom': 'try_from'}[trait]
        yield Function('::'.join(home + [in_name(target) + trait + in_name(source), method]), [('ensures', '', told)], [(put, source)], True)


TRAIT = re.compile(r'^pub trait (\w+)[^{]*\{\n(.*?)^\}', re.M | re.S)
METHOD = re.compile(r'^    (?:unsafe )?fn (\w+)', re.M)
IMPL = re.compile(r'^impl(?:<[^{]*?>)? (?:\w+::)*(\w+) for ([^{]+?) \{\n(.*?)^\}', re.M | re.S)


def traits():
    """The public traits of the libraries: name -> its methods, each with its clauses."""
    texts = (code(read(f)) for crate in libraries() for f in sorted(glob.glob(f'crates/{crate}/src/**/*.rt', recursive=True)))
    return {name: {m[1]: clauses(body, m.end())[0] for m in METHOD.finditer(body)} for text in texts for name, body in TRAIT.findall(text)}


def methods(home, text, known):
    """The methods that a file's types have by a public trait: they promise the trait's clauses, with the type's own ghost members in them."""
    for trait, kind, body in IMPL.findall(text):
        ghosts = dict(re.findall(r'^    ghost (\w+) = \{ (.*) \};', body, re.M))
        for method, told in known.get(trait, {}).items():
            says = [(k, name, re.sub(r'\b\w+\b', lambda w: ghosts.get(w[0], w[0]), clause)) for k, name, clause in told]
            yield Function('::'.join(home + [in_name(kind) + trait, method]), says, [('self', kind)], True)


def libraries():
    """The library crates that crates.txt lists, in its order. A static library only hands on what a library has, and nothing can stand on it."""
    return [name for name, words, _ in listed() if 'staticlib' not in words and os.path.isfile(f'crates/{name}/src/lib.rt')]


def public(crate, hidden=False):
    """Each public function of a crate; HIDDEN: each function that has a body."""
    texts = {f: code(read(f)) for f in sorted(glob.glob(f'crates/{crate}/src/**/*.rt', recursive=True))}
    whole = '\n'.join(texts.values())
    closed = set(re.findall(r'(?<!pub )\bmod\s+(\w+)\s*;', whole))
    again = ' '.join(re.findall(r'\bpub use\s([^;]*);', whole))
    known = traits()
    for file, text in texts.items():
        below = os.path.relpath(file, f'crates/{crate}/src')[:-3].split(os.sep)
        home = [] if below == ['lib'] else below
        yield from conversions([crate] + home, text)
        yield from methods([crate] + home, text, known)
        stack, at = [], 0
        while m := ITEM.search(text, at):
            at = m.end()
            if m['fn']:
                told, end = clauses(text, at)
                path = home + [s for s in stack if s] + [m['fn']]
                closed_off = any(p in closed for p in path[:-1]) and not re.search(rf'\b{m["fn"]}\b', again)
                shown = (m['access'] or '').strip() == 'pub' and not closed_off
                if end and (hidden or shown or m['c']):
                    opens = text.index('(', at)  # behind type parameters
                    behind = past(text, opens)
                    inside = text[opens + 1:behind - 1]
                    answers = text[behind:].lstrip().startswith('->')
                    types = text[at:opens].strip().removeprefix('<').removesuffix('>')
                    yield Function('::'.join([crate] + path), told, list(parameters(inside)), answers, types)
                at = end or at
            elif m.group() == '}':
                stack[-1:] = []
            else:
                stack.append(m['mod'] or m['impl'])
