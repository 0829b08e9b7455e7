"""Which definitions of specs/ a reader has to believe, read from their text: check_proofs.py uses it.

To believe are those that a contract of a callable function, the claim, the statements of what a plan leaves alone or the bench examples
cite, and those that these cite in turn.
They stand outside specs/inner; what only private functions and proofs cite stands inside. What is on the wrong side is a fault.
"""
import re
from pathlib import Path

import callable as functions

EDGE = r'[^\s(){}\[\],;.«»⌜⌝`]'
USE = re.compile(r'^(?:ghost )?(?:pub )?use Rattle\.(\w+)\.(?:specs|proofs)\.([\w.]+)\.\{([^}]*)\};?$', re.M)
# theorems in their own right
ASIDE = {('claim', *name) for name in (('Claim', 'Claim'), ('Bench', 'Bench'), ('Quiet', 'GainsAside'), ('Quiet', 'PlanAside'),
                                       ('Quiet', 'GainsAsideThroughout'))}
WHOLE = {('float', 'Nearest')}  # files of which a law in its own right speaks: that the root is the nearest float


def words(text):
    """The words of a text, but for fields and constructors, which follow a point; a `do` cites what binds its fields."""
    found = set(re.findall(rf'(?<![.·]){EDGE}+', text))
    return found | ({'◌>>=◌', '◌>>◌'} if 'do' in found else set())


def said(name):
    """How a name is written where it is used: of an operator `◌⊕◌` what stands between."""
    return name.strip('◌')


def imports(text):
    """The names that a file has from definitions: (crate, module) by name."""
    found = {}
    for crate, module, names in USE.findall(text):
        for name in names.split(','):
            was, _, here = name.strip().partition(' as ')
            found[said((here or was).strip())] = found[(here or was).strip()] = (crate, module, was.strip())
    return found


def blocks(text):
    """The definitions of a file: each block with the names that it gives."""
    for block in re.split(r'\n\s*\n', re.sub(r'^ *--.*\n', '', text, flags=re.M)):
        heads = re.findall(r'^(?:abbrev |unfoldable |opaque )?(?:pub )?(?:record |data )?(\S+)(?= [:({])', block, re.M)
        inside = re.findall(r'^  (?:pub )?(\S+) :', block, re.M) if re.search(r'\b(record|data)\b', block) else []
        if heads:
            yield heads[0], {*heads, *inside}, block


def read(crates):
    """Each definition of the crates: (crate, module, name) to its file and what it cites."""
    found, owner = {}, {}
    for file in sorted(crates.glob('*/specs/**/*.antt')):
        crate, module = file.relative_to(crates).parts[0], '.'.join(file.relative_to(crates).with_suffix('').parts[2:])
        text = file.read_text()
        known = imports(text)
        own = {key: (crate, module, head) for head, names, _ in blocks(text) for name in names for key in (name, said(name))}
        for head, names, block in blocks(text):
            key = (crate, module, head)
            owner.update({(crate, module, name): key for name in names})
            cited = {own.get(w) or known.get(w) for w in words(block)} - {None, key}
            found[key] = (file, found.get(key, (file, set()))[1] | cited)
        owner.update({(crate, module, name): place for name, place in known.items() if (crate, module, name) not in owner})
    return found, owner


def reached(crates):
    """The definitions, and those of them that are to be believed."""
    found, owner = read(crates)

    def at(place):
        while place in owner and owner[place] != place:
            place = owner[place]
        return place

    todo = [at(place) for place in ASIDE] + [key for key in found if key[:2] in WHOLE]
    for f in functions.callable_functions(crates):
        known = imports(f.file.read_text())
        todo += [at(known[w]) for _, text in f.clauses for w in words(text) if w in known]
    seen = set()
    while todo:
        key = todo.pop()
        if key in seen or key not in found:
            continue
        seen.add(key)
        todo += [at(place) for place in found[key][1]]
    return found, seen


def faults(crates):
    """How many definitions are to be believed, and those that stand on the wrong side."""
    found, seen = reached(crates)
    below = re.search(r'^sounder:(.*)$', (crates.parent / 'crates.txt').read_text(), re.M)
    libraries, wrong = {'sounder', 'claim', *below[1].split()}, []
    for key, (file, _) in sorted(found.items()):
        inner = 'inner' in file.relative_to(crates).parts or file.name == 'inner.antt'
        if key[0] in libraries and inner == (key in seen):
            side = 'is to be believed, and stands in' if inner else 'is cited by no callable function, and stands outside'
            wrong.append(f'{file.relative_to(crates).as_posix()}: {key[2]} {side} specs/inner')
    return len(seen), wrong
