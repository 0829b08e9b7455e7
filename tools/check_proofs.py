#!/usr/bin/env python3
"""Checks what the documents cite, what the callable functions promise, and where definitions stand.

    tools/check_proofs.py [FILE ..]     (README.md, and of docs/ PROOFS, ARCHITECTURE, DECISIONS, DIFFERENCES and SPEED where none is named)
    tools/check_proofs.py --list        prints the callable functions, each with its file
    tools/check_proofs.py --try         shows that it finds each fault of a small crate with one of every kind (tools/callable_trial)

A citation is one or more names in backticks before a path in brackets: `decode`, `name_of` (table/specs/Decode.antt). Paths are from
the root or from crates/.
- The path must be there, and so must each other path that the text has.
- Each name must be defined in the file: a function, type or constant of a .rt file, a definition, theorem, field or module of an .antt
  file; in any other file it must stand as a word.
- Before a folder must-fail or must-fail-more the names are its edits: NAME.edit must be there, and what it replaces must
  stand in the file that it damages.
- Each must-fail edit of the crates must be cited.
Each function of a library crate that another crate or C can call (tools/callable.py finds them) must have no `requires`, say something
of its answer and of each `&mut` that it is lent, and have a row in docs/PROOFS.md under "Every callable function".
Each definition that such a contract, the claim, a statement beside it or the bench examples rest on must stand outside specs/inner, and
each other one of the library crates inside (tools/believed.py).
It prints how many names were checked, or a list of what is wrong, with status 1.
"""
import re
import shutil
import sys
import tempfile
from pathlib import Path

sys.path.insert(0, str(Path(__file__).resolve().parent))
import believed
import callable as functions

ROOT = Path(__file__).resolve().parent.parent
CITATION = re.compile(r'((?:`[^`\n]+`(?:, | and )?)+) \(([\w./-]+)\)')
PATH = re.compile(r'(?<![\w/.])(?:[\w.-]+/)+[\w.-]*\w|(?<![\w/.-])[\w-]+\.(?:antt|rt|md|py|txt|edit|png)\b')
ENDING = re.compile(r'\.(antt|rt|md|py|txt|edit|png|h|c|rs|msct|centres)$')
MADE = 'target/'  # what a build makes is not in the repository
TOP = {p.name for p in ROOT.iterdir()} | {p.name for p in (ROOT / 'crates').iterdir()}


def find(path, doc):
    """The file or folder of a path: from the root or crates/; a lone name also from docs/, include/, tools/ or the document's folder."""
    for base in (ROOT, ROOT / 'crates', ROOT / 'docs', ROOT / 'include', ROOT / 'tools', doc.parent):
        if (base / path).exists():
            return base / path
    return None


def is_defined(name, file):
    text = file.read_text()
    word = re.escape(name)
    if file.suffix == '.rt':
        return re.search(rf'\b(fn|struct|enum|const|mod)\s+{word}\b', text)
    if file.suffix == '.antt':
        return re.search(rf'^\s*((abbrev|unfoldable|pub|record|data)\s+)*{word}\s*[:({{]', text, re.M)
    return re.search(rf'(?<!\w){word}(?!\w)', text)


def edit_faults(name, folder):
    """What is wrong with an edit: it is not there, or no longer fits the file that it damages."""
    edit = folder / f'{name}.edit'
    if not edit.exists():
        return [f'no edit {name}']
    texts, damaged, old = {}, None, None
    for line in edit.read_text().splitlines():
        if line.startswith('file: '):
            damaged = folder.parent / line[6:]
            if not damaged.exists():
                return [f'the edit {name} damages {line[6:]}, which is not there']
            texts.setdefault(damaged, damaged.read_text())
        elif line.startswith('old: '):
            old = line[5:]
            if texts[damaged].count(old) != 1:
                return [f'the edit {name} replaces what does not stand once in {damaged.name}']
        elif line.startswith('new:'):
            texts[damaged] = texts[damaged].replace(old, line[4:].removeprefix(' '))
    return []


def paragraphs(lines):
    """The rows and headings of a document, and its paragraphs as one line each, with the number of the first."""
    number, words = 0, []
    for at, line in enumerate([*lines, ''], 1):
        if line and not line.startswith(('|', '#', '- ', '    ')):
            number, words = number if words else at, words + [line.strip()]
            continue
        if words:
            yield number, ' '.join(words)
        number, words = 0, []
        if line.startswith('- '):
            number, words = at, [line]
        elif line:
            yield at, line


class Check:
    """What was checked, and what is wrong."""

    def __init__(self):
        self.names = 0
        self.paths = set()
        self.edits = set()  # the must-fail edits that were cited
        self.wrong = []

    def citation(self, names, path, place):
        """Names beside a path: a list of what is wrong."""
        self.names += len(names)
        if not place.is_dir():
            return [f'{path} has no {name}' for name in names if not is_defined(name, place)]
        self.edits |= {place / f'{name}.edit' for name in names}
        return [f'{path}: {words}' for name in names for words in edit_faults(name, place)]

    def line(self, line, doc):
        faults, missing = [], set()
        cited = [(re.findall(r'`([^`]+)`', names), path) for names, path in CITATION.findall(line)]
        for names, path in cited:
            place = find(path, doc)
            if place:
                faults += self.citation(names, path, place)
            elif '/' in path or ENDING.search(path):
                missing.add(path)  # else it is a remark in brackets
        for path in PATH.findall(line):
            if (ENDING.search(path) or path.split('/')[0] in TOP) and not path.startswith(MADE):
                self.paths.add(path)
                if not find(path, doc):
                    missing.add(path)
        return faults + [f'no file {path}' for path in sorted(missing)]

    def document(self, doc):
        for number, text in paragraphs(doc.read_text().splitlines()):
            self.wrong += [f'{doc.name}:{number}: {words}' for words in self.line(text, doc)]

    def left_out(self):
        for edit in sorted((ROOT / 'crates').glob('*/must-fail*/*.edit')):
            if edit not in self.edits:
                self.wrong.append(f'{edit.relative_to(ROOT)} is not cited')


def try_itself():
    """Checks the crate of the trial, whose file `expected` has what must be found, line by line."""
    trial = ROOT / 'tools/callable_trial'
    # the sources are kept as .txt: no crate of crates.txt has them, and `rt ci` takes such a file for a lost one
    with tempfile.TemporaryDirectory() as room:
        for kept in [*trial.glob('crates/**/*.txt'), trial / 'crates.txt.txt']:
            source = Path(room) / kept.relative_to(trial).with_suffix('')
            source.parent.mkdir(parents=True, exist_ok=True)
            shutil.copy(kept, source)
        count, found = functions.faults(Path(room) / 'crates', (trial / 'PROOFS.md').read_text())
        found += believed.faults(Path(room) / 'crates')[1]
    wanted = (trial / 'expected').read_text().splitlines()
    words = [f'not found: {line}' for line in wanted if line not in found] + [f'found, but no fault: {line}' for line in found if line not in wanted]
    print('\n'.join([*words, f'trial: {count} callable functions, {len(found)} faults found, {len(words)} differences']))
    sys.exit(1 if words else 0)


def main():
    if sys.argv[1:] == ['--list']:
        for f in functions.callable_functions(ROOT / 'crates'):
            print(f'{f.file.relative_to(ROOT / "crates")}: {f.owner + "::" if f.owner else ""}{f.name}')
        return
    if sys.argv[1:] == ['--try']:
        try_itself()
    if any(a.startswith('-') for a in sys.argv[1:]):
        print(__doc__)
        sys.exit(0 if sys.argv[1:] == ['--help'] else 2)
    named = [Path(a).resolve() for a in sys.argv[1:]]
    docs = named or [ROOT / 'README.md', *(ROOT / f'docs/{name}.md' for name in ('PROOFS', 'ARCHITECTURE', 'DECISIONS', 'DIFFERENCES', 'SPEED'))]
    for doc in docs:
        if not doc.is_file():
            sys.exit(f'{doc}: no such file')
    check = Check()
    for doc in docs:
        check.document(doc)
    check.left_out()
    count, faults = functions.faults(ROOT / 'crates', (ROOT / 'docs/PROOFS.md').read_text())
    definitions, misplaced = believed.faults(ROOT / 'crates')
    check.wrong += faults + misplaced
    for line in check.wrong:
        print(line)
    cited = f'{check.names} names and {len(check.edits)} must-fail edits in {len(check.paths)} files and folders'
    print(f'{cited}, {count} callable functions and {definitions} definitions to believe checked, {len(check.wrong)} wrong')
    sys.exit(1 if check.wrong else 0)


main()
