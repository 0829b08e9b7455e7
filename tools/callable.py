"""The callable functions of the library crates (those with src/lib.rt), read from their text: check_proofs.py uses it.

A function is callable where another crate can name it: `pub fn` in a file that a chain of `pub mod` opens from lib.rt, or whose name a
`pub use` hands out; a method where its type is so, wherever the method stands; each `extern "C"`, which the linker hands out; and the `from` or
`default` that a type of the crate has by an `impl` of From or Default, which is no `pub fn`, and whose promise the impl's own law is.
It reads text only, and does not read every form of Rattle: one that it would misread is a fault (`unread`), so that nothing is passed
over. A contract that speaks of an answer may still say too little, which the edits of must-fail are for.
"""
import re
from dataclasses import dataclass
from pathlib import Path

WORD = re.compile(r'\b(fn|impl)\b')
HIDDEN = re.compile(r"""//[^\n]*|\bb"(?:\\.|[^"\\])*"|\bb'(?:\\.[^']*|[^'])'""")
NAMED = re.compile(r'\s*([\w:]+)::(?:(\w+)|\{([\w\s,]*)\})\s*;')  # one name, or several of one file, of a `pub use`
HEAD = re.compile(r'\s*(?:<[^>]*>)?\s*(?:([\w:]+)(?:<([\w:]*)[^>]*>)?\s+for\s+)?(\w+)')  # of an `impl`: a trait, what it is of, and the type
LAW = re.compile(r'\bghost\s+\w+\s*=\s*(?=\{)')
CLAUSE = re.compile(r'\s*(requires|ensures)\b[^{]*(?=\{)')


@dataclass
class Function:
    file: Path
    name: str
    owner: str  # the type whose method it is, or ''
    is_pub: bool
    is_extern: bool
    params: str
    answer: str
    clauses: list  # (requires or ensures, text)
    trait: str = ''  # of an `impl` of a trait: the trait, what it is of, and whether the impl states a law
    of: str = ''
    has_law: bool = False

    def lent(self):
        """The arguments that it may write to."""
        names = re.findall(r"(\w+)\s*:\s*&\s*(?:'\w+\s+)?mut\b", self.params)
        return names + (['self'] if re.search(r"&\s*(?:'\w+\s+)?mut\s+self\b", self.params) else [])

    def faults(self):
        """What its contract lacks."""
        promised = [text for kind, text in self.clauses if kind == 'ensures']
        found = ['has a `requires`'] if any(kind == 'requires' for kind, _ in self.clauses) else []
        if self.answer and not self.has_law and not any(map(speaks_of_answer, promised)):
            found.append('says nothing of its answer')
        for name in self.lent():
            if not any(re.search(rf'(?<![\w.]){name}\.new\b', text) for text in promised):
                found.append(f'says nothing of `{name}` at the return')
        return found


def speaks_of_answer(clause):
    """Whether a clause `{ .. }` has its answer, `result`, in it."""
    return re.search(r'(?<![\w.-])result(?![\w-])', clause) is not None


def plain(file):
    """A file's text without its comments and without its byte strings and characters, each place as far along as before."""
    return HIDDEN.sub(lambda m: ' ' * len(m[0]), file.read_text())


def unread(file, src):
    """The forms of a file that this reading does not follow."""
    text, found = plain(file), []
    if '/*' in text:
        found.append('has a comment that is not a line\'s')
    if re.search(r'\bpub\s+type\b', text):
        found.append('hands out a type by another name (`pub type`)')
    for m in re.finditer(r'\bpub\s+use\b', text):
        named = NAMED.match(text, m.end())
        path = [x for x in named[1].split('::') if x != 'crate'] if named else ['super']
        if 'super' in path or 'self' in path:
            found.append(f'has a `pub use` of another form: {" ".join(text[m.start():text.find(";", m.end())].split())}')
            continue
        used = module(src.joinpath(*path[:-1]), path[-1])
        for name in handed(named) if used else ():
            if not re.search(rf'\bpub\s+(?:fn|struct|enum|const)\s+{name}\b', plain(used)):
                found.append(f'hands out {name}, which is not defined in {used.relative_to(src).as_posix()}')
    return found


def module(folder, name):
    """The file of a module, where it is one of the crate's own."""
    return next((f for f in (folder / f'{name}.rt', folder / name / 'mod.rt') if f.exists()), None)


def handed(named):
    """The names of a `pub use`."""
    return {x.strip() for x in (named[2] or named[3]).split(',') if x.strip()}


def closed(text, at, pair):
    """The place after the bracket that closes the one at `at`."""
    depth = 0
    for i in range(at, len(text)):
        depth += (text[i] == pair[0]) - (text[i] == pair[1])
        if depth == 0:
            return i + 1
    return len(text)


def functions(file):
    """Each function of a file; a body is passed over."""
    text = plain(file)
    at, owner, owner_end, head, has_law = 0, '', 0, None, False
    while m := WORD.search(text, at):
        if m[1] == 'impl':
            brace = text.index('{', m.end())
            head = HEAD.match(text[m.end():brace])
            owner, owner_end = head[3], closed(text, brace, '{}')
            has_law, at = LAW.search(text, brace, owner_end) is not None, brace + 1
            continue
        before = text[text.rfind('\n', 0, m.start()) + 1:m.start()]
        name = re.match(r'\s*(\w+)', text[m.end():])
        if not name or before.lstrip().startswith('ghost'):
            at = m.end()
            continue
        bracket = text.index('(', m.end())
        end = closed(text, bracket, '()')
        arrow = re.compile(r'\s*->\s*(.*?)(?=\s*(?:\brequires\b|\bensures\b|\{))', re.S).match(text, end)
        at, clauses = arrow.end() if arrow else end, []
        while clause := CLAUSE.match(text, at):
            at = closed(text, clause.end(), '{}')
            clauses.append((clause[1], text[clause.end():at]))
        body = text.find('{', at)
        is_method = m.start() < owner_end
        trait, of = (head[1] or '', head[2] or '') if is_method else ('', '')
        yield Function(file, name[1], owner if is_method else '', 'pub' in before.split(), 'extern' in before.split(),
                       text[bracket:end], arrow[1].strip() if arrow else '', clauses, trait, of, bool(trait) and has_law)
        at = closed(text, body, '{}') if body >= 0 else len(text)


def opened(src):
    """The files of src/ that `pub mod` opens, and the names that `pub use` hands out, by file."""
    files, names, todo = {src / 'lib.rt'}, {}, [(src / 'lib.rt', src, True)]
    while todo:
        file, folder, is_open = todo.pop()
        text = plain(file)
        for m in re.finditer(r'^\s*(pub\s+)?mod\s+(\w+)\s*;', text, re.M):
            inner = module(folder, m[2])
            if inner:
                if is_open and m[1]:
                    files.add(inner)
                todo.append((inner, folder / m[2], is_open and bool(m[1])))
        for m in re.finditer(r'\bpub\s+use\b', text):
            named = NAMED.match(text, m.end())
            path = [x for x in named[1].split('::') if x != 'crate'] if named else []
            used = module(src.joinpath(*path[:-1]), path[-1]) if path else None
            if is_open and used:
                names.setdefault(used, set()).update(handed(named))
    return files, names


def types(files, names):
    """The types that another crate can name."""
    found = set().union(*names.values()) if names else set()
    for file in files:
        found |= set(re.findall(r'\bpub\s+(?:struct|enum)\s+(\w+)', plain(file)))
    return found


def callable_functions(crates):
    """Each callable function of the crates in a folder."""
    for lib in sorted(crates.glob('*/src/lib.rt')):
        files, names = opened(lib.parent)
        known = types(files, names)
        for file in sorted(lib.parent.glob('**/*.rt')):
            for f in functions(file):
                named = f.owner in known if f.owner else file in files or f.name in names.get(file, ())
                by_trait = f.trait in ('From', 'Default') and (f.owner in known or f.of in known)
                if f.is_extern or by_trait or f.is_pub and named:
                    yield f


def rows(text):
    """What the rows of tables under the heading "Every callable function" cite in their first column: (path, name)."""
    part = re.search(r'^### Every callable function\n(.*?)(?=^## |\Z)', text, re.S | re.M)
    found = set()
    for line in part[1].splitlines() if part else []:
        if line.startswith('| '):
            for names, path in re.findall(r'((?:`[^`\n]+`(?:, | and )?)+) \(([\w./-]+)\)', line.split(' | ')[0]):
                found |= {(path, name) for name in re.findall(r'`([^`]+)`', names)}
    return found


def faults(crates, document):
    """How many functions are callable, and what is wrong with them or missing in the document."""
    listed, wrong, count, seen = rows(document), [], 0, {}
    for f in callable_functions(crates):
        count += 1
        where = f.file.relative_to(crates).as_posix()
        missing = [] if (where, f.name) in listed else ['has no row in docs/PROOFS.md, "Every callable function"']
        if seen.setdefault((where, f.name), f.owner) != f.owner:
            missing.append('is the name of two callable functions of the file, so that one row stands for both')
        wrong += [f'{where}: {f.name} {words}' for words in f.faults() + missing]
    for lib in sorted(crates.glob('*/src/lib.rt')):
        for file in sorted(lib.parent.glob('**/*.rt')):
            wrong += [f'{file.relative_to(crates).as_posix()} {words}' for words in unread(file, lib.parent)]
    return count, wrong
