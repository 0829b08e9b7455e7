"""The command line of the tools that make stored files: make_examples.py, run_list_images.py, float_answers.py and quiet_answers.py."""
import sys
from pathlib import Path

ROOT = Path(__file__).resolve().parent.parent


def rows(items):
    """The lines of an array's elements, as `rt fmt` lays them out: where each has at most ten characters, as many to a line as 99
    columns hold, else one. An element is a text, or a text and a comment, which ends its line."""
    pairs = [item if isinstance(item, tuple) else (item, None) for item in items]
    width = 99 if all(len(text) <= 10 for text, _ in pairs) else 0
    lines = []
    is_open = False
    for text, comment in pairs:
        if is_open and len(lines[-1]) + len(text) + 2 <= width:
            lines[-1] += f' {text},'
        else:
            lines.append(f'    {text},')
        is_open = comment is None
        if comment is not None:
            lines[-1] += f' // {comment}'
    return ''.join(line + '\n' for line in lines)


def main(doc, files):
    """Writes the files, by path from the root; with --check compares them; --help prints the tool's words. Answers the status."""
    asked = sys.argv[1:]
    if asked in (['--help'], ['-h']):
        print(doc.strip())
        return 0
    if asked not in ([], ['--check']):
        print(f'{Path(sys.argv[0]).name}: only --check and --help are known', file=sys.stderr)
        return 2
    wrong = 0
    for name, data in files().items():
        path = ROOT / name
        if asked:
            same = path.exists() and path.read_bytes() == data
            wrong += not same
            print(f'{name}: {"as made" if same else "DIFFERS"}, {len(data)} bytes')
        else:
            path.write_bytes(data)
            print(f'{name}: {len(data)} bytes')
    return 1 if wrong else 0
