#!/usr/bin/env python3
"""Respells the repository's own definitions and lemmas after port.py: words in snake case, modules in camel case.

    python3 tools/respell.py            at the top of the repository: every .rt, .antt and folder of specs/
    python3 tools/respell.py --text     reads standard input and prints it respelled

A definition's name in lower camel case becomes snake case (rowsText-length: rows_text-length); the module `laws` becomes `Laws`. Where a
lemma, respelled by port.py, would then have a definition's name, the lemma gets `_lem`. Functions of src/, C names and strings keep their
names: none of them is in lower camel case. It runs once, after port.py, and does nothing where the folders are respelled already.
"""
import pathlib
import re
import subprocess
import sys

# Variables of proofs, no words: a letter and a capital.
VARIABLES = {'hR', 'hM', 'eR', 'eM', 'gR', 'gM'}

# Lemmas that a definition's new name would fall together with: the name, and the files where it is the lemma (empty: every file).
LEMMAS = {
    'entries_below': [],
    'is_digit': ['crates/settings_line/specs/laws/Run.antt'],
    'little_endian': [],
    'row_read': [],
    'shape_size': [],
    'taken_in': ['crates/receiver/specs/laws/TakenIn.antt'],
    'by_value': ['crates/promise_recovery/specs/laws/RecoverRows.antt'],
    'wide_rows': ['crates/spaces/specs/laws/Halves.antt'],
    'zero_row': [],
}

CAMEL = re.compile(r"(?<![A-Za-z0-9_'])[a-z][a-z0-9]*(?:[A-Z][A-Za-z0-9]*)+")


def snake(match):
    word = match.group(0)
    if word in VARIABLES:
        return word
    return re.sub(r'(?<=[a-z0-9])([A-Z])', lambda capital: '_' + capital.group(1).lower(), word)


def respelled(text):
    text = CAMEL.sub(snake, text)
    text = re.sub(r'\bspecs\.laws\b', 'specs.Laws', text)
    text = re.sub(r'\bspecs/laws\b', 'specs/Laws', text)
    return re.sub(r'^(pub mod|mod) laws$', r'\1 Laws', text, flags=re.M)


def lemmas_apart(path, text):
    """A lemma's name is not followed by a path or a folder of proofs/, and stands in no line of a function's own modules."""
    for name, files in LEMMAS.items():
        if files and path not in files:
            continue
        pattern = re.compile(r"(?<![A-Za-z0-9_'/.:-])" + name + r"(?![A-Za-z0-9_'-])(?!\.Tie|\.Statement)")
        text = pattern.sub(name + '_lem', text)
    return text


def main():
    if sys.argv[1:] == ['--text']:
        sys.stdout.write(respelled(sys.stdin.read()))
        return
    if not any(pathlib.Path('crates').glob('*/specs/laws')):
        sys.exit('respelled already')
    for path in sorted(pathlib.Path('crates').rglob('*')):
        if path.suffix not in ('.rt', '.antt') or 'out' in path.parts:
            continue
        text = path.read_text()
        # A comment in a proof's first line names the function in backquotes.
        new = lemmas_apart(str(path), text) if path.suffix == '.antt' and 'must-fail' not in path.parts else text
        new = respelled(new)
        if new != text:
            path.write_text(new)
    for crate in sorted(pathlib.Path('crates').iterdir()):
        for old in (crate / 'specs' / 'laws.antt', crate / 'specs' / 'laws'):
            if old.exists():
                subprocess.run(['git', 'mv', str(old), str(old.with_name(old.name.replace('laws', 'Laws')))], check=True)


if __name__ == '__main__':
    main()
