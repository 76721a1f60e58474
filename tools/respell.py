#!/usr/bin/env python3
"""Brings this repository's own definitions and lemmas to one spelling.

Run it once, at the top, behind the kit's port.py. Words are joined by '_' and a fact's words by capitals, as the library
spells its own; a dash stays where it joins the names of two definitions, as in length-raise. Functions of src/, strings,
inputs and outputs keep their names. It prints each name that changes, and the names that would fall together.
"""
import re
import sys
from pathlib import Path

TOP = Path('.')
TOKEN = r"[^\s(){}\[\],;.:\"λ→×⊎≡|↦=]+"
# words of the library that lemmas are named after
STD = set('''length take drop map append filter cons nil reverse set get get_or sum cond min max leb ltb eqb ++ none some
true false zero suc all All held elem find insert swap ap fold concat and or not'''.split())


def antt_files():
    return sorted(p for p in TOP.glob('crates/*/*/**/*.antt') if '/out/' not in str(p))


def rt_files():
    return sorted(p for p in TOP.glob('crates/*/src/**/*.rt'))


def generated(path):
    return path.name in ('Answers.antt', 'Invariants.antt', 'Choices.antt', 'Proof.antt')


DEF = re.compile(r"^(?P<ind> *)(?P<mods>(?:(?:pub|abbrev|unfoldable|data|record) )*)(?P<name>[A-Za-z_][^\s(){}\[\],;.:\"]*)(?P<rest> *:| \(| \{)(?P<tail>.*)$")


def definitions():
    """Own names, each with whether it is a definition (of specs/, or a field or constructor) or a lemma."""
    defs, lemmas = set(), set()
    for path in antt_files():
        spec = '/specs/' in str(path)
        for line in path.read_text().split('\n'):
            if line.lstrip().startswith(('--', 'use ', 'pub mod', 'mod ', 'module')):
                continue
            m = DEF.match(line)
            if not m:
                continue
            name, rest = m.group('name'), m.group('rest')
            mods = m.group('mods')
            if not rest.endswith(':') and not re.search(r'\b(data|record)\b', mods):
                continue
            if rest.endswith(':') and (m.group('tail')[:1] not in (' ', '')):
                continue
            if generated(path) and re.search(r':\s*(goal|goals|need|needs|Goals|Given)\.', line):
                continue
            if '-' not in name and "'" not in name and "′" not in name:
                (defs if spec else lemmas).add(name)
                continue
            value = 'abbrev' in mods or 'unfoldable' in mods or 'data' in mods or 'record' in mods
            (defs if spec or value else lemmas).add(name)
    return defs, lemmas - defs


# these would have the name of a function of src/ that they speak of
FUNCTIONS = {'first-overfull', 'fewer-walk-less', 'names-line', 'reading-part'}


LIBRARY = re.compile(r'use (?:Rattle\.(?:std|core)\.|mathlib\.|native\.|lib\.|borrow\.|Prim\.)\S*\{([^}]*)\}')


def of_library(text):
    """What a file takes from the library under its own name, which it keeps."""
    groups = LIBRARY.findall(text)
    return {n.strip() for g in groups for n in g.split(',') if ' as ' not in n}


def aliases():
    """Names with a dash that an import gives to something."""
    return {a for p in antt_files() + rt_files() for a in re.findall(r' as ([a-z]+(?:-[a-z]+)+)', p.read_text())}


def plain_definitions():
    """The definitions of specs/ whose names are one word: what a lemma's name may join by a dash."""
    head = re.compile(r'^ *(?:(?:pub|abbrev|unfoldable) )+([A-Za-z_][^\s:(){}-]*) :')
    found = set()
    for path in antt_files():
        if '/specs/' in str(path):
            for line in path.read_text().split('\n'):
                m = head.match(line)
                if m and ('abbrev' in line or 'unfoldable' in line):
                    found.add(m.group(1))
    return found


def respelled(name, definition, words):
    if '-' not in name:
        return name
    if name in FUNCTIONS:
        return name.replace('-', '_') + '_lem'
    parts = name.split('-')
    if name[0].isupper():
        return ''.join(p[:1].upper() + p[1:] for p in parts)
    if not definition and all(p in words for p in parts):
        return name
    return '_'.join(parts)


def main():
    defs, lemmas = definitions()
    words = STD | plain_definitions()
    defs = defs | aliases()
    lemmas = lemmas - defs
    renames = {}
    for n in sorted(defs | lemmas):
        new = respelled(n, n in defs, words)
        if new != n:
            renames[n] = new
    taken = {}
    everything = set()
    for path in antt_files() + rt_files():
        everything.update(re.findall(TOKEN, path.read_text()))
    for n, new in renames.items():
        if new in everything:
            print('falls together with a name that is there:', n, '->', new)
        taken.setdefault(new, []).append(n)
    for new, olds in taken.items():
        if len(olds) > 1:
            print('fall together:', olds, '->', new)
    if '--list' in sys.argv:
        for n, new in renames.items():
            print(n, '->', new)
        return
    pattern = re.compile(r'(?P<dot>\.?)(?P<tok>' + TOKEN + ')')
    fields = field_names()
    library = set()

    def swap(m):
        tok = m.group('tok')
        if tok in renames and tok not in library and (not m.group('dot') or tok in fields):
            return m.group('dot') + renames[tok]
        return m.group(0)

    for path in antt_files() + rt_files():
        old = path.read_text()
        library.clear()
        library.update(of_library(old))
        lines = []
        for line in old.split('\n'):
            mark = '--' if path.suffix == '.antt' else '//'
            if line.lstrip().startswith(mark):
                lines.append(line)
                continue
            pieces = re.split(r'("(?:[^"\\]|\\.)*")', line)
            lines.append(''.join(p if p.startswith('"') else pattern.sub(swap, p) for p in pieces))
        new = '\n'.join(lines)
        if new != old:
            path.write_text(new)
    for n, new in renames.items():
        print(n, '->', new)


def field_names():
    """Names that stand indented below a record or data head of specs/ or proofs/."""
    out = set()
    for path in antt_files():
        inside = False
        for line in path.read_text().split('\n'):
            if re.match(r' *(pub |abbrev )*record ', line):
                inside = True
                continue
            if inside and re.match(r' +(pub )?[^\s:]+ *:', line):
                out.add(re.match(r' +(?:pub )?([^\s:]+) *:', line).group(1))
            elif line.strip():
                inside = False
    return out


main()
