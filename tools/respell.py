#!/usr/bin/env python3
"""Spells the repository's own definitions, lemmas and labels as the library spells its own: words in snake case,
a dash only where it joins two names (`cyclomatic-skip_left`), no capital inside a word that begins small.

    python3 tools/respell.py [--list]     at the top, once; --list prints the pairs and changes nothing

Reads the names that stand in crates/*/specs and crates/*/proofs, turns each word of .antt and .rt files that is one of
them, and names those that would fall together with another word of the same file. Names of functions of src/, strings
and what a function's proof names on its own stay.
"""
import collections
import glob
import os
import re
import sys

KIT = '/opt/rattle/rattle'
# a name that an operator takes its arguments round, `◌orElse◌`, is split at its holes
WORD = re.compile(r"[\w'\-]+")
# what Rattle names in a function's proof
MADE = re.compile(r"(returns|invariant|decreases|loop|sub|add|mul|part|slice|shared|cast|div|rem|shl|element|float|int)-|.*-(requires|spec|aggregate)(-\d+)?$|.*-\d+$")
# words of the library that a dash joins to another name
LIBRARY = {'length', 'take', 'drop', 'append', 'map', 'set', 'sum', 'get_or', 'replicate', 'filter'}
# lemmas whose names another script had turned to what a definition's becomes here, each with its crate: they stand neither
# behind a dot nor before one
BY_HAND = {'answer_at': 'gate_rules', 'in_order': 'in_order', 'parts_from': 'source_rules', 'set_pair': 'parts'}
# a variable or a label that has the name of a label
APART = {'no_stale', 'span_end', 'text_at'}
# these were already turned where they are used
TURNED = {'or_else', 'and_then', 'all_digits'}


def files():
    for pattern in ('crates/*/specs/**/*.antt', 'crates/*/proofs/**/*.antt', 'crates/*/src/*.rt'):
        yield from sorted(glob.glob(pattern, recursive=True))


def moved():
    """Rattle makes a module `specs.contracts` of its own."""
    old, new = 'crates/blanking/specs/Contracts.antt', 'crates/blanking/specs/Bare.antt'
    if not os.path.exists(old):
        return
    os.rename(old, new)
    for path in files():
        with open(path, encoding='utf-8') as f:
            text = f.read()
        turned = text.replace('blanking.specs.Contracts', 'blanking.specs.Bare')
        if path == 'crates/blanking/specs/Lib.antt':
            turned = turned.replace('pub mod Contracts', 'pub mod Bare')
        if turned != text:
            with open(path, 'w', encoding='utf-8') as f:
                f.write(turned)


def code(line, mark):
    at = line.find(mark)
    return (line, '') if at < 0 else (line[:at], line[at:])


def snake(word):
    """A capital inside a word that begins small begins a word of its own."""
    parts = word.split('-')
    out = []
    for part in parts:
        if part[:1].islower() and re.search(r'[a-z0-9][A-Z]', part):
            part = re.sub(r'([a-z0-9])([A-Z]+)', lambda m: m[1] + '_' + m[2].lower(), part)
        out.append(part)
    return '-'.join(out)


def library_words():
    words = set()
    for folder in ('std', 'core', 'std_alloc', 'std_collections', 'std_heap', 'std_io', 'logic', 'antt'):
        for top, _, names in os.walk(os.path.join(KIT, folder)):
            for name in names:
                if name.endswith('.antt'):
                    with open(os.path.join(top, name), encoding='utf-8') as f:
                        words.update(WORD.findall(f.read()))
    return words


def defined():
    """The names that lemma files and definitions bind: at the left of a colon, at any depth, but for parameters."""
    names = set()
    for path in files():
        if not path.endswith('.antt') or path.endswith('/Proof.antt'):
            continue
        with open(path, encoding='utf-8') as f:
            for line in f:
                text = code(line, '--')[0]
                m = re.match(r"\s*(?:(?:pub|unfoldable|abbrev) )*(?:(?:record|data) )?([^\s:(){}]+)(?:\s.*)?:", text)
                if m and not text.startswith(('use ', 'mod ', 'pub mod')):
                    names.update(WORD.findall(m[1]))
    return names


def bound(path, text):
    """The words of a file that a name could fall together with: not what stands behind a dot, and of a .rt file's code what binds a name."""
    lines = [code(l, '--' if path.endswith('.antt') else '//')[0] for l in text.split('\n')]
    if path.endswith('.antt'):
        return set(re.findall(r"(?<![\w'\-.])[\w'\-]+(?!\.)(?![\w'\-])", '\n'.join(lines)))
    names = set()
    for line in lines:
        if re.match(r'\s*(pub )?(const )?fn ', line) or re.match(r'    (mut )?\w+: [^=]*,$', line):
            names.update(re.findall(r'(?<!:)\b(\w+):(?!:)', line))
        if re.match(r'\s*(ghost use|requires|ensures|ghost)', line):
            names.update(w for w in WORD.findall(line) if re.search(r'[a-z0-9][A-Z]|-', w))
    return names


def main():
    if '--list' not in sys.argv:
        moved()
    library = library_words()
    own = defined()
    plain = {snake(n) for n in own if '-' not in n}
    texts = {}
    for path in files():
        with open(path, encoding='utf-8') as f:
            texts[path] = f.read()
    words = collections.Counter()
    for path, text in texts.items():
        mark = '--' if path.endswith('.antt') else '//'
        for line in text.split('\n'):
            words.update(WORD.findall(code(line, mark)[0]))

    functions = {m for p, t in texts.items() if p.endswith('.rt') for m in re.findall(r'\bfn (\w+)', t)}

    def turned(word):
        new = snake(word)
        if '-' not in new.strip('-'):
            return new if word == new or word not in library else word
        if word not in own or word in library or MADE.match(word):
            # a capital inside a part is turned all the same where the part is a name of the repository
            return word if word in library else new
        parts = new.split('-')
        out = parts[0]
        for before, part in zip(parts, parts[1:]):
            joins = all(p in plain or p in LIBRARY or p[:1].isupper() for p in (before, part))
            out += ('-' if joins else '_') + part
        # a lemma that would have the name of a definition, of a function or of the library
        return out + '_lem' if out in plain or out in functions or out in library else out

    pairs = {w: turned(w) for w in words if turned(w) != w}
    back = collections.defaultdict(list)
    for old, new in pairs.items():
        back[new].append(old)
    bad = 0
    for new, olds in sorted(back.items()):
        for path, text in texts.items():
            here = bound(path, text)
            met = [o for o in olds if o in here] + ([new] if new in here and new not in TURNED and new not in BY_HAND and new not in APART else [])
            if len(met) > 1:
                bad += 1
                print('together:', path, ', '.join(met), '->', new)
        if len(olds) > 1 or (new in library and any(o in own for o in olds)):
            print('look:', ', '.join(olds), '->', new, '(a word of the library)' if new in library else '')
    print(len(pairs), 'names,', bad, 'met in a file')
    if '--list' in sys.argv:
        for old, new in sorted(pairs.items()):
            print(old, new)
        return
    if bad:
        sys.exit(1)
    for path, text in texts.items():
        mark = '--' if path.endswith('.antt') else '//'
        lines = []
        for line in text.split('\n'):
            said, rest = code(line, mark)
            if path.endswith('.antt'):
                hand = '|'.join(w for w, crate in BY_HAND.items() if path.startswith(f'crates/{crate}/')) or '(?!)'
                said = re.sub(r"(?<![\w'\-.])(" + hand + r")(?![\w'\-.])", r'\1_lem', said)
            said = WORD.sub(lambda m: pairs.get(m[0], m[0]), said)
            # in a comment only what no English word can be: a capital inside, or what stands between `..`
            rest = re.sub(r'`([^`]*)`', lambda m: '`' + WORD.sub(lambda w: pairs.get(w[0], w[0]), m[1]) + '`', rest)
            rest = re.sub(r"\b[a-z]\w*[A-Z]\w*\b", lambda m: pairs.get(m[0], m[0]), rest)
            lines.append(said + rest)
        new = '\n'.join(lines)
        if new != text:
            with open(path, 'w', encoding='utf-8') as f:
                f.write(new)


if __name__ == '__main__':
    main()
