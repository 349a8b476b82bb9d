#!/usr/bin/env python3
"""Spells the repository's own definitions and lemmas in snake case: tableIn is table_in, falling-higher is falling_higher.

  tools/respell.py [TOP]      once, at the top, after the kit's port.py

A name is the repository's own if a file of specs/ or proofs/ declares it: as a definition, a lemma, a constructor, a field or a local name. Types,
modules, functions of src/, the names that Rattle makes and those of the library stay. Where a lemma's new name would be that of a definition which
one file has beside it, the lemma gets _lem, and a field gets _is.
"""
import pathlib
import re
import sys

TOP = pathlib.Path(sys.argv[1] if len(sys.argv) > 1 else '.')
TOKEN = re.compile(r'--[^\n]*|"(?:[^"\\]|\\.)*"|[^\s(){}.;,@"«»\[\]\\`]+|[(){}.;,@«»\[\]\\`"]|\s+')
RUST = re.compile(r'//[^\n]*|"(?:[^"\\]|\\[\s\S])*"|\'(?:[^\'\\\n]|\\.)\'|[^\s(){}.;,@"«»\[\]\\`]+|[(){}.;,@«»\[\]\\`"]|\s+')
# Names that a lemma and a definition, or a lemma and a lemma, would have in one file: the file, the name, what it is there.
BESIDE = {
    'kam/proofs/Tied.antt': {'below_top': 'below_top_lem'},
    'text/proofs/Fewest.antt': {'put_byte': 'put_byte_lem'},
    'text/proofs/ReadBack.antt': {'written_out': 'written_out_lem'},
    'text/proofs/ThereAndBack.antt': {'written_out': 'written_out_lem'},
}
FIELDS = {'log-length', 'tape-length'}


def old_spelling(name):
    return re.match(r"[^A-Z]", name) and re.search(r"[a-z0-9'₀-₉]-[a-zA-Z0-9]|[a-z][A-Z]", name)


def snake(name):
    return re.sub(r'([a-z0-9])([A-Z])', lambda m: m[1] + '_' + m[2].lower(), name).replace('-', '_')


def specs_and_proofs():
    return sorted([*TOP.glob('crates/*/specs/**/*.antt'), *TOP.glob('crates/*/proofs/**/*.antt')])


def of_a_function(path):
    """Whether the file is of the proof of a function: its labels are named by Rattle."""
    return path.parent.name != 'proofs' and 'proofs' in path.parts


def words(text, pattern=TOKEN):
    return pattern.findall(text)


def of_the_library():
    """Each name that a file takes from a module of the library."""
    crates = '|'.join(p.parent.name for p in TOP.glob('crates/*/src'))
    taken = set()
    for path in specs_and_proofs():
        for module, names in re.findall(r'^(?:pub )?use ([^\s{]+)\{([^}]*)\}', path.read_text(), re.M):
            if not re.match(r'Rattle\.(%s)\.' % crates, module):
                taken.update(part for name in names.split(',') for part in name.strip().split(' as '))
    return taken


def declared():
    """Each own name of the old spelling."""
    library, names = of_the_library(), set()
    for path in specs_and_proofs():
        tokens = [t for t in words(path.read_text()) if not t.isspace() and not t.startswith('--')]
        for here, after in zip(tokens, tokens[1:] + ['']):
            if old_spelling(here) and here not in library:
                if not of_a_function(path) or after in (':', '=') and 'requires' not in here:
                    names.add(here)
    return names


def renamed(names):
    """The new name of each."""
    beside = {}
    texts = [set(words(p.read_text())) for p in specs_and_proofs()]
    new = {name: snake(name) for name in names}
    for name in names:
        twin = [n for n in names if n != name and new[n] == snake(name)]
        if '-' in name and any(name in t and n in t for n in twin for t in texts):
            beside[name] = snake(name) + ('_is' if name in FIELDS else '_lem')
    return new | beside


def in_antt(path, new):
    here = BESIDE.get('/'.join(path.parts[-3:]), {})
    made = of_a_function(path)
    out, before = [], ''
    for token in words(path.read_text()):
        if token.startswith('--'):
            token = in_words(token, new)
        elif token in here:
            token = here[token]
        elif token in new and not (made and before == '.' and not is_field(token)):
            token = new[token]
        before = token
        out.append(token)
    path.write_text(''.join(out))


FIELD_NAMES = set()


def is_field(token):
    return token in FIELD_NAMES


def fields():
    """Own names that stand after a dot or an = in a file that is of no function's proof."""
    for path in specs_and_proofs():
        if not of_a_function(path):
            tokens = [t for t in words(path.read_text()) if not t.isspace() and not t.startswith('--')]
            FIELD_NAMES.update(a for a, b in zip(tokens, tokens[1:]) if b in (':', '='))


def in_words(text, new):
    """In a comment or a page: a name with a capital inside, and any name between backticks."""
    text = re.sub(r"(?<![\w-])[a-z]\w*[a-z][A-Z]\w*", lambda m: new.get(m[0], m[0]), text)
    return re.sub(r'`([^`\n]*)`', lambda m: '`' + ''.join(new.get(t, t) for t in words(m[1])) + '`', text)


def in_rust(path, new):
    out = [in_words(t, new) if t.startswith('//') else new.get(t, t) for t in words(path.read_text(), RUST)]
    path.write_text(''.join(out))


def main():
    fields()
    new = renamed(declared())
    for path in specs_and_proofs():
        in_antt(path, new)
    for path in sorted(TOP.glob('crates/*/src/**/*.rt')):
        in_rust(path, new)
    print('%d names' % len(new))


if __name__ == '__main__':
    main()
