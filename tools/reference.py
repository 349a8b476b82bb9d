#!/usr/bin/env python3
"""An independent reading of document 01, and of changes 1 to 3 and 5 to 11 of document 02, from which the expected outputs of the programs are worked out.

  tools/reference.py cases < SCRIPT   what `cases` must print for a script of cases, as crates/cases/stdin (script.py)
  tools/reference.py winder < TERM    what `winder` must print for a term
  tools/reference.py compare < TERMS  what `compare` must print for terms, one a line

It shares nothing with the crates: terms are trees with names, nodes are lists of five words, entries are nested tuples, the machine is the eight rules over
them, and a session is checked by reading its words back. A table is a list of words in which the nodes stand in five columns. It is slow and plain on purpose.
"""
import re
import sys
import threading

GREATEST = 4294967295


# ---- the text of a term

class Refused(Exception):
    def __init__(self, number):
        self.number = number


def tokens(text):
    out, i = [], 0
    while i < len(text):
        b = text[i]
        if 97 <= b <= 122 or 48 <= b <= 57:
            j = i
            while j < len(text) and (97 <= text[j] <= 122 or 48 <= text[j] <= 57):
                j += 1
            out.append(text[i:j])
            i = j
        else:
            if b not in (32, 10):
                out.append(bytes([b]))
            i += 1
    return out


def is_name(t):
    return t not in (b'\\', b'.', b'(', b')')


def parse(ts):
    """A named tree, iteratively: a stack of open brackets, each with its pending binders and the atoms so far."""
    stack, binders, atoms, i = [], [], None, 0

    def closed(binders, atoms):
        if atoms is None:
            raise Refused(4)
        for x in reversed(binders):
            atoms = ('lam', x, atoms)
        return atoms

    def with_atom(atoms, a):
        return a if atoms is None else ('app', atoms, a)

    while i < len(ts):
        t = ts[i]
        if t == b'\\':
            if atoms is not None or i + 2 >= len(ts) or not is_name(ts[i + 1]) or ts[i + 2] != b'.':
                raise Refused(4)
            binders.append(ts[i + 1])
            i += 3
            continue
        if t == b'.':
            raise Refused(4)
        if t == b'(':
            stack.append((binders, atoms))
            binders, atoms = [], None
        elif t == b')':
            if not stack:
                raise Refused(4)
            inner = closed(binders, atoms)
            binders, atoms = stack.pop()
            atoms = with_atom(atoms, inner)
        else:
            atoms = with_atom(atoms, ('var', t))
        i += 1
    if stack:
        raise Refused(4)
    return closed(binders, atoms)


def nodes_of(tree):
    """The nodes of a tree, or Refused(5). Each is its kind, left, right, parent and level; they are numbered in preorder."""
    table = []
    work = [(tree, 0, 0, ())]  # tree, parent, level, scope as a linked list (name, node, outer)
    rights = {}
    while work:
        t, p, v, scope = work.pop()
        i = len(table) + 1
        if p and table[p - 1][0] == 3 and table[p - 1][1] != i:
            table[p - 1][2] = i
        if t[0] == 'var':
            s = scope
            while s and s[0] != t[1]:
                s = s[2]
            if not s:
                raise Refused(5)
            table.append([1, s[1], 0, p, v])
        elif t[0] == 'lam':
            table.append([2, i + 1, 0, p, v])
            work.append((t[2], i, v, (t[1], i, scope)))
        else:
            table.append([3, i + 1, 0, p, v])
            work.append((t[2], i, v + 1, scope))
            work.append((t[1], i, v, scope))
    return table


def in_columns(table):
    """The words of these nodes: every kind, then every left, every right, every parent and every level."""
    return [node[field] for field in range(5) for node in table]


def nodes_in(w, n):
    """The n nodes whose five columns are the first 5 times n words; the words after them say nothing."""
    kinds, lefts, rights, parents, levels = (w[field * n:field * n + n] for field in range(5))
    return [list(node) for node in zip(kinds, lefts, rights, parents, levels)]


def named_text(text):
    """The named tree of a text with names, or Refused(2) to Refused(4)."""
    if any(not (97 <= b <= 122 or 48 <= b <= 57 or b in b'\\.() \n') for b in text):
        raise Refused(2)
    ts = tokens(text)
    if any(is_name(t) and (len(t) > 8 or 48 <= t[0] <= 57) for t in ts):
        raise Refused(3)
    return parse(ts)


def reading(text, room, tree_of):
    """n, number, and the words that are laid out (none where refused); a dialect's own numbers are those of its trees."""
    try:
        if len(text) > 3000:
            raise Refused(1)
        table = nodes_of(tree_of(text))
        if room < 5 * len(table):
            raise Refused(6)
        return len(table), 0, in_columns(table)
    except Refused as r:
        return 0, r.number, []


def read(text, room):
    return reading(text, room, named_text)


# ---- the number dialect

PART = re.compile(rb'\\|@|0|[1-9][0-9]*')


def parts_of(text):
    """The parts, one space before each but the first; or Refused(13) where one of them is none, or they are too few or too many for a term."""
    parts, missing = text.split(b' '), 1
    for part in parts:
        if missing == 0 or not PART.fullmatch(part):
            raise Refused(13)
        missing += {b'\\': 0, b'@': 1}.get(part, -1)
    if missing:
        raise Refused(13)
    return parts


def depths_of(parts):
    """How many binders are around each part; `due` has as much of the terms still to come, the next of them last."""
    depths, due = [], [0]
    for part in parts:
        depth = due.pop()
        depths.append(depth)
        due += {b'\\': [depth + 1], b'@': [depth, depth]}.get(part, [])
    return depths


def numbered_text(text):
    """The named tree of a text without names, or Refused(13) or Refused(14); the name of a binder is how many binders are around it.

    From the last part to the first, so that the trees of what follows a part are there when it comes; `trees` has them, the next of them last.
    """
    parts, trees = parts_of(text), []
    for part, depth in zip(reversed(parts), reversed(depths_of(parts))):
        if part == b'\\':
            trees.append(('lam', depth, trees.pop()))
        elif part == b'@':
            function, argument = trees.pop(), trees.pop()
            trees.append(('app', function, argument))
        elif int(part) < depth:  # int takes numbers of 4,300 digits, and a text has at most 3,000 bytes
            trees.append(('var', depth - 1 - int(part)))
        else:
            raise Refused(14)
    return trees.pop()


def read_numbers(text, room):
    return reading(text, room, numbered_text)


# ---- the machine

class Machine:
    def __init__(self, table):
        self.t = table

    def node(self, i):
        return self.t[i - 1] if 1 <= i <= len(self.t) else [0, 0, 0, 0, 0]

    def arity(self, v):
        return self.node(v)[4] - self.node(self.node(v)[1])[4]

    def step(self, s):
        """The next state, and the entries that its rule moves between log and tape; or None.

        Entries are (variable, (entries..)), a bullet is None; lists have their top first.
        """
        i, d, log, tape = s
        kind, left, right, parent, level = self.node(i)
        if d == 'd':
            if kind == 3:  # rule 1
                return (left, 'd', log, [None] + tape), []
            if kind == 2 and tape and tape[0] is None:  # rule 2
                return (left, 'd', log, tape[1:]), []
            if kind == 1:  # rule 3: the inner entries
                a = self.arity(i)
                if a > len(log):
                    return None
                return (left, 'u', log[a:], [(i, tuple(log[:a]))] + tape), log[:a]
            if kind == 2 and tape and self.node(tape[0][0])[0] == 1 and self.node(tape[0][0])[1] == i:  # rule 4: the inner entries
                v, es = tape[0]
                return (v, 'u', list(es) + log, tape[1:]), es
            return None
        pk, pl, pr = self.node(parent)[:3]
        if pk == 3 and pl == i and tape:
            if tape[0] is None:  # rule 5
                return (parent, 'u', log, tape[1:]), []
            return (pr, 'd', [tape[0]] + log, tape[1:]), [tape[0]]  # rule 6: the entry
        if pk == 2 and pl == i:  # rule 7
            return (parent, 'u', log, [None] + tape), []
        if pk == 3 and pr == i and pl != i and log:  # rule 8: the entry
            return (pl, 'd', log[1:], [log[0]] + tape), [log[0]]
        return None

    def step_back(self, s):
        """Turn, one step, turn. It moves what that step moves."""
        made = self.step(turned(s))
        return made and (turned(made[0]), made[1])

    def answers(self, s):
        return s[1] == 'd' and self.node(s[0])[0] == 2 and not s[3]


def turned(s):
    return s[0], 'u' if s[1] == 'd' else 'd', s[2], s[3]


def entry_words(e):
    """Its variable's word, then those of the entries inside, iteratively: `work` has the entries still to be put down, the next of them last."""
    out, work = [], [e]
    while work:
        v, es = work.pop()
        out.append(v)
        work += reversed(es)
    return out


def words(items):
    out = []
    for x in items:
        out += [0] if x is None else entry_words(x)
    return out


def positions(e):
    """An entry is a logged position, and so is each entry inside it."""
    return 1 + sum(positions(x) for x in e[1])


def weight(m, s):
    """Bullets, plus X times the logged positions, X being the number of binary digits of n."""
    held = [x for x in s[3] if x is not None]
    x = len(format(len(m.t), 'b'))
    return len(s[3]) - len(held) + x * sum(positions(e) for e in s[2] + held)


def turns_of(s, u):
    """Of a step between two states: 1 if it changes direction, else 0."""
    return int(s[1] != u[1])


def wind(m, s, position, turns, count, log_room, tape_room, back):
    """The last state, its position and turns, the steps, the stop, the peak and the words carried: of each step, those of the entries that it moves.

    A step forward adds its turn; a step back takes it off, and must leave from 0 to as many as its new position.
    """
    steps, peak, carried, way = 0, weight(m, s), 0, -1 if back else 1
    while True:
        if count == 0:
            return s, position, turns, steps, 'spent', peak, carried
        if back:
            if position == 0:
                return s, position, turns, steps, 'start', peak, carried
            made = m.step_back(s)
            if made is None or not 0 <= turns - turns_of(s, made[0]) <= position - 1:
                return s, position, turns, steps, 'jam', peak, carried
        else:
            if m.answers(s):
                return s, position, turns, steps, 'answer %d' % s[0], peak, carried
            made = m.step(s)
            if made is None:
                return s, position, turns, steps, 'jam', peak, carried
            if position == GREATEST:
                return s, position, turns, steps, 'far', peak, carried
        u, moved = made
        if len(words(u[2])) > log_room:
            return s, position, turns, steps, 'log full', peak, carried
        if len(words(u[3])) > tape_room:
            return s, position, turns, steps, 'tape full', peak, carried
        position, turns, steps, count = position + way, turns + way * turns_of(s, u), steps + 1, count - 1
        s, peak, carried = u, max(peak, weight(m, u)), carried + len(words(moved))


START = (1, 'd', [], [])


# ---- tables of any words, and their texts

def accepted(w, n):
    """The nodes where number 7 does not apply: they are those of the one term that their kinds and binders allow."""
    if not 1 <= n <= 3000 or len(w) < 5 * n:
        return None
    table = nodes_in(w, n)
    work, at, expected = [(0, 0, frozenset())], 0, []
    while work:
        item = work.pop()
        if item[0] == 'right':
            if table[item[1] - 1][2] != at + 1:
                return None
            continue
        p, v, scope = item
        at += 1
        if at > n:
            return None
        k, l, r, q, u = table[at - 1]
        if q != p or u != v:
            return None
        if k == 1:
            if r != 0 or l not in scope:
                return None
        elif k == 2:
            if l != at + 1 or r != 0:
                return None
            work.append((at, v, scope | {at}))
        elif k == 3:
            if l != at + 1:
                return None
            work.append((at, v + 1, scope))
            work.append(('right', at))
            work.append((at, v, scope))
        else:
            return None
    return table if at == n else None


def named_tree(table):
    """The tree of accepted nodes, each binder named v and its node. A node's parts have greater numbers, so the last node comes first."""
    trees = {}
    for i in range(len(table), 0, -1):
        kind, left, right = table[i - 1][:3]
        if kind == 1:
            trees[i] = ('var', b'v%d' % left)
        elif kind == 2:
            trees[i] = ('lam', b'v%d' % i, trees[left])
        else:
            trees[i] = ('app', trees[left], trees[right])
    return trees[1]


def spelled(tree):
    """The text of a tree, iteratively: `work` has what is still to be put down, the next of it last, as bytes and trees."""
    def bracketed(t, needed):
        return [b'(', t, b')'] if needed else [t]

    out, work = [], [tree]
    while work:
        t = work.pop()
        if isinstance(t, bytes):
            out.append(t)
        elif t[0] == 'var':
            out.append(t[1])
        elif t[0] == 'lam':
            work += [t[2], b'\\' + t[1] + b'.']
        else:
            f, a = t[1], t[2]
            work += reversed(bracketed(f, f[0] == 'lam') + [b' '] + bracketed(a, a[0] != 'var'))
    return b''.join(out)


def numbered(table):
    """The text of accepted nodes without names: they stand in the order of its parts. A variable's number is how many abstractions are between it and its binder."""
    parts = []
    for kind, left, _, parent, _ in table:
        number = 0
        while kind == 1 and parent != left:
            number += table[parent - 1][0] == 2
            parent = table[parent - 1][3]
        parts.append({1: b'%d' % number, 2: b'\\', 3: b'@'}[kind])
    return b' '.join(parts)


def writing(w, n, room, text_of):
    """The length, the number, and the bytes that are written (none where refused)."""
    table = accepted(w, n)
    if table is None:
        return 0, 7, b''
    text = text_of(table)
    if len(text) > 3000 or len(text) > room:
        return 0, 11, b''
    return len(text), 0, text


def write(w, n, room):
    return writing(w, n, room, lambda table: spelled(named_tree(table)))


def write_numbers(w, n, room):
    return writing(w, n, room, numbered)


def converted(text, room, read_from, write_to):
    """As written from a table of its own, which has room for every text: 15,000 words."""
    n, number, w = read_from(text, 15000)
    return (0, number, b'') if number else write_to(w, n, room)


def to_numbers(text, room):
    return converted(text, room, read, write_numbers)


def to_names(text, room):
    return converted(text, room, read_numbers, write)


# ---- sessions on any words

def entries(m, ws, with_bullets):
    """The items of a list whose words, from the top, are ws; or None."""
    pos = 0

    def one():
        nonlocal pos
        if pos >= len(ws) or m.node(ws[pos])[0] != 1:
            return None
        v = ws[pos]
        pos += 1
        inner = []
        for _ in range(m.arity(v)):
            e = one()
            if e is None:
                return None
            inner.append(e)
        return (v, tuple(inner))

    out = []
    while pos < len(ws):
        if with_bullets and ws[pos] == 0:
            out.append(None)
            pos += 1
        else:
            e = one()
            if e is None:
                return None
            out.append(e)
    return out


class Session:
    def __init__(self, node=0, dir='d', position=0, log_len=0, tape_len=0, turns=0):
        self.node, self.dir, self.position, self.log_len, self.tape_len, self.turns = node, dir, position, log_len, tape_len, turns

    def shown(self):
        return '%d %s %d %d %d %d' % (self.node, self.dir, self.position, self.log_len, self.tape_len, self.turns)


def lay(ws, room):
    return list(reversed(ws)) + [0] * (room - len(ws))


def open_session(w, n, log, tape):
    """The session and the number; the slices are lists, changed in place."""
    if accepted(w, n) is None:
        return Session(), 7
    if len(log) > 16384 or len(tape) > 16384:
        return Session(), 8
    log[:] = [0] * len(log)
    tape[:] = [0] * len(tape)
    return Session(1), 0


def given(w, n, se, log, tape):
    table = accepted(w, n)
    if table is None:
        return None, None, 7
    if len(log) > 16384 or len(tape) > 16384:
        return None, None, 8
    m = Machine(table)
    if not 1 <= se.node <= n or se.log_len > len(log) or se.tape_len > len(tape) or se.turns > se.position:
        return None, None, 9
    if any(log[se.log_len:]) or any(tape[se.tape_len:]):
        return None, None, 9
    L = entries(m, list(reversed(log[:se.log_len])), False)
    T = entries(m, list(reversed(tape[:se.tape_len])), True)
    if L is None or T is None or len(L) != table[se.node - 1][4]:
        return None, None, 9
    return m, (se.node, se.dir, L, T), 0


def call(w, n, se, log, tape, count, back):
    """The session after it, the steps, the stop, the peak and the words carried."""
    m, s, number = given(w, n, se, log, tape)
    if number:
        return se, 0, 'refused %d' % number, 0, 0
    s, p, turns, steps, stop, peak, carried = wind(m, s, se.position, se.turns, count, len(log), len(tape), back)
    L, T = words(s[2]), words(s[3])
    log[:] = lay(L, len(log))
    tape[:] = lay(T, len(tape))
    return Session(s[0], s[1], p, len(L), len(T), turns), steps, stop, peak, carried


def go_to(w, n, se, log, tape, q):
    if se.position <= q:
        return call(w, n, se, log, tape, q - se.position, False)
    return call(w, n, se, log, tape, se.position - q, True)


def passed(m, s, position, turns, count, log_room, tape_room, back):
    """The states that winding by a count comes to, one by one; the present one is none of them."""
    for _ in range(count):
        s, position, turns, made, _, _, _ = wind(m, s, position, turns, 1, log_room, tape_room, back)
        if made == 0:
            return
        yield s


def search(w, n, se, log, tape, node, dir, count, back):
    """A refusal's number, or 0; and the steps to the first of these states that has the node and the direction, or 0 where none has."""
    m, s, number = given(w, n, se, log, tape)
    if number:
        return number, 0
    if not 1 <= node <= n:
        return 12, 0
    for steps, u in enumerate(passed(m, s, se.position, se.turns, count, len(log), len(tape), back), 1):
        if u[:2] == (node, dir):
            return 0, steps
    return 0, 0


def back_to(w, n, se, log, tape, node, dir):
    """Back by the steps to the last earlier position with this node and direction; with none, by no step."""
    number, steps = search(w, n, se, log, tape, node, dir, se.position, True)
    if number:
        return se, 0, 'refused %d' % number, 0, 0
    there, _, _, peak, carried = call(w, n, se, log, tape, steps, True)
    return there, steps, 'found' if steps else 'none', peak, carried


def forward_to(w, n, se, log, tape, node, dir, count):
    """Forward by the steps to the next later one that the count reaches; with none, by the count."""
    number, steps = search(w, n, se, log, tape, node, dir, count, False)
    if number:
        return se, 0, 'refused %d' % number, 0, 0
    there, made, stop, peak, carried = call(w, n, se, log, tape, steps or count, False)
    return there, made, 'found' if steps else stop, peak, carried


def look(w, n, se, log, tape, count):
    """The steps, the stop, the peak and the words carried of forward by the count, made on copies of the slices; the position and the count, both 0 in a refusal."""
    _, steps, stop, peak, carried = call(w, n, se, list(log), list(tape), count, False)
    position, count = (0, 0) if stop.startswith('refused') else (se.position, count)
    return steps, stop, peak, carried, position, count


def go(w, n, se, log, tape, position, count):
    """Forward by the count; 15, where none of 7 to 9 applies, from another position than the session's."""
    if given(w, n, se, log, tape)[2] == 0 and se.position != position:
        return se, 0, 'refused 15', 0, 0
    return call(w, n, se, log, tape, count, False)


def top(w, n, se, log, tape, which):
    """Where the newest entry of 'log' or 'tape' begins in its slice, its words there from the low end, and the number."""
    _, s, number = given(w, n, se, log, tape)
    if number:
        return 0, [], number
    items, end = (s[2], se.log_len) if which == 'log' else (s[3], se.tape_len)
    if not items:
        return 0, [], 10
    part = list(reversed(words(items[:1])))
    return end - len(part), part, 0


# ---- Krivine's machine

def run(w, n, records, count):
    """The node, the steps and the halt of a run; the records are a list, changed in place.

    A list of closures is a chain of Python's own: an environment links each binder to a record, and a variable looks there for its own binder, so that no
    abstraction is counted.
    """
    table = accepted(w, n)
    if table is None:
        return 0, 0, 'refused 7'
    if len(records) > 16383:
        return 0, 0, 'refused 16'
    made, stack, environment, node, steps = [], [], None, 1, 0
    while True:
        kind, left, right = table[node - 1][:3]
        if steps == count:
            return node, steps, 'spent'
        if kind == 2 and not stack:
            return node, steps, 'answer'
        if kind == 3 and len(made) == len(records) // 3:
            return node, steps, 'full'
        top = environment[1] if environment else 0
        if kind == 3:
            made.append((right, environment))
            records[3 * len(made) - 3:3 * len(made)] = [right, top, stack[-1] if stack else 0]
            stack.append(len(made))
            node = left
        elif kind == 2:
            r = stack.pop()
            records[3 * r - 1] = top
            node, environment = left, (node, r, environment)
        else:
            binding = environment
            while binding[0] != left:
                binding = binding[2]
            node, environment = made[binding[1] - 1]
        steps += 1


# ---- the programs compare and winder

def compared(line):
    """What a line counts as, and whether both answered at different nodes."""
    n, number, table = read(line, 15000)
    if number:
        return 'refused', False
    s, _, _, _, stop, _, _ = wind(Machine(nodes_in(table, n)), START, 0, 0, 10000, 1024, 1024, False)
    node, _, halt = run(table, n, [0] * 3000, 10000)
    answers = [s[0]] * stop.startswith('answer') + [node] * (halt == 'answer')
    return ('neither', 'one', 'both')[len(answers)], len(set(answers)) == 2


def compare(data):
    lines = data.split(b'\n')
    counted = [compared(line) for line in (lines if lines[-1] else lines[:-1])]
    return ' '.join('%d' % sum(c == name for c, _ in counted) for name in ('refused', 'both', 'one', 'neither')) + ' %d' % sum(d for _, d in counted)


def winder(text):
    n, number, table = read(text, 15000)
    if number:
        return ['refused %d' % number]
    m, s, lines = Machine(nodes_in(table, n)), START, []
    for p in range(10001):
        lines.append(' '.join(['%d' % p, '%d' % s[0], s[1], 'L'] + ['%d' % x for x in words(s[2])] + ['T'] + ['%d' % x for x in words(s[3])]))
        s2, _, _, steps, stop, _, _ = wind(m, s, p, 0, 1 if p < 10000 else 0, 1024, 1024, False)
        if steps == 0:
            return lines + [stop]
        s = s2
    raise AssertionError


def main():
    if sys.argv[1] == 'winder':
        print('\n'.join(winder(sys.stdin.buffer.read())))
    elif sys.argv[1] == 'compare':
        print(compare(sys.stdin.buffer.read()))
    else:
        import script
        sys.stdout.buffer.write(script.run(sys.stdin.buffer.read()))


if __name__ == '__main__':
    if sys.argv[1:] not in (['winder'], ['cases'], ['compare']):
        sys.exit(__doc__)
    # entries may stand inside entries as deep as a slice is long
    sys.setrecursionlimit(70000)
    threading.stack_size(1 << 29)
    threading.Thread(target=main).start()
