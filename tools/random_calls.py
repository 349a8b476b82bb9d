#!/usr/bin/env python3
"""Compares random calls through host/yildreuz.py with reference.py's reading of documents 01 and 02 (tools/host runs it).

  tools/random_calls.py LIBRARY [CALLS [SEED]]

Texts are closed terms, written with blanks and brackets that the grammar permits or in the number dialect, and damaged ones; tables, slices and sessions are
those that the calls left, and damaged ones, tables also with another n, in rows where columns belong, and short of words, slices also cut to the words in use,
sessions also with other turns; terms are written, and texts converted, into about as many bytes as the result has; the visits looked for are mostly of nodes
that the token comes to; what a look hands out is at times gone by, at once or after other calls; runs are made on tables of both kinds, in slices of a few
words, now and then of about as many as are permitted, whatever stood in them. Every number of every answer is compared, every word or byte of what is lent, and
those that stand before and after it. At the end every stop, halt and refusal must have come up, from each call that gives it, and so must a 9, a jam and a none
that come of the turns alone, and a go whose results were foretold. First, what the wrapper itself must refuse.
"""
import pathlib
import random
import sys
from array import array
from collections import Counter

TOP = pathlib.Path(__file__).resolve().parent.parent
sys.path[:0] = [str(TOP / 'tools'), str(TOP / 'host')]
import reference  # noqa: E402
import yildreuz  # noqa: E402

GUARD = 3  # words or bytes before and after what is lent
FARTHEST = 200  # steps
FAR_BACK = 10000  # steps of a search back
SHORT = 300  # words of records, so few that a run by any count is soon full
CODES = {name: code for code, name in enumerate(yildreuz.STOP_NAMES)}

# what must have come up of each call by the end
WRITTEN = {'written', '3,000 bytes', 'over 3,000 bytes', 'refused 11'}
NO_SESSION = {'refused 7', 'refused 8', 'refused 9', 'no direction', 'too many turns'}
DUE = {
    'read': {'read'} | {'refused %d' % k for k in range(1, 7)},
    'read_numbers': {'read'} | {'refused %d' % k for k in (1, 13, 14, 6)},
    'write': WRITTEN | {'refused 7'},
    'write_numbers': WRITTEN | {'refused 7'},
    'to_numbers': WRITTEN | {'refused %d' % k for k in range(1, 6)},
    'to_names': WRITTEN | {'refused %d' % k for k in (1, 13, 14)},
    'open': {'opened', 'refused 7', 'refused 8'},
    'forward': {'spent', 'answer', 'jam', 'far', 'log full', 'tape full'} | NO_SESSION,
    'back': {'spent', 'start', 'jam', 'jam by turns', 'log full', 'tape full'} | NO_SESSION,
    'top': {'log entry', 'tape entry', 'nested', 'bullet', 'no list', 'refused 10'} | NO_SESSION,
}
DUE['go_to'] = (DUE['forward'] | DUE['back']) - {'start', 'far'}  # its count is used up where either could come
DUE['forward_to'] = DUE['forward'] | {'found', 'refused 12', 'no chosen direction'}
DUE['look'] = DUE['forward']
DUE['go'] = DUE['forward'] | {'refused 15', 'foretold'}
DUE['back_to'] = {'found', 'none', 'none by turns', 'refused 12', 'no chosen direction'} | NO_SESSION
DUE['run'] = {'spent', 'answer', 'full', 'words left over', '16,383 words', 'refused 7', 'refused 16', '7 before 16'}


class Lent:
    """Words of a log or a tape ('I'), of a table ('H'), or bytes ('B'), in the middle of others, which no call may change."""

    def __init__(self, rng, values, code='I'):
        self.size = len(values)
        self.fence = [rng.getrandbits(8 * array(code).itemsize) for _ in range(2 * GUARD)]
        self.all = array(code, self.fence[:GUARD] + list(values) + self.fence[GUARD:])
        self.part = memoryview(self.all)[GUARD:GUARD + self.size]

    def now(self):
        items = self.all.tolist()
        if items[:GUARD] + items[GUARD + self.size:] != self.fence:
            raise AssertionError('a word or byte outside what is lent has changed')
        return items[GUARD:GUARD + self.size]


# ---- texts

def random_tree(rng, size, scope):
    """A closed term of about this many nodes, as reference.py has it; mostly applications, so that there is a way to go."""
    least = 1 if scope else 2
    kind = rng.random()
    if size > 2 * least and kind < 0.65:
        left = rng.randint(least, size - 1 - least)
        return ('app', random_tree(rng, left, scope), random_tree(rng, size - 1 - left, scope))
    if scope and (size == 1 or kind < 0.7):
        return ('var', rng.choice(scope))
    name = rng.choice([b'x', b'y', b'z', b'f', b'a1', b'longname'])
    return ('lam', name, random_tree(rng, size - 1, scope + [name]))


def spelled(rng, tree, place):
    """A text of it at this place: 'term', 'function' or 'argument'."""
    blank = rng.choice([b'', b'', b'', b' ', b'\n', b'  '])
    if tree[0] == 'var':
        text, bare = tree[1], True
    elif tree[0] == 'lam':
        text, bare = b'\\' + blank + tree[1] + blank + b'.' + spelled(rng, tree[2], 'term'), place == 'term'
    else:
        text, bare = spelled(rng, tree[1], 'function') + b' ' + blank + spelled(rng, tree[2], 'argument'), place != 'argument'
    return blank + text + blank if bare and rng.random() < 0.9 else b'(' + blank + text + b')'


KNOWN = [rb'(\x.x x)(\y.y)', rb'(\x.x x)(\x.x x)', rb'\x.x', rb'(\f.\x.f(f x))(\y.y)(\z.z)', rb'(\x.\y.x)(\z.z)(\w.w w)', rb'(\x.(\y.(\z.z)y)(x x))(\z.z)']
LONG_NAMED = [
    rb'\x.x' + b' x' * 998, rb'\x.\y.x' + b' x' * 997, rb'\x.x' + b' x' * 1498,  # 3,000, 3,001 and 4,500 bytes when written
    rb'\y.' + rb'\x.' * 10 + b'y' + b' x' * 744, rb'\w.\x.x' + b' x' * 749,  # 3,000 and 3,001 bytes when written in numbers
]


def random_named(rng):
    kind = rng.random()
    if kind < 0.25:
        text = rng.choice(KNOWN)
    elif kind < 0.88:
        text = spelled(rng, random_tree(rng, rng.randint(1, 24), []), 'term')
    else:
        text = rng.choice(3 * LONG_NAMED + [b' ' * rng.choice([2999, 3000, 3001]), b' ' * 3001, b'(' * 700, b''])
    if rng.random() < 0.25:
        text = bytearray(text)
        for _ in range(rng.randint(1, 2)):
            at = rng.randint(0, len(text))
            text[at:at + rng.randint(0, 1)] = rng.choice([b'', b'X', b'(', b')', b'.', b'\\', b'9x', b'q', b'ninebytes', b' '])
        text = bytes(text)
    return text


def random_parts(rng, size, depth):
    """A term of about this many nodes under so many binders, in the number dialect; mostly applications, as above."""
    least = 1 if depth else 2
    kind = rng.random()
    if size > 2 * least and kind < 0.65:
        left = rng.randint(least, size - 1 - least)
        return b'@ ' + random_parts(rng, left, depth) + b' ' + random_parts(rng, size - 1 - left, depth)
    if depth and (size == 1 or kind < 0.7):
        return b'%d' % rng.randrange(depth)
    return b'\\ ' + random_parts(rng, size - 1, depth + 1)


def random_spine(rng):
    """Some abstractions applied to as many arguments, so that a variable may be bound far out."""
    k = rng.randint(2, 12)
    args = [random_parts(rng, rng.randint(2, 6), 0) for _ in range(k)]
    return b' '.join(k * [b'@'] + k * [b'\\'] + [random_parts(rng, rng.randint(1, 12), k)] + args)


LONG_NUMBERED = 5 * [b'\\ ' * 517 + b'@ 516 507', b'\\ ' * 517 + b'@ 507 507'] + [  # 3,000 and 3,001 bytes when written with names
    b'\\ ' * 1498 + b'1497', b'\\ ' * 1499 + b'10', b'\\ ' * 1499 + b'100',  # 3,000, 3,000 and 3,001 bytes
    b'\\ ' + b'@ ' * 749 + b'0' + b' 0' * 749, b'\\ ' + b'@ 0 ' * 749 + b'0', b'\\ ' * 1500, b'@ ' * 1499 + b'0', b' ' * 3000,
]

# numbers that reach past the binders there are, though a remainder of theirs may not
HUGE = [b'%d' % (2 ** k + j) for k in (8, 16, 32, 64, 128) for j in (-1, 0, 1)] + [b'1' + b'0' * 2900, b'7' * 2900]


def damaged_numbers(rng, text):
    """A byte or a part changed, left out or doubled."""
    if rng.random() < 0.4:
        at = rng.randint(0, len(text))
        return text[:at] + rng.choice([b'', 2 * text[at:at + 1], b' ', b'\n', b'0', b'1', b'@', b'\\', b'x', b'\0', b'\xff']) + text[at + 1:]
    parts = text.split(b' ')
    at = rng.randrange(len(parts))
    if rng.random() < 0.7:  # a number's place, if there is one
        at = rng.choice([i for i, part in enumerate(parts) if part.isdigit()] or [at])
    small, huge, other = b'%d' % rng.randint(0, 12), rng.choice(HUGE), rng.choice([b'', b'\\', b'@', b'x', b'-0', parts[at] + b'\n'])
    parts[at:at + 1] = rng.choice([[], 2 * parts[at:at + 1], [b'0' + parts[at]], [small], [small], [huge], [other]])
    return b' '.join(parts)


def random_numbered(rng):
    kind = rng.random()
    if kind < 0.15:
        text = rng.choice(LONG_NUMBERED)
    elif kind < 0.2:
        text = rng.choice([b'', b'0', b'\\', b'@', b' ', rb'\ 0', rb'@ \ @ 0 0 \ 0'])
    elif kind < 0.35:
        text = random_spine(rng)
    else:
        text = random_parts(rng, rng.randint(1, 24), 0)
    return text if rng.random() < 0.7 else damaged_numbers(rng, text)


# of each call that writes a text, the one that reads what it writes; of a conversion, the one that reads what it is given, and the one back
READER = {'write': 'read', 'write_numbers': 'read_numbers', 'to_names': 'read', 'to_numbers': 'read_numbers'}
SOURCE = {'to_names': 'read_numbers', 'to_numbers': 'read'}
BACK = {'to_names': 'to_numbers', 'to_numbers': 'to_names'}


def text_of(name, nodes):
    """The text that the call writes of accepted nodes, however long."""
    return reference.numbered(nodes) if READER[name] == 'read_numbers' else reference.spelled(reference.named_tree(nodes))


# ---- damage: words that are near what is right

def damaged(rng, words, n, bits=32):
    words = list(words)
    for _ in range(rng.randint(1, 2)):
        if words:
            words[rng.randrange(len(words))] = rng.choice([0, 1, 2, 3, rng.randint(0, min(n + 2, 2 ** bits - 1)), rng.getrandbits(bits)])
    return words


def near(rng, n):
    return rng.choice([n, n, n + 1, max(n, 1) - 1, 3001, 2 ** 16 + n])


def in_rows(words, n):
    """The same nodes with their five words side by side, as no call has them."""
    return [word for node in reference.nodes_in(words, n) for word in node] + words[5 * n:]


def damaged_table(rng, table, n):
    """A table that is not right, or whose n is not, and that n; at times one that is right after all, as where a word behind the columns differs."""
    words, kind = table.now(), rng.random()
    if kind < 0.5:
        words = damaged(rng, words, n, 16)
    elif kind < 0.7:
        n = near(rng, n)
        words += [rng.choice([0, 1, 2, rng.getrandbits(16)]) for _ in range(rng.choice([0, 5, 10]))]  # for one node more, or two
    elif kind < 0.8:
        words = in_rows(words, n)
    elif kind < 0.9:
        words = words[:max(5 * n - rng.randint(0, 6), 0)]
    else:
        words += rng.choice([words, in_rows(words, n), [rng.getrandbits(16)]])  # behind the columns
    return Lent(rng, words, 'H'), n


def damaged_session(rng, s, n):
    field = rng.choice(s._fields + ('direction', 'position', 'position', 'turns', 'turns', 'turns'))
    value = getattr(s, field)
    if field == 'direction':
        new = rng.choice([1 - value, 1 - value, 2, 3, rng.getrandbits(32)]) if value <= 1 else 0
    elif field == 'position':
        new = rng.choice([0, value + 1, rng.randint(0, 40), yildreuz.GREATEST - rng.randint(0, 4)])
    elif field == 'node':
        new = rng.choice([0, n + 1, rng.randint(1, n + 1), rng.randint(1, n + 1), rng.getrandbits(32)])
    elif field == 'turns':
        new = rng.choice([0, value + 1, max(value, 1) - 1, s.position, s.position + 1, rng.randint(0, s.position), rng.getrandbits(32)])
    else:
        new = rng.choice([0, value + 1, max(value, 1) - 1, rng.getrandbits(32)])
    s = s._replace(**{field: min(new, yildreuz.GREATEST)})
    if field == 'turns' or rng.random() < 0.4:
        return s
    return s._replace(turns=rng.randint(0, s.position))  # so that not every way back ends by the turns


# ---- what a call must answer

def session_of(s):
    return reference.Session(s.node, 'du'[s.direction], s.position, s.log_len, s.tape_len, s.turns)


def numbers_of(se):
    return yildreuz.Session(se.node, 'du'.index(se.dir), se.position, se.log_len, se.tape_len, se.turns)


MEANT = {
    'forward': lambda *given: reference.call(*given, False),
    'back': lambda *given: reference.call(*given, True),
    'go_to': reference.go_to,
    'go': reference.go,
    'back_to': lambda *given: on_visit(reference.back_to, *given),
    'forward_to': lambda *given: on_visit(reference.forward_to, *given),
}


def on_visit(meant, w, n, se, log, tape, node, direction, *count):
    """A direction that is none is a 12, after 7 to 9, as node 0 is."""
    return meant(w, n, se, log, tape, node if direction <= 1 else 0, 'du'[min(direction, 1)], *count)


def no_direction(w, n, log, tape):
    """The number of a session whose direction is none: 9, after 7 and 8."""
    return 7 if reference.accepted(w, n) is None else 8 if max(len(log), len(tape)) > 16384 else 9


def code_and_value(stop):
    name, value = stop.split() if stop.split()[0] in ('answer', 'refused') else (stop, 0)
    return CODES[name], int(value)


def expected(name, w, n, s, log, tape, numbers):
    """The outcome; log and tape are lists, changed in place."""
    if s.direction > 1:
        return yildreuz.Outcome(s, 0, CODES['refused'], no_direction(w, n, log, tape), 0, 0, 0)
    se, steps, stop, peak, carried = MEANT[name](w, n, session_of(s), log, tape, *numbers)
    return yildreuz.Outcome(numbers_of(se), steps, *code_and_value(stop), 0, peak, carried)


def expected_look(w, n, s, log, tape, count):
    if s.direction > 1:
        return yildreuz.Look(0, CODES['refused'], no_direction(w, n, log, tape), 0, 0, 0, 0, 0)
    steps, stop, peak, carried, position, handed = reference.look(w, n, session_of(s), log, tape, count)
    return yildreuz.Look(steps, *code_and_value(stop), 0, peak, carried, position, handed)


def expected_top(w, n, s, log, tape, which):
    """The answer of top, and the words that must lie in the part."""
    se, listed = s if s.direction <= 1 else s._replace(node=0, direction=0), 'log' if which == 0 else 'tape'
    offset, part, refusal = reference.top(w, n, session_of(se), log, tape, listed)
    if which > 1 and refusal in (0, 10):  # 10, after 7 to 9
        offset, part, refusal = 0, [], 10
    return yildreuz.Top(yildreuz.Part(offset, len(part)), refusal), part


def expected_run(w, n, records, count):
    """The answer of a run; the records are a list, changed in place."""
    node, steps, halt = reference.run(w, n, records, count)
    name, *value = halt.split()
    return yildreuz.Run(node, steps, yildreuz.HALT_NAMES.index(name), int(*value))


# ---- what a refusal or a jam came of

def refused(number, w, n, s, log, tape):
    """A 9 by the direction, or by the turns alone, has a name of its own."""
    if number == 9 and s.direction > 1:
        return 'no direction'
    if number == 9 and reference.given(w, n, session_of(s._replace(turns=0)), log, tape)[2] == 0:
        return 'too many turns'
    return 'refused %d' % number


def jams_by_turns(w, n, s, log, tape):
    """Whether the way back ends at a jam, and not with 0 turns there, or 1: a rule fits, and there is room."""
    log, tape = list(log), list(tape)
    se, _, stop, _, _ = reference.call(w, n, session_of(s), log, tape, s.position, True)
    others = [session_of(numbers_of(se)._replace(turns=turns)) for turns in (0, 1)]
    return stop == 'jam' and any(reference.call(w, n, other, list(log), list(tape), 1, True)[1] for other in others)


# ---- the comparison

class Comparison:
    def __init__(self, lib, seed):
        self.lib, self.rng, self.seen = lib, random.Random(seed), Counter()
        self.handed = 0, 0  # the position and the count that the last look handed out

    def note(self, call, what):
        self.seen[call, what] += 1

    def calls(self):
        return sum(self.seen.values())

    def same(self, got, want, given):
        if got != want:
            raise AssertionError('%s\n   got %s\n  want %s' % (given, got, want))

    def read(self, text, name):
        """Reads a text; the table and n."""
        meant = getattr(reference, name)
        want = meant(text, 10 ** 9)[0]
        room = max(0, 5 * want + self.rng.choice([0, 0, 0, 1, 7, -1]))
        before = [self.rng.getrandbits(16) for _ in range(room)]
        table = Lent(self.rng, before, 'H')
        got = getattr(self.lib, name)(text, table.part)
        n, refusal, words = meant(text, room)
        self.same((got, table.now()), (yildreuz.Reading(n, refusal), words + before[len(words):]), (name, text, room))
        self.note(name, 'refused %d' % refusal if refusal else 'read')
        return table, n

    def write(self, table, n, name):
        """Writes a table's text; where it is written, reading it gives the table back."""
        w = table.now()
        written = self.put_down(name, reference.accepted(w, n), lambda text: getattr(self.lib, name)(table.part, n, text), w, n)
        self.same(table.now(), w, (name, 'the table', w, n))
        if written is not None:
            self.same(getattr(reference, READER[name])(written, 5 * n), (n, 0, w[:5 * n]), ('read back', name, w, n))
            self.read(written, READER[name])

    def convert(self, text, name):
        """Converts a text, and back at times; what is written reads to the table of the text given."""
        n, refusal, w = getattr(reference, SOURCE[name])(text, 10 ** 9)
        written = self.put_down(name, None if refusal else reference.accepted(w, n), lambda out: getattr(self.lib, name)(text, out), text)
        if written is not None:
            self.same(getattr(reference, READER[name])(written, 5 * n), (n, 0, w), ('read after', name, text))
            if self.rng.random() < 0.5:
                self.convert(written, BACK[name])

    def put_down(self, name, nodes, made, *given):
        """A call that writes the text of nodes, or refuses where there are none, into about as many bytes as that has; what is written, or None."""
        most = len(text_of(name, nodes)) if nodes else 9
        room = self.rng.choice([most, most, most - 1, most + 1, most + self.rng.randint(2, 40), self.rng.randint(0, most), 0, 3000, 3500])
        before = [self.rng.getrandbits(8) for _ in range(room)]
        out = Lent(self.rng, before, 'B')
        got = made(out.part)
        length, refusal, written = getattr(reference, name)(*given, room)
        self.same((got, out.now()), (yildreuz.Written(length, refusal), list(written) + before[length:]), (name, *given, room))
        what = 'over 3,000 bytes' if 3000 < most <= room else 'refused %d' % refusal
        self.note(name, what if refusal else '3,000 bytes' if length == 3000 else 'written')
        return None if refusal else written

    def room(self):
        """How long a slice is: mostly enough, at times too short, and at times too long to be permitted."""
        return self.rng.choice([0, 1, 2, 3, 5, 8, 16, 64, 64, 64]) if self.rng.random() < 0.99 else self.rng.choice([16384, 16385])

    def open(self, table, n):
        log, tape = (Lent(self.rng, [self.rng.getrandbits(32) for _ in range(self.room())]) for _ in range(2))
        w, want_log, want_tape = table.now(), log.now(), tape.now()
        got = self.lib.open(table.part, n, log.part, tape.part)
        se, refusal = reference.open_session(w, n, want_log, want_tape)
        self.same((got, table.now(), log.now(), tape.now()), (yildreuz.Opening(numbers_of(se), refusal), w, want_log, want_tape), ('open', w, n))
        self.note('open', 'refused %d' % refusal if refusal else 'opened')
        return got.session, log, tape

    def number(self, name, position):
        """A count or a position, at most FARTHEST steps away or where the call's position ends, so that no call takes long."""
        away = self.rng.choice([0, 1, 2, 3, 7, 20, FARTHEST])
        if name == 'go_to':
            away *= self.rng.choice([1, 1, -1])
            return min(max(position + away, 0), yildreuz.GREATEST)
        ends_near = position < FARTHEST if name == 'back' else position > yildreuz.GREATEST - FARTHEST
        return yildreuz.GREATEST - self.rng.randint(0, 2) if ends_near and self.rng.random() < 0.2 else away

    def spot(self, back, w, n, s, log, tape):
        """A node and a direction: mostly where the token was or will be some steps away, at times others, and such as there are none."""
        rng, direction = self.rng, self.rng.randint(0, 1)
        if s.direction <= 1 and rng.random() < 0.6:
            se = reference.call(w, n, session_of(s), list(log), list(tape), rng.choice([0, 1, 2, 3, 7, 20, FARTHEST]), back)[0]
            node, direction = se.node, 'du'.index(se.dir)
        else:
            node = rng.choice([0, n + 1, rng.getrandbits(32)] + [rng.randint(0, n + 1)] * 9)
        return node, direction if rng.random() < 0.95 else rng.choice([2, 3, yildreuz.GREATEST, rng.getrandbits(32)])

    def winding(self, w, n, s, log, tape):
        """A call and its numbers. From a damaged position a search back may take long: back comes in its place."""
        name = self.rng.choice(['forward', 'forward', 'back', 'go_to', 'back_to', 'forward_to', 'go'])
        if name == 'go':
            return name, self.rng.choice([self.handed, (s.position, self.number('forward', s.position))])
        if name == 'back_to' and s.position > FAR_BACK and s.direction <= 1:
            if reference.call(w, n, session_of(s), list(log), list(tape), FAR_BACK, True)[1] == FAR_BACK:
                name = 'back'
        if name == 'back_to':
            return name, self.spot(True, w, n, s, log, tape)
        if name == 'forward_to':
            return name, self.spot(False, w, n, s, log, tape) + (self.number('forward', s.position),)
        return name, (self.number(name, s.position),)

    def wind(self, table, n, s, log, tape):
        """One call, at times after a glance at what is on top, or a look; its outcome."""
        if self.rng.random() < 0.3:
            self.top(table, n, s, log, tape)
        if self.rng.random() < 0.3:
            self.look(table, n, s, log, tape)
        w, want_log, want_tape = table.now(), log.now(), tape.now()
        name, numbers = self.winding(w, n, s, want_log, want_tape)
        given = (name, w, n, s, list(want_log), list(want_tape), *numbers)
        got = getattr(self.lib, name)(table.part, n, s, log.part, tape.part, *numbers)
        want = expected(name, w, n, s, want_log, want_tape, numbers)
        self.same((got, table.now(), log.now(), tape.now()), (want, w, want_log, want_tape), given)
        what = yildreuz.STOP_NAMES[got.stop]
        goes_back = name in ('back', 'back_to') or name == 'go_to' and numbers[0] < s.position
        if what == 'refused':
            unchosen = len(numbers) > 1 and numbers[1] > 1 and got.value == 12
            what = 'no chosen direction' if unchosen else refused(got.value, w, n, s, want_log, want_tape)
        elif what in ('jam', 'none') and goes_back and jams_by_turns(w, n, got.session, want_log, want_tape):
            what += ' by turns'
        self.note(name, what)
        return got

    def look(self, table, n, s, log, tape):
        """One look; no lent word may differ. At times go follows at once, and its results are those foretold."""
        count, w, words = self.number('forward', s.position), table.now(), [log.now(), tape.now()]
        got, given = self.lib.look(table.part, n, s, log.part, tape.part, count), ('look', w, n, s, *words, count)
        self.same((got, table.now(), [log.now(), tape.now()]), (expected_look(w, n, s, *words, count), w, words), given)
        what, self.handed = yildreuz.STOP_NAMES[got.stop], (got.position, got.count)
        self.note('look', refused(got.value, w, n, s, *words) if what == 'refused' else what)
        if self.rng.random() < 0.3:
            there, left = [Lent(self.rng, x) for x in words], [list(x) for x in words]
            went = self.lib.go(table.part, n, s, *(x.part for x in there), *self.handed)
            want = expected('go', w, n, s, *left, self.handed)
            self.same((went, went[1:], table.now(), [x.now() for x in there]), (want, got[:6], w, left), ('foretold', *given))
            self.note('go', 'foretold')

    def top(self, table, n, s, log, tape):
        """One glance at what is on top; no lent word may differ."""
        which = self.rng.choice([0, 0, 0, 1, 1, 1, 2, self.rng.getrandbits(32)])
        w, words = table.now(), [log.now(), tape.now()]
        got = self.lib.top(table.part, n, s, log.part, tape.part, which)
        want, part = expected_top(w, n, s, *words, which)
        self.same((got, table.now(), [log.now(), tape.now()]), (want, w, words), ('top', w, n, s, *words, which))
        if which <= 1:
            self.same(words[which][got.part.offset:got.part.offset + got.part.len], part, ('the part', w, n, s, *words, which))
        if got.refusal:
            what = 'no list' if which > 1 and got.refusal == 10 else refused(got.refusal, w, n, s, *words)
        else:
            what = 'bullet' if part == [0] else 'nested' if len(part) > 1 else ('log entry', 'tape entry')[which]
        self.note('top', what)

    def run(self, table, n):
        """One run, in a slice of any words: at times such as could be records, so that one read before it is written would show."""
        rng, most, w = self.rng, yildreuz.LONGEST_RECORDS, table.now()
        room = rng.choice([0, 1, 2, 3, 5, 6, 9, 30, rng.randint(0, SHORT), rng.randint(0, SHORT)]) if rng.random() < 0.94 else rng.choice([most, most + 1])
        before = [rng.getrandbits(32) for _ in range(room)] if rng.random() < 0.5 else [rng.randint(0, 9) for _ in range(room)]
        count = rng.choice([0, 1, 2, 3, 7, 20, FARTHEST, 3000, yildreuz.GREATEST if room <= SHORT else 2000])
        records, left = Lent(rng, before), list(before)
        got, want, given = self.lib.run(table.part, n, records.part, count), expected_run(w, n, left, count), ('run', w, n, before, count)
        self.same((got, table.now(), records.now()), (want, w, left), given)
        what = yildreuz.HALT_NAMES[got.halt]
        if what == 'refused':
            self.same(records.now(), before, given)
            what = '7 before 16' if got.value == 7 and room > most else 'refused %d' % got.value
        elif room == most:
            what = '16,383 words'
        elif what == 'full' and room % 3:
            what = 'words left over'
        self.note('run', what)

    def walk(self):
        """A term, a session and some calls on it, damaged or not. What a damaged session or slice leads to is at times gone on with."""
        rng = self.rng
        converts = rng.choice(['to_numbers', 'to_numbers', 'to_names'])
        text = random_named(rng) if converts == 'to_numbers' else random_numbered(rng)
        table, n = self.read(text, SOURCE[converts])
        if rng.random() < 0.6:
            self.convert(text, converts)
        if n == 0 and rng.random() < 0.9:
            return
        if rng.random() < 0.3:
            self.write(*damaged_table(rng, table, n), rng.choice(['write', 'write_numbers']))
        if rng.random() < 0.05:
            table, n = damaged_table(rng, table, n)
        for name in ('write', 'write_numbers'):
            if rng.random() < 0.6:
                self.write(table, n, name)
        for _ in range(rng.randint(0, 4)):
            self.run(*(damaged_table(rng, table, n) if rng.random() < 0.2 else (table, n)))
        s, log, tape = self.open(table, n)
        for _ in range(rng.randint(1, 30) if n < 1000 else 2):  # a large term takes long
            part = rng.random()
            if part < 0.7:
                s = self.wind(table, n, s, log, tape).session
            elif part < 0.85:
                out = self.wind(table, n, damaged_session(rng, s, n), log, tape)
                if out.stop != yildreuz.REFUSED or rng.random() < 0.1:
                    s = out.session
            elif part < 0.9:
                s = self.wind(*damaged_table(rng, table, n), s, log, tape).session
            else:
                others = [Lent(rng, damaged(rng, x.now(), n)) for x in (log, tape)]
                if rng.random() < 0.2:  # the words in use, or one more
                    others = [Lent(rng, x.now()[:used + rng.randint(0, 1)]) for x, used in ((log, s.log_len), (tape, s.tape_len))]
                if rng.random() < 0.05:
                    others[rng.randrange(2)] = Lent(rng, [0] * 16385)
                out = self.wind(table, n, s, *others)
                if out.stop != yildreuz.REFUSED or rng.random() < 0.1:
                    s, (log, tape) = out.session, others

    def missing(self):
        return ['%s: %s' % (call, what) for call, due in DUE.items() for what in sorted(due) if not self.seen[call, what]]

    def shown(self):
        return ['%-13s %s' % (call, ', '.join('%s %d' % (what, k) for (c, what), k in sorted(self.seen.items()) if c == call)) for call in DUE]


# ---- what the wrapper itself must refuse, before the call

def refuses_misuse(lib):
    """Buffers that are no slices of words or bytes, slices that overlap, and numbers that are no words: each is an error, and no word or byte differs."""
    table, log, tape, text = yildreuz.table_words(10), yildreuz.words(4), yildreuz.words(4), bytearray(10)
    n = lib.read(rb'\x.x', table).n
    start = lib.open(table, n, log, tape).session
    shared, narrow = memoryview(yildreuz.words(8)), memoryview(yildreuz.table_words(16))
    misuses = [
        (ValueError, lambda: lib.open(table, n, log, log)),
        (ValueError, lambda: lib.open(table, n, shared[:5], shared[4:])),
        (ValueError, lambda: lib.forward(table, n, start, log, memoryview(table).cast('B')[4:12].cast('I'), 1)),
        (TypeError, lambda: lib.forward(table, n, start, log, narrow[3:5], 1)),
        (TypeError, lambda: lib.forward(yildreuz.words(10), n, start, log, tape, 1)),
        (TypeError, lambda: lib.open(shared, n, log, tape)),
        (TypeError, lambda: lib.top(table, n, start, narrow, tape, yildreuz.LOG)),
        (TypeError, lambda: lib.read(4, table)),
        (TypeError, lambda: lib.read('\\x.x', table)),
        (TypeError, lambda: lib.read(rb'\x.x', bytes(40))),
        (TypeError, lambda: lib.read(rb'\x.x', array('I', bytes(40)))),
        (TypeError, lambda: lib.read(rb'\x.x', array('h', bytes(40)))),
        (TypeError, lambda: lib.read(rb'\x.x', [0] * 10)),
        (TypeError, lambda: lib.read(rb'\x.x', memoryview(bytearray(41))[1:].cast('H'))),
        (TypeError, lambda: lib.read(rb'\x.x', narrow[::2])),
        (TypeError, lambda: lib.open(table, n, memoryview(bytearray(42))[2:].cast('I'), tape)),
        (OverflowError, lambda: lib.open(table, -1, log, tape)),
        (OverflowError, lambda: lib.back(table, n, start, log, tape, yildreuz.GREATEST + 1)),
        (OverflowError, lambda: lib.go_to(table, n, start._replace(node=yildreuz.GREATEST + 2), log, tape, 0)),
        (OverflowError, lambda: lib.forward(table, n, start._replace(turns=-1), log, tape, 1)),
        (ValueError, lambda: lib.back_to(table, n, start, log, log, 1, yildreuz.UP)),
        (OverflowError, lambda: lib.back_to(table, n, start, log, tape, -1, yildreuz.UP)),
        (OverflowError, lambda: lib.forward_to(table, n, start, log, tape, 1, yildreuz.GREATEST + 1, 0)),
        (OverflowError, lambda: lib.forward_to(table, n, start, log, tape, 1, yildreuz.UP, yildreuz.GREATEST + 1)),
        (ValueError, lambda: lib.look(table, n, start, log, log, 1)),
        (OverflowError, lambda: lib.look(table, n, start, log, tape, -1)),
        (OverflowError, lambda: lib.go(table, n, start, log, tape, yildreuz.GREATEST + 1, 0)),
        (OverflowError, lambda: lib.go(table, n, start, log, tape, 0, yildreuz.GREATEST + 1)),
        (ValueError, lambda: lib.run(table, n, memoryview(table).cast('B')[4:12].cast('I'), 1)),
        (TypeError, lambda: lib.run(table, n, narrow, 1)),
        (TypeError, lambda: lib.run(shared, n, log, 1)),
        (TypeError, lambda: lib.run(table, n, bytes(12), 1)),
        (OverflowError, lambda: lib.run(table, -1, log, 1)),
        (OverflowError, lambda: lib.run(table, n, log, yildreuz.GREATEST + 1)),
        (ValueError, lambda: lib.top(table, n, start, log, memoryview(log)[1:], yildreuz.LOG)),
        (OverflowError, lambda: lib.top(table, n, start, log, tape, -1)),
        (TypeError, lambda: lib.write(table, n, bytes(10))),
        (TypeError, lambda: lib.write(table, n, b'')),
        (TypeError, lambda: lib.write(table, n, log)),
        (TypeError, lambda: lib.write(table, n, array('b', bytes(10)))),
        (TypeError, lambda: lib.write(table, n, memoryview(text)[::-1])),
        (TypeError, lambda: lib.write(bytearray(40), n, text)),
        (ValueError, lambda: lib.write(table, n, memoryview(table).cast('B'))),
        (ValueError, lambda: lib.write(narrow[4:8], n, narrow.cast('B')[15:])),
        (OverflowError, lambda: lib.write(table, -1, text)),
        (TypeError, lambda: lib.read_numbers(4, table)),
        (TypeError, lambda: lib.read_numbers('\\ 0', table)),
        (TypeError, lambda: lib.read_numbers(rb'\ 0', bytes(40))),
        (TypeError, lambda: lib.write_numbers(table, n, bytes(10))),
        (TypeError, lambda: lib.write_numbers(table, n, log)),
        (ValueError, lambda: lib.write_numbers(table, n, memoryview(table).cast('B'))),
        (OverflowError, lambda: lib.write_numbers(table, yildreuz.GREATEST + 1, text)),
        (TypeError, lambda: lib.to_numbers(4, text)),
        (TypeError, lambda: lib.to_numbers('\\x.x', text)),
        (TypeError, lambda: lib.to_numbers(rb'\x.x', bytes(10))),
        (TypeError, lambda: lib.to_numbers(rb'\x.x', log)),
        (TypeError, lambda: lib.to_names(rb'\ 0', b'')),
        (TypeError, lambda: lib.to_names(rb'\ 0', memoryview(text)[::-1])),
    ]
    before = [list(x) for x in (table, log, tape, shared, narrow, text)]
    for number, (error, misuse) in enumerate(misuses):
        try:
            misuse()
        except error:
            continue
        raise AssertionError('misuse %d is not refused' % number)
    if before != [list(x) for x in (table, log, tape, shared, narrow, text)]:
        raise AssertionError('a misuse has changed a word or a byte')


if __name__ == '__main__':
    if not 2 <= len(sys.argv) <= 4:
        sys.exit(__doc__)
    most, seed = (sys.argv[2:] + ['50000', '1'][len(sys.argv) - 2:])[:2]
    lib = yildreuz.Library(sys.argv[1])
    refuses_misuse(lib)
    comparison = Comparison(lib, int(seed))
    while comparison.calls() < int(most):
        comparison.walk()
    print('\n'.join(comparison.shown()))
    if comparison.missing():
        sys.exit('never came up: ' + '; '.join(comparison.missing()))
    print('%d random calls agree (seed %s)' % (comparison.calls(), seed))
