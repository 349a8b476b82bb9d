"""The script of cases (crates/cases/stdin, which says its commands) on reference.py's reading of documents 01 and 02: what the program `cases` must print."""
from itertools import groupby

from reference import (GREATEST, START, Machine, Session, accepted, back_to, call, forward_to, go, go_to, in_columns, lay, look, open_session, read,
                       read_numbers, run as krivine, to_names, to_numbers, top, wind, words, write, write_numbers)

LONGEST_SCRIPT, LONGEST_TEXT, LONGEST_BUFFER, LONGEST_WRITTEN = 131071, 3001, 3010, 3000
GREATEST_IN_TABLE = 65535


class Wrong(Exception):
    pass


class Slice:
    """A lent slice: its words, how many there may be and how great each, and how many of them a call gets."""
    def __init__(self, capacity, greatest=GREATEST):
        self.capacity, self.greatest, self.words, self.given = capacity, greatest, [], 0

    def fill(self, size, word):
        if size > self.capacity or word > self.greatest:
            raise Wrong
        self.words, self.given = [word] * size, size

    def set(self, i, word):
        if i >= len(self.words) or word > self.greatest:
            raise Wrong
        self.words[i] = word

    def lend(self, size):
        if size > len(self.words):
            raise Wrong
        self.given = size

    def part(self):
        return self.words[:self.given]

    def back(self, part):
        self.words[:self.given] = part

    def shown(self):
        return shown(self.words)


def shown(words):
    out = ''
    for word, run in groupby(words):
        times = len(list(run))
        out += ' %d*%d' % (word, times) if times > 3 else ' %d' % word * times
    return out


class Desk:
    """What the next call gets, and a command for each word of the script."""
    def __init__(self):
        self.text, self.n, self.session = b'', 0, Session()
        self.table, self.log, self.tape = Slice(15010, GREATEST_IN_TABLE), Slice(16385), Slice(16385)

    # the text, n and the session

    def do_text(self, pieces):
        self.text = b''
        for piece in pieces.split(b' ') if pieces else ():
            times, star, bytes = piece.partition(b'*')
            self.text += bytes * int(times) if star and is_number(times) else piece
        self.text = self.text.replace(b'_', b' ').replace(b'|', b'\n')[:LONGEST_TEXT + 1]

    def do_n(self, n):
        self.n = n

    def do_down(self, *numbers):
        self.session = Session(numbers[0], 'd', *numbers[1:])

    def do_up(self, *numbers):
        self.session = Session(numbers[0], 'u', *numbers[1:])

    def do_tower(self, deep):
        if len(self.table.words) < 5 * (deep + 1):
            raise Wrong
        words = in_columns([(2, i + 2, 0, i, 0) for i in range(deep)] + [(1, 1, 0, deep, 0)])
        self.table.words = words + [0] * (len(self.table.words) - len(words))

    # the calls, each answering the line to print after its name

    def do_read(self):
        return self.laid_out(read, self.said())

    def do_read_numbers(self):
        return self.laid_out(read_numbers, self.said())

    def do_to_numbers_read(self):
        return self.laid_out(read_numbers, to_numbers(self.said(), LONGEST_WRITTEN)[2])

    def do_to_names_read(self):
        return self.laid_out(read, to_names(self.said(), LONGEST_WRITTEN)[2])

    def do_read_back(self):
        return self.laid_out(read, self.taken_out(write))

    def do_read_numbers_back(self):
        return self.laid_out(read_numbers, self.taken_out(write_numbers))

    def do_write(self, size, byte):
        return put_down(size, byte, write, self.table.part(), self.n)

    def do_write_numbers(self, size, byte):
        return put_down(size, byte, write_numbers, self.table.part(), self.n)

    def do_to_numbers(self, size, byte):
        return put_down(size, byte, to_numbers, self.said())

    def do_to_names(self, size, byte):
        return put_down(size, byte, to_names, self.said())

    def do_numbers_and_back(self, size, byte):
        return put_down(size, byte, to_names, to_numbers(self.said(), LONGEST_WRITTEN)[2])

    def do_names_and_back(self, size, byte):
        return put_down(size, byte, to_numbers, to_names(self.said(), LONGEST_WRITTEN)[2])

    def said(self):
        """The script's text, unless it is longer than one may be."""
        if len(self.text) > LONGEST_TEXT:
            raise Wrong
        return self.text

    def taken_out(self, write_it):
        """The table's text; other words stand in its place, where it is not refused."""
        _, number, text = write_it(self.table.part(), self.n, LONGEST_WRITTEN)
        if number == 0:
            self.table.back([8] * self.table.given)
        return text

    def laid_out(self, read_it, text):
        self.n, number, ws = read_it(text, self.table.given)
        self.table.words[:len(ws)] = ws
        return ' n %d refusal %d table%s' % (self.n, number, self.table.shown())

    def do_accept(self):
        return ' %d' % (accepted(self.table.part(), self.n) is not None)

    def do_open(self):
        return self.on_slices(self.opened)

    def do_forward(self, count):
        return self.on_slices(lambda *lent: self.wound(call(*lent, count, False)))

    def do_back(self, count):
        return self.on_slices(lambda *lent: self.wound(call(*lent, count, True)))

    def do_go_to(self, position):
        return self.on_slices(lambda *lent: self.wound(go_to(*lent, position)))

    def do_back_to(self, node, dir):
        return self.on_slices(lambda *lent: self.wound(back_to(*lent, node, 'u' if dir else 'd')))

    def do_forward_to(self, node, dir, count):
        return self.on_slices(lambda *lent: self.wound(forward_to(*lent, node, 'u' if dir else 'd', count)))

    def do_look(self, count):
        """Both slices before it, what it tells, and both slices after it."""
        return self.slices() + self.on_slices(lambda *lent: foretold(*look(*lent, count)))

    def do_go(self, position, count):
        return self.on_slices(lambda *lent: self.wound(go(*lent, position, count)))

    def do_run(self, count):
        """Krivine's machine, with the log's words as its records."""
        records = self.log.part()
        answer = ' node %d steps %d %s' % krivine(self.table.part(), self.n, records, count)
        self.log.back(records)
        return answer + ' L%s' % self.log.shown()

    def do_walk(self, count):
        return self.on_slices(lambda *lent: self.walked(*lent, count))

    def do_walk_back(self, count):
        return self.on_slices(lambda *lent: self.walked_back(*lent, count))

    def do_log_top(self):
        return self.on_slices(lambda *lent: topped(*top(*lent, 'log')))

    def do_tape_top(self):
        return self.on_slices(lambda *lent: topped(*top(*lent, 'tape')))

    def on_slices(self, made):
        log, tape = self.log.part(), self.tape.part()
        answer = made(self.table.part(), self.n, self.session, log, tape)
        self.log.back(log)
        self.tape.back(tape)
        return answer + self.slices()

    def slices(self):
        return ' L%s T%s' % (self.log.shown(), self.tape.shown())

    def opened(self, table, n, _session, log, tape):
        self.session, number = open_session(table, n, log, tape)
        return ' %s refusal %d' % (self.session.shown(), number)

    def wound(self, outcome):
        self.session, steps, stop, peak, carried = outcome
        return ' %s steps %d %s peak %d carried %d' % (self.session.shown(), steps, stop, peak, carried)

    def walked(self, table, n, session, log, tape, count):
        outcome = call(table, n, session, log, tape, 0, False)
        for _ in range(count):
            outcome = call(table, n, outcome[0], log, tape, 1, False)
        return self.wound(outcome)

    def walked_back(self, table, n, session, log, tape, count):
        """Each state is held to the plain machine's after as many steps from the start as the position says."""
        states = plain_states(table, n, session.position, len(log), len(tape))
        outcome = call(table, n, session, log, tape, 0, True)
        agreed = agrees(states, outcome[0], log, tape)
        for _ in range(count):
            outcome = call(table, n, outcome[0], log, tape, 1, True)
            agreed += agrees(states, outcome[0], log, tape)
        return self.wound(outcome) + ' agreed %d' % agreed


def put_down(size, byte, write_it, *given):
    """What is written of the given into so many bytes, each the same."""
    if size > LONGEST_BUFFER or byte > 255:
        raise Wrong
    length, number, text = write_it(*given, size)
    return ' len %d refusal %d text %s rest%s' % (length, number, text.decode(), shown([byte] * (size - length)))


def foretold(steps, stop, peak, carried, position, count):
    return ' steps %d %s peak %d carried %d position %d count %d' % (steps, stop, peak, carried, position, count)


def topped(_offset, part, number):
    return ' refusal %d part%s' % (number, shown(part))


def agrees(states, session, log, tape):
    p = min(session.position, len(states) - 1)
    if p < 0 or (len(log), len(tape)) != (64, 64):
        return False
    (node, dir, L, T), turns = states[p]
    L, T = words(L), words(T)
    return session.shown() == Session(node, dir, p, len(L), len(T), turns).shown() and (log, tape) == (lay(L, 64), lay(T, 64))


def plain_states(table, n, count, log_room, tape_room):
    """The states from the start on, as far as the stops allow, at most so many steps; beside each how many of the steps to it changed direction."""
    nodes = accepted(table, n)
    if nodes is None:
        return []
    m, states = Machine(nodes), [(START, 0)]
    while len(states) <= count:
        last, turns = states[-1]
        s, _, _, steps, _, _, _ = wind(m, last, len(states) - 1, 0, 1, log_room, tape_room, False)
        if steps == 0:
            break
        states.append((s, turns + (s[1] != last[1])))
    return states


# how many numbers follow a word, and whether a text or a name may follow these
SHAPES = {
    'text': (0, True), 'n': (1, False), 'down': (5, False), 'up': (5, False), 'tower': (1, False),
    'read': (0, True), 'accept': (0, True), 'open': (0, True), 'forward': (1, True), 'back': (1, True), 'go-to': (1, True),
    'walk': (1, True), 'walk-back': (1, True), 'log-top': (0, True), 'tape-top': (0, True), 'write': (2, True), 'read-back': (0, True),
    'back-to': (2, True), 'forward-to': (3, True), 'read-numbers': (0, True), 'write-numbers': (2, True), 'read-numbers-back': (0, True),
    'to-numbers': (2, True), 'to-names': (2, True), 'to-numbers-read': (0, True), 'to-names-read': (0, True),
    'numbers-and-back': (2, True), 'names-and-back': (2, True), 'look': (1, True), 'go': (2, True), 'run': (1, True),
}
SLICES = ('table', 'log', 'tape')
for slice in SLICES:
    SHAPES.update({slice: (2, False), 'set-' + slice: (2, False), 'lend-' + slice: (1, False)})


def is_number(word):
    return word.isdigit() and int(word) <= GREATEST


def obey(desk, line):
    """What the line prints."""
    word, _, rest = line.partition(b' ')
    name = word.decode('latin-1')
    if name not in SHAPES:
        raise Wrong
    count, more = SHAPES[name]
    numbers = []
    for _ in range(count):
        number, _, rest = rest.partition(b' ')
        if not is_number(number):
            raise Wrong
        numbers.append(int(number))
    if rest and not more:
        raise Wrong
    what, _, slice = name.rpartition('-')
    if slice in SLICES:
        answer = getattr(getattr(desk, slice), what or 'fill')(*numbers)
    elif name == 'text':
        answer = desk.do_text(rest)
    else:
        answer = getattr(desk, 'do_' + name.replace('-', '_'))(*numbers)
    return b'' if answer is None else (rest or line) + answer.encode() + b'\n'


def run(script):
    """What `cases` prints for a script."""
    if len(script) > LONGEST_SCRIPT:
        return b'? the script is too long\n'
    desk, out = Desk(), b''
    for line in script.split(b'\n'):
        if line and not line.startswith(b'#'):
            try:
                out += obey(desk, line)
            except Wrong:
                out += b'? ' + line + b'\n'
    return out
