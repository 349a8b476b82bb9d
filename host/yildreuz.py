r"""Yildreuz for Python: the calls of yildreuz.h over a shared library, with Python's standard library alone. The library is made of the archive:

    tools/archive
    cc -shared -o target/libyildreuz.so -Wl,--whole-archive target/staticlib/libyildreuz.a -Wl,--no-whole-archive

and used so, with host/ in PYTHONPATH:

    import yildreuz

    lib = yildreuz.Library('target/libyildreuz.so')
    table, log, tape = yildreuz.table_words(100), yildreuz.words(64), yildreuz.words(64)
    n, refusal = lib.read(rb'(\x.x x)(\y.y)', table)
    parents = memoryview(table)[3 * n:4 * n]    # a column of the table, no word of it copied: 0, 1, 2, 3, 3, 1, 6 for the nodes 1 to 7
    session, refusal = lib.open(table, n, log, tape)
    out = lib.forward(table, n, session, log, tape, 100)    # out.steps 12, out.stop ANSWER, out.value 6, out.peak 6 (in bits), out.carried 6, out.session.turns 8
    part, refusal = lib.top(table, n, out.session, log, tape, yildreuz.LOG)
    newest = memoryview(log)[part.offset:part.offset + part.len]    # the newest log entry, no word of it copied: 7, 5
    home = lib.back(table, n, out.session, log, tape, out.steps)
    there = lib.forward_to(table, n, home.session, log, tape, 2, yildreuz.UP, 100)    # there.stop FOUND, node 2 up at position 4
    none = lib.back_to(table, n, there.session, log, tape, 2, yildreuz.UP)    # none.stop NONE: it had not been there before
    look = lib.look(table, n, there.session, log, tape, 100)    # what forward by 100 would give: look.steps 8, look.stop ANSWER, look.value 6; no word differs
    went = lib.go(table, n, there.session, log, tape, look.position, look.count)    # and so it comes: went.steps 8, went.stop ANSWER, went.value 6
    text = bytearray(yildreuz.MOST_BYTES)
    written = lib.write(table, n, text)    # text[:written.len] is now rb'(\v2.v2 v2) (\v6.v6)'
    written = lib.write_numbers(table, n, text)    # and now rb'@ \ @ 0 0 \ 0', which lib.read_numbers reads
    written = lib.to_names(rb'@ \ @ 0 0 \ 0', text)    # the names again; lib.to_numbers goes the other way
    records = yildreuz.words(30)
    ran = lib.run(table, n, records, 100)    # Krivine's machine: ran.node 6, ran.steps 7, ran.halt RUN_ANSWER
    closures = memoryview(records)[:6]    # node, environment and next of the two records that it took, no word of them copied: 6, 0, 0, 5, 1, 0

Table, log, tape and records are the caller's: `table_words(k)`, or any writable buffer of 16-bit words such as an array('H'), for the table, and `words(k)`, or
any writable buffer of 32-bit words such as an array('I'), for log, tape and records; a memoryview of a part of one will do. So is what a text is written into: a
bytearray, or any other writable buffer of bytes. A call borrows them while it runs and writes into them in place. Sessions and answers are tuples of numbers.
What lies in a table and in the records, what the answers mean, what each number refuses and what a refusal leaves stands in yildreuz.h. What that header leaves
to the caller to promise is tested here: a buffer of other items, slices that overlap, or a number that is no 32-bit word raise an error before the call.
"""
import ctypes
from array import array
from typing import NamedTuple

MOST_BYTES, MOST_NODES, LONGEST, LONGEST_RECORDS = 3000, 3000, 16384, 16383
DOWN, UP = 0, 1
LOG, TAPE = 0, 1
SPENT, ANSWER, JAM, FAR, START, LOG_FULL, TAPE_FULL, REFUSED, FOUND, NONE = range(10)
STOP_NAMES = ('spent', 'answer', 'jam', 'far', 'start', 'log full', 'tape full', 'refused', 'found', 'none')
RUN_SPENT, RUN_ANSWER, RUN_FULL, RUN_REFUSED = range(4)
HALT_NAMES = ('spent', 'answer', 'full', 'refused')

GREATEST = 4294967295  # of a position, a count and any other word


class Reading(NamedTuple):
    n: int
    refusal: int


class Written(NamedTuple):
    len: int
    refusal: int


class Session(NamedTuple):
    node: int
    direction: int
    position: int
    log_len: int
    tape_len: int
    turns: int


class Opening(NamedTuple):
    session: Session
    refusal: int


class Outcome(NamedTuple):
    session: Session
    steps: int
    stop: int
    value: int
    value2: int
    peak: int
    carried: int


class Look(NamedTuple):
    steps: int
    stop: int
    value: int
    value2: int
    peak: int
    carried: int
    position: int
    count: int


class Part(NamedTuple):
    offset: int
    len: int


class Top(NamedTuple):
    part: Part
    refusal: int


class Run(NamedTuple):
    node: int
    steps: int
    halt: int
    value: int


def words(count):
    """A slice of so many words for a log, a tape or records, all 0."""
    return array('I', bytes(4 * count))


def table_words(count):
    """A slice of so many words for a table, all 0: five columns of n words each, kind, left, right, parent and level."""
    return array('H', bytes(2 * count))


# The structs of yildreuz.h.

def _struct(shape, **inner):
    fields = [(name, inner.get(name, ctypes.c_uint32)) for name in shape._fields]
    return type(shape.__name__, (ctypes.Structure,), {'_fields_': fields})


_Reading = _struct(Reading)
_Written = _struct(Written)
_Session = _struct(Session)
_Opening = _struct(Opening, session=_Session)
_Outcome = _struct(Outcome, session=_Session, carried=ctypes.c_uint64)
_Look = _struct(Look, carried=ctypes.c_uint64)
_Part = _struct(Part)
_Run = _struct(Run)


def _told(shape, struct):
    """A struct as the tuple of its numbers."""
    values = [getattr(struct, name) for name in shape._fields]
    return shape(*(_told(Session, v) if isinstance(v, _Session) else v for v in values))


def _word(number):
    if not 0 <= number <= GREATEST:
        raise OverflowError('%d is no 32-bit word' % number)
    return number


# Pointer and length of what is lent: what yildreuz.h leaves to the caller's promise is tested here.

_TABLE, _LIST, _TEXT = (ctypes.c_uint16, 'H'), (ctypes.c_uint32, 'I'), (ctypes.c_uint8, 'B')


def _lent(*slices):
    """Of each slice its kind, _TABLE, _LIST (log, tape or records) or _TEXT, and the buffer."""
    arguments, ends = [], []
    for (item, code), buffer in slices:
        view, size = memoryview(buffer), ctypes.sizeof(item)
        if view.ndim != 1 or view.format not in (code, '<' + code, '=' + code) or view.readonly or not view.c_contiguous:
            raise TypeError('a table is a writable buffer of 16-bit words, log, tape and records of 32-bit words, and a text to be written of bytes')
        # none may be NULL, so what has no items is lent as a spare one
        lent = (item * len(view)).from_buffer(view) if len(view) else (item * 1)()
        start = ctypes.addressof(lent)
        if start % size:
            raise TypeError('a slice of words is aligned as words are')
        arguments.append((lent, len(view)))
        ends.append((start, start + size * len(view)))
    ends.sort()
    if any(end > start for (_, end), (start, _) in zip(ends, ends[1:])):
        raise ValueError('lent slices overlap')
    return arguments


def _lent_text(text):
    text = bytes(memoryview(text))  # an error for what has no bytes
    return (ctypes.c_uint8 * (len(text) or 1)).from_buffer_copy(text or b'\0'), len(text)


_COLUMNS, _WORDS, _BYTES = (ctypes.POINTER(item) for item in (ctypes.c_uint16, ctypes.c_uint32, ctypes.c_uint8))
_LEN, _WORD = ctypes.c_size_t, ctypes.c_uint32


class Library:
    """The shared library at a path."""

    def __init__(self, path):
        lib = ctypes.CDLL(str(path))
        slices = [_WORDS, _LEN, _WORDS, _LEN]
        reading, writing, converting = [_BYTES, _LEN, _COLUMNS, _LEN], [_COLUMNS, _LEN, _WORD, _BYTES, _LEN], [_BYTES, _LEN, _BYTES, _LEN]
        self._read = self._call(lib.yildreuz_read, _Reading, reading)
        self._read_numbers = self._call(lib.yildreuz_read_numbers, _Reading, reading)
        self._write = self._call(lib.yildreuz_write, _Written, writing)
        self._write_numbers = self._call(lib.yildreuz_write_numbers, _Written, writing)
        self._to_numbers = self._call(lib.yildreuz_to_numbers, _Written, converting)
        self._to_names = self._call(lib.yildreuz_to_names, _Written, converting)
        self._open = self._call(lib.yildreuz_open, _Opening, [_COLUMNS, _LEN, _WORD] + slices)
        winding = [_COLUMNS, _LEN, _WORD, _Session] + slices + [_WORD]
        self._forward = self._call(lib.yildreuz_forward, _Outcome, winding)
        self._back = self._call(lib.yildreuz_back, _Outcome, winding)
        self._go_to = self._call(lib.yildreuz_go_to, _Outcome, winding)
        self._back_to = self._call(lib.yildreuz_back_to, _Outcome, winding + [_WORD])
        self._forward_to = self._call(lib.yildreuz_forward_to, _Outcome, winding + [_WORD, _WORD])
        self._look = self._call(lib.yildreuz_look, _Look, winding)
        self._go = self._call(lib.yildreuz_go, _Outcome, winding + [_WORD])
        self._top = self._call(lib.yildreuz_top, _Part, winding + [_WORDS])
        self._run = self._call(lib.yildreuz_run, _Run, [_COLUMNS, _LEN, _WORD, _WORDS, _LEN, _WORD])

    @staticmethod
    def _call(function, restype, argtypes):
        function.restype, function.argtypes = restype, argtypes
        return function

    def read(self, text, table):
        """Reads a closed term, given as bytes, into the table."""
        return self._lay_out(self._read, text, table)

    def read_numbers(self, text, table):
        """Reads a closed term of the number dialect, given as bytes, into the table."""
        return self._lay_out(self._read_numbers, text, table)

    def write(self, table, n, text):
        """Writes the text of a table's term into a buffer of bytes."""
        return self._put_down(self._write, table, n, text)

    def write_numbers(self, table, n, text):
        """Writes the text of a table's term in the number dialect into a buffer of bytes."""
        return self._put_down(self._write_numbers, table, n, text)

    def to_numbers(self, text, out):
        """Converts a text with names, given as bytes, into the number dialect, into a buffer of bytes."""
        return self._convert(self._to_numbers, text, out)

    def to_names(self, text, out):
        """Converts a text of the number dialect, given as bytes, into one with names, into a buffer of bytes."""
        return self._convert(self._to_names, text, out)

    def open(self, table, n, log, tape):
        """Opens a session at the start of the walk, and zeroes log and tape."""
        table, log, tape = _lent((_TABLE, table), (_LIST, log), (_LIST, tape))
        return _told(Opening, self._open(*table, _word(n), *log, *tape))

    def forward(self, table, n, session, log, tape, count):
        """Makes count steps forward, or fewer if another stop comes first."""
        return self._wind(self._forward, table, n, session, log, tape, count)

    def back(self, table, n, session, log, tape, count):
        """Makes count steps back, or fewer if another stop comes first."""
        return self._wind(self._back, table, n, session, log, tape, count)

    def go_to(self, table, n, session, log, tape, position):
        """Goes forward or back to a position."""
        return self._wind(self._go_to, table, n, session, log, tape, position)

    def back_to(self, table, n, session, log, tape, node, direction):
        """Goes back to the last earlier position on a node, DOWN or UP; with none, session and slices stay."""
        return self._wind(self._back_to, table, n, session, log, tape, node, direction)

    def forward_to(self, table, n, session, log, tape, node, direction, count):
        """Goes forward to the next later position on a node, DOWN or UP, or as forward by count does."""
        return self._wind(self._forward_to, table, n, session, log, tape, node, direction, count)

    def look(self, table, n, session, log, tape, count):
        """Tells what forward by count would give, and hands out position and count for go; log and tape are written and given back as they were."""
        return self._wind(self._look, table, n, session, log, tape, count, shape=Look)

    def go(self, table, n, session, log, tape, position, count):
        """Goes forward by count, as forward does, from a session at this position; at another it is refused with 15."""
        return self._wind(self._go, table, n, session, log, tape, position, count)

    def top(self, table, n, session, log, tape, which):
        """Points at the newest entry of LOG or TAPE: the part of that buffer in which it lies, and a refusal's number."""
        table, log, tape = _lent((_TABLE, table), (_LIST, log), (_LIST, tape))
        refusal = ctypes.c_uint32()
        part = self._top(*table, _word(n), _Session(*map(_word, session)), *log, *tape, _word(which), ctypes.byref(refusal))
        return Top(_told(Part, part), refusal.value)

    def run(self, table, n, records, count):
        """Runs Krivine's machine for count steps, or fewer if another halt comes first, with its closures in the records."""
        table, records = _lent((_TABLE, table), (_LIST, records))
        return _told(Run, self._run(*table, _word(n), *records, _word(count)))

    @staticmethod
    def _lay_out(call, text, table):
        (table,) = _lent((_TABLE, table))
        return _told(Reading, call(*_lent_text(text), *table))

    @staticmethod
    def _put_down(call, table, n, text):
        table, text = _lent((_TABLE, table), (_TEXT, text))
        return _told(Written, call(*table, _word(n), *text))

    @staticmethod
    def _convert(call, text, out):
        (out,) = _lent((_TEXT, out))
        return _told(Written, call(*_lent_text(text), *out))

    @staticmethod
    def _wind(call, table, n, session, log, tape, *numbers, shape=Outcome):
        table, log, tape = _lent((_TABLE, table), (_LIST, log), (_LIST, tape))
        session = _Session(*map(_word, session))
        return _told(shape, call(*table, _word(n), session, *log, *tape, *map(_word, numbers)))
