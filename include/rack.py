"""The rack test for Python, with ctypes and the standard library alone (x86-64).

It calls a shared library, which this makes from the archive that `tools/build rack` makes:

    cc -shared -o target/librack.so -Wl,--whole-archive target/staticlib/librack.a \
        -Wl,--no-whole-archive

docs/REFERENCE.md says what sets, speeds, ticks and numbers are. Every call has an answer, whatever
its bytes and numbers; a field that the number of an answer gives no value is 0.
"""

import ctypes
import enum
import operator
from typing import List, NamedTuple, Tuple


class Number(enum.IntEnum):
    """What an answer says."""

    OK = 0  # judge: accepted; the others: answered
    BAD_CALL = 1  # m, p, q or x is out of range
    BAD_LENGTH = 2  # the set's length is no multiple of 16
    BAD_RECORD = 3  # the record at place breaks the record table, or is missing
    BAD_GRAPH = 4  # the graph of the task at place breaks a rule
    MANY_TASKS = 5  # a 33rd task begins at place
    NO_TASK = 6  # the set has no task of that number
    LONG_CYCLE = 7  # judge: the common cycle of the periods is over 50,000
    DENSE = 8  # the task at place cannot meet its deadline at this speed, with 0/0 at any
    OVERRUN = 9  # judge: x ticks may carry w units, more than the rack promises
    SHORT_TABLE = 10  # layers: the table is too short
    SHORT_ROOM = 11  # closing: the joined bytes exceed the room
    CLOSED = 12  # part, closing: the upload is closed


class Verdict(NamedTuple):
    """What judge gives: with an overrun, the shortest overrunning interval in ticks and its demand;
    with that and where the set is accepted, the speed p/q that was used."""

    number: Number
    place: int
    x: int
    w: int
    p: int
    q: int


class Figures(NamedTuple):
    """Length and volume of a task, in time units."""

    number: Number
    place: int
    length: int
    volume: int


class Demand(NamedTuple):
    """The demand of a task, in work units."""

    number: Number
    place: int
    work: int


class Layers(NamedTuple):
    """The layers of a task as pairs of width and duration."""

    number: Number
    place: int
    pairs: List[Tuple[int, int]]


LARGEST = 2**64 - 1  # out of every range, so it stands for all that no word holds


def _word(number):
    number = operator.index(number)
    return number if 0 <= number <= LARGEST else LARGEST


def _given(answer):
    """The C struct of an answer with these fields, all of them words."""
    fields = [(name, ctypes.c_uint64) for name in answer._fields]
    return type(answer.__name__, (ctypes.Structure,), {"_fields_": fields})


def _answer(answer, given):
    first, *others = (getattr(given, name) for name in answer._fields)
    return answer(Number(first), *others)


def _bytes(data):
    data = bytes(memoryview(data))  # a number is no bytes, though bytes(7) is seven of them
    return data, len(data)


class _State(ctypes.Structure):
    _fields_ = [(name, ctypes.c_uint64) for name in ("held", "over", "closed")]


class Upload:
    """A set that arrives in parts, and a room that holds them; Rack.upload begins one. Parts may be
    cut anywhere, also inside a record, and may be empty. Its calls come one after the other."""

    def __init__(self, rack, room):
        self._rack = rack
        self._room = (ctypes.c_uint8 * room)()
        self.begin()

    def begin(self):
        """Begins anew, with the same room."""
        self._state = self._rack._begin()

    @property
    def held(self):
        """How many bytes at the front of the room hold the joined bytes."""
        return self._state.held

    @property
    def over(self):
        """Whether some bytes did not fit."""
        return self._state.over != 0

    @property
    def closed(self):
        """Whether it is closed."""
        return self._state.closed != 0

    def _lent(self):
        return ctypes.byref(self._state), self._room, len(self._room)

    def part(self, data):
        """Puts a part into the room, behind what is held, as far as it fits. OK, also where not all
        of it fits: the closing will say so. CLOSED after a closing; it changes nothing then."""
        return Number(self._rack._part(*self._lent(), *_bytes(data)))

    def close(self, m, p, q):
        """Judges what is held, as Rack.judge does, and closes. Three refusals come before: CLOSED
        after a closing, BAD_CALL, and SHORT_ROOM where bytes did not fit."""
        return _answer(Verdict, self._rack._close(*self._lent(), *map(_word, (m, p, q))))


class Rack:
    """The library. A set is bytes; tasks are counted from 0; a speed is p/q."""

    def __init__(self, path="target/librack.so"):
        library = ctypes.CDLL(path)
        word, size = ctypes.c_uint64, ctypes.c_size_t
        of_set, of_table = [ctypes.c_char_p, size], [ctypes.POINTER(ctypes.c_uint32), size]
        of_upload = [ctypes.POINTER(_State), ctypes.POINTER(ctypes.c_uint8), size]
        verdict = _given(Verdict)
        self._judge = self._call(library.rack_judge, verdict, of_set + [word] * 3)
        self._figures = self._call(library.rack_figures, _given(Figures), of_set + [size])
        takes = of_set + [size] + [word] * 3
        self._demand = self._call(library.rack_demand, _given(Demand), takes)
        takes = of_set + [size] + [word] * 2 + of_table
        self._layers = self._call(library.rack_layers, _given(Layers), takes)
        self._begin = self._call(library.rack_upload_begin, _State, [])
        self._part = self._call(library.rack_upload_part, word, of_upload + of_set)
        self._close = self._call(library.rack_upload_close, verdict, of_upload + [word] * 3)

    @staticmethod
    def _call(function, gives, takes):
        function.argtypes, function.restype = takes, gives
        return function

    def judge(self, task_set, m, p, q):
        """Whether the set may share a rack of m processors at the speed p/q. 0/0 stands for the
        smallest p/q, in lowest terms and with q at most 31, that is at least m/(2m-1) and at least
        every task's length/deadline."""
        return _answer(Verdict, self._judge(*_bytes(task_set), *map(_word, (m, p, q))))

    def figures(self, task_set, task):
        """Length and volume of a task of the set."""
        return _answer(Figures, self._figures(*_bytes(task_set), _word(task)))

    def demand(self, task_set, task, p, q, x):
        """The demand of a task of the set at tick x."""
        return _answer(Demand, self._demand(*_bytes(task_set), *map(_word, (task, p, q, x))))

    def layers(self, task_set, task, p, q, words=None):
        """The layers of a task, into a table of that many words, or of as many as they need."""
        room = 1024 if words is None else words
        numbers = [_word(number) for number in (task, p, q)]
        while True:
            table = (ctypes.c_uint32 * room)()
            given = _answer(Layers, self._layers(*_bytes(task_set), *numbers, table, room))
            if words is not None or given.number != Number.SHORT_TABLE:
                pairs = [(table[2 * i], table[2 * i + 1]) for i in range(given.pairs)]
                return given._replace(pairs=pairs)
            room *= 2

    def upload(self, room):
        """Begins an upload of a set in parts, with a room of that many bytes."""
        return Upload(self, room)
