"""The proved dictionary of fixed size in two lent buffers, for Python.

    >>> yard = Dict(64, clock=lambda: 1000)
    >>> yard["AB12"] = 14_200_000
    >>> yard["AB12"]
    14200000
    >>> "CD34" in yard
    False

Keys are bytes, or str, which stands for its UTF-8. Values are bool, int of 64 signed bits, and bytes or str. Keys and
texts come back as bytes. A refused call raises Refused, which has no room for a value; NotFound is a KeyError as well.

`d[key]`, `get` and `find` are the library's get: they move the entry to the front of the use order. `in`, `len`,
iteration, `keys`, `values`, `items`, `get_stale`, `ttl` and `show` change nothing. The other methods are the library's
calls, by its names; include/reefcandor.h says what each does.

The clock is read once a call, in milliseconds. A lifetime of 0 is for ever. Whenever an entry leaves, all its cells in
the pool become zero at once.

No two threads or programs may be in a call on the same memory at once, calls that only read included: the library takes
no lock. Who shares a memory, between processes too, puts every call under one lock of their own; a method may make
several calls. Without one the memory is soon not sound, and a get can tell another key's value.

All users of a memory use the same clock, Unix time in milliseconds, which is the default: with two clocks one of them
sweeps out what is live for the other.
"""

import ctypes
import enum
import operator
import os
import time
from collections import namedtuple
from collections.abc import Mapping, MutableMapping
from pathlib import Path

__all__ = ["CELL_BYTES", "Counted", "Dict", "Found", "MAX_CELLS", "NotFound", "Outcome", "Refused", "Stored"]

CELL_BYTES = 32
MAX_CELLS = 1024

# ---- the library

_U64 = ctypes.c_uint64
_BYTES = [ctypes.c_char_p, ctypes.c_size_t]
_BUFFER = [ctypes.c_void_p, ctypes.c_size_t]
_STORE = [_U64, *_BYTES, ctypes.c_uint8, ctypes.c_int64, *_BYTES, _U64, ctypes.c_uint32]

# what each call takes between the two buffers and its answer
_ARGUMENTS = {
    "make_fresh": [],
    "get": [_U64, *_BYTES],
    "get_stale": [_U64, *_BYTES],
    "ttl": [_U64, *_BYTES],
    "show": [_U64, *_BYTES],
    "set": _STORE,
    "safe_set": _STORE,
    "add": _STORE,
    "safe_add": _STORE,
    "replace": _STORE,
    "incr": [_U64, *_BYTES, ctypes.c_int64, ctypes.c_bool, ctypes.c_int64, _U64],
    "delete": [_U64, *_BYTES],
    "expire": [_U64, *_BYTES, _U64],
    "flush_all": [],
    "flush_expired": [_U64, _U64],
    "get_keys": [_U64, _U64, *_BUFFER],
}


def _declare(library):
    """The calls by name, declared as the header has them."""
    calls = {name: getattr(library, "reefcandor_" + name) for name in [*_ARGUMENTS, "audit", "bytes_at"]}
    for name, arguments in _ARGUMENTS.items():
        calls[name].argtypes = [*_BUFFER, *_BUFFER, *arguments, ctypes.c_void_p]
        calls[name].restype = None
    calls["audit"].argtypes = [*_BUFFER, *_BUFFER]
    calls["audit"].restype = ctypes.c_bool
    calls["bytes_at"].argtypes = [*_BUFFER, _U64, _U64, ctypes.c_void_p]
    calls["bytes_at"].restype = None
    return calls


def _load():
    """The calls of the shared object, which bindings/python/build makes."""
    root = Path(__file__).resolve().parents[2]
    path = Path(os.environ.get("REEFCANDOR_LIBRARY") or root / "target" / "python" / "libreefcandor.so")
    if not path.is_file():
        raise ImportError(
            f"{path} is not there: run 'rt lib' in crates/capi and then 'bindings/python/build', or set "
            "REEFCANDOR_LIBRARY to the shared object"
        )
    try:
        # PyDLL keeps the interpreter's lock: a call is short, and no stray thread of Python can come between
        return _declare(ctypes.PyDLL(str(path.resolve())))
    except (OSError, AttributeError) as error:
        raise ImportError(f"{path} is not the library: {error}") from error


_CALLS = _load()

# ---- answers


class Outcome(enum.IntEnum):
    """How a call ended; all but DONE are refusals."""

    DONE = 0
    NOT_SOUND = 1
    CLOCK_ZERO = 2
    KEY_EMPTY = 3
    KEY_TOO_LONG = 4
    KIND_UNKNOWN = 5
    NIL_REFUSED = 6
    EXPIRY_TOO_LATE = 7
    NOT_FOUND = 8
    EXISTS = 9
    NOT_NUMBER = 10
    SUM_TOO_LARGE = 11
    NO_MEMORY = 12


_WORDS = {
    Outcome.NOT_SOUND: "the memory is not sound",
    Outcome.CLOCK_ZERO: "the clock is 0",
    Outcome.KEY_EMPTY: "the key is empty",
    Outcome.KEY_TOO_LONG: "the key is too long",
    Outcome.KIND_UNKNOWN: "the kind of the value is unknown",
    Outcome.NIL_REFUSED: "nil is no value here",
    Outcome.EXPIRY_TOO_LATE: "the expiry is too late",
    Outcome.NOT_FOUND: "not found",
    Outcome.EXISTS: "the key exists",
    Outcome.NOT_NUMBER: "the value is not a number",
    Outcome.SUM_TOO_LARGE: "the sum is too large",
    Outcome.NO_MEMORY: "no memory",
}


class Refused(Exception):
    """A refused call: why (outcome, name), and what left the memory all the same (removed)."""

    def __init__(self, outcome, removed=0):
        super().__init__(outcome, removed)
        self.outcome = Outcome(outcome)
        self.name = self.outcome.name
        self.removed = removed

    def __str__(self):
        return _WORDS[self.outcome]


class NotFound(Refused, KeyError):
    """There is no live entry under the key."""


# what a store tells that was done: forced if the rounds took a live entry
Stored = namedtuple("Stored", "rounds removed forced")
# what an incr tells that was done
Counted = namedtuple("Counted", "number rounds removed forced")
# an entry that was found: offset and length are its value's in the pool
Found = namedtuple("Found", "value flags stale removed offset length")

_Answer = namedtuple("_Answer", "outcome rounds removed forced stale kind flags number offset length")
_AnswerWords = _U64 * 10
# every call writes all ten words; were these left, they would be no outcome
_UNWRITTEN = b"\xff" * ctypes.sizeof(_AnswerWords)


def _answer(words):
    """The words of a call that was done, by name; a refusal is raised."""
    answer = _Answer(*words)
    if answer.outcome == Outcome.DONE:
        return answer
    refused = NotFound if answer.outcome == Outcome.NOT_FOUND else Refused
    raise refused(answer.outcome, answer.removed)


def _signed(bits):
    return ctypes.c_int64(bits).value


# ---- arguments

_NIL, _BOOLEAN, _NUMBER, _TEXT = 0, 1, 3, 4


def _bytes(thing, what):
    """What the thing holds, as bytes and no subclass of it: its length goes to C, and a subclass may tell another one.

    Hence neither encode nor __bytes__ of the caller's class is called: both may give such a subclass.
    """
    if isinstance(thing, str):
        return str.encode(thing)
    if isinstance(thing, (bytes, bytearray, memoryview)):
        # a copy, because it may lie in the pool that the call changes
        return bytes(memoryview(thing))
    raise TypeError(f"{what} is bytes or str, not {type(thing).__name__}")


def _exact(number):
    """The number as int and no subclass of it, which may compare wrongly; before Python 3.10 index can give one."""
    return int.__index__(operator.index(number))


def _whole(number, low, high, what):
    """The number; ctypes would cut one that does not fit."""
    number = _exact(number)
    if not low <= number <= high:
        raise OverflowError(f"{what} is from {low} to {high}")
    return number


def _unsigned(number, what, bits=64):
    return _whole(number, 0, 2**bits - 1, what)


def _weight(number, what):
    return _whole(number, -(2**63), 2**63 - 1, what)


def _value(value):
    """The kind, the number and the text that a store takes."""
    if value is None:
        return _NIL, 0, b""
    if isinstance(value, bool):
        return _BOOLEAN, int(bool(value)), b""
    if isinstance(value, int):
        return _NUMBER, _weight(value, "a number"), b""
    return _TEXT, 0, _bytes(value, "a value that is neither bool nor int")


def _item(value):
    """A value that is no nil."""
    if value is None:
        raise TypeError("None is no value: del takes an entry out")
    return value


# ---- buffers


def _shared(buffer, unit, what):
    """The buffer's memory as an array of units, not copied; it cannot be resized or closed as long as this is held."""
    count, rest = divmod(memoryview(buffer).nbytes, ctypes.sizeof(unit))
    if rest:
        raise ValueError(f"{what} is not a whole number of words")
    array = (unit * count).from_buffer(buffer)
    if count and ctypes.addressof(array) % ctypes.alignment(unit):
        raise ValueError(f"{what} is not aligned for words of 64 bits")
    return array


def _overlap(a, b):
    """Whether two arrays have a byte in common."""
    a_start, b_start = ctypes.addressof(a), ctypes.addressof(b)
    return a_start < b_start + ctypes.sizeof(b) and b_start < a_start + ctypes.sizeof(a)


def _wall_clock():
    return time.time_ns() // 1_000_000


# stands for a default that is not given, since None may be one
_NO_DEFAULT = object()


# ---- the dictionary


class Dict(MutableMapping):
    """A dictionary in two buffers: of its own, `Dict(cells)`, or lent by the caller, `Dict.lent(directory, pool)`."""

    def __init__(self, cells, clock=_wall_clock):
        """An empty dictionary of 1 to 1,024 cells of 32 bytes; clock() is the time in milliseconds."""
        cells = _exact(cells)
        if not 1 <= cells <= MAX_CELLS:
            raise ValueError(f"cells are from 1 to {MAX_CELLS}")
        self._take(bytearray(8 * (2 + 6 * cells)), bytearray(CELL_BYTES * cells), clock)
        self.make_fresh()

    @classmethod
    def lent(cls, directory, pool, clock=_wall_clock):
        """A dictionary over two writable buffers as they are: bytearray, array, mmap, memoryview. A new one has to be
        made fresh; one that is not sound, or has a wrong length, is refused by every call and left as it is."""
        self = cls.__new__(cls)
        self._take(directory, pool, clock)
        return self

    def _take(self, directory, pool, clock):
        self._dir = _shared(directory, _U64, "the directory")
        self._pool = _shared(pool, ctypes.c_char, "the pool")
        if _overlap(self._dir, self._pool):
            raise ValueError("the directory and the pool overlap")
        self._memory = (self._dir, len(self._dir), self._pool, len(self._pool))
        self.clock = clock

    def _ask(self, call, *arguments):
        words = _AnswerWords.from_buffer_copy(_UNWRITTEN)
        _CALLS[call](*self._memory, *arguments, words)
        return _answer(words)

    def _now(self):
        return _unsigned(self.clock(), "the clock")

    def _at(self, key):
        """The arguments of a call for a key at this time."""
        key = _bytes(key, "a key")
        return self._now(), key, len(key)

    def _store(self, call, key, value, lifetime, flags):
        kind, number, text = _value(value)
        lifetime, flags = _unsigned(lifetime, "a lifetime"), _unsigned(flags, "flags", 32)
        answer = self._ask(call, *self._at(key), kind, number, text, len(text), lifetime, flags)
        return Stored(answer.rounds, answer.removed, bool(answer.forced))

    def _take_out(self, at):
        """The live value under the key, whose entry leaves."""
        value = self._found(self._ask("get", *at)).value
        self._ask("delete", *at)
        return value

    def _found(self, answer):
        if answer.kind == _TEXT:
            value = self._pool[answer.offset : answer.offset + answer.length]
        else:
            number = _signed(answer.number)
            value = bool(number) if answer.kind == _BOOLEAN else number
        return Found(value, answer.flags, bool(answer.stale), answer.removed, answer.offset, answer.length)

    # ---- the library's calls

    def make_fresh(self):
        """Makes an empty memory, whatever stood there. The whole pool becomes zero."""
        self._ask("make_fresh")

    def audit(self):
        """True exactly if the memory is sound and all keys differ."""
        return _CALLS["audit"](*self._memory)

    def find(self, key):
        """The live entry under the key, as Found; it moves to the front."""
        return self._found(self._ask("get", *self._at(key)))

    def get(self, key, default=None):
        """The live value under the key, which moves to the front; the default where there is none."""
        try:
            return self.find(key).value
        except NotFound:
            return default

    def get_stale(self, key):
        """The entry under the key, live or dead, as Found; stale exactly if it is dead."""
        return self._found(self._ask("get_stale", *self._at(key)))

    def ttl(self, key):
        """What is left of a live entry's life in milliseconds, 0 if it never expires."""
        return self._ask("ttl", *self._at(key)).number

    def show(self, key, notice=b""):
        """The live text under the key, or else the notice: for all that find refuses, and for every other kind."""
        place = (_U64 * 3)()
        _CALLS["show"](*self._memory, *self._at(key), place)
        there, offset, length = place
        return self._pool[offset : offset + length] if there else notice

    def bytes_at(self, offset, length):
        """The part of the pool at offset; empty where it would pass the pool's end."""
        place = (_U64 * 2)()
        offset, length = _unsigned(offset, "an offset"), _unsigned(length, "a length")
        _CALLS["bytes_at"](self._pool, len(self._pool), offset, length, place)
        offset, length = place
        return self._pool[offset : offset + length]

    def set(self, key, value, lifetime=0, flags=0):
        """Stores a value; None deletes the entry. Up to 30 rounds make a place where there is none."""
        return self._store("set", key, value, lifetime, flags)

    def safe_set(self, key, value, lifetime=0, flags=0):
        """As set, but runs no rounds."""
        return self._store("safe_set", key, value, lifetime, flags)

    def add(self, key, value, lifetime=0, flags=0):
        """As set, but refuses a live entry under the key, and None."""
        return self._store("add", key, value, lifetime, flags)

    def safe_add(self, key, value, lifetime=0, flags=0):
        """As add, but runs no rounds."""
        return self._store("safe_add", key, value, lifetime, flags)

    def replace(self, key, value, lifetime=0, flags=0):
        """As set, but refuses a missing or dead entry, and None."""
        return self._store("replace", key, value, lifetime, flags)

    def incr(self, key, step=1, initial=None, lifetime=0):
        """Adds the step to a live number; a missing or dead one begins with initial and its lifetime, if given."""
        begin = _weight(0 if initial is None else initial, "an initial number")
        step, lifetime = _weight(step, "a step"), _unsigned(lifetime, "a lifetime")
        answer = self._ask("incr", *self._at(key), step, initial is not None, begin, lifetime)
        return Counted(_signed(answer.number), answer.rounds, answer.removed, bool(answer.forced))

    def delete(self, key):
        """The entry under the key leaves, live or dead, if there is one; tells how many the sweep took."""
        return self._ask("delete", *self._at(key)).removed

    def expire(self, key, lifetime):
        """Gives a live entry the expiry of this lifetime from now."""
        lifetime = _unsigned(lifetime, "a lifetime")
        self._ask("expire", *self._at(key), lifetime)

    def flush_all(self):
        """From now on all entries are dead. Nothing leaves."""
        self._ask("flush_all")

    def flush_expired(self, maximum=0):
        """Dead entries leave, longest unused first, up to a maximum (0 for all); tells how many."""
        return self._ask("flush_expired", self._now(), _unsigned(maximum, "a maximum")).removed

    def get_keys(self, maximum=0):
        """The live keys, most recently used first, up to a maximum (0 for none)."""
        return self._keys(self._now(), _unsigned(maximum, "a maximum"))

    def _keys(self, clock, maximum):
        table = (_U64 * (3 * (len(self._pool) // CELL_BYTES)))()
        rows = self._ask("get_keys", clock, maximum, table, len(table)).number
        places = [(CELL_BYTES * table[3 * row], table[3 * row + 1]) for row in range(rows)]
        return [self._pool[offset : offset + length] for offset, length in places]

    # ---- as a dictionary of Python

    def __getitem__(self, key):
        return self.find(key).value

    def __setitem__(self, key, value):
        self.set(key, _item(value))

    # Each of these makes several of the library's calls. All are made at one clock, read before the first of them: a
    # clock that is refused changes nothing, and no entry dies between two of the calls.

    def __delitem__(self, key):
        at = self._at(key)
        # the library's delete is done also where nothing is
        self._ask("ttl", *at)
        self._ask("delete", *at)

    def pop(self, key, default=_NO_DEFAULT):
        """Takes the live entry under the key out and gives its value; where there is none, the default, if given."""
        try:
            return self._take_out(self._at(key))
        except NotFound:
            if default is _NO_DEFAULT:
                raise
            return default

    def popitem(self):
        """Takes the most recently used live entry out, and gives its key and value."""
        clock = self._now()
        keys = self._keys(clock, 1)
        if not keys:
            raise NotFound(Outcome.NOT_FOUND)
        return keys[0], self._take_out((clock, keys[0], len(keys[0])))

    def setdefault(self, key, default=None):
        """The live value under the key, which moves to the front; where there is none the default is set and given."""
        at = self._at(key)
        try:
            return self._found(self._ask("get", *at)).value
        except NotFound:
            kind, number, text = _value(_item(default))
        self._ask("set", *at, kind, number, text, len(text), 0, 0)
        return default

    def update(self, other=(), /, **named):
        """Sets each pair in turn. All are looked at before the first is set; one that the library refuses ends it."""
        if isinstance(other, Mapping):
            other = other.items()
        elif hasattr(other, "keys"):
            other = [(key, other[key]) for key in other.keys()]
        stores = [(_bytes(key, "a key"), *_value(_item(value))) for key, value in [*other, *named.items()]]
        clock = self._now()
        for key, kind, number, text in stores:
            self._ask("set", clock, key, len(key), kind, number, text, len(text), 0, 0)

    def __contains__(self, key):
        try:
            self.ttl(key)
        except NotFound:
            return False
        return True

    def __iter__(self):
        return iter(self.get_keys())

    def __len__(self):
        return len(self.get_keys())

    def items(self):
        """The live entries as pairs, most recently used first: a list, all at one time."""
        clock = self._now()
        found = [(key, self._found(self._ask("get_stale", clock, key, len(key)))) for key in self._keys(clock, 0)]
        # of equal keys, which only a memory made by hand has, a dead one may be meant
        return [(key, entry.value) for key, entry in found if not entry.stale]

    def values(self):
        """The live values, most recently used first: a list, all at one time."""
        return [value for _, value in self.items()]

    def clear(self):
        """Takes all entries out."""
        clock = self._now()
        # changes nothing, and refuses whatever flush_expired would refuse
        self._keys(clock, 1)
        self.flush_all()
        self._ask("flush_expired", clock, 0)
