"""What the module adds to the library: a dictionary's manners, values and refusals of Python, and lent buffers.

The rules themselves are proved; the numbers of plates (P2 to P12) are those of document 01.
"""

import array
import mmap
import os
import pickle
import random
import subprocess
import sys
import unittest
from pathlib import Path

import reefcandor
from reefcandor import Counted, Dict, Found, NotFound, Outcome, Refused, Stored

HERE = Path(__file__).resolve().parent
PLAIN = Stored(0, 0, False)


class Yard(unittest.TestCase):
    """A yard of four cells at clock 1000."""

    def setUp(self):
        self.now = 1000
        self.yard = Dict(4, clock=lambda: self.now)

    def fill(self, lifetime=0):
        """a, b, c, d with one cell each; a is the longest unused. All but a have this lifetime."""
        for number, key in enumerate("abcd", 1):
            self.yard.set(key, number, 0 if key == "a" else lifetime)

    def order(self):
        return b"".join(self.yard).decode()

    def memory(self):
        return bytes(self.yard._dir), bytes(self.yard._pool)

    def refuses(self, outcome, call, *arguments, removed=0, **named):
        """The call is refused with this outcome and tells nothing but this."""
        with self.assertRaises(Refused) as caught:
            call(*arguments, **named)
        refused = caught.exception
        self.assertEqual(refused.outcome, outcome)
        self.assertEqual(refused.removed, removed)
        self.assertEqual(isinstance(refused, KeyError), outcome == Outcome.NOT_FOUND)


def text_for(cells):
    """A text that with a key of one byte needs so many cells."""
    return b"." * (reefcandor.CELL_BYTES * cells - 1)


class AsDictionary(Yard):
    def test_items_are_set_read_and_deleted(self):
        self.yard["AB12"] = 14_200
        self.assertEqual(self.yard["AB12"], 14_200)
        self.yard["AB12"] = -1
        self.assertEqual(self.yard[b"AB12"], -1)
        del self.yard["AB12"]
        self.assertNotIn("AB12", self.yard)

    def test_a_missing_key_is_a_key_error(self):
        self.assertRaises(KeyError, lambda: self.yard["AB12"])
        self.assertRaises(KeyError, self.yard.__delitem__, "AB12")
        self.assertRaises(KeyError, self.yard.pop, "AB12")
        self.assertRaises(KeyError, self.yard.popitem)
        self.assertIsNone(self.yard.get("AB12"))
        self.assertEqual(self.yard.get("AB12", 7), 7)
        self.assertEqual(self.yard.pop("AB12", 7), 7)

    def test_a_blank_key_is_refused_and_not_only_missing(self):
        self.yard["AB12"] = 14_200
        self.refuses(Outcome.KEY_EMPTY, lambda: self.yard[""])
        self.refuses(Outcome.KEY_EMPTY, lambda: "" in self.yard)
        self.refuses(Outcome.KEY_EMPTY, self.yard.get, b"", 7)
        self.refuses(Outcome.KEY_EMPTY, self.yard.__delitem__, "")

    def test_values_keep_their_types(self):
        for value in [True, False, 0, 1, -(2**63), 2**63 - 1, b"", b"tare", b"\0\xff\0"]:
            self.yard["k"] = value
            self.assertEqual(self.yard["k"], value)
            self.assertIs(type(self.yard["k"]), type(value))

    def test_str_stands_for_its_utf_8(self):
        self.yard["Kölner Straße"] = "süß"
        self.assertEqual(self.yard["Kölner Straße".encode()], "süß".encode())
        self.assertEqual(list(self.yard), ["Kölner Straße".encode()])
        self.assertRaises(UnicodeEncodeError, self.yard.get, "\ud800")

    def test_other_types_are_refused(self):
        for value in [None, 1.5, [], object()]:
            self.assertRaises(TypeError, self.yard.__setitem__, "k", value)
        for key in [None, 1, ("k",)]:
            self.assertRaises(TypeError, lambda: self.yard[key])
            self.assertRaises(TypeError, lambda: key in self.yard)
        self.assertEqual(len(self.yard), 0)

    def test_iteration_is_over_live_keys_most_recent_first(self):
        self.fill(lifetime=500)
        self.assertEqual(list(self.yard), [b"d", b"c", b"b", b"a"])
        self.assertEqual(list(self.yard.keys()), [b"d", b"c", b"b", b"a"])
        self.assertEqual(self.yard.values(), [4, 3, 2, 1])
        self.assertEqual(self.yard.items(), [(b"d", 4), (b"c", 3), (b"b", 2), (b"a", 1)])
        self.assertEqual(len(self.yard), 4)
        self.now = 1500
        self.assertEqual(self.yard.items(), [(b"a", 1)])
        self.assertEqual((len(self.yard), "b" in self.yard, "a" in self.yard), (1, False, True))

    def test_reading_changes_nothing(self):
        self.fill(lifetime=500)
        before = self.memory()
        self.now = 1500
        self.assertTrue("a" in self.yard and "b" not in self.yard and b"a" in self.yard.keys())
        self.assertEqual((len(self.yard), list(self.yard), bool(self.yard)), (1, [b"a"], True))
        self.assertEqual(dict(self.yard.items()), {b"a": 1})
        self.assertEqual(self.yard.values(), [1])
        self.assertEqual((self.yard.get_keys(), self.yard.ttl("a")), ([b"a"], 0))
        self.assertEqual((self.yard.get_stale("b").value, self.yard.show("b", b"-")), (2, b"-"))
        self.assertTrue(self.yard.audit())
        self.assertEqual(self.memory(), before)

    def test_a_get_moves_to_the_front(self):
        self.fill()
        self.assertEqual(self.yard["b"], 2)
        self.assertEqual(self.order(), "bdca")
        self.assertEqual(self.yard.get("a"), 1)
        self.assertEqual(self.order(), "abdc")

    def test_the_mixed_in_methods(self):
        self.yard.update({"a": 1, "b": 2})
        self.assertEqual(self.yard.setdefault("b", 9), 2)
        self.assertEqual(self.yard.setdefault("c", 3), 3)
        self.assertEqual(self.yard.pop("a"), 1)
        self.assertEqual(self.yard.popitem(), (b"c", 3))
        self.assertEqual(self.yard, {b"b": 2})
        self.yard.clear()
        self.assertEqual((len(self.yard), bool(self.yard)), (0, False))
        self.assertRaises(NotFound, self.yard.get_stale, "b")


    def test_pop_takes_a_default_of_none_and_by_name(self):
        self.assertIsNone(self.yard.pop("AB12", None))
        self.assertEqual(self.yard.pop("AB12", default=7), 7)

    def test_setdefault_of_none_is_refused_only_where_it_would_be_set(self):
        self.fill()
        self.assertEqual(self.yard.setdefault("b"), 2)
        self.assertRaises(TypeError, self.yard.setdefault, "e")
        self.assertEqual(self.order(), "bdca")

    def test_update_takes_what_a_dictionary_takes(self):
        class WithKeys:
            def keys(self):
                return ["c", "d"]

            def __getitem__(self, key):
                return ord(key)

        other = Dict(4, clock=lambda: 1)
        other["e"] = b"tare"
        self.yard.update([("a", 1), (bytearray(b"b"), 2)], b=3)
        self.assertEqual(self.yard.items(), [(b"b", 3), (b"a", 1)])
        self.yard.update(WithKeys())
        self.assertEqual(self.yard.items(), [(b"d", 100), (b"c", 99), (b"b", 3), (b"a", 1)])
        self.yard.update(other)
        self.assertEqual(self.yard["e"], b"tare")

    def test_update_sets_pairs_in_turn(self):
        self.yard.update([("a", 1), ("b", 2), ("a", 3)])
        self.assertEqual(self.yard.items(), [(b"a", 3), (b"b", 2)])

    def test_update_looks_at_all_pairs_before_the_first_is_set(self):
        self.fill()
        before = self.memory()
        self.assertRaises(TypeError, self.yard.update, {"a": 7, "b": None})
        self.assertRaises(TypeError, self.yard.update, [("a", 7), (None, 7)])
        self.assertRaises(OverflowError, self.yard.update, [("a", 7)], b=2**63)
        self.assertRaises(ValueError, self.yard.update, [("a", 7), ("b",)])
        self.assertEqual(self.memory(), before)

    def test_update_ends_with_the_pair_that_is_refused(self):
        self.refuses(Outcome.KEY_EMPTY, self.yard.update, [("a", 1), ("", 2), ("c", 3)])
        self.assertEqual(self.order(), "a")


class OneClock(Yard):
    """A method that makes several of the library's calls makes them at one clock, which it reads first."""

    # each of them has something to do in a full yard
    METHODS = {
        "del": lambda yard: yard.__delitem__("b"),
        "pop": lambda yard: yard.pop("b"),
        "pop, missing": lambda yard: yard.pop("m", None),
        "popitem": Dict.popitem,
        "setdefault, live": lambda yard: yard.setdefault("b", 7),
        "setdefault, missing": lambda yard: yard.setdefault("m", 7),
        "update": lambda yard: yard.update(a=5, b=6, c=7),
        "clear": Dict.clear,
        "items": Dict.items,
        "values": Dict.values,
    }

    def test_the_clock_is_read_once(self):
        for name, method in self.METHODS.items():
            with self.subTest(name):
                readings = []
                yard = Dict(4, clock=lambda: readings.append(1) or 1000)
                yard.update(a=1, b=2, c=3, d=4)
                readings.clear()
                method(yard)
                self.assertEqual(len(readings), 1)

    def test_a_clock_that_is_refused_changes_nothing(self):
        def broken():
            raise OSError("no clock")

        clocks = [(lambda: 0, Refused), (lambda: 2**64, OverflowError), (lambda: -1, OverflowError), (broken, OSError)]
        for clock, error in clocks:
            for name, method in self.METHODS.items():
                with self.subTest(name, error=error.__name__):
                    yard = Dict(4, clock=lambda: 1000)
                    # an entry that a sweep takes at any later clock
                    yard.set("a", 1, lifetime=1)
                    yard.update(b=2, c=3, d=4)
                    before = bytes(yard._dir), bytes(yard._pool)
                    yard.clock = clock
                    self.assertRaises(error, method, yard)
                    self.assertEqual((bytes(yard._dir), bytes(yard._pool)), before)

    def test_an_entry_does_not_die_between_the_calls(self):
        for method, given in [
            (lambda yard: yard.pop("a", 7), 1),
            (Dict.popitem, (b"a", 1)),
            (lambda yard: yard.__delitem__("a"), None),
        ]:
            yard = Dict(4, clock=lambda: 1000)
            yard.set("a", 1, lifetime=50)
            yard.clock = iter([1049, 1050, 1051, 1052]).__next__
            self.assertEqual(method(yard), given)
            self.assertEqual(list(yard._dir), [1] + [0] * 25)


class OtherClasses(Yard):
    """A class of the caller's may tell another length, or other bytes, than it holds: neither goes to C."""

    class Liar(bytes):
        def __len__(self):
            return 1_000_000

    class Converted(bytes):
        def __bytes__(self):
            return OtherClasses.Liar(b"other")

    class Buffer(bytearray):
        def __len__(self):
            return 1_000_000

        def __bytes__(self):
            return OtherClasses.Liar(b"other")

    class Encoded(str):
        def __len__(self):
            return 1_000_000

        def encode(self, *_):
            return OtherClasses.Liar(b"other")

    class NotEncoded(str):
        def encode(self, *_):
            return 7

    class Number(int):
        """Compares as if it were in every range."""

        def __le__(self, other):
            return True

        __lt__ = __ge__ = __gt__ = __le__

    ALL = [Liar(b"tare"), Converted(b"tare"), Buffer(b"tare"), Encoded("tare"), NotEncoded("tare")]

    def test_bytes_are_made_plain(self):
        views = [memoryview(b"t.a.r.e.")[::2], memoryview(b"tare").cast("I")]
        for thing in [*self.ALL, b"tare", bytearray(b"tare"), *views]:
            with self.subTest(type(thing).__name__):
                made = reefcandor._bytes(thing, "a key")
                self.assertIs(type(made), bytes)
                self.assertEqual(made, b"tare")

    def test_a_key_has_the_length_that_it_holds(self):
        for key in self.ALL:
            with self.subTest(type(key).__name__):
                self.yard.set(key, 5)
                self.assertEqual(list(self.yard._dir)[:8], [1, 1, 0, 3, 0, 0, 4, 8])
                self.assertEqual(self.yard.items(), [(b"tare", 5)])
                self.assertEqual((self.yard[key], key in self.yard, self.yard.ttl(key)), (5, True, 0))
                self.assertEqual(self.yard.incr(key).number, 6)
                self.assertEqual(self.yard.pop(key), 6)
                self.yard.update([(key, 7)])
                self.assertEqual((self.yard.setdefault(key, 8), self.yard.get_stale(key).value), (7, 7))
                self.yard.delete(key)
                self.assertEqual(len(self.yard), 0)

    def test_a_text_has_the_length_that_it_holds(self):
        for text in self.ALL:
            with self.subTest(type(text).__name__):
                for store in [self.yard.set, self.yard.safe_set, self.yard.replace, self.yard.setdefault]:
                    store("k", text)
                    self.assertEqual(self.yard.find("k"), Found(b"tare", 0, False, 0, 1, 4))
                self.assertEqual(bytes(self.yard._pool), b"ktare" + bytes(123))
                self.yard.clear()

    def test_a_class_that_only_passes_for_bytes_or_str_is_refused(self):
        class Passing:
            def __init__(self, other):
                self.other = other

            @property
            def __class__(self):
                return self.other

            def __len__(self):
                return 1_000_000

            def encode(self):
                return OtherClasses.Liar(b"tare")

            __bytes__ = encode

        for other in bytes, bytearray, memoryview, str:
            self.assertIsInstance(Passing(other), other)
            self.assertRaises(TypeError, self.yard.find, Passing(other))
            self.assertRaises(TypeError, self.yard.set, "k", Passing(other))

    def test_a_number_is_held_to_its_range_whatever_it_says(self):
        for number in [2**64, -(2**63) - 1]:
            liar = self.Number(number)
            self.assertTrue(0 <= liar <= 1)
            self.assertRaises(OverflowError, self.yard.set, "k", liar)
            self.assertRaises(OverflowError, self.yard.set, "k", 1, lifetime=liar)
            self.assertRaises(OverflowError, self.yard.set, "k", 1, flags=liar)
            self.assertRaises(OverflowError, self.yard.bytes_at, 0, liar)
            self.assertRaises(OverflowError, self.yard.get_keys, liar)
            self.assertRaises(ValueError, Dict, liar)
        self.now = self.Number(2**64)
        self.assertRaises(OverflowError, self.yard.find, "k")

    def test_a_lent_buffer_has_the_length_that_it_holds(self):
        yard = Dict.lent(self.Buffer(208), self.Buffer(128), clock=lambda: 1)
        self.assertEqual(yard._memory[1::2], (26, 128))
        yard.make_fresh()
        self.assertTrue(yard.audit())


class Calls(Yard):
    def test_find_tells_every_field(self):
        self.yard.set("AB12", True, flags=2**32 - 1)
        self.assertEqual(self.yard.find("AB12"), Found(True, 2**32 - 1, False, 0, 4, 1))
        self.yard.set("AB12", b"tare", flags=7)
        self.assertEqual(self.yard.find("AB12"), Found(b"tare", 7, False, 0, 4, 4))

    def test_get_stale_marks_the_dead(self):
        self.fill(lifetime=500)
        self.assertEqual(self.yard.get_stale("b"), Found(2, 0, False, 0, 33, 8))
        self.now = 1500
        self.assertEqual(self.yard.get_stale("b"), Found(2, 0, True, 0, 33, 8))
        self.refuses(Outcome.NOT_FOUND, self.yard.ttl, "b")

    def test_ttl_and_expire(self):
        self.yard["a"] = 1
        self.assertEqual(self.yard.ttl("a"), 0)
        self.yard.expire("a", 2**64 - 1001)
        self.assertEqual(self.yard.ttl("a"), 2**64 - 1001)
        self.refuses(Outcome.EXPIRY_TOO_LATE, self.yard.expire, "a", 2**64 - 1000)

    def test_stores_tell_what_left(self):
        self.fill()
        self.yard.expire("a", 500)
        self.now = 1500
        self.assertEqual(self.yard.add("e", 5), Stored(0, 1, False))
        self.assertEqual(self.yard.add("f", 6), Stored(1, 1, True))
        self.assertEqual(self.yard.replace("f", b"12345678"), PLAIN)
        self.assertEqual(self.yard.delete("f"), 0)
        self.assertEqual(self.yard.safe_add("g", 7), PLAIN)
        self.assertEqual(self.yard.safe_set("g", 8), PLAIN)
        self.assertEqual(self.order(), "gedc")

    def test_none_deletes_by_set(self):
        self.fill()
        self.assertEqual(self.yard.set("b", None), PLAIN)
        self.assertEqual(self.yard.safe_set("c", None), PLAIN)
        self.assertEqual(self.order(), "da")

    def test_incr(self):
        self.fill()
        self.assertEqual(self.yard.incr("a"), Counted(2, 0, 0, False))
        self.assertEqual(self.yard.incr("a", -(2**63)), Counted(2 - 2**63, 0, 0, False))
        self.refuses(Outcome.NOT_FOUND, self.yard.incr, "m", 2)
        self.assertEqual(self.yard.incr("m", 2, initial=5, lifetime=9), Counted(7, 1, 1, True))
        self.assertEqual(self.yard.ttl("m"), 9)
        self.assertEqual(self.yard.incr("m", initial=0).number, 8, "a live number goes on")

    def test_flushes(self):
        self.fill()
        self.yard.flush_all()
        self.assertEqual(len(self.yard), 0)
        self.assertEqual(self.yard.flush_expired(maximum=3), 3)
        self.assertTrue(self.yard.get_stale("d").stale)
        self.assertEqual((self.yard.flush_expired(), self.yard.flush_expired()), (1, 0))

    def test_show_and_bytes_at(self):
        self.fill()
        self.yard["b"] = "tare"
        self.assertEqual(self.yard.show("b", b"weigh empty"), b"tare")
        self.assertEqual(self.yard.show("a", b"weigh empty"), b"weigh empty")
        self.assertEqual(self.yard.show("", "weigh empty"), "weigh empty")
        self.assertEqual(self.yard.bytes_at(32, 5), b"btare")
        self.assertEqual((self.yard.bytes_at(128, 0), self.yard.bytes_at(1, 2**64 - 1)), (b"", b""))

    def test_get_keys_up_to_a_maximum(self):
        self.fill()
        self.assertEqual(self.yard.get_keys(2), [b"d", b"c"])
        self.assertEqual(self.yard.get_keys(9), [b"d", b"c", b"b", b"a"])

    def test_the_wall_clock_is_the_default(self):
        yard = Dict(4)
        yard.set("a", 1, lifetime=10**9)
        self.assertLessEqual(yard.ttl("a"), 10**9)
        self.assertGreater(yard.ttl("a"), 10**9 - 10**6)


class Plates(Yard):
    def test_p2_to_p4(self):
        self.yard.set("AB12", 14_200, lifetime=500)
        self.assertEqual(list(self.yard._dir)[:8], [1, 1, 1500, 3, 0, 0, 4, 8])
        self.now = 1499
        self.assertEqual((self.yard["AB12"], self.yard.ttl("AB12")), (14_200, 1))
        self.now = 1500
        self.refuses(Outcome.NOT_FOUND, self.yard.find, "AB12", removed=1)

    def test_p8(self):
        self.fill(lifetime=500)
        self.now = 1500
        self.assertEqual(self.yard.set("e", 5), Stored(1, 3, True))
        self.now = 1499
        self.assertEqual(self.order(), "ed")

    def test_not_forced_where_only_dead_ones_go(self):
        for key, lifetime in [("a", 500), ("b", 500), ("c", 500), ("d", 0)]:
            self.yard.set(key, 1, lifetime=lifetime)
        self.now = 1500
        self.assertEqual(self.yard.set("e", text_for(3)), Stored(1, 3, False))
        self.assertEqual(self.order(), "ed")

    def test_p9_to_p12(self):
        self.fill()
        before = self.memory()
        self.refuses(Outcome.NO_MEMORY, self.yard.set, "e", text_for(5))
        self.assertEqual(self.memory(), before)
        self.refuses(Outcome.NO_MEMORY, self.yard.safe_set, "e", 5)
        self.assertEqual(self.order(), "dcba")
        self.yard["b"] = -7
        self.assertEqual(self.order(), "bdca")
        self.refuses(Outcome.NO_MEMORY, self.yard.safe_set, "a", text_for(2))
        self.assertEqual(self.order(), "bdc")
        self.assertEqual(bytes(self.yard._pool)[:33], bytes(32) + b"b")


class Refusals(Yard):
    def test_each_before_the_sweep(self):
        self.fill()
        before = self.memory()
        self.refuses(Outcome.KEY_TOO_LONG, self.yard.find, b"k" * 65_536)
        self.refuses(Outcome.NIL_REFUSED, self.yard.add, "a", None)
        self.refuses(Outcome.NIL_REFUSED, self.yard.safe_add, "a", None)
        self.refuses(Outcome.NIL_REFUSED, self.yard.replace, "a", None)
        self.refuses(Outcome.EXPIRY_TOO_LATE, self.yard.set, "a", 1, lifetime=2**64 - 1)
        self.now = 0
        self.refuses(Outcome.CLOCK_ZERO, len, self.yard)
        self.refuses(Outcome.CLOCK_ZERO, self.yard.find, "")
        self.assertEqual(self.memory(), before)

    def test_each_after_the_sweep(self):
        self.fill()
        self.yard["d"] = 2**63 - 1
        self.yard["c"] = True
        for outcome, call, *arguments in [
            (Outcome.NOT_FOUND, self.yard.replace, "a", 1),
            (Outcome.EXISTS, self.yard.add, "c", 1),
            (Outcome.EXISTS, self.yard.safe_add, "c", 1),
            (Outcome.NOT_NUMBER, self.yard.incr, "c"),
            (Outcome.SUM_TOO_LARGE, self.yard.incr, "d"),
            (Outcome.NO_MEMORY, self.yard.safe_add, "e", text_for(2)),
        ]:
            self.now = 1000
            self.yard.set("a", 1, lifetime=500)
            for key in "bcd":
                self.yard.find(key)
            self.now = 1500
            self.refuses(outcome, call, *arguments, removed=1)

    def test_not_sound(self):
        self.fill()
        self.yard._dir[0] = 2
        before = self.memory()
        for call in [len, list, Dict.items, Dict.flush_all, Dict.flush_expired, Dict.clear, bool]:
            self.refuses(Outcome.NOT_SOUND, call, self.yard)
        for call in [Dict.find, Dict.get, Dict.get_stale, Dict.ttl, Dict.delete, Dict.incr, Dict.__contains__]:
            self.refuses(Outcome.NOT_SOUND, call, self.yard, "a")
        for call in [Dict.set, Dict.safe_set, Dict.add, Dict.safe_add, Dict.replace, Dict.expire]:
            self.refuses(Outcome.NOT_SOUND, call, self.yard, "a", 1)
        self.assertEqual((self.yard.audit(), self.yard.show("a", b"-")), (False, b"-"))
        self.assertEqual(self.memory(), before)
        self.yard.make_fresh()
        self.assertTrue(self.yard.audit())

    def test_an_exception_has_words_and_no_value(self):
        self.yard["AB12"] = 14_200
        with self.assertRaises(Refused) as caught:
            self.yard.add("AB12", 99_999)
        refused = caught.exception
        self.assertEqual((refused.outcome, refused.name, str(refused)), (9, "EXISTS", "the key exists"))
        self.assertFalse({14_200, 99_999} & set(vars(refused).values()) | {14_200, 99_999} & set(refused.args))
        self.assertEqual(str(NotFound(8)), "not found")
        self.assertEqual(pickle.loads(pickle.dumps(refused)).outcome, Outcome.EXISTS)
        self.assertEqual(len({str(Refused(outcome)) for outcome in Outcome if outcome}), 12)

    def test_numbers_that_do_not_fit_are_not_cut(self):
        for number in [2**63, -(2**63) - 1, 2**64]:
            self.assertRaises(OverflowError, self.yard.__setitem__, "a", number)
            self.assertRaises(OverflowError, self.yard.incr, "a", number)
            self.assertRaises(OverflowError, self.yard.incr, "a", 1, initial=number)
        for number in [2**64, -1]:
            self.assertRaises(OverflowError, self.yard.set, "a", 1, lifetime=number)
            self.assertRaises(OverflowError, self.yard.expire, "a", number)
            self.assertRaises(OverflowError, self.yard.flush_expired, number)
            self.assertRaises(OverflowError, self.yard.get_keys, number)
            self.assertRaises(OverflowError, self.yard.bytes_at, number, 0)
        self.assertRaises(OverflowError, self.yard.set, "a", 1, flags=2**32)
        self.assertRaises(TypeError, self.yard.set, "a", 1, lifetime=1.5)
        self.now = 2**64
        self.assertRaises(OverflowError, self.yard.find, "a")


class Buffers(unittest.TestCase):
    def over(self, directory, pool):
        return Dict.lent(directory, pool, clock=lambda: 1)

    def test_cells_are_from_1_to_1024(self):
        for cells in [1, 1024]:
            self.assertTrue(Dict(cells).audit())
        for cells in [0, -1, 1025, 10**30]:
            self.assertRaises(ValueError, Dict, cells)
        self.assertRaises(TypeError, Dict, 1.5)

    def test_lent_buffers_keep_what_was_stored(self):
        directory, pool = array.array("Q", [2**64 - 1] * 26), bytearray(b"\xff" * 128)
        yard = self.over(directory, pool)
        self.assertRaises(Refused, len, yard)
        yard.make_fresh()
        yard["AB12"] = b"tare"
        self.assertEqual(list(directory), [1, 1, 0, 4, 0, 0, 4, 4] + [0] * 18)
        self.assertEqual(pool, b"AB12tare" + bytes(len(pool) - 8))
        self.assertEqual(self.over(directory, memoryview(pool)).items(), [(b"AB12", b"tare")])

    def test_a_mapped_file(self):
        with mmap.mmap(-1, 208) as directory, mmap.mmap(-1, 128) as pool:
            yard = self.over(directory, pool)
            yard.make_fresh()
            yard["AB12"] = 14_200
            self.assertEqual(pool[:4], b"AB12")
            # it cannot be closed under the dictionary
            self.assertRaises(BufferError, pool.close)
            del yard

    def test_a_buffer_cannot_be_resized_under_the_dictionary(self):
        directory, pool = bytearray(208), bytearray(128)
        yard = self.over(directory, pool)
        self.assertRaises(BufferError, pool.append, 0)
        self.assertRaises(BufferError, directory.clear)
        del yard
        pool.append(0)

    def test_wrong_lengths_are_refused_by_the_library(self):
        for words, size in [(0, 0), (0, 128), (26, 0), (25, 128), (27, 128), (26, 127), (26, 129), (2, 0)]:
            yard = self.over(bytearray(8 * words), bytearray(size))
            with self.assertRaises(Refused) as caught:
                yard.make_fresh()
            self.assertEqual(caught.exception.outcome, Outcome.NOT_SOUND)
            self.assertRaises(Refused, list, yard)
            self.assertFalse(yard.audit())

    def test_buffers_that_c_could_not_take_are_refused(self):
        self.assertRaises(TypeError, self.over, bytes(208), bytearray(128))
        self.assertRaises(TypeError, self.over, bytearray(208), bytes(128))
        self.assertRaises(TypeError, self.over, [0] * 26, bytearray(128))
        self.assertRaises(ValueError, self.over, bytearray(209), bytearray(128))
        self.assertRaises(ValueError, self.over, memoryview(bytearray(216))[1:209], bytearray(128))
        self.assertRaises((TypeError, BufferError), self.over, bytearray(208), memoryview(bytearray(256))[::2])

    def test_buffers_do_not_overlap(self):
        whole = memoryview(bytearray(208 + 128))
        self.assertRaises(ValueError, self.over, whole, whole)
        self.assertRaises(ValueError, self.over, whole[:208], whole[207:335])
        self.assertRaises(ValueError, self.over, whole[128:], whole[1:129])
        self.over(whole[:208], whole[208:]).make_fresh()
        self.over(whole[128:], whole[:128]).make_fresh()

    def test_a_key_and_a_text_may_lie_in_the_pool(self):
        directory, pool = bytearray(208), bytearray(128)
        yard = self.over(directory, pool)
        yard.make_fresh()
        yard["AB12"] = b"0123456789" * 6
        yard[memoryview(pool)[:4]] = memoryview(pool)[4:44]
        self.assertEqual(yard.items(), [(b"AB12", b"0123456789" * 4)])

    def test_wild_contents_never_fault(self):
        numbers = random.Random(1)
        for _ in range(2000):
            words = [numbers.choice([0, 1, 2, 3, 4, 8, 2**64 - 1, numbers.getrandbits(64)]) for _ in range(26)]
            yard = self.over(array.array("Q", [1, 1, *words[2:8], *[0] * 18]), bytearray(numbers.randbytes(128)))
            for call in [list, len, Dict.items, Dict.flush_expired, lambda d: d.set("a", 1), lambda d: d.get("a")]:
                try:
                    call(yard)
                except Refused as refused:
                    self.assertEqual(refused.outcome, Outcome.NOT_SOUND)

    def test_equal_keys(self):
        """Only a memory made by hand has them: the most recently used one is meant, and if it is dead there is none."""
        yard = self.over(array.array("Q", [1, 2, 1, 1, 0, 0, 1, 1, 0, 1, 0, 1, 1, 1] + [0] * 12), bytearray(128))
        self.assertFalse(yard.audit())
        self.assertNotIn(b"\0", yard)
        self.assertEqual(yard.items(), [])


class Outside(unittest.TestCase):
    def run_python(self, *arguments, **environment):
        environment = {**os.environ, **environment}
        return subprocess.run([sys.executable, *arguments], cwd=HERE, env=environment, capture_output=True, text=True)

    def test_the_example(self):
        done = self.run_python("example.py")
        self.assertEqual(done.stderr, "")
        self.assertEqual(
            done.stdout.splitlines(),
            [
                "'AB12': 8460 kg donated",
                "'': no receipt, the key is empty: weigh empty",
                "'AB12': no receipt, not found: weigh empty",
            ],
        )

    def test_the_example_of_the_module(self):
        done = self.run_python("-m", "doctest", "reefcandor.py")
        self.assertEqual((done.returncode, done.stdout), (0, ""))

    def test_a_missing_library_is_an_import_error_that_says_how_to_make_it(self):
        done = self.run_python("-c", "import reefcandor", REEFCANDOR_LIBRARY="nowhere.so")
        self.assertNotEqual(done.returncode, 0)
        self.assertIn("ImportError: nowhere.so is not there", done.stderr)
        self.assertIn("bindings/python/build", done.stderr)

    def test_a_file_that_is_no_library_is_an_import_error(self):
        done = self.run_python("-c", "import reefcandor", REEFCANDOR_LIBRARY="example.py")
        self.assertIn("ImportError: example.py is not the library", done.stderr)


if __name__ == "__main__":
    unittest.main()
