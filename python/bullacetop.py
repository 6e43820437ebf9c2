"""Bullacetop, a proved solver for parametric quantified Boolean formulas, from Python.

A book says which faults and loads explain which log readings. Its card lists the readings of the flags that condemn a board:

    >>> book = Book.open("(book 1)\\n(flags 1 2)\\n(exists 3)\\n(rule 3 (no 1))\\n(rule (no 3) 2)\\n(end)\\n")
    >>> book.card().lines
    [[-1], [1, 2]]
    >>> book.query(on=[1], off=[2])
    Answer(verdict='keep', visits=1)

A literal is a variable's number for on, negated for off. A book is opened under limits, 40 numbers and 255 rules where none are given, and
at most 1,000 and 4,000: Book.open(text, Limits(1000, 4000)). What is refused raises Refused, with the number that docs/FORMAT.md
lists; the book is then as it was, but for what a search that ran has learned (21, 34, 35).

The functions are those of include/bullacetop.h, called through ctypes; libbullacetop.so is made from the static library:

    cc -shared -o target/staticlib/libbullacetop.so \\
        -Wl,--whole-archive target/staticlib/libbullacetop.a -Wl,--no-whole-archive

It is looked for in the folder that BULLACETOP_LIB_DIR names, else where it is built, else where `make install` puts it.
"""
import ctypes
import operator
import os
import threading
from collections import namedtuple
from ctypes import POINTER, c_char, c_char_p, c_int16, c_size_t, c_uint8, c_uint16, c_uint32, c_uint64

__all__ = [
    "Answer", "Book", "Card", "Closest", "Day", "HIGHEST_CEILING", "HIGHEST_LIMITS", "Limits", "MEANINGS", "Place", "Refused", "Session", "USUAL_LIMITS",
    "page", "print_card", "tag", "untag",
]

HIGHEST_CEILING = 4294967295
"""The highest ceiling on the visits of a call."""

MEANINGS = {
    1: "not in the layout, or a line where it may not stand",
    2: "the edition is not one that is read, or converted from",
    3: "a number that is not 1 to the limit for numbers",
    4: "a variable declared twice",
    5: "a variable that is not declared",
    6: "a variable twice in one rule",
    7: "a rule without a literal, an exactly-one form with fewer than two, or either with more than 16",
    8: "a reading names a variable that is no flag, or one twice; a closest reading leaves a flag open",
    9: "a text over 65,536 bytes",
    20: "more rules than the limit for rules",
    21: "the card has more lines than its table holds",
    22: "the state is malformed",
    30: "a QDIMACS text has not as many clauses as its header says",
    31: "a text or a page is longer than its table",
    32: "a withdrawal where no rule stands",
    33: "more than 40 flags",
    34: "the search needs more visits than its ceiling",
    35: "a closest reading's card has no line",
    36: "a page that the card does not have",
    37: "the search needs more visits than are left at its place of a day",
    38: "no book at this place of a day, or no such place",
    39: "a tag that is not 1 to 65,535",
    40: "a tag that would be lost: it is not its rule's number among the rules",
}
"""What each refusal means, by its number."""

_CARD_TABLE = 65536
_LONGEST_TEXT = 65536
_PAGE_BYTES = 24 * 72
_FLAGS = 40
_VERDICTS = {1: "keep", 2: "swap", 3: "unsettled"}
_OFF, _ON = 1, 2


class Refused(Exception):
    """A refused text or call: its number, the line of a text (0 where none is at fault), and the visits of a search that ran."""

    def __init__(self, number, line=0, visits=0):
        super().__init__(number, line, visits)
        self.number, self.line, self.visits = number, line, visits

    @property
    def meaning(self):
        """What the number means."""
        return MEANINGS.get(self.number, "a refusal without a name here")

    def __str__(self):
        where = f" (line {self.line})" if self.line else ""
        return f"refused with {self.number}: {self.meaning}{where}"


Answer = namedtuple("Answer", "verdict visits")
Answer.__doc__ = "What a query says: 'keep', 'swap' or 'unsettled', and the visits that it took."

Closest = namedtuple("Closest", "reading differs card")
Closest.__doc__ = "The closest reading as literals, in how many flags it differs from the given one, and the card made on the way."


class Card:
    """A card: `lines`, each the literals of the flags that it sets in place order, and the `visits` that it took."""

    def __init__(self, table, count, flags, visits):
        size = len(flags)
        # The bytes of the lines alone: a page is printed from them.
        self._bytes, self._count, self._flags = ctypes.string_at(table, count * size), count, size
        self.lines = [_literals(flags, self._bytes[i * size:(i + 1) * size]) for i in range(count)]
        self.visits = visits

    def __repr__(self):
        return f"Card(lines={self.lines!r}, visits={self.visits!r})"

    def page(self, number):
        """Page `number`, from 1, as text: 24 rows of 72 bytes. A page that the card does not have raises 36."""
        return page(self._bytes, self._count, self._flags, number)


def _literals(flags, line):
    signs = {_OFF: -1, _ON: 1}
    return [signs[byte] * flag for flag, byte in zip(flags, line) if byte in signs]


_NUMBERS, _RULES = 1000, 4000
_CODES, _ROW_WORDS = (_NUMBERS + 1) * 2, (_RULES // 256 + 1) * 4


class _Matrix(ctypes.Structure):
    _fields_ = [("rows", c_uint16 * (_RULES * 17)), ("sets", c_uint64 * (_CODES * 2 * _ROW_WORDS)), ("quantifiers", c_uint8 * _CODES)]


class _Trail(ctypes.Structure):
    _fields_ = [
        ("satisfied", c_uint64 * ((_NUMBERS + 1) * _ROW_WORDS)),
        ("marks", c_uint8 * (_NUMBERS + 1)),
        ("made", c_uint16 * (_NUMBERS * 2)),
        ("joined", c_uint16 * (_NUMBERS * 2)),
    ]


class _Workspace(ctypes.Structure):
    """For searches: its content is free before a call, and means nothing after."""
    _fields_ = [
        ("rules", _Matrix),
        ("bar_cells", c_uint16 * (64 * (_NUMBERS + 1))),
        ("bar_links", c_uint64 * (_CODES + 2 + 64)),
        ("bar_masks", c_uint64 * 64),
        ("pass_cells", c_uint16 * (64 * (_NUMBERS + 1))),
        ("pass_links", c_uint64 * (_CODES + 2 + 64)),
        ("pass_masks", c_uint64 * 64),
        ("trail", _Trail),
        ("statuses", c_uint8 * _CODES),
        ("aside", c_uint16 * (_NUMBERS * _NUMBERS)),
        ("places", c_uint16 * (_NUMBERS + 1)),
        ("kinds", c_uint16 * (_NUMBERS + 1)),
        ("values", c_uint8 * (_NUMBERS + 1)),
    ]


class _Lent(threading.local):
    """The workspace of a thread, made at its first search: one serves any number of books, and no call in it begins before the last one has ended."""

    @property
    def work(self):
        try:
            return self._made
        except AttributeError:
            self._made = _Workspace()
            return self._made


_LENT = _Lent()


class _Reply(ctypes.Structure):
    _fields_ = [("refusal", c_uint16), ("verdict", c_uint16), ("lines", c_size_t), ("visits", c_uint64)]


class _Nearest(ctypes.Structure):
    _fields_ = [("refusal", c_uint16), ("differs", c_size_t), ("lines", c_size_t), ("visits", c_uint64)]


class _Written(ctypes.Structure):
    _fields_ = [("refusal", c_uint16), ("length", c_size_t)]


class _Converted(ctypes.Structure):
    _fields_ = [("refusal", c_uint16), ("line", c_size_t), ("length", c_size_t)]


class _Opened(ctypes.Structure):
    _fields_ = [("refusal", c_uint16), ("line", c_size_t)]


class _Shown(ctypes.Structure):
    _fields_ = [("refusal", c_uint16), ("size", c_size_t), ("lines", c_size_t), ("flags", c_size_t)]


class _Spoken(ctypes.Structure):
    _fields_ = [("refusal", c_uint16), ("length", c_size_t), ("shown", _Shown)]


_PLACES = 8


class _Rooms(ctypes.Structure):
    _fields_ = [("cells", c_size_t * _PLACES), ("literals", c_size_t * _PLACES)]


class _Accounts(ctypes.Structure):
    _fields_ = [("total", c_uint32), ("used", c_uint32 * _PLACES), ("books", c_uint8 * _PLACES)]


class _Share(ctypes.Structure):
    _fields_ = [("refusal", c_uint16), ("visits", c_uint32)]


_LIST = [POINTER(c_int16), c_size_t]
_TEXT = [c_char_p, c_size_t]
_TABLE = [POINTER(c_char), c_size_t]
_TABLES = [POINTER(c_uint16), c_size_t, POINTER(c_int16), c_size_t]
_WORK = [POINTER(_Workspace)]
# A text, its limits, and the tables that it is read onto.
_READ = _TEXT + [c_size_t, c_size_t] + _TABLES
# The accounts of a day, where its places lie, and their long tables; then the place, behind the workspace where a call searches.
_DAY = [POINTER(_Accounts), POINTER(_Rooms)] + _TABLES
_AT = _DAY + [c_size_t]
_SEARCH_AT = _DAY + _WORK + [c_size_t]

_FUNCTIONS = {
    "book_cells": (c_size_t, [c_size_t, c_size_t]),
    "book_literals": (c_size_t, [c_size_t, c_size_t]),
    "book_room": (c_size_t, [POINTER(c_uint16), c_size_t]),
    "book_open": (_Opened, _READ),
    "book_open_qdimacs": (_Opened, _READ),
    "book_tag": (_Converted, _READ + _TABLE),
    "book_untag": (_Converted, _READ + _TABLE),
    "book_print": (_Written, _READ + _WORK + _TABLE),
    "book_write": (_Written, _TABLES + _TABLE),
    "book_rule": (_Reply, _TABLES + _LIST),
    "book_one": (_Reply, _TABLES + _LIST),
    "book_withdraw": (_Reply, _TABLES),
    "book_forget": (_Reply, _TABLES),
    "book_query": (_Reply, _TABLES + _WORK + _LIST + _LIST + [c_uint32]),
    "book_card": (_Reply, _TABLES + _WORK + _TABLE + [c_uint32]),
    "book_keep_card": (_Reply, _TABLES + _WORK + _TABLE + [c_uint32]),
    "book_closest": (_Nearest, _TABLES + _WORK + _LIST + _LIST + _TABLE + [POINTER(c_uint8), c_uint32]),
    "book_line": (_Spoken, _TABLES + _WORK + _TEXT + [c_uint64, _Shown, POINTER(c_char)] + _TABLE),
    "day_begin": (None, [POINTER(_Accounts), c_uint32]),
    "day_share": (_Share, [POINTER(_Accounts), c_size_t]),
    "day_open": (_Opened, _AT + _TEXT + [c_size_t, c_size_t]),
    "day_write": (_Written, _AT + _TABLE),
    "day_rule": (_Reply, _AT + _LIST),
    "day_one": (_Reply, _AT + _LIST),
    "day_withdraw": (_Reply, _AT),
    "day_forget": (_Reply, _AT),
    "day_query": (_Reply, _SEARCH_AT + _LIST + _LIST + [c_uint32]),
    "day_card": (_Reply, _SEARCH_AT + _TABLE + [c_uint32]),
    "day_keep_card": (_Reply, _SEARCH_AT + _TABLE + [c_uint32]),
    "day_closest": (_Nearest, _SEARCH_AT + _LIST + _LIST + _TABLE + [POINTER(c_uint8), c_uint32]),
    "page": (c_uint16, _TEXT + [c_size_t, c_size_t, c_size_t] + _TABLE),
    "no_card": (_Shown, []),
    "room": (c_size_t, []),
}


def _library():
    """The shared library, with the types of its functions: without them ctypes would cut numbers to 32 bits."""
    here = os.path.dirname(os.path.abspath(__file__))
    folders = [os.environ.get("BULLACETOP_LIB_DIR"), os.path.join(here, "../target/staticlib"), os.path.join(here, "../../lib")]
    paths = [os.path.normpath(os.path.join(folder, "libbullacetop.so")) for folder in folders if folder]
    found = next((path for path in paths if os.path.exists(path)), None)
    if found is None:
        raise ImportError("libbullacetop.so is not there, nor is BULLACETOP_LIB_DIR its folder; looked for " + ", ".join(paths))
    library = ctypes.CDLL(found)
    for name, (answer, arguments) in _FUNCTIONS.items():
        function = getattr(library, "bullacetop_" + name)
        function.restype, function.argtypes = answer, arguments
    return library


_lib = _library()


def _call(name, *arguments):
    return getattr(_lib, "bullacetop_" + name)(*arguments)


def _bytes(text):
    # What is no ASCII is refused by the library, with its line; so every text gets there.
    return text.encode("utf-8", "surrogatepass") if isinstance(text, str) else bytes(memoryview(text))


def _text(text):
    text = _bytes(text)
    return text, len(text)


def _list(numbers):
    """Numbers as the library takes them. One that has no 16 bits becomes the nearest that has: neither is 1 to 1,000, nor a flag's."""
    numbers = [max(-32768, min(32767, operator.index(number))) for number in numbers]
    return (c_int16 * len(numbers))(*numbers), len(numbers)


def _within(number, highest, what):
    # ctypes would take it modulo a power of two.
    if not 0 <= operator.index(number) <= highest:
        raise ValueError(f"{what} {number} is not 0 to {highest}")
    return number


def _ceiling(number):
    return _within(number, HIGHEST_CEILING, "ceiling")


def _count(number):
    # More than 64 bits are as little a limit, a count of lines or a page as the highest number of them.
    return _within(min(number, 2**64 - 1), 2**64 - 1, "count")


def _table(size):
    return (c_char * size)(), size


def _unless_refused(told, line=0):
    if told.refusal:
        raise Refused(told.refusal, line, getattr(told, "visits", 0))


Limits = namedtuple("Limits", "numbers rules")
Limits.__doc__ = """The limits under which a book is opened: the highest number of a variable, and the most rules.

They stay with the book, which refuses with 3 and 20 by them. Higher ones than HIGHEST_LIMITS are taken as those."""

USUAL_LIMITS = Limits(40, 255)
"""Where none are given."""

HIGHEST_LIMITS = Limits(1000, 4000)
"""The highest."""


class _Tables:
    """The two tables of a book, as long as its limits ask."""

    def __init__(self, limits):
        self.limits = [_count(limit) for limit in limits]
        numbers, rules = self.limits
        self.cells = (c_uint16 * _call("book_cells", numbers, rules))()
        self.literals = (c_int16 * _call("book_literals", numbers, rules))()

    def lent(self):
        return self.cells, len(self.cells), self.literals, len(self.literals)

    def read(self, name, text, *arguments):
        """Reads a text onto them."""
        return _call(name, *_text(text), *self.limits, *self.lent(), *arguments)

    def copy(self):
        copy = type(self)(self.limits)
        ctypes.memmove(copy.cells, self.cells, ctypes.sizeof(self.cells))
        ctypes.memmove(copy.literals, self.literals, ctypes.sizeof(self.literals))
        return copy

    def parts(self):
        """Where the numbers of the variables, their levels and the lengths of the rules begin."""
        length = self.cells[0] + 1
        return 2, 2 + length, 2 + 3 * length


class Book:
    """A book, and what was learned on it, which makes later calls cheaper and changes no answer.

    It comes from a text: Book.open or Book.open_qdimacs, under limits for the numbers of its variables and for its rules. Calls on one
    book wait for one another, and calls on different books may run at once, each in a thread of its own.

    >>> text = "(book 1)\\n(flags 1)\\n(exists 700)\\n(rule 1 700)\\n(end)\\n"
    >>> Book.open(text)
    Traceback (most recent call last):
        ..
    bullacetop.Refused: refused with 3: a number that is not 1 to the limit for numbers (line 3)
    >>> Book.open(text, Limits(numbers=700, rules=10)).card().lines
    [[]]
    """

    def __init__(self, text, limits=USUAL_LIMITS):
        """As Book.open."""
        self._read("book_open", text, limits)

    @classmethod
    def open(cls, text, limits=USUAL_LIMITS):
        """Opens a text of edition 1 or 2. Refusals 9, then line by line 1, 2, and as the calls; 33 for a 41st flag; 39 after 20."""
        return cls(text, limits)

    @classmethod
    def open_qdimacs(cls, text, limits=USUAL_LIMITS):
        """Opens a QDIMACS 1.1 text: variables that stand in no quantifier line are the flags."""
        book = cls.__new__(cls)
        book._read("book_open_qdimacs", text, limits)
        return book

    def _read(self, name, text, limits):
        tables = _Tables(limits)
        opened = tables.read(name, text)
        _unless_refused(opened, opened.line)
        self._keep(tables)

    def _keep(self, tables):
        self._tables, self._lock = tables, threading.Lock()

    def copy(self):
        """Another book with the same rules and the same learned."""
        book = type(self).__new__(type(self))
        with self._lock:
            book._keep(self._tables.copy())
        return book

    def __repr__(self):
        return f"<Book of flags {self.flags} with {self.rules} rules>"

    @property
    def limits(self):
        """The limits that it was opened under, lowered to the highest."""
        return Limits(*self._tables.cells[:2])

    @property
    def flags(self):
        """The numbers of the flags in place order."""
        cells, (numbers, levels, _) = self._tables.cells, self._tables.parts()
        return [cells[numbers + place] for place in range(1, cells[numbers] + 1) if cells[levels + place] == 0]

    @property
    def rules(self):
        """How many rules stand."""
        return self._tables.cells[self._tables.parts()[2]]

    def _on(self, name, *arguments):
        with self._lock:
            told = _call("book_" + name, *self._tables.lent(), *arguments)
        _unless_refused(told)
        return told

    def rule(self, literals):
        """Adds a rule of 1 to 16 literals, in any order. Refusals 20, 7, then from the left 3, 5, 6."""
        self._on("rule", *_list(literals))

    def one(self, literals):
        """Adds the rules of `exactly one of these 2 to 16 literals`, all or none. Refusals 7, 20, then from the left 3, 5, 6."""
        self._on("one", *_list(literals))

    def withdraw(self):
        """Takes the rule back that was added last. Refusal 32."""
        self._on("withdraw")

    def forget(self):
        """Forgets what was learned."""
        self._on("forget")

    def query(self, on=(), off=(), ceiling=HIGHEST_CEILING):
        """What the rules say where these flags are on, those off, and the others open. Refusals 8, 34."""
        told = self._on("query", _LENT.work, *_list(on), *_list(off), _ceiling(ceiling))
        return Answer(_VERDICTS[told.verdict], told.visits)

    def card(self, ceiling=HIGHEST_CEILING, size=_CARD_TABLE):
        """The readings that condemn a board; `size` is the bytes of its table, one for each flag of a line. Refusals 34, 21."""
        return self._card("card", ceiling, size)

    def keep_card(self, ceiling=HIGHEST_CEILING, size=_CARD_TABLE):
        """The readings that clear a board, in the same way."""
        return self._card("keep_card", ceiling, size)

    def _card(self, name, ceiling, size):
        table, size = _table(size)
        told = self._on(name, _LENT.work, table, size, _ceiling(ceiling))
        return Card(table, told.lines, self.flags, told.visits)

    def closest(self, on=(), off=(), ceiling=HIGHEST_CEILING, size=_CARD_TABLE):
        """The reading on the card that differs from the given one in the fewest flags; each flag is on or off. Refusals 8, 34, 21, 35."""
        table, size = _table(size)
        reading = (c_uint8 * _FLAGS)()
        told = self._on("closest", _LENT.work, *_list(on), *_list(off), table, size, reading, _ceiling(ceiling))
        card = Card(table, told.lines, self.flags, told.visits)
        return Closest(_literals(self.flags, bytes(reading)), told.differs, card)

    def write(self, size=None):
        """The book as text; `size` is the bytes of its table, which is long enough if not told. Refusal 31.

        Opening the text under the same limits gives the same book, with nothing learned."""
        cells = self._tables.cells
        table, size = _table(_call("book_room", cells, len(cells)) if size is None else size)
        return _string(table, self._on("write", table, size).length)


class Place(Book):
    """A book at a place of a day, from Day.at: the calls of a book, each under what the day leaves it. 37 and 38 too."""

    def __init__(self, day, place):
        """As Day.at."""
        self._day, self._place = day, place
        self._tables = _Part(day, place)

    def copy(self):
        """A place is of its day alone."""
        raise TypeError("a book at a place is not copied")

    def _on(self, name, *arguments):
        day = self._day
        # The workspace comes before the place.
        first = [argument for argument in arguments[:1] if isinstance(argument, _Workspace)]
        told = day._call("day_" + name, *first, self._place, *arguments[len(first):])
        _unless_refused(told)
        return told


class _Part:
    """The part of a place in the long tables of a day: the same memory."""

    def __init__(self, day, place):
        index, self.cells = place - 1, (c_uint16 * 3)()
        if 0 <= index < _PLACES:
            start, size = sum(day._rooms.cells[:index]), day._rooms.cells[index]
            self.cells = (c_uint16 * size).from_buffer(day._cells, start * 2)

    parts = _Tables.parts


class Day:
    """Up to eight books, at places 1 to 8, that share one total of visits.

    Each place has a floor of the total / 8, rounded down. A call may use what is left of its place's floor, and what is neither used nor
    still owed to any floor: a search that would make more visits is refused with 37 where its own ceiling is higher, otherwise with 34.
    A place without a book is refused with 38.

    >>> day = Day(90)
    >>> day.open(1, "(book 1)\\n(flags 1 2)\\n(rule 1 2)\\n(end)\\n")
    >>> day.at(1).query([1], [2]).verdict
    'swap'
    >>> day.used(1), day.share(1), day.share(2)
    (1, 12, 13)
    >>> day.at(2).card()
    Traceback (most recent call last):
        ..
    bullacetop.Refused: refused with 38: no book at this place of a day, or no such place
    """

    def __init__(self, total, limits=(USUAL_LIMITS,) * _PLACES):
        """A day with no book yet and nothing used; `limits` are those of the eight places."""
        self._accounts, self._rooms, self._lock = _Accounts(), _Rooms(), threading.Lock()
        self._limits = [[_count(limit) for limit in own] for own in limits]
        for index, (numbers, rules) in enumerate(self._limits):
            self._rooms.cells[index] = _call("book_cells", numbers, rules)
            self._rooms.literals[index] = _call("book_literals", numbers, rules)
        self._cells, self._literals = (c_uint16 * sum(self._rooms.cells))(), (c_int16 * sum(self._rooms.literals))()
        _call("day_begin", self._accounts, _within(total, HIGHEST_CEILING, "total"))

    def _call(self, name, *arguments):
        with self._lock:
            return _call(name, self._accounts, self._rooms, self._cells, len(self._cells), self._literals, len(self._literals), *arguments)

    def open(self, place, text):
        """Opens a text at a place, under the limits of the place; a refused one leaves it without a book. Refusals 38 outside 1 to 8, and a book's."""
        place = _count(place)
        limits = self._limits[place - 1] if 1 <= place <= _PLACES else (0, 0)
        opened = self._call("day_open", place, *_text(text), *limits)
        _unless_refused(opened, opened.line)

    def at(self, place):
        """The book at a place: its calls."""
        return Place(self, _count(place))

    def used(self, place):
        """The visits used at a place, 1 to 8."""
        return self._accounts.used[place - 1] if 1 <= place <= _PLACES else 0

    def share(self, place):
        """What a call at a place may still use, with a book or not. Refusal 38 outside 1 to 8."""
        share = _call("day_share", self._accounts, _count(place))
        _unless_refused(share)
        return share.visits


class Session:
    """A book that is asked by lines, as the program `session` is: each is answered in text, refused ones too.

    >>> session = Session("(book 1)\\n(flags 1 2)\\n(rule 1 2)\\n(end)\\n")
    >>> session.line("(query 1 (no 2))")
    '(swap (visits 1))\\n'
    """

    def __init__(self, text, limits=USUAL_LIMITS):
        """Opens a text of edition 1 or 2; lines are counted from its first."""
        text = _bytes(text)
        self._book, self._lines = Book(text, limits), text.count(b"\n")
        self._shown, self._cards = _call("no_card"), _table(_CARD_TABLE)[0]
        self._out = _table(_call("room"))
        self._lock = threading.Lock()

    def line(self, line):
        """Serves one line, without its newline."""
        with self._lock:
            self._lines += 1
            work, tables = _LENT.work, self._book._tables.lent()
            spoken = _call("book_line", *tables, work, *_text(line), self._lines, self._shown, self._cards, *self._out)
            self._shown = _Shown.from_buffer_copy(spoken.shown)
            return _string(self._out[0], spoken.length)

    def book(self):
        """The book as it now stands: a copy, which the session does not see."""
        with self._lock:
            return self._book.copy()


def _string(table, length):
    return ctypes.string_at(table, length).decode("ascii")


def page(table, lines, flags, number):
    """Page `number` of a card of so many lines in these bytes, one for each flag of a line. Refusal 36; Card.page is shorter."""
    out, size = _table(_PAGE_BYTES)
    refusal = _call("page", *_text(table), _count(lines), _count(flags), _count(number), out, size)
    if refusal:
        raise Refused(refusal)
    return _string(out, size)


def print_card(text, limits=USUAL_LIMITS):
    """What the program `card` prints for a text; a refused text prints its refusal."""
    out, size = _table(_call("room"))
    return _string(out, _Tables(limits).read("book_print", text, _LENT.work, out, size).length)


def tag(text, limits=USUAL_LIMITS):
    """A text of edition 1 in edition 2: its rules are tagged 1, 2, 3 and so on. Refusals as opening, with 2 for another edition."""
    return _converted("book_tag", text, limits)


def untag(text, limits=USUAL_LIMITS):
    """A text of edition 2 in edition 1, where its tags are 1, 2, 3 and so on. Refusals as opening, with 2 for another edition; 40."""
    return _converted("book_untag", text, limits)


def _converted(name, text, limits):
    table, size = _table(_LONGEST_TEXT)
    told = _Tables(limits).read(name, text, table, size)
    _unless_refused(told, told.line)
    return _string(table, told.length)
