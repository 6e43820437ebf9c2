"""The module on the README's first session, the refusals, the examples' cards, random calls and threads."""
import ctypes
import doctest
import glob
import os
import random
import re
import threading
import unittest

import bullacetop
from bullacetop import Answer, Book, HIGHEST_LIMITS, Limits, Refused, Session, USUAL_LIMITS

ROOT = os.path.dirname(os.path.dirname(os.path.abspath(__file__)))


def read(path):
    with open(os.path.join(ROOT, path), encoding="ascii", newline="") as file:
        return file.read()


A = read("examples/a.book")
WRITTEN = (
    "(book 1)\n(flags 1 2)\n(exists 3)\n(forall 4)\n(rule (no 1) 3 4)\n(rule 2 (no 3) (no 4))\n(rule 1 2)\n"
    "(rule 1)\n(rule 1 2)\n(rule (no 1) (no 2))\n(end)\n"
)
PAGE = [
    "CARD                                                                  1",
    "    1  01",
    "    2  11",
]


def rows(page):
    """The rows of a page that are not blank."""
    assert len(page) == 24 * 72
    return [row.rstrip() for row in page.splitlines() if row.strip()]


def tables(book):
    """All that the library holds of a book."""
    return bytes(book._tables.cells), bytes(book._tables.literals)


def chain(last):
    """Flags 1 and 2, and variables 3 to the last, each equal to the one before it; 3 is the `or` of the flags. And limits that just hold it."""
    links = "".join(f"(rule {n - 1} (no {n}))\n(rule (no {n - 1}) {n})\n" for n in range(4, last + 1))
    variables = "".join(f" {n}" for n in range(3, last + 1))
    text = f"(book 1)\n(flags 1 2)\n(exists{variables})\n(rule 1 2 (no 3))\n(rule (no 1) 3)\n(rule (no 2) 3)\n{links}(rule {last})\n(end)\n"
    return text, Limits(last, 2 * last - 2)


def printed(card):
    """A card as the program prints it."""
    lines = ["".join(f" {n}" if n > 0 else f" (no {-n})" for n in line) for line in card.lines]
    return "(card 1)\n" + "".join(f"(line{line})\n" for line in lines) + f"(visits {card.visits})\n(end)\n"


class FirstSession(unittest.TestCase):
    def test_call_by_call(self):
        book = Book.open(A)
        card = book.card()
        self.assertEqual((card.lines, card.visits), ([[-1, 2], [1, 2]], 11))
        self.assertEqual(rows(card.page(1)), PAGE)
        self.assertEqual(book.query(on=[1, 2]), Answer("swap", 3))
        self.assertEqual(book.query(off=[2]), Answer("keep", 7))
        self.assertEqual(book.copy().query(on=[]).verdict, "unsettled")
        closest = book.closest(on=[1], off=[2])
        self.assertEqual((closest.reading, closest.differs), ([1, 2], 1))
        self.assertEqual((len(closest.card.lines), closest.card.visits), (2, 9))
        with self.assertRaises(Refused) as stopped:
            book.keep_card(ceiling=5)
        self.assertEqual((stopped.exception.number, stopped.exception.visits), (34, 5))
        book.rule([1])
        book.one([1, 2])
        book.forget()
        self.assertEqual(book.write(), WRITTEN)

    def test_line_by_line(self):
        session = Session(A)
        self.assertEqual(session.line("(card)"), read("examples/a.card"))
        self.assertEqual(rows(session.line("(page 1)")), PAGE)
        self.assertEqual(session.line(b"(query 1 2)"), "(swap (visits 3))\n")
        self.assertEqual(session.line("(query (no 2))"), "(keep (visits 7))\n")
        self.assertEqual(session.line("(closest 1 (no 2))"), "(closest (reading 1 2) (differs 1) (lines 2) (visits 9))\n")
        self.assertEqual(session.line("(keep-card (ceiling 5))"), "(refused 34 14 (visits 5))\n")
        self.assertEqual(session.line("(rule 1)"), "(accepted)\n")
        self.assertEqual(session.line("(one 1 2)"), "(accepted)\n")
        self.assertEqual(session.line("(forget)"), "(forgotten)\n")
        self.assertEqual(session.line("(write)"), WRITTEN)
        self.assertEqual(session.book().write(), WRITTEN)


class Refusals(unittest.TestCase):
    def assert_refused(self, number, call, *arguments, line=0, visits=0, **named):
        with self.assertRaises(Refused) as refused:
            call(*arguments, **named)
        told = refused.exception
        self.assertEqual((told.number, told.line, told.visits), (number, line, visits))

    def test_the_header_has_the_same_numbers(self):
        header = read("include/bullacetop.h")
        listed = header[header.index("/* Refusals; 0 is none. */"):header.index("/* ---- the workspace */")]
        self.assertEqual([int(n) for n in re.findall(r"#define \S+ (\d+)", listed)], list(bullacetop.MEANINGS))

    def test_texts(self):
        self.assert_refused(1, Book.open, "", line=1)
        self.assert_refused(1, Book.open, "(book 1)\n(flags \u00e4 \ud800)\n", line=2)
        self.assert_refused(2, Book.open, "(book 3)\n", line=1)
        self.assert_refused(5, Book.open, "(book 1)\n(flags 1)\n(rule 2)\n(end)\n", line=3)
        self.assert_refused(9, Book.open, b"(" * 65537)
        self.assert_refused(30, Book.open_qdimacs, "p cnf 2 2\n1 2 0\n", line=3)
        self.assert_refused(39, Book.open, "(book 2)\n(flags 1)\n(rule (tag 0) 1)\n(end)\n", line=3)
        self.assert_refused(2, bullacetop.tag, "(book 2)\n(flags)\n(end)\n", line=1)
        self.assert_refused(40, bullacetop.untag, "(book 2)\n(flags 1)\n(rule (tag 2) 1)\n(end)\n", line=3)
        self.assertEqual(bullacetop.print_card("(book 3)\n"), "(refused 2 1)\n")
        with self.assertRaises(TypeError):
            Book.open(5)

    def test_what_it_says(self):
        with self.assertRaises(Refused) as refused:
            Book.open("")
        self.assertEqual(str(refused.exception), "refused with 1: not in the layout, or a line where it may not stand (line 1)")

    def test_calls_leave_the_book_as_it_was(self):
        book = Book.open(A)
        book.query(on=[1, 2])
        before = tables(book)
        self.assert_refused(7, book.rule, [])
        self.assert_refused(3, book.rule, [1, -32768])
        self.assert_refused(5, book.rule, [1, 5])
        self.assert_refused(6, book.rule, [1, -1])
        self.assert_refused(7, book.one, [1])
        self.assert_refused(8, book.query, on=[3])
        self.assert_refused(8, book.query, on=[1], off=[1])
        self.assert_refused(34, book.query, on=[1, 2], ceiling=0)
        self.assert_refused(8, book.closest, on=[1])
        self.assert_refused(31, book.write, 22)
        self.assertEqual(tables(book), before)

    def test_a_number_is_never_taken_for_another(self):
        """65,537 has the same lowest 16 bits as 1, and 2 ** 32 as 0."""
        book = Book.open(A)
        self.assert_refused(3, book.rule, [65537])
        self.assert_refused(3, book.rule, [-(2**80)])
        self.assert_refused(8, book.query, on=[65537], off=[2])
        for ceiling in [-1, 2**32]:
            with self.assertRaises(ValueError):
                book.card(ceiling=ceiling)
        with self.assertRaises(TypeError):
            book.rule([1.0])
        self.assertEqual(book.rules, 3)

    def test_searches_that_ran(self):
        book = Book.open(A)
        self.assert_refused(21, book.card, size=3, visits=11)
        self.assert_refused(21, book.card, size=0, visits=9)
        book.rule([-2])
        self.assert_refused(35, book.closest, on=[1, 2], visits=7)

    def test_rules_and_pages(self):
        book = Book.open("(book 1)\n(flags 1)\n(end)\n")
        self.assert_refused(32, book.withdraw)
        for _ in range(255):
            book.rule([1])
        self.assert_refused(20, book.rule, [1])
        card = book.card()
        for number in [0, 2, 2**64 + 1]:
            self.assert_refused(36, card.page, number)
        self.assert_refused(36, bullacetop.page, b"\3", 1, 1, 1)

    def test_lines(self):
        session = Session(A)
        self.assertEqual(session.line("(page 1)"), "(refused 36 9)\n")
        self.assertEqual(session.line(""), "(refused 1 10)\n")
        self.assertEqual(session.line("(" * 65537), "(refused 1 11)\n")

    def test_a_spoiled_state_is_refused(self):
        """A book's tables can be reached from Python, whatever their name: the library does not trust them."""
        book = Book.open(A)
        numbers = book._tables.parts()[0]
        book._tables.cells[numbers + 2] = 1
        for call in [book.rule, book.one, book.query]:
            self.assert_refused(22, call, [1])
        for call in [book.withdraw, book.forget, book.card, book.keep_card, book.closest, book.write]:
            self.assert_refused(22, call)


class Examples(unittest.TestCase):
    def test_cards(self):
        paths = glob.glob(os.path.join(ROOT, "examples/*.book"))
        self.assertEqual(len(paths), 4)
        for path in paths:
            text, card = read(path), read(path[:-len("book")] + "card")
            self.assertEqual(printed(Book.open(text).card()), card)
            self.assertEqual(printed(Book.open(bullacetop.tag(text)).card()), card)
            self.assertEqual(bullacetop.untag(bullacetop.tag(text)), text)
            self.assertEqual(Session(text).line("(card)"), card)
            self.assertEqual(bullacetop.print_card(text), card)

    def test_qdimacs(self):
        book = Book.open_qdimacs("p cnf 4 3\ne 3 0\na 4 0\n3 4 -1 0\n-3 -4 2 0\n1 2 0\n")
        self.assertEqual(printed(book.card()), read("examples/a.card"))

    def test_the_docstring(self):
        self.assertEqual(doctest.testmod(bullacetop).failed, 0)

    def test_all_books_of_a_thread_have_one_workspace(self):
        books, work = [Book.open(read("examples/a.book")) for _ in range(300)], bullacetop._LENT.work
        self.assertEqual({tuple(map(tuple, book.card().lines)) for book in books}, {((-1, 2), (1, 2))})
        self.assertIs(bullacetop._LENT.work, work)
        self.assertFalse(any(isinstance(kept, bullacetop._Workspace) for kept in vars(books[0]).values()))
        others = []
        thread = threading.Thread(target=lambda: others.append((books[0].card().lines, bullacetop._LENT.work)))
        thread.start()
        thread.join()
        self.assertEqual(others[0][0], [[-1, 2], [1, 2]])
        self.assertIsNot(others[0][1], work)

    def test_the_workspace_has_the_header_s_size(self):
        self.assertIn(f"== {ctypes.sizeof(bullacetop._Workspace)} ?", read("include/bullacetop.h"))


class OwnLimits(unittest.TestCase):
    assert_refused = Refusals.assert_refused

    def test_a_chain_under_limits_that_just_hold_it(self):
        for last in [4, 60, 400]:
            text, limits = chain(last)
            book = Book.open(text, limits)
            self.assertEqual((book.limits, book.rules, book.flags), (limits, limits.rules, [1, 2]))
            self.assertEqual(book.card().lines, [[-1, 2], [1]])
            self.assertEqual(book.query(off=[1, 2]).verdict, "keep")
            self.assertEqual((book.closest(off=[1, 2]).reading, book.copy().card().lines), ([-1, 2], [[-1, 2], [1]]))
            self.assert_refused(20, book.rule, [1])
            book.withdraw()
            self.assert_refused(3, book.rule, [last + 1])
            book.rule([last])
            self.assertEqual(book.write(), text)
            self.assertEqual(Session(text, limits).line("(query (no 1) (no 2))")[:5], "(keep")
            self.assertEqual(bullacetop.untag(bullacetop.tag(text, limits), limits), text)
            self.assertEqual(bullacetop.print_card(text, limits), printed(Book.open(text, limits).card()))

    def test_limits_that_do_not_hold_it(self):
        text, limits = chain(60)
        last = text.count("\n") - 1
        few, short = Limits(59, limits.rules), Limits(60, limits.rules - 1)
        for call in [Book.open, Session, bullacetop.tag]:
            self.assert_refused(3, call, text, line=3)
            self.assert_refused(3, call, text, few, line=3)
            self.assert_refused(20, call, text, short, line=last)
        self.assert_refused(33, Book.open_qdimacs, "p cnf 41 0\n", Limits(41, 0), line=2)

    def test_limits_above_the_highest_are_those(self):
        self.assertEqual(Book.open(A).limits, USUAL_LIMITS)
        self.assertEqual(Book.open(A, (2**64 + 1, 4001)).limits, HIGHEST_LIMITS)
        self.assertEqual(Book.open("(book 1)\n(flags)\n(end)\n", (0, 0)).limits, (0, 0))
        with self.assertRaises(ValueError):
            Book.open(A, (-1, 9))


def any_call(book, numbers):
    """One call of any kind with any arguments."""
    literals = [numbers.choice([0, 41, -41, 99999, *range(1, 10), *range(-9, 0)]) for _ in range(numbers.randrange(18))]
    on = [flag for flag in range(1, 5) if numbers.random() < 0.5]
    off = [flag for flag in range(1, 5) if flag not in on]
    ceiling, size = numbers.choice([0, 20, bullacetop.HIGHEST_CEILING]), numbers.choice([0, 8, 65536])
    calls = [
        lambda: book.rule(literals[:3]),
        lambda: book.one(literals[:3]),
        book.withdraw,
        book.forget,
        lambda: book.query(literals, off),
        lambda: book.query(on, off, ceiling),
        lambda: book.card(ceiling, size),
        lambda: book.keep_card(ceiling, size),
        lambda: book.closest(on, off, ceiling, size),
    ]
    return numbers.choice(calls)


class Safe(unittest.TestCase):
    def many_calls(self, book, seed, told):
        numbers = random.Random(seed)
        for _ in range(500):
            try:
                any_call(book, numbers)()
                told.append(0)
            except Refused as refused:
                told.append(refused.number)

    def test_no_call_leaves_a_malformed_state(self):
        book, told = Book.open(read("examples/fan_board.book")), []
        self.many_calls(book, 1, told)
        self.assertEqual(len(told), 500)
        self.assertIn(0, told)
        self.assertNotIn(22, told)
        self.assertEqual(Book.open(book.write()).write(), book.write())

    def test_a_call_waits_for_another_on_its_book(self):
        book = Book.open(A)
        thread = threading.Thread(target=book.query, args=([1, 2],))
        with book._lock:
            thread.start()
            thread.join(0.2)
            self.assertTrue(thread.is_alive())
        thread.join()

    def test_calls_of_threads_on_one_book(self):
        book, told = Book.open(read("examples/fan_board.book")), []
        threads = [threading.Thread(target=self.many_calls, args=(book, seed, told)) for seed in range(4)]
        for thread in threads:
            thread.start()
        for thread in threads:
            thread.join()
        self.assertEqual(len(told), 4 * 500)
        self.assertNotIn(22, told)
        self.assertEqual(Book.open(book.write()).write(), book.write())


if __name__ == "__main__":
    unittest.main()
