//! Whatever is called, no state comes out that the library refuses, and nothing panics.

use bullacetop::{printed, tagged, untagged, Book, Limits, Refusal, Refused, Session};
use std::thread;

const BOOK: &[u8] = include_bytes!("../../examples/fan_board.book");
const CALLS: usize = 5_000;

/// Numbers that look random, the same in each run.
struct Numbers(u64);

impl Numbers {
    fn below(&mut self, bound: usize) -> usize {
        self.0 =
            self.0.wrapping_mul(6_364_136_223_846_793_005).wrapping_add(1_442_695_040_888_963_407);
        (self.0 >> 33) as usize % bound
    }

    /// Up to 17 numbers: of declared variables, undeclared ones, and some at the ends of the range.
    fn list(&mut self) -> Vec<i16> {
        let count = self.below(18);
        (0..count).map(|_| self.literal()).collect()
    }

    fn literal(&mut self) -> i16 {
        match self.below(12) {
            0 => [0, i16::MIN, i16::MAX, 41, -41][self.below(5)],
            1..=5 => -(1 + self.below(9) as i16),
            _ => 1 + self.below(9) as i16,
        }
    }

    /// A reading, at times of every flag, else of anything.
    fn reading(&mut self) -> (Vec<i16>, Vec<i16>) {
        match self.below(3) {
            0 => (self.list(), self.list()),
            _ => (1..=4).partition(|_| self.below(2) == 0),
        }
    }
}

/// One call of any kind; its refusal.
fn call(book: &mut Book, numbers: &mut Numbers) -> Result<(), Refused> {
    let ceiling = [u32::MAX, 0, 1, 20][numbers.below(4)];
    let mut table = vec![9; [0, 3, 8, 65_536][numbers.below(4)]];
    let (on, off) = numbers.reading();
    match numbers.below(9) {
        0 => book.rule(&numbers.list()),
        1 => book.one(&numbers.list()),
        2 => book.withdraw(),
        3 => book.forget(),
        4 => book.query(&on, &off, ceiling).map(drop),
        5 => book.card(&mut table, ceiling).map(drop),
        6 => book.keep_card(&mut table, ceiling).map(drop),
        7 => book.closest(&on, &off, &mut table, ceiling).map(drop),
        _ => book.write(&mut table).map(drop),
    }
}

#[test]
fn no_call_leaves_a_malformed_state() {
    let mut numbers = Numbers(1);
    let mut book = Book::open(BOOK).unwrap();
    let mut refused = 0;
    for _ in 0..CALLS {
        if let Err(told) = call(&mut book, &mut numbers) {
            assert_ne!(told.refusal, Refusal::Malformed);
            assert!(!matches!(told.refusal, Refusal::Other(_)));
            refused += 1;
        }
        let text = book.text().unwrap();
        assert_eq!(Book::open(&text).unwrap().text().unwrap(), text);
    }
    assert!(0 < refused && refused < CALLS);
}

#[test]
fn any_bytes_are_answered() {
    let mut numbers = Numbers(2);
    let mut session = Session::open(BOOK).unwrap();
    for _ in 0..2_000 {
        let mut text = BOOK.to_vec();
        for _ in 0..1 + numbers.below(3) {
            let at = numbers.below(text.len());
            text[at] = numbers.below(256) as u8;
        }
        let limits = Limits { numbers: numbers.below(12), rules: numbers.below(20) };
        let _ = (Book::open_under(limits, &text), Book::open_qdimacs_under(limits, &text));
        let _ = (tagged(&text).is_ok(), untagged(&text).is_ok());
        let start = numbers.below(text.len());
        assert!(session.line(&text[start..]).ends_with(b"\n"));
    }
    assert!(session.book().text().is_ok());
}

/// A book is data alone: it may go to another thread, and be looked at from several.
#[test]
fn books_go_to_other_threads() {
    fn goes<T: Send + Sync>(_: &T) {}
    let book = Book::open(BOOK).unwrap();
    goes(&book);
    let mut other = book.clone();
    let there = thread::spawn(move || other.card_lines(u32::MAX)).join().unwrap();
    assert_eq!(there, book.clone().card_lines(u32::MAX));
}

/// What a call gives on a thread with a stack of so many KiB.
fn on_stack<T: Send + 'static>(size: usize, call: impl FnOnce() -> T + Send + 'static) -> T {
    thread::Builder::new().stack_size(size * 1024).spawn(call).unwrap().join().unwrap()
}

/// The header asks for 512 KiB for a search, a line or a printed card, and for 32 for any other call; the types take
/// no more.
#[test]
fn on_the_stack_that_the_header_asks_for() {
    const LARGEST: &[u8] = include_bytes!("../../examples/parlour_board.book");
    const CARD: &[u8] = include_bytes!("../../examples/parlour_board.card");
    let mut session = on_stack(512, || Session::open_under(Limits::HIGHEST, LARGEST).unwrap());
    let mut book = session.book().clone();
    assert_eq!(on_stack(512, move || session.line(b"(card)").to_vec()), CARD);
    assert_eq!(on_stack(512, || printed(LARGEST)), CARD);
    let lines = |told: bullacetop::Lines| told.lines.len();
    assert_eq!(on_stack(512, move || lines(book.card_lines(u32::MAX).unwrap())), 161);
    let mut other = on_stack(32, || Book::open(LARGEST).unwrap());
    let text = on_stack(32, move || {
        other.rule(&[1]).unwrap();
        other.withdraw().unwrap();
        other.text().unwrap()
    });
    assert_eq!(Book::open(&text).unwrap().text().unwrap(), text);
}

/// Each thread has one workspace for all its books; a book that goes to another thread is served there.
#[test]
fn many_books_in_many_threads() {
    let served: Vec<Vec<Book>> = (0..4)
        .map(|_| {
            thread::spawn(|| {
                let mut books: Vec<Book> = (0..200).map(|_| Book::open(BOOK).unwrap()).collect();
                let cards: Vec<_> =
                    books.iter_mut().map(|book| book.card_lines(u32::MAX).unwrap().lines).collect();
                assert!(cards.windows(2).all(|two| two[0] == two[1]));
                books
            })
        })
        .map(|thread| thread.join().unwrap())
        .collect();
    let mut fresh = Book::open(BOOK).unwrap();
    let lines = fresh.card_lines(u32::MAX).unwrap().lines;
    for book in served.iter().flatten() {
        assert_eq!(book.clone().card_lines(u32::MAX).unwrap().lines, lines);
    }
}
