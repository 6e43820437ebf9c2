//! The functions on texts run on the stack that the C header asks for.

use compare::random::Random;
use compare::{write, Formula, Limits, Options, Quantifier, Variable};
use native::text::{open, open_qdimacs, room, tag, Cards, Page, Room};
use native::texts;
use std::thread;

/// Variables of which the search sets every one.
fn deepest(variables: i16) -> Formula {
    let variable = |number| Variable { number, quantifier: Quantifier::Exists };
    let prefix = (1..=variables).map(variable).collect();
    Formula { prefix, clauses: vec![vec![variables], vec![1 - variables]] }
}

fn on_a_stack_of(kib: usize, run: impl FnOnce() + Send + 'static) {
    let thread = thread::Builder::new().stack_size(kib << 10).spawn(run);
    thread.expect("a thread can be started").join().expect("the calls return");
}

fn texts_under(limits: Limits, kib: usize) {
    let formula = deepest(limits.numbers);
    let text = texts::book(&formula, &mut Random::new(1));
    let qdimacs = texts::qdimacs(&formula, &mut Random::new(1));
    let written = write::text(&formula, &Options::with(limits));
    let visits = limits.numbers + 2;
    let expected = format!("(card 1)\n(line)\n(visits {visits})\n(end)\n").into_bytes();
    on_a_stack_of(kib, move || {
        let (mut page, lent) = (Page::new(room()), Room::of(&limits));
        assert_eq!(page.print(&text, &lent), Ok(Some(expected.clone())));
        let opened = open(&text, &lent).expect("lent bytes are only read");
        assert_eq!((opened.refusal, opened.line), (0, 0));
        let same = open_qdimacs(&qdimacs, &lent).expect("lent bytes are only read");
        assert_eq!((same.refusal, same.line), (0, 0));
        assert!(same.slices.read() == opened.slices.read());
        let (told, _) = tag(&text, &lent, 65_536).expect("lent bytes are only read");
        assert_eq!((told.refusal, told.length), (0, text.len() + 2 * " (tag 1)".len()));
        let (mut slices, cards) = (opened.slices, &mut Cards::none());
        let mut answer = |line: &[u8]| {
            let text = page.line(&mut slices, line, 1, cards).expect("lent bytes are only read");
            text.expect("a table that is long enough")
        };
        assert_eq!(answer(b"(card)"), expected);
        assert_eq!(answer(b"(page 1)").len(), 24 * 72);
        assert_eq!(answer(b"(write)"), written.as_bytes());
    });
}

#[test]
fn a_text_needs_less_than_512_kib() {
    texts_under(Limits::PAPER, 512);
    texts_under(Limits::HIGHEST, 512);
}
