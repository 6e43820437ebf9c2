//! Books that come as QDIMACS: what opens, and that it is what our own text would give.

use compare::finder::Shape;
use compare::qdimacs::{by_place, lines, open, program};
use compare::random::Random;
use compare::{write, Options};

fn refusal(text: &str) -> Option<(u8, usize)> {
    open(text.as_bytes(), &Options::paper(), None).err().map(|fault| (fault.number, fault.line))
}

/// The example of the source documents, and the paper's sentences one after another.
#[test]
fn readings_of_the_paper() {
    let book = "(book 1)\n(flags)\n(exists 2)\n(forall 3)\n(exists 1)\n(rule 3 1)\n(end)\n";
    let text = "c || Comment ||\np cnf 3 1\ne 2 0\na 3 0\ne 1 0\n1 3 0\n";
    assert_eq!(program(text.as_bytes(), &Options::paper(), None), book);
    assert_eq!(refusal("p cnf 0 0\n"), None);
    assert_eq!(refusal("p cnf 41 0\n"), Some((3, 1)));
    assert_eq!(refusal("p cnf 2 1\n3 0\n"), Some((5, 2)));
    assert_eq!(refusal("p cnf 2 1\n0\n"), Some((7, 2)));
    assert_eq!(refusal("p cnf 1 1\nc\n"), Some((30, 3)));
    assert_eq!(refusal("c\n"), Some((1, 2)));
    assert_eq!(refusal("p cnf 1 1\n1 0\n1 0\n2 0\n"), Some((5, 4)));
}

/// "give the same book that our own text would give".
#[test]
fn the_same_book() {
    let mut random = Random::new(20_241);
    for attempt in 0..4_000 {
        let formula = by_place(&Shape::of_attempt(attempt).formula(&mut random));
        let text = lines(&formula, || random.one_in(3)).join("\n") + "\n";
        let own = write::text(&formula, &Options::paper());
        assert_eq!(program(text.as_bytes(), &Options::paper(), None), own, "{text}");
        assert_eq!(compare::text::open(own.as_bytes(), &Options::paper()), Ok(formula));
    }
}
