//! The limits of a book, and how long its tables are.

/// The limits under which a book is opened: the highest number of a variable, and the most rules. They
/// stay with the book, which refuses with 3 and 20 by them. Higher ones than [`Limits::HIGHEST`] are taken
/// as those. A book has at most 40 flags and a rule at most 16 literals, whatever its limits.
///
/// ```
/// use bullacetop::{Book, Limits, Refusal};
///
/// # fn main() -> Result<(), bullacetop::Refused> {
/// let text = b"(book 1)\n(flags 1)\n(exists 700)\n(rule 1 700)\n(end)\n";
/// assert_eq!(Book::open(text).unwrap_err().refusal, Refusal::NumberRange);
/// let mut book = Book::open_under(Limits { numbers: 700, rules: 1 }, text)?;
/// assert_eq!(book.rule(&[700]).unwrap_err().refusal, Refusal::RulesFull);
/// # Ok(())
/// # }
/// ```
#[derive(Clone, Copy, Debug, PartialEq, Eq, Hash)]
pub struct Limits {
    /// Variables have numbers from 1 to this.
    pub numbers: usize,
    /// At most so many rules stand.
    pub rules: usize,
}

/// Literals of a rule.
const LITERALS: usize = 16;
/// Learned bars, and learned passes.
const ENTRIES: usize = 64;

impl Limits {
    /// Where none are given: 40 and 255.
    pub const USUAL: Limits = Limits { numbers: 40, rules: 255 };

    /// The highest: 1,000 and 4,000.
    pub const HIGHEST: Limits = Limits { numbers: 1_000, rules: 4_000 };

    /// How many cells a book under these limits has, for arrays too:
    ///
    /// ```
    /// use bullacetop::Limits;
    ///
    /// let cells = [0_u16; Limits::USUAL.cells()];
    /// let literals = [0_i16; Limits::USUAL.literals()];
    /// assert_eq!((cells.len(), literals.len()), (575, 9_200));
    /// ```
    pub const fn cells(self) -> usize {
        let own = self.lowered();
        2 + 3 * (own.numbers + 1) + (own.rules + 1) + (2 * ENTRIES + 1) + (ENTRIES + 1)
    }

    /// How many literals.
    pub const fn literals(self) -> usize {
        let own = self.lowered();
        own.rules * LITERALS + 2 * ENTRIES * own.numbers
    }

    const fn lowered(self) -> Limits {
        Limits {
            numbers: lower(self.numbers, Limits::HIGHEST.numbers),
            rules: lower(self.rules, Limits::HIGHEST.rules),
        }
    }

    pub(crate) fn pair(self) -> (usize, usize) {
        (self.numbers, self.rules)
    }
}

const fn lower(one: usize, other: usize) -> usize {
    if one < other {
        one
    } else {
        other
    }
}

impl Default for Limits {
    fn default() -> Limits {
        Limits::USUAL
    }
}

#[cfg(test)]
mod tests {
    use super::Limits;
    use crate::ffi;

    #[test]
    fn lengths_are_the_library_s() {
        for numbers in (0..=1_002).chain([usize::MAX]) {
            for rules in [0, 1, 255, 3_999, 4_000, 4_001, usize::MAX] {
                let limits = Limits { numbers, rules };
                let told = ffi::lengths(limits.pair());
                assert_eq!((limits.cells(), limits.literals()), told, "{limits:?}");
            }
        }
    }
}
