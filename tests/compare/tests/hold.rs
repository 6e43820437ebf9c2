//! The comparison of calls in two lent slices: this implementation is found equal to itself, and each slip of states is
//! told apart.

use compare::draw::states::{opening, options, well_formed, with_fault, Drawn, Opening, FAULTS};
use compare::draw::under_ceilings;
use compare::hold::{hold, InPlace};
use compare::limits::{LimitSlip, ALL};
use compare::random::Random;
use compare::slices::open;
use compare::{Call, Solver};

/// One drawn state with its calls; an error where the sides differ.
fn run(attempt: usize, random: &mut Random, slip: Option<LimitSlip>) -> Result<usize, String> {
    let Drawn { mut slices, calls } = match attempt % 2 {
        0 => well_formed(random),
        _ => with_fault(FAULTS[attempt / 2 % FAULTS.len()], random),
    };
    let list = match (slices.read_well_formed(), options(&slices)) {
        (Some(state), Some(options)) => {
            under_ceilings(&calls, Solver::new(state, options), 2_000, random)
        }
        // A search on a malformed state means nothing to a slip.
        _ if slip.is_some() => vec![(Call::Forget, 0)],
        _ => calls.into_iter().map(|call| (call, 9)).collect(),
    };
    let count = list.len();
    let mut subject = slip;
    for (call, ceiling) in list.into_iter().chain([(Call::Forget, 0)]) {
        hold(&mut subject, &mut slices, &call, ceiling)?;
    }
    Ok(count)
}

#[test]
fn equal_to_itself() {
    let mut random = Random::new(20_281);
    let calls: usize = (0..2_000)
        .map(|attempt| run(attempt, &mut random, None).unwrap_or_else(|error| panic!("{error}")))
        .sum();
    assert!(calls > 3_000, "{calls}");
}

#[test]
fn every_slip_of_states_is_told_apart() {
    for (slip, words) in ALL.iter().filter(|(slip, _)| slip.is_of_states()) {
        let mut random = Random::new(4);
        let index = (0..4_000).find(|attempt| run(*attempt, &mut random, Some(*slip)).is_err());
        println!("{slip:?}: {index:?}");
        assert!(index.is_some(), "{slip:?}: {words}");
    }
}

/// What writes where it must not, or beside what it was lent, is told apart.
struct Wrong(usize);

impl InPlace for Wrong {
    fn call(
        &mut self,
        cells: &mut [u16],
        literals: &mut [i16],
        call: &Call,
        ceiling: u32,
        table: &mut [u8],
    ) -> Result<(compare::Said, u64), String> {
        let told = None.call(cells, literals, call, ceiling, table);
        let cell: *mut u16 = cells.as_mut_ptr();
        // The guards are part of one allocation with what is lent.
        unsafe {
            match self.0 {
                0 => *cell.sub(1) = 0,
                1 => *cell.add(cells.len()) = 0,
                2 => *literals.as_mut_ptr().sub(1) = 0,
                3 => *literals.as_mut_ptr().add(literals.len()) = 0,
                4 => *table.as_mut_ptr().sub(1) = 0,
                5 => *table.as_mut_ptr().add(table.len()) = 0,
                6 => cells[0] += 1,
                7 => cells[cells.len() - 1] ^= 1,
                8 => cells[4] ^= 1 << 15,
                _ => {}
            }
        }
        told
    }
}

#[test]
fn every_guard_is_looked_at() {
    for way in 0..10 {
        let mut random = Random::new(5);
        let Drawn { mut slices, .. } = well_formed(&mut random);
        let held = hold(&mut Wrong(way), &mut slices, &Call::Write(3), 0);
        assert_eq!(held.is_ok(), way == 9, "{way}: {held:?}");
    }
}

/// Texts onto slices that are long enough or too short: every slip of reading limits shows.
#[test]
fn openings() {
    let mut random = Random::new(20_282);
    let drawn: Vec<Opening> = (0..1_000).map(|_| opening(&mut random)).collect();
    let opened =
        |Opening { text, limits, lengths }: &Opening, slip| open(text, *limits, *lengths, slip);
    let count = |number| {
        let refused = drawn.iter().filter_map(|drawn| opened(drawn, None).err());
        refused.filter(|refused| refused.number == number).count()
    };
    for number in [1, 3, 20, 22, 33] {
        assert!(count(number) > 4, "{number}: {}", count(number));
    }
    assert!(drawn.iter().filter(|drawn| opened(drawn, None).is_ok()).count() > 300);
    let slips = [
        LimitSlip::NumbersByTheCap,
        LimitSlip::RulesByTheCap,
        LimitSlip::NumbersByThePaper,
        LimitSlip::RulesByThePaper,
        LimitSlip::FlagsNotCounted,
        LimitSlip::FlagsOneLess,
        LimitSlip::FlagsBeforeRange,
        LimitSlip::FlagsBeforeTwice,
        LimitSlip::ShortCellsTaken,
        LimitSlip::ShortLiteralsTaken,
    ];
    for slip in slips {
        assert!(
            drawn.iter().any(|drawn| opened(drawn, None) != opened(drawn, Some(slip))),
            "{slip:?}"
        );
    }
}
