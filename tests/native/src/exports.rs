//! The library's calls on a book in two slices, under its own limits. Their numbers become answers: each call has its own, and a
//! refusal has no other.

use compare::answer::LENT_BYTE;
use compare::closest::Closest;
use compare::hold::InPlace;
use compare::options::MOST_FLAGS;
use compare::{Call, Reading, Said};
use std::cell::RefCell;

const KEEP: u16 = 1;
pub const SWAP: u16 = 2;
const UNSETTLED: u16 = 3;

/// What a call says.
#[repr(C)]
#[derive(Clone, Copy, Debug, PartialEq, Eq)]
pub struct Reply {
    /// 0 is none.
    pub refusal: u16,
    /// 0 where the call is no query or is refused.
    pub verdict: u16,
    pub lines: usize,
    pub visits: u64,
}

/// A text in the first bytes of a lent table.
#[repr(C)]
#[derive(Clone, Copy, Debug, PartialEq, Eq)]
pub struct Written {
    /// 0 is none.
    pub refusal: u16,
    pub length: usize,
}

/// The closest reading, which stands in a lent table.
#[repr(C)]
#[derive(Clone, Copy, Debug, PartialEq, Eq)]
pub(crate) struct Nearest {
    /// 0 is none.
    pub refusal: u16,
    pub differs: usize,
    pub lines: usize,
    pub visits: u64,
}

#[repr(C)]
#[derive(Clone, Copy, Debug, PartialEq, Eq)]
pub struct Opened {
    pub refusal: u16,
    pub line: usize,
}

extern "C" {
    fn bullacetop_book_cells(numbers: usize, rules: usize) -> usize;
    fn bullacetop_book_literals(numbers: usize, rules: usize) -> usize;
    fn bullacetop_book_room(cells: *const u16, cell_count: usize) -> usize;
    fn bullacetop_book_open(
        text: *const u8,
        length: usize,
        numbers: usize,
        rules: usize,
        cells: *mut u16,
        cell_count: usize,
        literals: *mut i16,
        literal_count: usize,
    ) -> Opened;
    fn bullacetop_book_rule(
        cells: *mut u16,
        cell_count: usize,
        literals: *mut i16,
        literal_count: usize,
        list: *const i16,
        count: usize,
    ) -> Reply;
    fn bullacetop_book_one(
        cells: *mut u16,
        cell_count: usize,
        literals: *mut i16,
        literal_count: usize,
        list: *const i16,
        count: usize,
    ) -> Reply;
    fn bullacetop_book_withdraw(
        cells: *mut u16,
        cell_count: usize,
        literals: *mut i16,
        literal_count: usize,
    ) -> Reply;
    fn bullacetop_book_forget(
        cells: *mut u16,
        cell_count: usize,
        literals: *const i16,
        literal_count: usize,
    ) -> Reply;
    fn bullacetop_book_query(
        cells: *mut u16,
        cell_count: usize,
        literals: *mut i16,
        literal_count: usize,
        work: *mut u64,
        on: *const i16,
        on_count: usize,
        off: *const i16,
        off_count: usize,
        ceiling: u32,
    ) -> Reply;
    fn bullacetop_book_card(
        cells: *mut u16,
        cell_count: usize,
        literals: *mut i16,
        literal_count: usize,
        work: *mut u64,
        table: *mut u8,
        length: usize,
        ceiling: u32,
    ) -> Reply;
    fn bullacetop_book_keep_card(
        cells: *mut u16,
        cell_count: usize,
        literals: *mut i16,
        literal_count: usize,
        work: *mut u64,
        table: *mut u8,
        length: usize,
        ceiling: u32,
    ) -> Reply;
    fn bullacetop_book_closest(
        cells: *mut u16,
        cell_count: usize,
        literals: *mut i16,
        literal_count: usize,
        work: *mut u64,
        on: *const i16,
        on_count: usize,
        off: *const i16,
        off_count: usize,
        table: *mut u8,
        length: usize,
        reading: *mut u8,
        ceiling: u32,
    ) -> Nearest;
    fn bullacetop_book_write(
        cells: *const u16,
        cell_count: usize,
        literals: *const i16,
        literal_count: usize,
        table: *mut u8,
        length: usize,
    ) -> Written;
}

/// Words of a workspace.
const WORKSPACE: usize = {
    // `sizeof (struct bullacetop_workspace)` of the header, which the build script reads there.
    let (digits, mut bytes, mut at) = (env!("WORKSPACE_BYTES").as_bytes(), 0, 0);
    while at < digits.len() {
        bytes = 10 * bytes + (digits[at] - b'0') as usize;
        at += 1;
    }
    bytes.div_ceil(8)
};

/// What stands in a workspace that is lent for the first time: its content is free.
const LENT_WORD: u64 = 0xA5C3_96E1_5A3C_691E;
/// .. and words on either side of it.
const GUARDS: usize = 16;

thread_local! {
    static WORK: RefCell<Vec<u64>> = RefCell::new(vec![LENT_WORD; WORKSPACE + 2 * GUARDS]);
}

/// The thread's workspace: a call finds in it what the calls before it left.
pub fn workspace() -> *mut u64 {
    WORK.with(|work| work.borrow_mut()[GUARDS..].as_mut_ptr())
}

/// An error where a word beside the workspace was written.
pub fn workspace_kept() -> Result<(), String> {
    let kept = WORK.with(|work| {
        let work = work.borrow();
        let outside = work[..GUARDS].iter().chain(&work[GUARDS + WORKSPACE..]);
        outside.copied().all(|word| word == LENT_WORD)
    });
    kept.then_some(()).ok_or("a word beside the workspace is written".into())
}

/// Cells and literals of a state under limits.
pub fn lengths((numbers, rules): (usize, usize)) -> (usize, usize) {
    unsafe { (bullacetop_book_cells(numbers, rules), bullacetop_book_literals(numbers, rules)) }
}

pub fn room(cells: &[u16]) -> usize {
    unsafe { bullacetop_book_room(cells.as_ptr(), cells.len()) }
}

pub fn open(text: &[u8], limits: (usize, usize), cells: &mut [u16], rows: &mut [i16]) -> Opened {
    unsafe {
        bullacetop_book_open(
            text.as_ptr(),
            text.len(),
            limits.0,
            limits.1,
            cells.as_mut_ptr(),
            cells.len(),
            rows.as_mut_ptr(),
            rows.len(),
        )
    }
}

/// Numbers that are only read, in a list of its own length, so that a tool that watches memory sees a read past its end.
pub(crate) struct List(Box<[i16]>);

impl List {
    pub(crate) fn new(numbers: &[i16]) -> List {
        List(numbers.into())
    }

    /// An empty list has no address.
    pub(crate) fn at(&self) -> *const i16 {
        if self.0.is_empty() {
            std::ptr::null()
        } else {
            self.0.as_ptr()
        }
    }

    pub(crate) fn kept(&self, numbers: &[i16]) -> Result<(), String> {
        (*self.0 == *numbers).then_some(()).ok_or("a list of numbers is written".into())
    }
}

/// The two slices of a state.
#[derive(Clone, Copy)]
struct State(*mut u16, usize, *mut i16, usize);

type AddCall = unsafe extern "C" fn(*mut u16, usize, *mut i16, usize, *const i16, usize) -> Reply;

impl State {
    fn add(self, call: AddCall, numbers: &[i16]) -> Result<Reply, String> {
        let State(cells, m, rows, n) = self;
        let list = List::new(numbers);
        let reply = unsafe { call(cells, m, rows, n, list.at(), numbers.len()) };
        list.kept(numbers)?;
        Ok(reply)
    }

    fn withdraw(self) -> Reply {
        let State(cells, m, rows, n) = self;
        unsafe { bullacetop_book_withdraw(cells, m, rows, n) }
    }

    fn forget(self) -> Reply {
        let State(cells, m, rows, n) = self;
        unsafe { bullacetop_book_forget(cells, m, rows, n) }
    }

    fn query(self, Reading { on, off }: &Reading, ceiling: u32) -> Result<Reply, String> {
        let State(cells, m, rows, n) = self;
        let (a, b, work) = (List::new(on), List::new(off), workspace());
        let (k, j) = (on.len(), off.len());
        let reply = unsafe {
            bullacetop_book_query(cells, m, rows, n, work, a.at(), k, b.at(), j, ceiling)
        };
        a.kept(on)?;
        b.kept(off)?;
        Ok(reply)
    }

    fn card(self, yes: bool, table: &mut [u8], ceiling: u32) -> Reply {
        let State(cells, m, rows, n) = self;
        let (at, size) = (table.as_mut_ptr(), table.len());
        let call = if yes { bullacetop_book_card } else { bullacetop_book_keep_card };
        unsafe { call(cells, m, rows, n, workspace(), at, size, ceiling) }
    }

    /// The lent reading stands between bytes that are kept.
    fn closest(
        self,
        Reading { on, off }: &Reading,
        table: &mut [u8],
        ceiling: u32,
    ) -> Result<(Said, u64), String> {
        let State(cells, m, rows, n) = self;
        let (a, b, work) = (List::new(on), List::new(off), workspace());
        let (k, j, at, size) = (on.len(), off.len(), table.as_mut_ptr(), table.len());
        let mut lent = [[LENT_BYTE; MOST_FLAGS]; 3];
        let values = lent[1..].as_mut_ptr().cast();
        let nearest = unsafe {
            bullacetop_book_closest(
                cells,
                m,
                rows,
                n,
                work,
                a.at(),
                k,
                b.at(),
                j,
                at,
                size,
                values,
                ceiling,
            )
        };
        a.kept(on)?;
        b.kept(off)?;
        workspace_kept()?;
        if lent[0] != [LENT_BYTE; MOST_FLAGS] || lent[2] != lent[0] {
            return Err("a byte beside the reading is written".into());
        }
        Ok((said_of_nearest(&nearest, lent[1])?, nearest.visits))
    }

    fn write(self, table: &mut [u8]) -> Reply {
        let State(cells, m, rows, n) = self;
        let (at, size) = (table.as_mut_ptr(), table.len());
        as_reply(unsafe { bullacetop_book_write(cells, m, rows, n, at, size) })
    }
}

/// The compiled calls.
#[derive(Clone, Copy, Debug)]
pub struct Exports;

impl InPlace for Exports {
    fn call(
        &mut self,
        cells: &mut [u16],
        literals: &mut [i16],
        call: &Call,
        ceiling: u32,
        table: &mut [u8],
    ) -> Result<(Said, u64), String> {
        let (m, n) = (cells.len(), literals.len());
        let state = State(cells.as_mut_ptr(), m, literals.as_mut_ptr(), n);
        let reply = match call {
            Call::Rule(numbers) => state.add(bullacetop_book_rule, numbers)?,
            Call::One(numbers) => state.add(bullacetop_book_one, numbers)?,
            Call::Withdraw => state.withdraw(),
            Call::Forget => state.forget(),
            Call::Query(reading) => state.query(reading, ceiling)?,
            Call::Card(_) => state.card(true, table, ceiling),
            Call::KeepCard(_) => state.card(false, table, ceiling),
            Call::Closest(reading, _) => return state.closest(reading, table, ceiling),
            Call::Write(_) => state.write(table),
        };
        workspace_kept()?;
        Ok((said(call, &reply)?, reply.visits))
    }
}

/// The calls without guards, for measurements.
pub mod bare {
    use super::*;
    use compare::slices::Slices;

    fn state(Slices { cells, literals, .. }: &mut Slices) -> State {
        State(cells.as_mut_ptr(), cells.len(), literals.as_mut_ptr(), literals.len())
    }

    pub fn forget(slices: &mut Slices) -> Reply {
        state(slices).forget()
    }

    pub fn query(slices: &mut Slices, Reading { on, off }: &Reading, ceiling: u32) -> Reply {
        let State(cells, m, rows, n) = state(slices);
        let (a, k, b, j, work) = (on.as_ptr(), on.len(), off.as_ptr(), off.len(), workspace());
        unsafe { bullacetop_book_query(cells, m, rows, n, work, a, k, b, j, ceiling) }
    }

    pub fn card(slices: &mut Slices, table: &mut [u8], ceiling: u32) -> Reply {
        state(slices).card(true, table, ceiling)
    }
}

/// The length of a text in the place of the count of lines.
pub(crate) fn as_reply(Written { refusal, length }: Written) -> Reply {
    Reply { refusal, verdict: 0, lines: length, visits: 0 }
}

pub(crate) fn said(call: &Call, reply: &Reply) -> Result<Said, String> {
    let Reply { refusal, verdict, lines, visits } = *reply;
    let said = match (call, refusal, verdict, lines, visits) {
        (Call::Card(_) | Call::KeepCard(_), 21, 0, 0, _) => Some(Said::Refused(21)),
        (_, 34 | 37, 0, 0, _) if call.searches() => Some(Said::Refused(refusal as u8)),
        (_, 1.., 0, 0, 0) => u8::try_from(refusal).ok().map(Said::Refused),
        (Call::Rule(_) | Call::One(_), 0, 0, 0, 0) => Some(Said::Added),
        (Call::Withdraw, 0, 0, 0, 0) => Some(Said::Withdrawn),
        (Call::Forget, 0, 0, 0, 0) => Some(Said::Forgotten),
        (Call::Query(_), 0, SWAP, 0, _) => Some(Said::Swap),
        (Call::Query(_), 0, KEEP, 0, _) => Some(Said::Keep),
        (Call::Query(_), 0, UNSETTLED, 0, _) => Some(Said::Unsettled),
        (Call::Card(_) | Call::KeepCard(_), 0, 0, _, _) => Some(Said::Lines(lines)),
        (Call::Write(_), 0, 0, _, 0) => Some(Said::Written(lines)),
        _ => None,
    };
    let numbers = (refusal, verdict, lines, visits);
    said.ok_or(format!("refusal, verdict, lines, visits {numbers:?} are no answer"))
}

/// The numbers of a closest reading, and the bytes of the lent one.
pub(crate) fn said_of_nearest(nearest: &Nearest, values: [u8; MOST_FLAGS]) -> Result<Said, String> {
    match *nearest {
        Nearest { refusal: 0, differs, lines, .. } => {
            Ok(Said::Closest(Closest { reading: values, differs, lines }))
        }
        Nearest { refusal, differs: 0, lines: 0, visits } if values == [0; MOST_FLAGS] => {
            let told = matches!(refusal, 21 | 34 | 35 | 37) || visits == 0;
            let number = u8::try_from(refusal).ok().filter(|_| told);
            Ok(Said::Refused(number.ok_or(format!("{nearest:?} is no refusal"))?))
        }
        _ => Err(format!("{nearest:?} and the reading {values:?} are no answer")),
    }
}
