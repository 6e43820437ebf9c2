//! Lines of a card and their bytes.

use crate::formula::Formula;
use crate::options::Options;
use crate::slip::Slip;

/// The lines found so far; each is a node, a prefix of the free variables.
#[derive(Default)]
pub struct Lines {
    nodes: Vec<Vec<bool>>,
    /// What each place held last, lines taken back among them: as many places as there ever were.
    /// Only slips read this.
    held: Vec<Vec<bool>>,
}

impl Lines {
    pub fn count(&self) -> usize {
        self.nodes.len()
    }

    pub fn nodes(&self) -> &[Vec<bool>] {
        &self.nodes
    }

    pub fn replace_after(&mut self, kept: usize, node: &[bool]) {
        self.nodes.truncate(kept);
        self.nodes.push(node.to_vec());
        self.held.resize(self.held.len().max(kept + 1), vec![]);
        self.held[kept] = node.to_vec();
    }

    /// "21 the card has more lines than the table holds", by the final count.
    pub fn too_many(&self, holds: usize, options: &Options) -> bool {
        let running = options.slips(Slip::RunningCount);
        (if running { self.held.len() } else { self.count() }) > holds
    }

    /// The bytes of the lines that were taken back, left in the table: only a slip does this.
    pub fn leave_taken_back(&self, free_count: usize, table: &mut [u8]) {
        let after = self.held.iter().enumerate().skip(self.count());
        for (index, node) in after {
            if let Some(cells) = table.get_mut(index * free_count..(index + 1) * free_count) {
                cells.iter_mut().zip(bytes(node, free_count)).for_each(|(cell, byte)| *cell = byte);
            }
        }
    }
}

/// "The table holds its length divided by f, rounded down; with f = 0 a line is empty and always
/// fits."
pub fn lines_held(formula: &Formula, length: usize, options: &Options) -> usize {
    let free_count = formula.free_count();
    if free_count == 0 {
        return if options.slips(Slip::EmptyLineNeedsByte) { length } else { usize::MAX };
    }
    let rounded_up =
        usize::from(options.slips(Slip::TableRoundedUp) && !length.is_multiple_of(free_count));
    length / free_count + rounded_up
}

/// "A line is f bytes in place order: 0 open, 1 off, 2 on. Bytes after the last line are zero."
/// Never writes outside the lent table.
pub fn write(lines: &[Vec<bool>], free_count: usize, table: &mut [u8], options: &Options) {
    let written = lines.len() * free_count;
    let bytes = lines.iter().flat_map(|node| bytes(node, free_count));
    for (cell, byte) in table.iter_mut().zip(bytes) {
        *cell = byte;
    }
    if !options.slips(Slip::TableTailKept) {
        table.iter_mut().skip(written).for_each(|cell| *cell = 0);
    }
}

fn bytes(node: &[bool], free_count: usize) -> impl Iterator<Item = u8> + '_ {
    (0..free_count).map(|index| node.get(index).map_or(0, |&on| if on { 2 } else { 1 }))
}
