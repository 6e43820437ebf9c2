//! The store of learned constraints: two lists, oldest first.

use crate::constraint::Polarity;
use crate::formula::Literal;
use crate::options::Options;
use crate::slip::Slip;

#[derive(Clone, Debug, Default, PartialEq, Eq)]
pub struct Store {
    pub clauses: Vec<Vec<Literal>>,
    /// Paper 02, wish 4: "each bar now records how many rules stood when it was stored". One for each
    /// learned clause, in their order.
    pub records: Vec<usize>,
    pub cubes: Vec<Vec<Literal>>,
}

impl Store {
    pub fn of(&self, polarity: Polarity) -> &Vec<Vec<Literal>> {
        match polarity {
            Polarity::Clause => &self.clauses,
            Polarity::Cube => &self.cubes,
        }
    }

    fn of_mut(&mut self, polarity: Polarity) -> &mut Vec<Vec<Literal>> {
        match polarity {
            Polarity::Clause => &mut self.clauses,
            Polarity::Cube => &mut self.cubes,
        }
    }

    /// Stores a joined constraint: "a 65th of a kind displaces the oldest", "an equal entry is
    /// stored again". `record` is that of a clause; a cube has none. Returns where it stands.
    pub fn learn(
        &mut self,
        polarity: Polarity,
        literals: &[Literal],
        record: usize,
        options: &Options,
    ) -> Option<usize> {
        let equal = self.of(polarity).iter().any(|entry| entry == literals);
        let full = self.of(polarity).len() >= options.capacity();
        if options.slips(Slip::EqualNotStoredAgain) && equal {
            return None;
        }
        if options.slips(Slip::FullStoreLearnsNothing) && full {
            return None;
        }
        if options.slips(Slip::NewestDisplaced) && full {
            self.of_mut(polarity).pop();
            if polarity == Polarity::Clause {
                self.records.pop();
            }
        }
        self.of_mut(polarity).push(literals.to_vec());
        if polarity == Polarity::Clause {
            self.records.push(record);
        }
        if self.of(polarity).len() > options.capacity() {
            self.displace(polarity, options);
        }
        self.of(polarity).len().checked_sub(1)
    }

    /// The oldest goes, and its record with it.
    fn displace(&mut self, polarity: Polarity, options: &Options) {
        self.of_mut(polarity).remove(0);
        if polarity == Polarity::Cube {
            return;
        }
        match options.slip {
            Some(Slip::RecordsNotMoved) => drop(self.records.pop()),
            Some(Slip::RecordOfDisplacedTaken) => {
                let oldest = self.records.remove(0);
                if let Some(newest) = self.records.last_mut() {
                    *newest = oldest;
                }
            }
            _ => drop(self.records.remove(0)),
        }
    }

    /// An accepted rule: "all passes go and bars remain". `standing` counts it.
    pub fn rule_added(&mut self, standing: usize, options: &Options) {
        if !options.slips(Slip::CubesKeptAfterRule) {
            self.cubes.clear();
        }
        if options.slips(Slip::ClausesDroppedAfterRule) {
            self.clauses.clear();
            self.records.clear();
        }
        if options.slips(Slip::RuleRaisesRecords) {
            self.records.fill(standing);
        }
    }

    /// A rule withdrawn: "Passes remain valid and are kept"; "Bars with a larger record than the rules
    /// that remain are dropped".
    pub fn rule_withdrawn(&mut self, remaining: usize, options: &Options) {
        let kept = kept(&self.records, remaining, options);
        self.clauses = kept.iter().map(|&index| self.clauses[index].clone()).collect();
        if options.slips(Slip::RecordsCutNotFiltered) {
            self.records.truncate(kept.len());
        } else {
            self.records = kept.iter().map(|&index| self.records[index]).collect();
        }
        if options.slips(Slip::WithdrawalDropsCubes) {
            self.cubes.clear();
        }
    }

    /// "Forget empties the store."
    pub fn forget(&mut self, options: &Options) {
        if !options.slips(Slip::ForgetKeepsStore) && !options.slips(Slip::ForgetKeepsClauses) {
            self.clauses.clear();
            self.records.clear();
        }
        if !options.slips(Slip::ForgetKeepsStore) && !options.slips(Slip::ForgetKeepsCubes) {
            self.cubes.clear();
        }
    }

    /// Nothing, unless slipped: a search that has ended leaves the records as they are.
    pub fn search_ended(&mut self, standing: usize, options: &Options) {
        match options.slip {
            Some(Slip::SearchRenewsRecords) => self.records.fill(standing),
            Some(Slip::SearchLosesRecords) => self.records.fill(0),
            _ => {}
        }
    }
}

/// Which learned clauses a withdrawal keeps, in their order. Records stand in any order on a state
/// that no calls reach.
fn kept(records: &[usize], remaining: usize, options: &Options) -> Vec<usize> {
    let stays = |index: &usize| match options.slip {
        Some(Slip::WithdrawalKeepsClauses) => true,
        Some(Slip::WithdrawalDropsClauses) => false,
        Some(Slip::EqualRecordDropped) => records[*index] < remaining,
        _ => records[*index] <= remaining,
    };
    let all = 0..records.len();
    match options.slip {
        Some(Slip::CutAtFirstLarger) => all.take_while(stays).collect(),
        Some(Slip::CutFromYoungEnd) => {
            let end = all.rev().find(stays).map_or(0, |index| index + 1);
            (0..end).collect()
        }
        Some(Slip::NewestFillsGap) => {
            let (mut list, mut at) = (all.collect::<Vec<_>>(), 0);
            while at < list.len() {
                if stays(&list[at]) {
                    at += 1;
                } else {
                    list.swap_remove(at);
                }
            }
            list
        }
        _ => all.filter(stays).collect(),
    }
}
