//! What a query says of the flags. Paper 02, wish 5: "a query gives the flags that are on and those that are
//! off, and the rest are open".

use crate::formula::Formula;
use std::fmt;

#[derive(Clone, Debug, Default, PartialEq, Eq)]
pub struct Reading {
    pub on: Vec<i16>,
    pub off: Vec<i16>,
}

impl Reading {
    pub fn new(on: &[i16], off: &[i16]) -> Reading {
        Reading { on: on.to_vec(), off: off.to_vec() }
    }

    /// "in 01's bench cases and slips a flag not named is still off, so their queries are full readings".
    pub fn full(formula: &Formula, on: &[i16]) -> Reading {
        let flags = formula.prefix[..formula.free_count()].iter().map(|flag| flag.number);
        Reading { on: on.to_vec(), off: flags.filter(|flag| !on.contains(flag)).collect() }
    }

    /// The numbers named, in the order given: on, then off.
    pub fn numbers(&self) -> Vec<i16> {
        [&self.on[..], &self.off].concat()
    }

    /// The recorded value of a flag; none while it is open.
    pub fn value(&self, number: i16) -> Option<bool> {
        let on = self.on.contains(&number).then_some(true);
        on.or_else(|| self.off.contains(&number).then_some(false))
    }

    /// The values of the flags, in place order.
    pub fn values(&self, formula: &Formula) -> Vec<Option<bool>> {
        let flags = formula.prefix[..formula.free_count()].iter();
        flags.map(|flag| self.value(flag.number)).collect()
    }

    pub fn is_full(&self, formula: &Formula) -> bool {
        self.values(formula).iter().all(Option::is_some)
    }

    pub fn retain(&mut self, keep: impl Fn(&i16) -> bool) {
        self.on.retain(&keep);
        self.off.retain(&keep);
    }
}

impl fmt::Display for Reading {
    fn fmt(&self, f: &mut fmt::Formatter) -> fmt::Result {
        write!(f, "on {:?}, off {:?}", self.on, self.off)
    }
}
