//! Something that is lent between guards.

/// An odd number, so that tables stand at addresses that no wider number may have.
const GUARDS: usize = 95;

pub struct Guarded<T> {
    all: Vec<T>,
    guard: T,
}

impl<T: Copy + PartialEq> Guarded<T> {
    pub fn new(inner: &[T], guard: T) -> Guarded<T> {
        let guards = [guard; GUARDS];
        Guarded { all: [&guards[..], inner, &guards[..]].concat(), guard }
    }

    pub fn at(&mut self) -> *mut T {
        self.all[GUARDS..].as_mut_ptr()
    }

    pub fn inner(&self) -> &[T] {
        &self.all[GUARDS..self.all.len() - GUARDS]
    }

    pub fn kept(&self) -> Result<(), String> {
        let (before, rest) = self.all.split_at(GUARDS);
        let after = &rest[rest.len() - GUARDS..];
        let kept = before.iter().chain(after).all(|cell| *cell == self.guard);
        kept.then_some(()).ok_or("a guard is written".into())
    }
}
