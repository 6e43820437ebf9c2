//! A formula: the prefix in declared order, and the clauses in order of adding.

/// Positive means on, its negation off.
pub type Literal = i16;

/// Position in the prefix, from 1; never a number and never a level.
#[derive(Clone, Copy, Debug, PartialEq, Eq, PartialOrd, Ord)]
pub struct Place(pub usize);

/// Index, from 1, of a maximal run of one quantifier; 0 for a free variable.
#[derive(Clone, Copy, Debug, PartialEq, Eq, PartialOrd, Ord)]
pub struct Level(pub usize);

#[derive(Clone, Copy, Debug, PartialEq, Eq, PartialOrd, Ord)]
pub enum Quantifier {
    Free,
    Exists,
    Forall,
}

#[derive(Clone, Copy, Debug, PartialEq, Eq)]
pub struct Variable {
    pub number: i16,
    pub quantifier: Quantifier,
}

#[derive(Clone, Debug, Default, PartialEq, Eq)]
pub struct Formula {
    pub prefix: Vec<Variable>,
    pub clauses: Vec<Vec<Literal>>,
}

/// A node: the values of the first places, as many as its length. Later places are open.
pub type Node = [bool];

impl Formula {
    /// The place of a literal's variable; none if it is not declared.
    pub fn place(&self, literal: Literal) -> Option<Place> {
        let number = literal.unsigned_abs();
        let is_its = |variable: &Variable| variable.number.unsigned_abs() == number;
        // Where numbers follow the places, as in most large books, it is found at once.
        let guess = usize::from(number).saturating_sub(1);
        if self.prefix.get(guess).is_some_and(is_its) {
            return Some(Place(guess + 1));
        }
        let index = self.prefix.iter().position(is_its)?;
        Some(Place(index + 1))
    }

    /// The place of a literal in a formula that passed the state check.
    pub fn declared_place(&self, literal: Literal) -> Place {
        self.place(literal).expect("a well-formed state names declared variables only")
    }

    pub fn variable(&self, place: Place) -> Variable {
        self.prefix[place.0 - 1]
    }

    pub fn quantifier_of(&self, literal: Literal) -> Quantifier {
        self.variable(self.declared_place(literal)).quantifier
    }

    /// How many free variables there are (the paper's f).
    pub fn free_count(&self) -> usize {
        self.prefix.iter().filter(|v| v.quantifier == Quantifier::Free).count()
    }

    pub fn level(&self, place: Place) -> Level {
        let mut level = 0;
        let mut last = Quantifier::Free;
        for variable in &self.prefix[..place.0] {
            level += usize::from(variable.quantifier != last);
            last = variable.quantifier;
        }
        Level(level)
    }

    /// Whether a literal is true or false at a node; none while its variable is open.
    pub fn value(&self, node: &Node, literal: Literal) -> Option<bool> {
        let value = node.get(self.declared_place(literal).0 - 1)?;
        Some(*value == (literal > 0))
    }

    /// "A rule is satisfied at a node if a literal is true."
    pub fn satisfied(&self, node: &Node, clause: &[Literal]) -> bool {
        clause.iter().any(|&literal| self.value(node, literal) == Some(true))
    }

    /// "It is dead if none is true and every open one is forall. In this test a flag counts as
    /// exists." `hope` tells which open literals keep a clause alive.
    pub fn dead(&self, node: &Node, clause: &[Literal], hope: impl Fn(Quantifier) -> bool) -> bool {
        for &literal in clause {
            match self.value(node, literal) {
                Some(true) => return false,
                Some(false) => {}
                None if hope(self.quantifier_of(literal)) => return false,
                None => {}
            }
        }
        true
    }

    /// Adds a clause that no refusal stops; it "is held in place order".
    pub fn add(&mut self, literals: &[Literal]) {
        let mut clause = literals.to_vec();
        clause.sort_by_key(|&literal| self.declared_place(literal));
        self.clauses.push(clause);
    }
}
