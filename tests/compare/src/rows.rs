//! The rows of the computed tables in `crates/qbf/proofs`: the definitions answer each of them by a
//! theorem, and here they are read from the same files, to be answered by this implementation.

use crate::answer::{Answer, Call, Said, Subject, HIGHEST_CEILING};
use crate::closest::Closest;
use crate::formula::{Formula, Literal, Quantifier, Variable};
use crate::options::{Limits, MOST_FLAGS};
use crate::reading::Reading;
use crate::solver::State;
use crate::store::Store;
use std::collections::BTreeMap;
use std::path::Path;
use std::{fs, io};

/// Calls on a state, and what they answer. Where the formula is freshly opened the plain run answers
/// alike, in the visits that are given for it.
#[derive(Clone, Debug)]
pub struct Row {
    pub limits: Limits,
    pub state: State,
    pub calls: Vec<Call>,
    /// The ceiling of each call.
    pub ceilings: Vec<u32>,
    pub answers: Vec<Answer>,
    pub plain: Option<Vec<Answer>>,
}

impl Row {
    /// What a subject answers to the row's calls.
    pub fn asked(&self, subject: &mut impl Subject) -> Vec<Answer> {
        let calls = self.calls.iter().zip(&self.ceilings);
        calls.map(|(call, ceiling)| subject.call_within(call, *ceiling)).collect()
    }
}

/// The rows that a file lists under a name.
pub fn read(file: &str, name: &str) -> io::Result<Vec<Row>> {
    let source = open(file)?;
    Ok(source.list(&source.named(name)).iter().map(|term| source.row(term)).collect())
}

/// A node and clauses, and the clause that the finder of step 1 returns there.
#[derive(Clone, Debug)]
pub struct FinderRow {
    pub formula: Formula,
    pub node: Vec<bool>,
    pub lowest: Option<Vec<Literal>>,
}

/// The rows of the finder alone.
pub fn read_finder() -> io::Result<Vec<FinderRow>> {
    let source = open("Finder.antt")?;
    Ok(source.list(&source.named("table")).iter().map(|term| source.finder_row(term)).collect())
}

/// A file, and before it the files whose names it uses.
fn open(file: &str) -> io::Result<Source> {
    let folder = Path::new(env!("CARGO_MANIFEST_DIR")).join("../../crates/qbf/proofs");
    let text = fs::read_to_string(folder.join(file))?;
    let mut source = Source { definitions: BTreeMap::new() };
    let used = text.lines().filter_map(|line| {
        let used = line.strip_prefix("use Rattle.qbf.proofs.")?;
        used.split_once('.').map(|(name, _)| name)
    });
    // What rows are built with stands in Rows, and is known here by name.
    for name in used.filter(|name| *name != "Rows") {
        source.add(&fs::read_to_string(folder.join(format!("{name}.antt")))?);
    }
    source.add(&text);
    Ok(source)
}

#[derive(Clone, Debug)]
enum Term {
    Number(i64),
    /// A name, applied to as many terms as follow it. `∷` and `++` are names too.
    Name(String, Vec<Term>),
    Record(BTreeMap<String, Term>),
}

/// What the rows are written with. A name may stand for what the file says it is.
struct Source {
    definitions: BTreeMap<String, Definition>,
}

struct Definition {
    parameters: Vec<String>,
    text: String,
}

/// Names with arguments that are known here, whatever the files say.
const KNOWN: [&str; 7] = ["many", "wide", "all_on", "store", "recorded", "from", "at"];

impl Source {
    fn add(&mut self, text: &str) {
        let definitions = &mut self.definitions;
        let mut name = None;
        for line in text.lines().map(|line| line.split("--").next().unwrap_or_default()) {
            if !line.starts_with(' ') {
                let named = line.split_once(" =").filter(|(names, _)| !names.contains(':'));
                name = named.and_then(|(names, text)| {
                    let mut names = names.split_whitespace().map(str::to_owned);
                    let (name, parameters) = (names.next()?, names.collect());
                    let text = text.to_owned();
                    definitions.insert(name.clone(), Definition { parameters, text });
                    Some(name)
                });
            } else if let Some(defined) = name.as_ref().and_then(|name| definitions.get_mut(name)) {
                defined.text.push_str(line);
            }
        }
    }

    fn named(&self, name: &str) -> Term {
        let defined = self.definitions.get(name).unwrap_or_else(|| panic!("{name} is not defined"));
        let mut parser = Parser { words: words(&defined.text), at: 0 };
        let term = parser.term();
        assert!(parser.at == parser.words.len(), "{name} does not end with its term");
        term
    }

    /// What a name stands for, its parameters replaced; any other term is itself.
    fn resolved(&self, term: &Term) -> Term {
        let Term::Name(name, args) = term else { return term.clone() };
        match self.definitions.get(name) {
            Some(Definition { parameters, .. })
                if parameters.len() == args.len() && !KNOWN.contains(&&**name) =>
            {
                self.resolved(&self.named(name).with(parameters, args))
            }
            _ => term.clone(),
        }
    }

    /// A term by its head and arguments.
    fn open(&self, term: &Term) -> (String, Vec<Term>) {
        match self.resolved(term) {
            Term::Name(name, args) => (name, args),
            other => panic!("{other:?} is no application"),
        }
    }

    fn list(&self, term: &Term) -> Vec<Term> {
        let (name, args) = self.open(term);
        match (&*name, &args[..]) {
            ("[]", []) => vec![],
            ("∷", [first, rest]) => [vec![first.clone()], self.list(rest)].concat(),
            ("replicate", [count, one]) => vec![one.clone(); number(count) as usize],
            _ => panic!("{name} is no list"),
        }
    }

    fn numbers(&self, term: &Term) -> Vec<i64> {
        match self.open(term) {
            // As many numbers, from the second on.
            (name, args) if name == "from" => {
                let first = number(&args[1]);
                (first..first + number(&args[0])).collect()
            }
            _ => self.list(term).iter().map(number).collect(),
        }
    }

    fn literal(&self, term: &Term) -> Literal {
        let (name, args) = self.open(term);
        let number = number(&args[0]);
        match &*name {
            "y" => number.try_into(),
            "n" => (-number).try_into(),
            _ => panic!("{name} is no literal"),
        }
        .expect("a literal has 16 bits")
    }

    fn literals(&self, term: &Term) -> Vec<Literal> {
        match self.open(term) {
            (name, args) if name == "all_on" => (1..=number(&args[0]) as i16).collect(),
            (name, args) if name == "map" => self.literals_of(&args[0], &args[1]),
            _ => self.list(term).iter().map(|literal| self.literal(literal)).collect(),
        }
    }

    /// `map y (from 40 1)`: a literal for each of the numbers.
    fn literals_of(&self, sign: &Term, numbers: &Term) -> Vec<Literal> {
        let Term::Name(sign, _) = sign else { panic!("{sign:?} makes no literal") };
        let literal = |number| self.literal(&Term::Name(sign.clone(), vec![Term::Number(number)]));
        self.numbers(numbers).into_iter().map(literal).collect()
    }

    fn clauses(&self, term: &Term) -> Vec<Vec<Literal>> {
        self.list(term).iter().map(|clause| self.literals(clause)).collect()
    }

    fn prefix(&self, term: &Term) -> Vec<Variable> {
        let (name, args) = self.open(term);
        match (&*name, &args[..]) {
            ("[]", []) => vec![],
            ("++", [first, rest]) => [self.prefix(first), self.prefix(rest)].concat(),
            ("dec", [quantifier, numbers]) => {
                let quantifier = match &*self.open(quantifier).0 {
                    "free" => Quantifier::Free,
                    "exists" => Quantifier::Exists,
                    "forall" => Quantifier::Forall,
                    name => panic!("{name} is no quantifier"),
                };
                let variable = |number| Variable { number: number as i16, quantifier };
                self.numbers(numbers).into_iter().map(variable).collect()
            }
            _ => panic!("{name} is no prefix"),
        }
    }

    fn is_true(&self, term: &Term) -> bool {
        match &*self.open(term).0 {
            "true" => true,
            "false" => false,
            name => panic!("{name} is no value"),
        }
    }

    /// The last of the terms, the first dead clause, belongs to paper 01's finder.
    fn finder_row(&self, term: &Term) -> FinderRow {
        let (name, args) = self.open(term);
        let [prefix, node, clauses, lowest, _] = &args[..] else { panic!("{name} is no row") };
        let formula = Formula { prefix: self.prefix(prefix), clauses: self.clauses(clauses) };
        let node = self.list(node).iter().map(|value| self.is_true(value)).collect();
        let (found, lowest) = self.open(lowest);
        let lowest = (found == "some").then(|| self.literals(&lowest[0]));
        FinderRow { formula, node, lowest }
    }

    fn limits(&self, term: &Term) -> Limits {
        let Term::Record(fields) = term else {
            let (name, args) = self.open(term);
            return match (&*name, &args[..]) {
                ("paper", []) => Limits::PAPER,
                ("highest", []) => Limits::HIGHEST,
                ("capped", [n, r]) => Limits::own(number(n) as usize, number(r) as usize),
                _ => panic!("{name} are no limits"),
            };
        };
        let field = |name: &str| number(&fields[name]) as usize;
        Limits {
            numbers: field("numbers") as i16,
            clauses: field("clauses"),
            literals: field("literals"),
            entries: field("constraints"),
        }
    }

    fn formula(&self, term: &Term) -> (Limits, Formula) {
        if let Term::Record(fields) = term {
            let clauses = self.clauses(&fields["clauses"]);
            let prefix = self.prefix(&fields["prefix"]);
            return (self.limits(&fields["limits"]), Formula { prefix, clauses });
        }
        let (name, args) = self.open(term);
        let ordered = |limits, prefix, rules: &Term| {
            let mut formula = Formula { prefix: self.prefix(prefix), clauses: vec![] };
            self.clauses(rules).iter().for_each(|literals| formula.add(literals));
            (limits, formula)
        };
        match (&*name, &args[..]) {
            ("opened", [prefix, rules]) => ordered(Limits::PAPER, prefix, rules),
            ("under", [limits, prefix, rules]) => ordered(self.limits(limits), prefix, rules),
            ("held", [limits, prefix, clauses]) => {
                let (prefix, clauses) = (self.prefix(prefix), self.clauses(clauses));
                (self.limits(limits), Formula { prefix, clauses })
            }
            ("wide", [count]) => {
                let variable = |number| Variable { number, quantifier: Quantifier::Exists };
                let prefix = (1..=number(count) as i16).map(variable).collect();
                (Limits::PAPER, Formula { prefix, clauses: vec![] })
            }
            _ => panic!("{name} is no formula"),
        }
    }

    fn store(&self, term: &Term) -> Store {
        if let Term::Record(fields) = &self.resolved(term) {
            let records = self.numbers(&fields["records"]);
            let records = records.into_iter().map(|record| record as usize).collect();
            let [clauses, cubes] = ["clauses", "cubes"].map(|name| self.clauses(&fields[name]));
            return Store { clauses, records, cubes };
        }
        let (name, args) = self.open(term);
        match (&*name, &args[..]) {
            ("empty_store", []) => Store::default(),
            // Learned clauses of record 0.
            ("store", [clauses, cubes]) => {
                let clauses = self.clauses(clauses);
                Store { records: vec![0; clauses.len()], clauses, cubes: self.clauses(cubes) }
            }
            ("recorded", [clauses, records, cubes]) => {
                let records = self.numbers(records).into_iter().map(|record| record as usize);
                let (clauses, cubes) = (self.clauses(clauses), self.clauses(cubes));
                Store { clauses, records: records.collect(), cubes }
            }
            _ => panic!("{name} is no store"),
        }
    }

    fn reading(&self, on: &Term, off: &Term) -> Reading {
        Reading { on: self.literals(on), off: self.literals(off) }
    }

    /// `at` a reading and its number of differing flags.
    fn closest(&self, found: &Term, lines: usize) -> Closest {
        let (name, args) = self.open(found);
        let ("at", [values, differs]) = (&*name, &args[..]) else { panic!("{name} is no reading") };
        let mut reading = [0; MOST_FLAGS];
        for (byte, value) in reading.iter_mut().zip(self.list(values)) {
            *byte = 1 + u8::from(self.is_true(&value));
        }
        Closest { reading, differs: number(differs) as usize, lines }
    }

    /// A call and its ceiling: the highest where a row's own words for a call are used.
    fn call(&self, term: &Term) -> (Call, u32) {
        let (name, mut args) = self.open(term);
        let ceiling = match name.strip_prefix("Call.") {
            Some(_) => number(&args.remove(0)) as u32,
            None => HIGHEST_CEILING,
        };
        let name = name.trim_start_matches("Call.");
        let call = match (name, &args[..]) {
            ("rule", [literals]) => Call::Rule(self.literals(literals)),
            ("one", [literals]) => Call::One(self.literals(literals)),
            ("withdraw", []) => Call::Withdraw,
            ("query", [on, off]) => Call::Query(self.reading(on, off)),
            ("closest", [size, on, off]) => {
                Call::Closest(self.reading(on, off), number(size) as usize)
            }
            ("card", [size]) => Call::Card(number(size) as usize),
            ("keep_card", [size]) => Call::KeepCard(number(size) as usize),
            ("forget", []) => Call::Forget,
            _ => panic!("{name} is no call"),
        };
        (call, ceiling)
    }

    fn answer(&self, call: &Call, reply: &Term, visits: u64) -> Answer {
        let (name, args) = self.open(reply);
        let refused = |number: &Term| Said::Refused(self::number(number) as u8);
        let bytes = |table| self.numbers(table).into_iter().map(|byte| byte as u8).collect();
        let (said, table) = match (&*name, &args[..], call) {
            ("done", [], Call::Rule(_) | Call::One(_)) => (Said::Added, vec![]),
            ("done", [], Call::Withdraw) => (Said::Withdrawn, vec![]),
            ("done", [], Call::Forget) => (Said::Forgotten, vec![]),
            ("swap", [], Call::Query(_)) => (Said::Swap, vec![]),
            ("keep", [], Call::Query(_)) => (Said::Keep, vec![]),
            ("unsettled", [], Call::Query(_)) => (Said::Unsettled, vec![]),
            ("refused", [number], _) => (refused(number), vec![]),
            ("lines", [lines, table], Call::Card(_) | Call::KeepCard(_)) => {
                (Said::Lines(self.list(lines).len()), bytes(table))
            }
            ("found", [lines, table, found], Call::Closest(..)) => {
                let found = self.closest(found, self.list(lines).len());
                (Said::Closest(found), bytes(table))
            }
            (
                "card_refused",
                [number, table],
                Call::Card(_) | Call::KeepCard(_) | Call::Closest(..),
            ) => (refused(number), bytes(table)),
            _ => panic!("{name} is no reply to {call}"),
        };
        Answer { said, table, visits }
    }

    fn answers(&self, calls: &[Call], replies: &Term, visits: &Term) -> Vec<Answer> {
        let (replies, visits) = (self.list(replies), self.numbers(visits));
        assert_eq!((replies.len(), visits.len()), (calls.len(), calls.len()));
        let told = calls.iter().zip(&replies).zip(visits);
        told.map(|((call, reply), visits)| self.answer(call, reply, visits as u64)).collect()
    }

    fn row(&self, term: &Term) -> Row {
        let (name, args) = self.open(term);
        let calls = |term| -> (Vec<Call>, Vec<u32>) {
            self.list(term).iter().map(|call| self.call(call)).unzip()
        };
        let (limits, formula) = self.formula(&args[0]);
        match (&*name, &args[1..]) {
            ("row", [list, replies, learning, plain]) => {
                let state = State { formula, store: Store::default() };
                let (calls, ceilings) = calls(list);
                let answers = self.answers(&calls, replies, learning);
                let plain = Some(self.answers(&calls, replies, plain));
                Row { limits, state, calls, ceilings, answers, plain }
            }
            ("given", [store, list, replies, visits]) => {
                let state = State { formula, store: self.store(store) };
                let (calls, ceilings) = calls(list);
                let answers = self.answers(&calls, replies, visits);
                Row { limits, state, calls, ceilings, answers, plain: None }
            }
            _ => panic!("{name} is no row"),
        }
    }
}

impl Term {
    /// The term with other terms for its parameters.
    fn with(&self, parameters: &[String], others: &[Term]) -> Term {
        let with = |term: &Term| term.with(parameters, others);
        match self {
            Term::Number(number) => Term::Number(*number),
            Term::Name(name, args) => match parameters.iter().position(|p| p == name) {
                Some(at) if args.is_empty() => others[at].clone(),
                _ => Term::Name(name.clone(), args.iter().map(with).collect()),
            },
            Term::Record(fields) => {
                let field = |(name, term): (&String, &Term)| (name.clone(), with(term));
                Term::Record(fields.iter().map(field).collect())
            }
        }
    }
}

fn number(term: &Term) -> i64 {
    match term {
        Term::Number(number) => *number,
        other => panic!("{other:?} is no number"),
    }
}

fn words(text: &str) -> Vec<String> {
    let mut spaced = String::new();
    for c in text.chars() {
        match "(){};".contains(c) {
            true => spaced.extend([' ', c, ' ']),
            false => spaced.push(c),
        }
    }
    spaced.split_whitespace().map(str::to_owned).collect()
}

struct Parser {
    words: Vec<String>,
    at: usize,
}

impl Parser {
    fn peek(&self) -> &str {
        self.words.get(self.at).map_or("", |word| word)
    }

    fn take(&mut self, expected: &str) {
        assert_eq!(self.peek(), expected);
        self.at += 1;
    }

    /// An application, or two terms with an operator between them; what follows belongs to the
    /// second.
    fn term(&mut self) -> Term {
        let first = self.application();
        let operator = self.peek().to_owned();
        if operator != "∷" && operator != "++" {
            return first;
        }
        self.at += 1;
        let rest = self.term();
        Term::Name(operator, vec![first, rest])
    }

    fn application(&mut self) -> Term {
        let head = self.atom();
        let mut args = vec![];
        while !["", ")", ";", "}", "∷", "++"].contains(&self.peek()) {
            args.push(self.atom());
        }
        match head {
            Term::Name(name, none) if none.is_empty() => Term::Name(name, args),
            head => {
                assert!(args.is_empty(), "{head:?} is applied");
                head
            }
        }
    }

    fn atom(&mut self) -> Term {
        let word = self.peek().to_owned();
        self.at += 1;
        match &*word {
            "(" => {
                let term = self.term();
                self.take(")");
                term
            }
            "record" => self.record(),
            _ => word.parse().map_or(Term::Name(word, vec![]), Term::Number),
        }
    }

    fn record(&mut self) -> Term {
        let mut fields = BTreeMap::new();
        self.take("{");
        while self.peek() != "}" {
            let name = self.peek().to_owned();
            self.at += 1;
            self.take("=");
            fields.insert(name, self.term());
            if self.peek() == ";" {
                self.at += 1;
            }
        }
        self.take("}");
        Term::Record(fields)
    }
}
