//! The layout of one line of a text: nested brackets, one space between items.

/// A line that is in the layout, before its numbers are judged.
#[derive(Clone, Debug, PartialEq, Eq)]
pub enum Form {
    Book(i32),
    Flags(Vec<i32>),
    Exists(Vec<i32>),
    Forall(Vec<i32>),
    /// A negative number stands for `(no ..)`; `(no 0)` and `0` are both 0.
    Rule(Vec<i32>),
    End,
}

/// An item: a number, or one under `(no ..)`.
#[derive(Clone, Copy)]
pub(crate) struct Item {
    pub number: i32,
    pub negated: bool,
}

/// Reads a line of a text, without its byte 10. None: not in the layout.
pub fn read(line: &[u8]) -> Option<Form> {
    let (keyword, items) = items(line)?;
    form(keyword, &items)
}

/// A line as its keyword and its items, whatever the keyword.
pub(crate) fn items(line: &[u8]) -> Option<(&[u8], Vec<Item>)> {
    let CallLine { keyword, items, bytes, ceiling } = call_line(line)?;
    (bytes.is_none() && ceiling.is_none()).then_some((keyword, items))
}

/// A line of a session: its keyword, its items, and behind them the bytes of a table and the ceiling, where they
/// are given.
pub(crate) struct CallLine<'a> {
    pub keyword: &'a [u8],
    pub items: Vec<Item>,
    pub bytes: Option<i32>,
    pub ceiling: Option<u32>,
}

pub(crate) fn call_line(line: &[u8]) -> Option<CallLine<'_>> {
    let mut cursor = Cursor { rest: line };
    cursor.expect(b"(")?;
    let keyword = cursor.keyword();
    let (mut items, mut bytes, mut ceiling) = (vec![], None, None);
    while ceiling.is_none() && cursor.expect(b" ").is_some() {
        if cursor.expect(b"(ceiling ").is_some() {
            ceiling = Some(cursor.ceiling()?);
        } else if bytes.is_some() {
            return None;
        } else if cursor.expect(b"(bytes ").is_some() {
            bytes = Some(cursor.number()?);
            cursor.expect(b")")?;
        } else {
            items.push(cursor.item()?);
        }
    }
    cursor.expect(b")")?;
    cursor.rest.is_empty().then_some(CallLine { keyword, items, bytes, ceiling })
}

fn form(keyword: &[u8], items: &[Item]) -> Option<Form> {
    let plain = !items.iter().any(|item| item.negated);
    let numbers = || items.iter().map(|item| item.number).collect();
    match keyword {
        b"book" if plain && items.len() == 1 => Some(Form::Book(items[0].number)),
        b"flags" if plain => Some(Form::Flags(numbers())),
        b"exists" if plain && !items.is_empty() => Some(Form::Exists(numbers())),
        b"forall" if plain && !items.is_empty() => Some(Form::Forall(numbers())),
        b"rule" => Some(Form::Rule(items.iter().map(Item::literal).collect())),
        b"end" if items.is_empty() => Some(Form::End),
        _ => None,
    }
}

impl Item {
    pub fn literal(&self) -> i32 {
        if self.negated {
            -self.number
        } else {
            self.number
        }
    }
}

struct Cursor<'a> {
    rest: &'a [u8],
}

impl<'a> Cursor<'a> {
    fn expect(&mut self, bytes: &[u8]) -> Option<()> {
        self.rest = self.rest.strip_prefix(bytes)?;
        Some(())
    }

    fn take_while(&mut self, wanted: impl Fn(u8) -> bool) -> &'a [u8] {
        let length = self.rest.iter().take_while(|&&byte| wanted(byte)).count();
        let (taken, rest) = self.rest.split_at(length);
        self.rest = rest;
        taken
    }

    fn keyword(&mut self) -> &'a [u8] {
        self.take_while(|byte| byte.is_ascii_lowercase() || byte == b'-')
    }

    fn item(&mut self) -> Option<Item> {
        if self.expect(b"(no ").is_none() {
            return Some(Item { number: self.number()?, negated: false });
        }
        let number = self.number()?;
        self.expect(b")")?;
        Some(Item { number, negated: true })
    }

    fn number(&mut self) -> Option<i32> {
        number(self.digits())
    }

    fn digits(&mut self) -> &'a [u8] {
        self.take_while(|byte| byte.is_ascii_digit())
    }

    /// What stands behind `(ceiling `: "N from 0 to 4294967295, 1 to 10 digits, no leading zero".
    fn ceiling(&mut self) -> Option<u32> {
        let digits = self.digits();
        self.expect(b")")?;
        long_number(digits)
    }
}

/// A number of 32 bits, with no leading zero.
pub(crate) fn long_number(digits: &[u8]) -> Option<u32> {
    let leading_zero = digits.len() > 1 && digits[0] == b'0';
    if leading_zero || !digits.iter().all(u8::is_ascii_digit) {
        return None;
    }
    std::str::from_utf8(digits).ok()?.parse().ok()
}

/// "Numbers have 1 to 5 digits and no leading zero (0 alone is allowed)."
pub(crate) fn number(digits: &[u8]) -> Option<i32> {
    let leading_zero = digits.len() > 1 && digits[0] == b'0';
    if !(1..=5).contains(&digits.len()) || leading_zero || !digits.iter().all(u8::is_ascii_digit) {
        return None;
    }
    Some(digits.iter().fold(0, |number, digit| 10 * number + i32::from(digit - b'0')))
}
