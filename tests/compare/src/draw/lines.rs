//! Calls as lines of a session.

use crate::answer::{Call, HIGHEST_CEILING};
use crate::reading::Reading;
use crate::text::PROGRAM_TABLE;

/// The line of a call, without its byte 10. None: no line asks for it.
pub fn line(call: &Call, ceiling: u32) -> Option<String> {
    let table = |length: usize| match length {
        PROGRAM_TABLE => Some(String::new()),
        _ => (length < PROGRAM_TABLE).then(|| format!(" {length}")),
    };
    let within = match ceiling {
        HIGHEST_CEILING => String::new(),
        _ => format!(" (ceiling {ceiling})"),
    };
    Some(match call {
        Call::Rule(literals) => format!("(rule{})", items(literals)),
        Call::One(literals) => format!("(one{})", items(literals)),
        Call::Withdraw => "(withdraw)".into(),
        Call::Query(reading) => format!("(query{}{within})", named(reading)?),
        Call::Card(length) => format!("(card{}{within})", table(*length)?),
        Call::KeepCard(length) => format!("(keep-card{}{within})", table(*length)?),
        Call::Closest(reading, length) => {
            let bytes = match *length {
                PROGRAM_TABLE => String::new(),
                length => format!(" (bytes{})", table(length)?),
            };
            format!("(closest{}{bytes}{within})", named(reading)?)
        }
        Call::Forget => "(forget)".into(),
        Call::Write(length) if *length > PROGRAM_TABLE => "(write)".into(),
        Call::Write(length) => format!("(write {length})"),
    })
}

fn items(literals: &[i16]) -> String {
    let item = |literal: &i16| match literal {
        0.. => format!(" {literal}"),
        _ => format!(" (no {})", literal.unsigned_abs()),
    };
    literals.iter().map(item).collect()
}

/// On flags first; a number below 0 stands in no line.
fn named(reading: &Reading) -> Option<String> {
    if reading.numbers().iter().any(|&number| number < 0) {
        return None;
    }
    let off: String = reading.off.iter().map(|number| format!(" (no {number})")).collect();
    Some(items(&reading.on) + &off)
}
