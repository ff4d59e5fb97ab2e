//! Holds another planner's listing against the rules, and says what is wrong: check SHEET LISTING.
//! LISTING is text, a row to a line: object, attribute, the 16 hexadecimal digits of the value's bits.
use std::process::ExitCode;

use dogma::{Engine, Listed, Refusal};

fn listed(text: &str) -> Option<Listed> {
    let [object, attribute, bits] = text.split_whitespace().collect::<Vec<_>>()[..] else { return None };
    let bits = u64::from_str_radix(bits, 16).ok().filter(|_| bits.len() == 16)?;
    Some(Listed { object: object.parse().ok()?, attribute: attribute.parse().ok()?, value: f64::from_bits(bits) })
}

fn main() -> ExitCode {
    let words: Vec<String> = std::env::args().skip(1).collect();
    let text = words.get(1).and_then(|file| std::fs::read_to_string(file).ok());
    let listing = text.and_then(|text| text.lines().map(listed).collect::<Option<Vec<_>>>());
    let (Some(listing), [sheet, _]) = (listing, &words[..]) else {
        eprintln!("usage: check SHEET LISTING");
        return ExitCode::from(2);
    };
    // what cannot be read has no bytes: refused as a sheet without a header
    let sheet = std::fs::read(sheet).unwrap_or_default();

    let said = match Engine::new().check(&sheet, &listing) {
        Ok(_) => "accepted".to_string(),
        Err(Refusal::Loop { object }) => format!("an attribute of object {object} leads back to itself"),
        Err(Refusal::Listing { line }) if line == listing.len() as u64 => format!("line {line} is missing"),
        Err(Refusal::Listing { line }) => format!("line {line} is wrong"),
        Err(refusal) => format!("refused {} {}", refusal.number_and_place().0, refusal.number_and_place().1),
    };
    println!("{said}");
    ExitCode::from(u8::from(said != "accepted"))
}
