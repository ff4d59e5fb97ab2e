//! A club's evening over a pool that is too small for all: evening BOOK FIT FIT FIT. Two pilots are admitted and calculated, a third
//! finds no run; the first leaves, the third is admitted where it sat and calculated; then all leave.
mod shown;

use std::process::ExitCode;

use dogma::{Hall, Refusal};
use shown::shown;

const POOL: u32 = 10;
const SEAT: u32 = 4;

/// What cannot be read has no bytes: refused as a file without a header.
fn read(file: &str) -> Vec<u8> {
    std::fs::read(file).unwrap_or_default()
}

fn tell(call: &str, pilot: u32, answer: Result<(), Refusal>, hall: &Hall) {
    let (number, place) = answer.map_or_else(|refusal| refusal.number_and_place(), |()| (0, 0));
    let free: String = hall.free().iter().map(|[start, length]| format!(" ({start}, {length})")).collect();
    println!("{call} {pilot}: {number} {place}, free{free}");
}

fn admit(hall: &mut Hall, pilot: u32) {
    let answer = hall.admit(pilot, SEAT);
    tell("admit", pilot, answer, hall);
}

fn leave(hall: &mut Hall, pilot: u32) {
    let answer = hall.leave(pilot);
    tell("leave", pilot, answer, hall);
}

fn calculate(hall: &mut Hall, pilot: u32, book: &[u8], fit: &str) {
    match hall.calculate(pilot, book, &read(fit)) {
        Ok(figures) => {
            println!("pilot {pilot}: 0 0");
            figures.rows().for_each(|row| println!("{} {} {}", row.object, row.attribute, shown(row.value)));
        }
        Err(refusal) => {
            let (number, place) = refusal.number_and_place();
            println!("pilot {pilot}: {number} {place}");
        }
    }
}

fn main() -> ExitCode {
    let words: Vec<String> = std::env::args().skip(1).collect();
    let [book, one, two, three] = &words[..] else {
        eprintln!("usage: evening BOOK FIT FIT FIT");
        return ExitCode::from(2);
    };
    let book = read(book);
    let mut hall = Hall::new(POOL);
    admit(&mut hall, 0);
    admit(&mut hall, 1);
    admit(&mut hall, 2);
    calculate(&mut hall, 0, &book, one);
    calculate(&mut hall, 1, &book, two);
    leave(&mut hall, 0);
    admit(&mut hall, 2);
    calculate(&mut hall, 2, &book, three);
    leave(&mut hall, 1);
    leave(&mut hall, 2);
    leave(&mut hall, 2);
    ExitCode::SUCCESS
}
