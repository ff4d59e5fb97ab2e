//! Calculates a sheet from a file and prints it: every attribute's value, or the refusal. `--whole` prints every list by name.
mod shown;

use std::process::ExitCode;

use dogma::{Engine, Figures, Rooms};
use shown::shown;

fn print_whole(figures: &Figures) {
    for effect in figures.collected() {
        println!("{effect:?}");
    }
    for (object, effect) in figures.plain() {
        println!("plain effect {effect} of object {object}");
    }
    for row in figures.rows() {
        println!("{row:?}, object is {:?}", figures.states(row.object));
        assert_eq!(figures.value(row.object, row.attribute), Some(row.value));
        for entry in figures.entries(&row) {
            println!("    {entry:?}");
        }
        for source in figures.sources(&row) {
            println!("    {source:?}, reachable {}", source.reachable(figures));
        }
    }
    for (row, entry) in figures.entries_by_collection() {
        println!("collected {} acts on {} of object {}", entry.collected, row.attribute, row.object);
    }
}

fn main() -> ExitCode {
    let words: Vec<String> = std::env::args().skip(1).collect();
    let (whole, file) = match &words[..] {
        [file] => (false, file),
        [flag, file] if flag == "--whole" => (true, file),
        _ => {
            eprintln!("usage: sheet [--whole] FILE");
            return ExitCode::from(2);
        }
    };
    let bytes = match std::fs::read(file) {
        Ok(bytes) => bytes,
        Err(error) => {
            eprintln!("{file}: {error}");
            return ExitCode::from(2);
        }
    };
    // as much room as the program `sheet` has, so that it refuses what that one refuses; `Engine::new` would grow
    let mut engine = Engine::with_rooms(Rooms::all(4096));
    match engine.calculate(&bytes) {
        Ok(figures) if whole => print_whole(&figures),
        Ok(figures) => {
            println!("rows {}", figures.row_count());
            for row in figures.rows() {
                println!("{} {} {}", row.object, row.attribute, shown(row.value));
            }
        }
        Err(refusal) => {
            let (number, place) = refusal.number_and_place();
            println!("refused {number} {place}");
            eprintln!("{refusal}");
            return ExitCode::FAILURE;
        }
    }
    ExitCode::SUCCESS
}
