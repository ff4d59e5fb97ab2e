//! Opens up to 16 fits over one book and prints each pilot's values, or the refusal: pilots BOOK FIT ..
mod shown;

use std::process::ExitCode;

use dogma::{Pool, Refusal, Rooms};
use shown::shown;

/// What cannot be read has no bytes: refused as a file without a header.
fn read(file: &str) -> Vec<u8> {
    std::fs::read(file).unwrap_or_default()
}

fn run(book: &str, fits: &[String]) -> Result<(), Refusal> {
    let book = read(book);
    // each pilot has 256 rows of every list
    let seats: Vec<(u32, Rooms)> = (0..).zip(fits).map(|(pilot, _)| (pilot, Rooms::all(256))).collect();
    let mut pool = Pool::new(&seats)?;
    let answers: Vec<_> = (0..).zip(fits).map(|(pilot, fit)| pool.calculate(pilot, &book, &read(fit)).map(|_| ())).collect();

    // all of them are in the pool side by side
    for (pilot, answer) in (0..).zip(answers) {
        println!("pilot {pilot}");
        if let Err(refusal) = answer {
            let (number, place) = refusal.number_and_place();
            println!("refused {number} {place}");
            eprintln!("pilot {pilot}: {refusal}");
        }
        if let Some(figures) = pool.figures(pilot) {
            println!("rows {}", figures.row_count());
            for row in figures.rows() {
                println!("{} {} {}", row.object, row.attribute, shown(row.value));
            }
        }
    }
    Ok(())
}

fn main() -> ExitCode {
    let words: Vec<String> = std::env::args().skip(1).collect();
    let said = match &words[..] {
        [book, fits @ ..] if !fits.is_empty() => run(book, fits).map_err(|refusal| refusal.to_string()),
        _ => Err("usage: pilots BOOK FIT ..: up to 16 fits".to_string()),
    };
    match said {
        Ok(()) => ExitCode::SUCCESS,
        Err(words) => {
            eprintln!("{words}");
            ExitCode::from(2)
        }
    }
}
