//! A hull and two modules, from nothing to figures: build [SHEET BOOK FIT] writes the bytes too.
mod shown;

use std::process::ExitCode;

use dogma::{Book, Categories, Category, Domain, Engine, Fit, Operator, Slot, State, Touches};
use shown::shown;

/// The game's records: what the hull and the modules have, and how a module makes the hull faster.
fn book() -> Book {
    let mut book = Book::new(Categories::GAME);
    book.attribute("maxVelocity", 37).high_is_good();
    book.attribute("speedFactor", 20).high_is_good();
    book.effect("boost", 1, Category::Online).modifier(Touches::Item, Domain::Ship, Operator::PostPercent, "speedFactor", "maxVelocity");
    book.type_of("hull", 587);
    book.type_of("overdrive", 9).category(7).effect("boost");
    book
}

/// One pilot's ship.
fn fit() -> Fit {
    let mut fit = Fit::new();
    fit.ship("hull").base("maxVelocity", 200.0);
    fit.item("overdrive", Slot::Low).state(State::Online).base("speedFactor", 50.0);
    fit.item("overdrive", Slot::Low).state(State::Online).base("speedFactor", 50.0);
    fit
}

fn run(files: &[String]) -> Result<(), Box<dyn std::error::Error>> {
    let (book, fit) = (book(), fit());
    let sheet = fit.write_sheet(&book)?;

    let mut engine = Engine::new();
    let figures = engine.calculate(&sheet)?;
    println!("rows {}", figures.row_count());
    for row in figures.rows() {
        println!("{} {} {}", row.object, row.attribute, shown(row.value));
    }

    let velocity = figures.value(0, book.attribute_id("maxVelocity")?);
    assert!(velocity.is_some_and(|velocity| velocity > 430.0));
    for (file, bytes) in files.iter().zip([sheet.clone(), book.write_book()?, fit.write_fit(&book)?]) {
        std::fs::write(file, bytes)?;
    }
    Ok(())
}

fn main() -> ExitCode {
    let words: Vec<String> = std::env::args().skip(1).collect();
    match run(&words) {
        Ok(()) => ExitCode::SUCCESS,
        Err(error) => {
            eprintln!("{error}");
            ExitCode::FAILURE
        }
    }
}
