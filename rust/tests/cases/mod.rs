//! Files of cases/, and what several tests build.
#![allow(dead_code)] // no test uses all of it

use dogma::{Book, Categories, Category, Domain, Fit, Hall, Operator, Slot, State, Tables, Touches};

pub const BOOK: &[u8] = include_bytes!("../../../cases/L.book");
pub const FIT: &[u8] = include_bytes!("../../../cases/L.fit");

pub fn case(name: &str) -> Vec<u8> {
    std::fs::read(format!("{}/../cases/{name}", env!("CARGO_MANIFEST_DIR"))).unwrap_or_else(|error| panic!("{name}: {error}"))
}

/// The names of all sheets in cases/, without their ending.
pub fn sheets() -> Vec<String> {
    let folder = std::fs::read_dir(concat!(env!("CARGO_MANIFEST_DIR"), "/../cases")).unwrap();
    let mut names: Vec<String> = folder.filter_map(|file| file.unwrap().file_name().into_string().ok()).collect();
    names.retain(|name| name.ends_with(".sheet"));
    names.sort();
    names.iter().map(|name| name.trim_end_matches(".sheet").to_string()).collect()
}

/// Case L's sheet with one table bad: a float that is none, ids that fall, a first that leaves, an object that is not there.
pub fn sheet_of(bad: usize) -> Vec<u8> {
    let mut tables = Tables::read_sheet(&case("L.sheet")).unwrap();
    tables.buff_collections = vec![[1, 7, 0, 1], [2, 7, 0, 1]];
    tables.type_effects = vec![[9, 1, 0], [9, 2, 0]];
    tables.buffs = vec![1];
    tables.buff_values = vec![5.0];
    tables.asks = vec![[0, 37]];
    let mut bytes = tables.write_sheet().unwrap();
    // where record 0 of each table begins
    let at = |table: usize| u32::from_le_bytes(bytes[8 * (table - 1) + 4..][..4].try_into().unwrap()) as usize;
    let (from, put): (usize, &[u8]) = match bad {
        1 => (at(1) + 8, &[0, 0, 0, 0, 0, 0, 0xf0, 0x7f]),
        2 => (at(2) + 20, &[9, 0, 0, 0]),
        4 => (at(4) + 8, &[2, 0, 0, 0]),
        5 => (at(5), &[2, 0, 0, 0]),
        9 => (at(9) + 4, &[0, 0, 0, 0, 0, 0, 0xf8, 0xff]),
        _ => (at(10), &[4, 0, 0, 0]),
    };
    bytes[from..from + put.len()].copy_from_slice(put);
    bytes
}

/// Ten rows, of which nobody has the last two.
pub fn damaged_hall() -> Hall {
    Hall::with_state(10, [[[0; 2]; 5]; 16], &[[0, 8]])
}

pub fn long_label() -> String {
    "x".repeat(65)
}

/// A hull, and modules that make it faster.
pub fn book() -> Book {
    let mut book = Book::new(Categories { module: 7, subsystem: 0, structure_module: 0 });
    book.attribute("maxVelocity", 37).high_is_good();
    book.attribute("speedFactor", 20).high_is_good();
    book.effect("boost", 1, Category::Online).modifier(Touches::Item, Domain::Ship, Operator::PostPercent, "speedFactor", "maxVelocity");
    book.type_of("hull", 0);
    book.type_of("pilot", 0);
    book.type_of("overdrive", 9).category(7).effect("boost");
    book
}

/// Case L, in another order and with the states that its file has.
pub fn fit() -> Fit {
    let mut fit = Fit::new();
    fit.depth(2);
    for _ in 0..2 {
        fit.item("overdrive", Slot::Low).state(State::Online).base("speedFactor", 50.0);
    }
    fit.character("pilot").quantity(0).state(State::Passive).max_state(State::Passive);
    fit.ship("hull").quantity(0).state(State::Passive).max_state(State::Passive).base("maxVelocity", 200.0);
    fit
}
