//! Sheets built, read back and calculated.
mod cases;

use cases::{book, case, fit, sheets, BOOK, FIT};
use dogma::{check_rules, Engine, Fit, Hall, Part, Pool, Refusal, Rooms, Rule, Slot, Tables, WriteError};

#[test]
fn case_l_from_nothing() {
    assert_eq!(fit().write_sheet(&book()).unwrap(), case("L.sheet"));
    assert_eq!(book().write_book().unwrap(), BOOK);
    assert_eq!(fit().write_fit(&book()).unwrap(), FIT);
}

#[test]
fn read_back_and_written_again() {
    let (mut good, mut bad) = (0, 0);
    for name in sheets() {
        let bytes = case(&format!("{name}.sheet"));
        let whole = Engine::new().calculate(&bytes).map(|_| ());
        match (Tables::read_sheet(&bytes), whole) {
            (Ok(tables), _) => {
                good += 1;
                assert_eq!(tables.write_sheet().unwrap(), bytes, "{name}");
            }
            (Err(refusal), whole) => {
                bad += 1;
                assert_eq!(Err(refusal), whole, "{name}");
            }
        }
    }
    assert!(good > 30 && bad == 3, "{good} and {bad}");
    // every beginning, and every byte of the header changed: what the engine says of them
    let bytes = case("L.sheet");
    let says = |bytes: &[u8]| match Engine::new().calculate(bytes) {
        Err(refusal @ Refusal::Shape { .. }) => Some(refusal),
        _ => None,
    };
    for length in 0..bytes.len() {
        assert_eq!(Tables::read_sheet(&bytes[..length]).err(), says(&bytes[..length]));
    }
    for at in 0..bytes.len() {
        let mut other = bytes.clone();
        other[at] ^= 0x80;
        assert_eq!(Tables::read_sheet(&other).err(), says(&other), "byte {at}");
    }
}

#[test]
fn refusals_of_the_builder() {
    let unknown = |what, name: &str| Err(WriteError::Unknown { what, name: name.to_string() });
    let shape = |part, table| Err(WriteError::Refused(Refusal::Shape { part, table }));
    let mut other = fit();
    other.ship("another hull");
    assert_eq!(other.write_sheet(&book()), unknown("type", "another hull"));
    assert_eq!(other.write_sheet(&book()).unwrap_err().to_string(), "the book has no type of the name \"another hull\"");
    let mut two = fit();
    two.ship("hull");
    assert_eq!(two.write_sheet(&book()), shape(Part::Sheet, 6));
    assert_eq!(two.write_fit(&book()), shape(Part::Fit, 6));
    let mut twice = fit();
    twice.item("overdrive", Slot::Low).base("speedFactor", 1.0).base("speedFactor", 2.0);
    assert_eq!(twice.write_sheet(&book()), shape(Part::Sheet, 7));
    let mut endless = book();
    endless.attribute("maxVelocity", 37).default_value(f64::INFINITY);
    assert_eq!(endless.write_book(), shape(Part::Book, 1));
    assert_eq!(fit().depth(0).write_sheet(&book()), shape(Part::Sheet, 0));
    assert_eq!(Fit::new().write_sheet(&book()), shape(Part::Sheet, 6));
    assert_eq!(fit().projected_buff("none", 1.0).write_fit(&book()), unknown("buff", "none"));
    let mut asking = Fit::new();
    assert_eq!(asking.last(), None);
    asking.ship("hull");
    let (first, foreign) = (asking.last().unwrap(), fit().last().unwrap());
    assert!(asking.ask(first, "maxVelocity").write_sheet(&book()).is_ok());
    assert_eq!(asking.ask(foreign, "maxVelocity").write_sheet(&book()), shape(Part::Sheet, 10));
}

#[test]
fn numbers_of_objects() {
    let mut fit = Fit::new();
    fit.item("overdrive", Slot::Low).charge("overdrive");
    let first = fit.last().unwrap();
    fit.item("overdrive", Slot::Low);
    let second = fit.last().unwrap();
    fit.ship("hull");
    let ship = fit.last().unwrap();
    assert_eq!([ship, first, second].map(|object| fit.number_of(object)), [Some(0), Some(2), Some(4)]);
}

#[test]
fn lists_grow_as_they_must() {
    let sheet = case("refused-7.sheet");
    assert_eq!(Engine::new().calculate(&sheet).unwrap().row_count(), 4500);
    let mut engine = Engine::growing(Rooms::all(0), Rooms::all(4499));
    assert_eq!(engine.calculate(&sheet).unwrap_err().number_and_place(), (7, 2));
    let mut engine = Engine::growing(Rooms::all(0), Rooms::all(4500));
    assert_eq!(engine.calculate(&sheet).unwrap().row_count(), 4500);
    assert_eq!((engine.rooms().rows, engine.rooms().sources), (4500, 0));
    assert!(engine.calculate(&case("grey-copies.sheet")).is_ok());
    assert!(engine.export(&sheet, &[]).is_ok());
}

/// Numbers that look like chance, and are the same each time.
fn chance(seed: &mut u64) -> usize {
    *seed = seed.wrapping_mul(6364136223846793005).wrapping_add(1442695040888963407);
    (*seed >> 33) as usize
}

#[test]
fn whatever_the_bytes_are() {
    let sheets: Vec<Vec<u8>> = sheets().iter().map(|name| case(&format!("{name}.sheet"))).collect();
    let rules = [Rule::Points { of: 9, points: 3 }, Rule::Total { points: 5 }];
    let (mut engine, mut pool) = (Engine::growing(Rooms::all(0), Rooms::all(256)), Pool::new(&[(0, Rooms::all(64))]).unwrap());
    let (mut seed, mut done) = (1, 0);
    for _ in 0..20_000 {
        let mut bytes = sheets[chance(&mut seed) % sheets.len()].clone();
        for _ in 0..1 + chance(&mut seed) % 4 {
            let at = chance(&mut seed) % bytes.len();
            bytes[at] = chance(&mut seed) as u8;
        }
        bytes.truncate(bytes.len() - chance(&mut seed) % 3 / 2);
        let split = bytes.len() / 2;
        let read = Tables::read_sheet(&bytes).err();
        let _ = pool.calculate(0, &bytes[..split], &bytes[split..]);
        assert_eq!(check_rules(&rules, &bytes).err(), read);
        let text = engine.export(&bytes, &[(37, "a, b")]);
        match engine.calculate(&bytes) {
            Err(refusal) => {
                assert_eq!(text, Err(refusal));
                assert!(read.is_none() || read == Some(refusal));
            }
            Ok(figures) => {
                done += 1;
                assert_eq!(figures.rows().count(), text.unwrap().matches("\r\n").count() - 1);
                assert_eq!(figures.entries_by_collection().count(), figures.counts()[2]);
                assert_eq!(figures.rows().map(|row| figures.sources(&row).count()).sum::<usize>(), figures.counts()[4]);
            }
        }
    }
    assert!(done > 1_000, "{done}");
}

#[test]
fn of_any_thread() {
    fn sent<T: Send + Sync>() {}
    sent::<Engine>();
    sent::<Pool>();
    sent::<Hall>();
    sent::<Refusal>();
}

#[test]
fn figures_by_name() {
    let mut engine = Engine::new();
    let sheet = case("grey-L-online.sheet");
    let figures = engine.calculate(&sheet).unwrap();
    let row = figures.find(0, 37).unwrap();
    assert_eq!((row.base, figures.entries(&row).count(), figures.sources(&row).count()), (200.0, 2, 2));
    assert_eq!(figures.counts()[1], figures.row_count());
    assert_eq!((figures.value(0, 38), figures.row(99), figures.states(1024)), (None, None, None));
    assert!(figures.sources(&row).all(|source| source.reachable(&figures)));
}
