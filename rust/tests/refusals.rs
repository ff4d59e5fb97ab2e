//! Every number that the library can give, seen from Rust, with its words. cases/refusals.txt has a line for each: number, place, words.
mod cases;

use cases::{case, damaged_hall, long_label, sheet_of, BOOK, FIT};
use dogma::{check_rules, check_rules_files, Engine, Hall, List, Listed, Part, Pool, Refusal, Rooms, Row, Rule, Tables};

fn refused(sheet: &[u8]) -> Refusal {
    Engine::with_rooms(Rooms::all(4096)).calculate(sheet).map(|_| ()).unwrap_err()
}

/// A sheet's own rows, as another planner would list them.
fn listing(sheet: &[u8]) -> Vec<Listed> {
    let rows: Vec<Row> = Engine::new().calculate(sheet).unwrap().rows().collect();
    rows.iter().map(|row| Listed { object: row.object, attribute: row.attribute, value: row.value }).collect()
}

fn engine_checks(sheet: &[u8], lines: &[Listed]) -> Refusal {
    Engine::new().check(sheet, lines).map(|_| ()).unwrap_err()
}

#[test]
fn what_is_accepted() {
    let sheet = case("L.sheet");
    let lines = listing(&sheet);
    let mut engine = Engine::growing(Rooms::all(0), Rooms::all(64));
    assert_eq!(engine.check(&sheet, &lines).unwrap().value(0, 37), Some(lines[0].value));
    assert_eq!(engine_checks(&sheet, &[Listed { value: f64::NAN, ..lines[0] }, lines[1], lines[2]]), Refusal::Listing { line: 0 });
}

/// The refusals in the order of cases/refusals.txt.
fn all() -> Vec<Refusal> {
    let sheet = case("L.sheet");
    let mut said: Vec<Refusal> = [
        "refused-1",
        "refused-1-6",
        "refused-1-7",
        "refused-2",
        "refused-3",
        "refused-4",
        "refused-5",
        "refused-6",
        "refused-7",
        "divided-by-0",
        "L-depth-1",
    ]
    .iter()
    .map(|name| refused(&case(&format!("{name}.sheet"))))
    .collect();
    said.extend([1, 2, 4, 5, 9, 10].map(|table| refused(&sheet_of(table))));

    let mut pool = Pool::new(&[(0, Rooms::all(8)), (1, Rooms::all(1))]).unwrap();
    for (pilot, book, fit) in
        [(0, &BOOK[1..], FIT), (0, BOOK, &FIT[1..]), (0, BOOK, &case("refused-1-26.fit")[..]), (1, BOOK, FIT), (2, BOOK, FIT), (16, BOOK, FIT)]
    {
        said.push(pool.calculate(pilot, book, fit).map(|_| ()).unwrap_err());
    }
    let mut stretches = *pool.stretches();
    stretches[1][4] = [7, 2];
    let mut astray = Pool::with_stretches(Rooms::all(8), stretches);
    said.push(astray.calculate(0, BOOK, FIT).map(|_| ()).unwrap_err());

    let mut hall = Hall::new(8);
    hall.admit(3, 5).unwrap();
    for (pilot, rows) in [(4, 4), (3, 1), (16, 1), (4, 0)] {
        said.push(hall.admit(pilot, rows).unwrap_err());
    }
    said.push(hall.leave(4).unwrap_err());
    said.push(hall.leave(16).unwrap_err());
    let mut damaged = damaged_hall();
    said.push(damaged.admit(0, 1).unwrap_err());
    assert_eq!(damaged.leave(0), Err(Refusal::Table));

    let tables = Tables::read_sheet(&sheet).unwrap();
    said.push(tables.write_sheet_into(&mut [0; 99]).unwrap_err());
    said.push(Tables { header: [7, 0, 0, 0, 0], ..tables.clone() }.write_fit().unwrap_err());

    let lines = listing(&sheet);
    said.push(engine_checks(&case("loop-walked.sheet"), &[]));
    said.push(engine_checks(&sheet, &lines[..2]));
    said.push(engine_checks(&sheet, &[lines[0], lines[0]]));

    let totals = [Rule::Total { points: 1 }; 2];
    said.push(check_rules(&totals, &sheet).unwrap_err());
    said.push(check_rules_files(&totals, BOOK, &FIT[1..]).unwrap_err());

    let mut engine = Engine::new();
    said.push(engine.export(&sheet, &[(20, "a"), (20, "b")]).unwrap_err());
    said.push(engine.export(&sheet, &[(20, &long_label())]).unwrap_err());
    said.push(engine.export_into(&mut [0; 9], &sheet, &[]).unwrap_err());
    said
}

#[test]
fn each_number_in_words() {
    let said: String = all()
        .iter()
        .map(|refusal| {
            let (number, place) = refusal.number_and_place();
            format!("{number} {place} {refusal}\n")
        })
        .collect();
    let wanted = String::from_utf8(case("refusals.txt")).unwrap();
    if let Some((said, wanted)) = said.lines().zip(wanted.lines()).find(|(said, wanted)| said != wanted) {
        panic!("said {said}\nwanted {wanted}");
    }
    assert_eq!(said, wanted);
    for number in [1, 2, 3, 4, 5, 6, 7, 8, 9, 10, 11, 12, 13, 14, 15, 16, 18] {
        assert!(all().iter().any(|refusal| refusal.number_and_place().0 == number), "{number} was not seen");
    }
}

#[test]
fn the_first_bad_thing() {
    assert_eq!(refused(&case("refused-1-6.sheet")), Refusal::Shape { part: Part::Sheet, table: 6 });
    assert_eq!(refused(&case("refused-7.sheet")), Refusal::Room { list: List::Rows });
    assert_eq!(check_rules(&[Rule::Total { points: 1 }; 2], &[]), Err(Refusal::Shape { part: Part::Sheet, table: 0 }));
}

#[test]
fn each_list_by_its_number() {
    let sheet = case("grey-L-online.sheet");
    let ample = Rooms::all(64);
    let short = [Rooms { collected: 1, ..ample }, Rooms { rows: 2, ..ample }, Rooms { entries: 1, ..ample }, Rooms { sources: 1, ..ample }];
    for (rooms, list) in short.into_iter().zip([List::Collected, List::Rows, List::Entries, List::Sources]) {
        assert_eq!(Engine::with_rooms(rooms).calculate(&sheet).err(), Some(Refusal::Room { list }));
    }
    assert!(Engine::with_rooms(Rooms { plain: 0, ..ample }).calculate(&sheet).is_ok());
}
