//! An organiser's rules, and texts for spreadsheets.
mod cases;

use cases::{case, BOOK, FIT};
use dogma::{check_rules, check_rules_files, Engine, Part, Refusal, Rooms, Rule, Verdict};

#[test]
fn what_rules_allow() {
    let sheet = case("L.sheet");
    let table =
        |points| [Rule::Points { of: 9, points: 3 }, Rule::Most { group: 0, pieces: 2 }, Rule::Forbidden { group: -1 }, Rule::Total { points }];
    assert_eq!(check_rules(&table(6), &sheet), Ok(Verdict::Allowed));
    assert_eq!(check_rules_files(&table(5), BOOK, FIT), Ok(Verdict::Broken { line: 3, count: 6 }));
    assert_eq!(check_rules(&[Rule::Most { group: 0, pieces: 1 }], &sheet), Ok(Verdict::Broken { line: 0, count: 2 }));
    assert_eq!(check_rules(&[], &sheet), Ok(Verdict::Allowed));
    let twice = [Rule::Total { points: 1 }; 2];
    assert_eq!(check_rules(&twice, &sheet), Err(Refusal::Rules { line: 1 }));
    assert_eq!(check_rules(&twice, &sheet[..99]), Err(Refusal::Shape { part: Part::Sheet, table: 0 }));
    assert_eq!(check_rules_files(&twice, &BOOK[1..], FIT), Err(Refusal::Shape { part: Part::Book, table: 0 }));
    assert_eq!(check_rules_files(&twice, BOOK, &FIT[1..]), Err(Refusal::Shape { part: Part::Fit, table: 0 }));
}

#[test]
fn rows_for_a_spreadsheet() {
    let sheet = case("L.sheet");
    let mut engine = Engine::with_rooms(Rooms::all(64));
    let wanted = String::from_utf8(case("L.csv")).unwrap();
    assert_eq!(engine.export(&sheet, &[(20, "Bonus, %"), (37, "Hull \"HP\"")]), Ok(wanted.clone()));
    let mut bytes = vec![1; wanted.len()];
    assert_eq!(engine.export_into(&mut bytes, &sheet, &[(20, "Bonus, %"), (37, "Hull \"HP\"")]), Ok(wanted.len()));
    assert_eq!(bytes, wanted.as_bytes());
    assert_eq!(engine.export(&sheet, &[(20, ""), (20, "")]), Err(Refusal::Label { label: 1 }));
    assert_eq!(engine.export(&sheet, &[(20, "\u{7f}")]), Err(Refusal::Label { label: 0 }));
    assert_eq!(engine.export(&sheet, &[(20, "é")]), Err(Refusal::Label { label: 0 }));
    assert_eq!(engine.export(&sheet[..99], &[(20, "\u{7f}")]), Err(Refusal::Shape { part: Part::Sheet, table: 0 }));
    assert_eq!(Engine::with_rooms(Rooms::all(0)).export(&sheet, &[]).unwrap_err().number_and_place(), (7, 2));
}
