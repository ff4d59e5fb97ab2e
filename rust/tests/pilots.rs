//! Several pilots, and pilots that come and go.
mod cases;

use cases::{case, BOOK, FIT};
use dogma::{Hall, List, Part, Pool, Refusal, Rooms, Row};

/// Pilot 3 has rows 2 to 4 of list 2, and pilot 5 some, of a pool of eight.
fn pool(first: u32, length: u32) -> Pool {
    let mut stretches = [[[0; 2]; 5]; 16];
    stretches[3] = [[0, 2], [2, 3], [0, 2], [0, 1], [0, 0]];
    stretches[5][1] = [first, length];
    Pool::with_stretches(Rooms::all(8), stretches)
}

#[test]
fn who_has_no_stretch() {
    for pilot in [2, 16, u32::MAX] {
        assert_eq!(pool(5, 2).calculate(pilot, BOOK, FIT).err(), Some(Refusal::NoStretch { pilot: pilot.into() }));
    }
}

#[test]
fn whose_stretch_is_astray() {
    for (first, length) in [(4, 2), (7, 2), (0, 8), (u32::MAX, u32::MAX)] {
        let refusal = pool(first, length).calculate(3, BOOK, FIT).err();
        assert_eq!(refusal, Some(Refusal::Astray { pilot: 5 }));
    }
    for (first, length) in [(5, 2), (5, 3), (0, 2), (900, 0)] {
        assert!(pool(first, length).calculate(3, BOOK, FIT).is_ok());
    }
}

#[test]
fn which_file_is_bad() {
    let mut pool = pool(5, 3);
    let no_depth = case("L-depth-1.fit");
    let shape = |part, table| Some(Refusal::Shape { part, table });
    assert_eq!(pool.calculate(3, &BOOK[1..], FIT).err(), shape(Part::Book, 0));
    assert_eq!(pool.calculate(3, BOOK, &FIT[1..]).err(), shape(Part::Fit, 0));
    assert_eq!(pool.calculate(3, FIT, BOOK).err(), shape(Part::Book, 0));
    assert_eq!(pool.calculate(3, BOOK, &no_depth).err(), Some(Refusal::Depth { object: 2 }));
    assert_eq!(pool.calculate(5, BOOK, FIT).err(), Some(Refusal::Room { list: List::Collected }));
    assert!(pool.figures(3).is_none() && pool.figures(5).is_none() && pool.figures(16).is_none());
}

#[test]
fn results_stand_side_by_side() {
    let mut pool = Pool::new(&[(9, Rooms::all(3)), (0, Rooms::all(4))]).unwrap();
    let alone: Vec<Row> = pool.calculate(9, BOOK, FIT).unwrap().rows().collect();
    assert!(pool.calculate(0, BOOK, FIT).is_ok() && pool.calculate(0, BOOK, &case("L-depth-1.fit")).is_err());
    assert!(pool.calculate(7, BOOK, FIT).is_err());
    assert!(pool.figures(9).unwrap().rows().eq(alone.iter().cloned()) && pool.figures(0).is_none());
    assert!(pool.calculate(0, BOOK, FIT).unwrap().rows().eq(alone));
}

#[test]
fn a_pool_of_whom() {
    assert_eq!(Pool::new(&[(4, Rooms::all(1)), (4, Rooms::all(1))]).err(), Some(Refusal::IsIn { pilot: 4 }));
    assert_eq!(Pool::new(&[(16, Rooms::all(1))]).err(), Some(Refusal::NoPilot { pilot: 16 }));
    let endless = Rooms { plain: u32::MAX, ..Rooms::all(0) };
    assert_eq!(Pool::new(&[(0, endless), (1, endless)]).err(), Some(Refusal::Astray { pilot: 1 }));
}

#[test]
fn pilots_come_and_go() {
    let mut hall = Hall::new(10);
    hall.admit(0, 4).unwrap();
    hall.admit(1, 3).unwrap();
    assert_eq!(hall.free(), [[7, 3]]);
    assert_eq!(hall.admit(2, 4), Err(Refusal::NoRun { pilot: 2 }));
    assert_eq!(hall.calculate(0, BOOK, FIT).unwrap().row_count(), 3);
    hall.leave(0).unwrap();
    assert!(hall.figures(0).is_none());
    assert_eq!(hall.free(), [[0, 4], [7, 3]]);
    hall.admit(0, 2).unwrap();
    assert!(hall.figures(0).is_none());
    let kept = Hall::with_state(10, *hall.stretches(), hall.free());
    hall.leave(1).unwrap();
    hall.leave(0).unwrap();
    assert_eq!(hall.free(), [[0, 10]]);
    let mut again = kept.clone();
    again.leave(0).unwrap();
    assert_eq!(again.free(), [[0, 4], [7, 3]]);
    assert_eq!(Hall::new(0).admit(0, 1), Err(Refusal::NoRun { pilot: 0 }));
}

#[test]
fn no_state_of_a_hall() {
    for free in [vec![], vec![[0, 9]], vec![[0, 5], [5, 5]], vec![[0, 10]; 2], vec![[0, 1]; 18], vec![[0, 10]; 100]] {
        assert_eq!(Hall::with_state(10, [[[0; 2]; 5]; 16], &free).admit(0, 1), Err(Refusal::Table), "{free:?}");
    }
}
