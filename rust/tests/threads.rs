//! Eight threads with lists of their own, a million calls: each gives what the first gave.
mod cases;

use cases::{case, sheets};
use dogma::{Engine, Refusal, Rooms};

const THREADS: usize = 8;
const CALLS: usize = 1_000_000;

/// All that a run gives, the bits of its floats too.
type Given = Result<(Vec<(u32, i32, u64)>, [usize; 5]), Refusal>;

fn given(engine: &mut Engine, sheet: &[u8]) -> Given {
    let figures = engine.calculate(sheet)?;
    Ok((figures.rows().map(|row| (row.object, row.attribute, row.value.to_bits())).collect(), figures.counts()))
}

#[test]
fn eight_threads_a_million_calls() {
    let rooms = Rooms::all(64);
    // short lists, so that a call takes little; what does not fit is refused with ROOM, every time
    let sheets: Vec<Vec<u8>> = sheets().iter().map(|name| case(&format!("{name}.sheet"))).collect();
    let first: Vec<Given> = sheets.iter().map(|sheet| given(&mut Engine::with_rooms(rooms), sheet)).collect();
    assert!(first.iter().any(|given| given.is_ok()) && first.iter().any(|given| given.is_err()));
    std::thread::scope(|scope| {
        for thread in 0..THREADS {
            let (sheets, first) = (&sheets, &first);
            scope.spawn(move || {
                let mut engine = Engine::with_rooms(rooms);
                for call in 0..CALLS / THREADS {
                    let which = (call + thread) % sheets.len();
                    assert_eq!(given(&mut engine, &sheets[which]), first[which], "sheet {which}");
                }
            });
        }
    });
}
