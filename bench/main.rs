// Times the engine's library and the patched Rust on the same sheets, in turn. `bench SECONDS FILE ..`: a line for each sheet:
// its file, bytes, objects and five counts, the rounds, then five times in nanoseconds and four ratios, each as median and the
// tenth and ninetieth of a hundred. The times: ours with every list lent 4,096 rows or what it needs, ours lent to the row, the
// Rust's pass two and values with its objects built, the same with its tables read and its objects built, and a sheet
// of no bytes, which is refused at once: what the clearing of all that is lent takes. The ratios: ours to the Rust without and with building; then the same lent to the row.
#![allow(dead_code, unused_imports, unused_variables, unexpected_cfgs)]

mod calculate;
mod eve;
mod fit;
mod info;
mod own;
mod projection;
mod sheet;

use std::hint::black_box;
use std::time::Instant;

use calculate::report::{built, calculated, value_bits};
use dogma::{Engine, Rooms};
use sheet::Sheet;

fn nanoseconds(run: impl FnOnce()) -> f64 {
    let start = Instant::now();
    run();
    start.elapsed().as_nanos() as f64
}

fn counts_of(engine: &mut Engine, bytes: &[u8]) -> [usize; 5] {
    let fit = match engine.calculate(bytes) {
        Ok(fit) => fit,
        Err(refusal) => panic!("a sheet that is timed is refused: {refusal:?}"),
    };
    fit.counts()
}

fn rooms(counts: [usize; 5], least: usize) -> Rooms {
    let [collected, rows, entries, plain, sources] = counts.map(|count| count.max(least) as u32);
    Rooms { collected, rows, entries, plain, sources }
}

// The median, and the tenth and ninetieth of a hundred.
fn spread(mut values: Vec<f64>) -> String {
    values.sort_by(f64::total_cmp);
    let at = |share: f64| values[((values.len() - 1) as f64 * share).round() as usize];
    format!("{:.6} {:.6} {:.6}", at(0.5), at(0.1), at(0.9))
}

fn time(file: &str, seconds: f64) {
    let bytes = std::fs::read(file).expect("the sheet can be read");
    let sheet = Sheet::read(&bytes);
    let counts = counts_of(&mut Engine::new(), &bytes);
    let mut lent = Engine::with_rooms(rooms(counts, 4096));
    let mut exact = Engine::with_rooms(rooms(counts, 0));
    // both give the same values, bit for bit
    let mut objects = built(&sheet);
    calculated(&sheet, &mut objects);
    let ours: Vec<u64> = exact.calculate(&bytes).unwrap().rows().map(|row| row.value.to_bits()).collect();
    assert!(ours == value_bits(&objects), "{file}: the two differ");
    let mut times: [Vec<f64>; 5] = Default::default();
    let start = Instant::now();
    let mut round = 0;
    while round < 33 || (start.elapsed().as_secs_f64() < seconds && round < 5000) {
        let a = nanoseconds(|| { black_box(lent.calculate(black_box(&bytes)).is_ok()); });
        let mut objects = built(&sheet);
        let b = nanoseconds(|| calculated(black_box(&sheet), black_box(&mut objects)));
        drop(objects);
        let c = nanoseconds(|| { black_box(exact.calculate(black_box(&bytes)).is_ok()); });
        let mut kept = None;
        let d = nanoseconds(|| {
            let sheet = Sheet::read(black_box(&bytes));
            let mut objects = built(&sheet);
            calculated(&sheet, &mut objects);
            kept = Some((sheet, objects));
        });
        drop(kept);
        let e = nanoseconds(|| { black_box(lent.calculate(black_box(&[])).is_ok()); });
        if round > 1 {
            for (list, value) in times.iter_mut().zip([a, c, b, d, e]) {
                list.push(value);
            }
        }
        round += 1;
    }
    let ratio = |x: usize, y: usize| spread(times[x].iter().zip(&times[y]).map(|(x, y)| x / y).collect());
    let ratios = [ratio(0, 2), ratio(0, 3), ratio(1, 2), ratio(1, 3)].join(" ");
    let medians = times.iter().map(|list| spread(list.clone())).collect::<Vec<_>>().join(" ");
    let [c, r, e, p, s] = counts;
    let objects = sheet.objects.len();
    println!("{file} {} {objects} {c} {r} {e} {p} {s} {} {medians} {ratios}", bytes.len(), round - 2);
}

// `bench count WHAT TIMES FILE`: one thing so many times, for a tool that counts instructions: `ours` lent to the row, the Rust's
// objects `built`, those and pass two and values (`alone`), the same from the sheet's bytes (`whole`). What is built is left.
fn count(what: &str, times: usize, file: &str) {
    let bytes = std::fs::read(file).expect("the sheet can be read");
    let sheet = Sheet::read(&bytes);
    let counts = counts_of(&mut Engine::new(), &bytes);
    let mut engine = Engine::with_rooms(rooms(counts, 0));
    for _ in 0..times {
        match what {
            "ours" => { black_box(engine.calculate(black_box(&bytes)).is_ok()); }
            "built" => std::mem::forget(black_box(built(black_box(&sheet)))),
            "alone" => {
                let mut objects = built(black_box(&sheet));
                calculated(black_box(&sheet), black_box(&mut objects));
                std::mem::forget(objects);
            }
            _ => {
                let sheet = Sheet::read(black_box(&bytes));
                let mut objects = built(&sheet);
                calculated(&sheet, black_box(&mut objects));
                std::mem::forget((sheet, objects));
            }
        }
    }
}

fn run() {
    let words: Vec<String> = std::env::args().skip(1).collect();
    if words[0] == "count" {
        return count(&words[1], words[2].parse().unwrap(), &words[3]);
    }
    let seconds = words[0].parse().expect("seconds for each sheet");
    words[1..].iter().for_each(|file| time(file, seconds));
}

// Loops run deep in the Rust: one frame for each attribute row.
fn main() {
    let thread = std::thread::Builder::new().stack_size(1 << 30);
    thread.spawn(run).unwrap().join().unwrap();
}
