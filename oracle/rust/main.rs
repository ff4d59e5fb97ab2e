// The oracle: `oracle FILE` answers one sheet, `oracle --batch FILE` many, each with its length before it and `end` after its answer.
// `guarded --lent FILE` is a batch where after each length stand the rooms of the lists 1 to 5; `guarded --told FILE` is the same,
// and after number and place stand the rows that each list had when the run ended.
#![allow(dead_code, unused_imports, unused_variables, unexpected_cfgs)]

mod calculate;
mod eve;
mod fit;
mod info;
mod own;
mod projection;
mod sheet;

use std::io::{BufWriter, Write};
use std::panic::{self, AssertUnwindSafe, catch_unwind};

use calculate::report::{MESSAGE, answer, reached};
use sheet::Sheet;

fn answered(bytes: &[u8], rooms: Option<[u32; 5]>) -> String {
    match catch_unwind(AssertUnwindSafe(|| Sheet::read(bytes))) {
        Ok(sheet) => answer(&sheet, rooms),
        Err(_) => String::from("unreadable\n"),
    }
}

// The rows of each list at the end of the first line.
fn told(text: &str) -> String {
    let (first, rest) = text.split_once('\n').unwrap();
    let [a, b, c, d, e] = reached();
    format!("{first} {a} {b} {c} {d} {e}\n{rest}")
}

fn word(rest: &mut &[u8]) -> u32 {
    let (head, tail) = rest.split_at(4);
    *rest = tail;
    u32::from_le_bytes(head.try_into().unwrap())
}

fn run() {
    panic::set_hook(Box::new(|info| {
        let payload = info.payload();
        let text = payload.downcast_ref::<&str>().map(|text| text.to_string());
        let text = text.or(payload.downcast_ref::<String>().cloned());
        MESSAGE.set(text.unwrap_or_default());
    }));
    let arguments: Vec<String> = std::env::args().skip(1).collect();
    let mut out = BufWriter::new(std::io::stdout().lock());
    match &arguments[..] {
        [flag, file] if ["--batch", "--lent", "--told"].contains(&flag.as_str()) => {
            let bytes = std::fs::read(file).expect("the batch can be read");
            let mut rest = &bytes[..];
            while !rest.is_empty() {
                let length = word(&mut rest) as usize;
                let rooms = (flag != "--batch").then(|| std::array::from_fn(|_| word(&mut rest)));
                let (sheet, tail) = rest.split_at(length);
                let text = answered(sheet, rooms);
                let text = if flag == "--told" { told(&text) } else { text };
                out.write_all(text.as_bytes()).unwrap();
                out.write_all(b"end\n").unwrap();
                rest = tail;
            }
        }
        [file] => {
            let bytes = std::fs::read(file).expect("the sheet can be read");
            out.write_all(answered(&bytes, None).as_bytes()).unwrap();
        }
        _ => eprintln!("usage: oracle FILE | oracle --batch FILE | guarded --lent FILE | guarded --told FILE"),
    }
}

// Loops run deep: one frame for each attribute row.
fn main() {
    let thread = std::thread::Builder::new().stack_size(1 << 30);
    thread.spawn(run).unwrap().join().unwrap();
}
