//! Writes a sheet's rows as a .csv file: export SHEET LABELS CSV. LABELS is text, a label to a line: ATTRIBUTE LABEL; ids ascend.
use std::process::ExitCode;

use dogma::Engine;

/// An attribute's id, and the rest of the line.
fn label(line: &str) -> Option<(i32, &str)> {
    let (id, label) = line.split_once(' ')?;
    Some((id.parse().ok()?, label))
}

fn run(sheet: &str, labels: &str, csv: &str) -> Result<(), Box<dyn std::error::Error>> {
    let (sheet, text) = (std::fs::read(sheet)?, std::fs::read_to_string(labels)?);
    let labels: Vec<(i32, &str)> = text.lines().map(label).collect::<Option<_>>().ok_or("a line of the labels is no label")?;

    let mut engine = Engine::new();
    let text = engine.export(&sheet, &labels)?;
    std::fs::write(csv, text)?;
    Ok(())
}

fn main() -> ExitCode {
    let words: Vec<String> = std::env::args().skip(1).collect();
    let said = match &words[..] {
        [sheet, labels, csv] => run(sheet, labels, csv).map_err(|error| error.to_string()),
        _ => Err("usage: export SHEET LABELS CSV".to_string()),
    };
    match said {
        Ok(()) => ExitCode::SUCCESS,
        Err(words) => {
            eprintln!("{words}");
            ExitCode::FAILURE
        }
    }
}
