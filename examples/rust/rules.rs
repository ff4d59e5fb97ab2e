//! Holds a fit against an organiser's rules, and says in words what is broken: rules RULES SHEET, or rules RULES BOOK FIT.
//! RULES is text, a rule to a line: points TYPE POINTS | most GROUP PIECES | forbidden GROUP | total POINTS; # begins a remark.
use std::process::ExitCode;

use dogma::{check_rules, check_rules_files, Rule, Verdict};

fn rule(text: &str) -> Option<Rule> {
    let words: Vec<&str> = text.split_whitespace().collect();
    Some(match words[..] {
        ["points", of, points] => Rule::Points { of: of.parse().ok()?, points: points.parse().ok()? },
        ["most", group, pieces] => Rule::Most { group: group.parse().ok()?, pieces: pieces.parse().ok()? },
        ["forbidden", group] => Rule::Forbidden { group: group.parse().ok()? },
        ["total", points] => Rule::Total { points: points.parse().ok()? },
        _ => return None,
    })
}

fn rules(text: &str) -> Option<Vec<Rule>> {
    text.lines().map(|line| line.split('#').next().unwrap_or("").trim()).filter(|line| !line.is_empty()).map(rule).collect()
}

fn broken(rule: Rule, count: u64) -> String {
    match rule {
        Rule::Most { group, pieces } => {
            format!("the fit has {count} of group {group}, and {pieces} are allowed")
        }
        Rule::Forbidden { group } => {
            format!("group {group} is forbidden, and the fit has {count} of it")
        }
        Rule::Total { points } => format!("the fit costs {count} points, and {points} are allowed"),
        // points alone are no limit: such a line is never broken
        Rule::Points { of, points } => format!("type {of} costs {points}"),
    }
}

fn main() -> ExitCode {
    let words: Vec<String> = std::env::args().skip(1).collect();
    let table = words.first().and_then(|file| std::fs::read_to_string(file).ok()).and_then(|text| rules(&text));
    // what cannot be read has no bytes: refused as a file without a header
    let files: Vec<Vec<u8>> = words.iter().skip(1).map(|file| std::fs::read(file).unwrap_or_default()).collect();
    let (table, verdict) = match (table, &files[..]) {
        (Some(table), [sheet]) => (table.clone(), check_rules(&table, sheet)),
        (Some(table), [book, fit]) => (table.clone(), check_rules_files(&table, book, fit)),
        _ => {
            eprintln!("usage: rules RULES SHEET | rules RULES BOOK FIT");
            return ExitCode::from(2);
        }
    };
    match verdict {
        Ok(Verdict::Allowed) => {
            println!("allowed");
            return ExitCode::SUCCESS;
        }
        Ok(Verdict::Broken { line, count }) => println!("rule {} is broken: {}", line + 1, broken(table[line], count)),
        Err(refusal) => {
            let (number, place) = refusal.number_and_place();
            println!("refused {number} {place}");
            eprintln!("{refusal}");
        }
    }
    ExitCode::FAILURE
}
