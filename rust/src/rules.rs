//! A fit held against an organiser's table of rules. The engine is not run.
use crate::ffi::{self, Checked};
use crate::refusal::Refusal;

/// A line of an organiser's table. A table ascends strictly: points by type, caps by group, forbidden groups, the total.
#[derive(Debug, Copy, Clone, PartialEq, Eq)]
pub enum Rule {
    /// What one piece of a type costs, at most 65,535; a type without a line costs 0.
    Points {
        /// The type.
        of: i32,
        /// Its points.
        points: u32,
    },
    /// At most so many pieces in a group; a group without a line has no cap.
    Most {
        /// The group.
        group: i32,
        /// How many.
        pieces: u32,
    },
    /// No piece in a group.
    Forbidden {
        /// The group.
        group: i32,
    },
    /// At most so many points in all.
    Total {
        /// How many.
        points: u32,
    },
}

impl Rule {
    fn line(self) -> [u32; 3] {
        match self {
            Rule::Points { of, points } => [0, of as u32, points],
            Rule::Most { group, pieces } => [1, group as u32, pieces],
            Rule::Forbidden { group } => [2, group as u32, 0],
            Rule::Total { points } => [3, 0, points],
        }
    }
}

/// What a sound table says of a sound fit.
#[derive(Debug, Copy, Clone, PartialEq, Eq)]
pub enum Verdict {
    /// No line is broken.
    Allowed,
    /// The first line that is broken.
    Broken {
        /// Its number, from 0.
        line: usize,
        /// What it counted: the pieces in its group, or the points of all.
        count: u64,
    },
}

/// Holds a sheet against an organiser's table.
///
/// ```
/// # use dogma::{check_rules, Book, Categories, Fit, Rule, Slot, Verdict};
/// # let mut book = Book::new(Categories::GAME);
/// # book.type_of("hull", 587);
/// # let mut fit = Fit::new();
/// # fit.ship("hull");
/// book.type_of("overdrive", 9).group(764).category(7);
/// fit.item("overdrive", Slot::Low).quantity(3);
/// let table = [Rule::Points { of: 9, points: 3 }, Rule::Most { group: 764, pieces: 2 }, Rule::Total { points: 6 }];
/// assert_eq!(check_rules(&table, &fit.write_sheet(&book)?)?, Verdict::Broken { line: 1, count: 3 });
/// # Ok::<(), Box<dyn std::error::Error>>(())
/// ```
pub fn check_rules(rules: &[Rule], sheet: &[u8]) -> Result<Verdict, Refusal> {
    verdict_of(ffi::check_rules(&lines(rules), sheet), Refusal::of)
}

/// Holds a book and a fit against an organiser's table.
pub fn check_rules_files(rules: &[Rule], book: &[u8], fit: &[u8]) -> Result<Verdict, Refusal> {
    verdict_of(ffi::check_rules_files(&lines(rules), book, fit), Refusal::of_files)
}

fn lines(rules: &[Rule]) -> Vec<[u32; 3]> {
    rules.iter().map(|rule| rule.line()).collect()
}

fn verdict_of(checked: Checked, refused: fn(u64, u64) -> Refusal) -> Result<Verdict, Refusal> {
    match (checked.number, checked.allowed) {
        (0, 1) => Ok(Verdict::Allowed),
        (0, _) => Ok(Verdict::Broken { line: checked.line as usize, count: checked.count }),
        (11, _) => Err(Refusal::Rules { line: checked.place }),
        (number, _) => Err(refused(number, checked.place)),
    }
}
