//! Why there is no result.
use std::fmt;

/// Which bytes a SHAPE speaks of.
#[derive(Debug, Copy, Clone, PartialEq, Eq, Hash)]
pub enum Part {
    /// A whole sheet: tables 1 to 10.
    Sheet,
    /// A book's file: tables 1 to 5.
    Book,
    /// A fit's file: tables 6 to 10.
    Fit,
}

/// What can be full.
#[derive(Debug, Copy, Clone, PartialEq, Eq, Hash)]
pub enum List {
    /// List 1, collected effects.
    Collected,
    /// List 2, attribute rows.
    Rows,
    /// List 3, entries.
    Entries,
    /// List 4, plain effects.
    Plain,
    /// List 5, source rows.
    Sources,
    /// The bytes that are lent for a sheet, a book or a fit; ROOM's place 6.
    Bytes,
    /// The bytes that are lent for an export's text; ROOM's place 8.
    Text,
}

impl List {
    fn of(place: u64) -> Option<List> {
        Some(match place {
            1 => List::Collected,
            2 => List::Rows,
            3 => List::Entries,
            4 => List::Plain,
            5 => List::Sources,
            6 => List::Bytes,
            8 => List::Text,
            _ => return None,
        })
    }

    /// The list's number, ROOM's place.
    pub fn number(self) -> u64 {
        match self {
            List::Collected => 1,
            List::Rows => 2,
            List::Entries => 3,
            List::Plain => 4,
            List::Sources => 5,
            List::Bytes => 6,
            List::Text => 8,
        }
    }
}

/// Why there is no result: a case for each number, and of POOL and PILOT one for each thing that it can mean.
///
/// Tables are counted from 1; records, objects, lines, labels and pilots from 0. `Display` says in words what is wrong and where;
/// [`Refusal::number_and_place`] gives the library's two numbers. After a refusal of a calculation the lists hold nothing.
#[derive(Debug, Copy, Clone, PartialEq, Eq, Hash)]
#[non_exhaustive]
pub enum Refusal {
    /// 1 SHAPE: the bytes, or the tables, are damaged.
    Shape {
        /// Which bytes.
        part: Part,
        /// The first bad table, 0 for the header.
        table: u64,
    },
    /// 2 FUNC: a func above 5 was reached.
    Func {
        /// A record of table 3.
        modifier: u64,
    },
    /// 3 DOMAIN: a domain above 6 was reached.
    Domain {
        /// A record of table 3.
        modifier: u64,
    },
    /// 4 CATEGORY: an effect's category above 7 was reached.
    Category {
        /// A record of table 2.
        effect: u64,
    },
    /// 5 OPERATION: an operation above 9 was reached.
    Operation {
        /// A record of table 3; of table 5 for a buff's own operation.
        record: u64,
    },
    /// 6 OTHER: the other (OtherID) of an object that can have none.
    Other {
        /// A record of table 3.
        modifier: u64,
    },
    /// 7 ROOM: a list, or lent bytes, are too short.
    Room {
        /// Which.
        list: List,
    },
    /// 8 NUMBER: a step gave an infinity or NaN, so the fit has no finite figure.
    Number {
        /// The object whose attribute was calculated.
        object: u64,
    },
    /// 9 DEPTH: a calculation would have started deeper than the sheet's depth.
    Depth {
        /// The object whose attribute was to be calculated.
        object: u64,
    },
    /// 10 LOOP: an attribute leads back to itself.
    Loop {
        /// The lowest object that has such an attribute.
        object: u64,
    },
    /// 11 RULES: a line of an organiser's table is bad.
    Rules {
        /// The line.
        line: u64,
    },
    /// 12 POOL: the pilot asked for is above 15, or has no row in any list. Nothing was written.
    NoStretch {
        /// The pilot asked for.
        pilot: u64,
    },
    /// 12 POOL: a stretch leaves the pool, or overlaps a lower pilot's. Nothing was written.
    Astray {
        /// The first such pilot, asked for or not.
        pilot: u64,
    },
    /// 12 POOL, of an admission: no run of free rows is as long, though there may be as many. Nothing was written.
    NoRun {
        /// The pilot that was to be admitted.
        pilot: u64,
    },
    /// 13 PILOT: pilots are 0 to 15.
    NoPilot {
        /// The number given.
        pilot: u64,
    },
    /// 13 PILOT: the pilot is in already.
    IsIn {
        /// The pilot.
        pilot: u64,
    },
    /// 13 PILOT: the pilot is not in, so it cannot leave.
    NotIn {
        /// The pilot.
        pilot: u64,
    },
    /// 14 LENGTH: the pilot wants no row.
    NoRows {
        /// The pilot.
        pilot: u64,
    },
    /// 15 LISTING: a line of a listing is not what the rules give, or is not there.
    Listing {
        /// The first such line; as many as there are lines where the next is missing.
        line: u64,
    },
    /// 16 LABEL: a label of an export is bad.
    Label {
        /// The label.
        label: u64,
    },
    /// 18 TABLE: what was lent is no state of a hall's pool.
    Table,
    /// A number that this crate does not know: the library is a newer one.
    Unknown {
        /// The library's number.
        number: u64,
        /// Its place.
        place: u64,
    },
}

/// The names of the ten tables, and what their rules are.
const TABLES: [(&str, &str); 11] = [
    ("header", "the length, a count, an offset, the depth (1 to 256) or recording (0 or 1) is not as it must be"),
    ("attributes", "ids do not ascend strictly, flags are above 3, or a default is infinite or NaN"),
    ("effects", "ids do not ascend strictly, or modifiers lie outside table 3"),
    ("modifiers", "a record is not allowed"),
    ("type effects", "types descend, or a default is above 1"),
    ("buff collections", "ids do not ascend strictly, or modifiers lie outside table 3"),
    ("objects", "they are out of order (ship, mode, char, projected, items with their charges, skills), a code is none, or a range leaves its table"),
    ("base attributes", "a value is infinite or NaN, or the attributes of an object do not ascend strictly"),
    ("ids", "a record is not allowed"),
    ("projected buffs", "a value is infinite or NaN"),
    ("asks", "an object is not there"),
];

impl Refusal {
    /// What the engine's own numbers mean, of a whole sheet. The others' functions name their own cases first.
    pub(crate) fn of(number: u64, place: u64) -> Refusal {
        match number {
            1 => Refusal::Shape { part: Part::Sheet, table: place },
            2 => Refusal::Func { modifier: place },
            3 => Refusal::Domain { modifier: place },
            4 => Refusal::Category { effect: place },
            5 => Refusal::Operation { record: place },
            6 => Refusal::Other { modifier: place },
            7 => List::of(place).map_or(Refusal::Unknown { number, place }, |list| Refusal::Room { list }),
            8 => Refusal::Number { object: place },
            9 => Refusal::Depth { object: place },
            _ => Refusal::Unknown { number, place },
        }
    }

    /// The same of a book and a fit: SHAPE's place is 20 more for the fit.
    pub(crate) fn of_files(number: u64, place: u64) -> Refusal {
        match (number, place) {
            (1, 20..) => Refusal::Shape { part: Part::Fit, table: place - 20 },
            (1, _) => Refusal::Shape { part: Part::Book, table: place },
            _ => Refusal::of(number, place),
        }
    }

    /// The library's number and place.
    pub fn number_and_place(&self) -> (u64, u64) {
        match *self {
            Refusal::Shape { part: Part::Fit, table } => (1, table.saturating_add(20)),
            Refusal::Shape { table, .. } => (1, table),
            Refusal::Func { modifier } => (2, modifier),
            Refusal::Domain { modifier } => (3, modifier),
            Refusal::Category { effect } => (4, effect),
            Refusal::Operation { record } => (5, record),
            Refusal::Other { modifier } => (6, modifier),
            Refusal::Room { list } => (7, list.number()),
            Refusal::Number { object } => (8, object),
            Refusal::Depth { object } => (9, object),
            Refusal::Loop { object } => (10, object),
            Refusal::Rules { line } => (11, line),
            Refusal::NoStretch { pilot } | Refusal::Astray { pilot } | Refusal::NoRun { pilot } => (12, pilot),
            Refusal::NoPilot { pilot } | Refusal::IsIn { pilot } | Refusal::NotIn { pilot } => (13, pilot),
            Refusal::NoRows { pilot } => (14, pilot),
            Refusal::Listing { line } => (15, line),
            Refusal::Label { label } => (16, label),
            Refusal::Table => (18, 0),
            Refusal::Unknown { number, place } => (number, place),
        }
    }
}

impl fmt::Display for Part {
    fn fmt(&self, f: &mut fmt::Formatter) -> fmt::Result {
        f.write_str(match self {
            Part::Sheet => "sheet",
            Part::Book => "book",
            Part::Fit => "fit",
        })
    }
}

impl fmt::Display for List {
    fn fmt(&self, f: &mut fmt::Formatter) -> fmt::Result {
        f.write_str(match self {
            List::Collected => "list 1 (collected effects) is full",
            List::Rows => "list 2 (attribute rows) is full",
            List::Entries => "list 3 (entries) is full",
            List::Plain => "list 4 (plain effects) is full",
            List::Sources => "list 5 (source rows) is full",
            List::Bytes => "the bytes lent for a sheet, a book or a fit are too few",
            List::Text => "the bytes lent for the text are too few",
        })
    }
}

impl fmt::Display for Refusal {
    fn fmt(&self, f: &mut fmt::Formatter) -> fmt::Result {
        match *self {
            Refusal::Shape { part, table: 0 } => write!(f, "the header of the {part}: {}", TABLES[0].1),
            Refusal::Shape { part, table } => match usize::try_from(table).ok().and_then(|table| TABLES.get(table)) {
                Some((name, rule)) => write!(f, "table {table} ({name}) of the {part}: {rule}"),
                None => write!(f, "table {table} of the {part} is bad"),
            },
            Refusal::Func { modifier } => write!(f, "table 3 (modifiers), record {modifier}: its func is above 5"),
            Refusal::Domain { modifier } => write!(f, "table 3 (modifiers), record {modifier}: its domain is above 6"),
            Refusal::Category { effect } => write!(f, "table 2 (effects), record {effect}: its category is above 7"),
            Refusal::Operation { record } => {
                write!(f, "table 3 (modifiers), record {record}, or for a buff table 5 (buff collections): its operation is above 9")
            }
            Refusal::Other { modifier } => {
                write!(f, "table 3 (modifiers), record {modifier}: it means the other (OtherID) of a ship, mode, char or skill, which has none")
            }
            Refusal::Room { list } => write!(f, "{list}: lend more and call again"),
            Refusal::Number { object } => write!(f, "object {object}: a step of an attribute of it is infinite or NaN, so there is no finite figure"),
            Refusal::Depth { object } => {
                write!(f, "object {object}: an attribute of it would be calculated deeper than the depth allows (at most 256)")
            }
            Refusal::Loop { object } => write!(f, "object {object}: an attribute of it leads back to itself"),
            Refusal::Rules { line } => {
                write!(f, "line {line} of the rules: its kind is above 3, it does not come after the line before, its points are above 65535, or a total has an id")
            }
            Refusal::NoStretch { pilot: pilot @ 16.. } | Refusal::NoPilot { pilot } => write!(f, "pilot {pilot}: pilots are 0 to 15"),
            Refusal::NoStretch { pilot } => write!(f, "pilot {pilot} has no stretch of the pool"),
            Refusal::Astray { pilot } => write!(f, "pilot {pilot}: a stretch of it leaves the pool, or overlaps a lower pilot's"),
            Refusal::NoRun { pilot } => write!(f, "pilot {pilot}: no run of free rows is as long"),
            Refusal::IsIn { pilot } => write!(f, "pilot {pilot} is in already"),
            Refusal::NotIn { pilot } => write!(f, "pilot {pilot} is not in"),
            Refusal::NoRows { pilot } => write!(f, "pilot {pilot} wants no row"),
            Refusal::Listing { line } => write!(f, "line {line} of the listing: it is missing, or not what the rules give"),
            Refusal::Label { label } => {
                write!(f, "label {label}: it has over 64 bytes, one that is not printable ASCII, CR or LF, or its id does not ascend")
            }
            Refusal::Table => write!(f, "the stretches and the free rows are no state of the pool"),
            Refusal::Unknown { number, place } => write!(f, "refused {number} {place}, which this crate does not know"),
        }
    }
}

impl std::error::Error for Refusal {}
