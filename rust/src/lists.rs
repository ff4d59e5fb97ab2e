//! The lists as they are lent: columns, and how long they are.
use std::ops::Range;

use crate::ffi::{LISTS, OBJECTS};
use crate::refusal::List;

/// State and max state of each object.
pub(crate) type States = [[u32; 2]; OBJECTS];

/// How many rows each list has room for: 64 bytes a row of list 1, 40 of list 2, 56 of list 3, 8 of list 4, 60 of list 5.
#[derive(Debug, Copy, Clone, PartialEq, Eq)]
pub struct Rooms {
    /// Of list 1, collected effects.
    pub collected: u32,
    /// Of list 2, attribute rows.
    pub rows: u32,
    /// Of list 3, entries.
    pub entries: u32,
    /// Of list 4, plain effects.
    pub plain: u32,
    /// Of list 5, source rows; 0 will do where nothing is recorded.
    pub sources: u32,
}

impl Rooms {
    /// The same room in every list.
    pub const fn all(room: u32) -> Rooms {
        Rooms { collected: room, rows: room, entries: room, plain: room, sources: room }
    }

    pub(crate) fn by_list(self) -> [u32; LISTS] {
        [self.collected, self.rows, self.entries, self.plain, self.sources]
    }

    /// The room of one of the five lists.
    pub(crate) fn of(&mut self, list: List) -> Option<&mut u32> {
        match list {
            List::Collected => Some(&mut self.collected),
            List::Rows => Some(&mut self.rows),
            List::Entries => Some(&mut self.entries),
            List::Plain => Some(&mut self.plain),
            List::Sources => Some(&mut self.sources),
            _ => None,
        }
    }
}

/// The ten columns.
#[derive(Debug, Clone)]
pub(crate) struct Columns {
    pub collected: Vec<[u32; 14]>,
    pub collected_values: Vec<f64>,
    pub rows: Vec<[u32; 6]>,
    pub bases: Vec<f64>,
    pub values: Vec<f64>,
    pub entries: Vec<[u32; 12]>,
    pub entry_values: Vec<f64>,
    pub plain: Vec<[u32; 2]>,
    pub sources: Vec<[u32; 11]>,
    pub source_values: Vec<[f64; 2]>,
}

impl Columns {
    pub fn new(rooms: Rooms) -> Columns {
        let [collected, rows, entries, plain, sources] = rooms.by_list().map(|room| room as usize);
        Columns {
            collected: vec![[0; 14]; collected],
            collected_values: vec![0.0; collected],
            rows: vec![[0; 6]; rows],
            bases: vec![0.0; rows],
            values: vec![0.0; rows],
            entries: vec![[0; 12]; entries],
            entry_values: vec![0.0; entries],
            plain: vec![[0; 2]; plain],
            sources: vec![[0; 11]; sources],
            source_values: vec![[0.0; 2]; sources],
        }
    }

    /// Rows of each list, and the states that belong to them. The ranges are those that an answer gives, so they lie inside.
    pub fn part<'a>(&'a self, states: &'a States, parts: [Range<usize>; LISTS]) -> Lists<'a> {
        let [collected, rows, entries, plain, sources] = parts;
        Lists {
            states,
            collected: &self.collected[collected.clone()],
            collected_values: &self.collected_values[collected],
            rows: &self.rows[rows.clone()],
            bases: &self.bases[rows.clone()],
            values: &self.values[rows],
            entries: &self.entries[entries.clone()],
            entry_values: &self.entry_values[entries],
            plain: &self.plain[plain],
            sources: &self.sources[sources.clone()],
            source_values: &self.source_values[sources],
        }
    }
}

/// The used rows of each list.
#[derive(Debug, Copy, Clone)]
pub(crate) struct Lists<'a> {
    pub states: &'a States,
    pub collected: &'a [[u32; 14]],
    pub collected_values: &'a [f64],
    pub rows: &'a [[u32; 6]],
    pub bases: &'a [f64],
    pub values: &'a [f64],
    pub entries: &'a [[u32; 12]],
    pub entry_values: &'a [f64],
    pub plain: &'a [[u32; 2]],
    pub sources: &'a [[u32; 11]],
    pub source_values: &'a [[f64; 2]],
}
