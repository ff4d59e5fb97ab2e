//! A result, read by name.
use std::ops::Range;

use crate::codes::{Category, Operator, State};
use crate::lists::Lists;

/// Where an effect comes from.
#[derive(Debug, Copy, Clone, PartialEq)]
pub enum Origin {
    /// An object's effect.
    Effect {
        /// The effect's id.
        effect: i32,
        /// The object that has it.
        source: u32,
        /// From which of the source's states on it runs.
        category: Category,
        /// The attribute of the source that is its strength.
        attribute: i32,
    },
    /// A projected buff.
    Buff {
        /// The buff's id.
        buff: i32,
        /// Its strength.
        value: f64,
    },
}

/// Whom a collected effect touches.
#[derive(Debug, Copy, Clone, PartialEq, Eq)]
pub enum Modifier {
    /// What is in the location and requires this skill.
    LocationRequiredSkill(i32),
    /// What is in the location, of this group.
    LocationGroup(i32),
    /// What is in the location.
    Location,
    /// Drones, fighters and charges that require this skill.
    OwnerRequiredSkill(i32),
    /// The target itself.
    Item,
}

/// A row of list 1: a modifier that was taken.
#[derive(Debug, Copy, Clone, PartialEq)]
pub struct Collected {
    /// Where it comes from.
    pub origin: Origin,
    /// Whom it touches.
    pub modifier: Modifier,
    /// What it does.
    pub operator: Operator,
    /// How many of the source there are; 1 for a buff.
    pub source_quantity: u32,
    /// The object that its domain means.
    pub target: u32,
    /// The attribute that it changes.
    pub target_attribute: i32,
    /// The ship's attribute that resists it.
    pub resistance: Option<i32>,
}

/// A row of list 2: an attribute of an object, with its figures.
#[derive(Debug, Clone, PartialEq)]
pub struct Row {
    /// The object's number.
    pub object: u32,
    /// The attribute's id.
    pub attribute: i32,
    /// Before anything acts on it.
    pub base: f64,
    /// After everything.
    pub value: f64,
    /// Its entries, by their numbers in list 3.
    pub entries: Range<usize>,
    /// Its source rows, by their numbers in list 5; none where nothing is recorded.
    pub sources: Range<usize>,
}

/// A row of list 3: what acts on a row of list 2.
#[derive(Debug, Copy, Clone, PartialEq)]
pub struct Entry {
    /// Where it comes from.
    pub origin: Origin,
    /// What it does.
    pub operator: Operator,
    /// Whether a penalty is taken where the operator takes one.
    pub penalty: bool,
    /// How many of the source count.
    pub quantity: u32,
    /// The ship's attribute that resists it.
    pub resistance: Option<i32>,
    /// Its effect's row in list 1.
    pub collected: u32,
}

/// What a source row comes from.
#[derive(Debug, Copy, Clone, PartialEq, Eq)]
pub enum SourceFrom {
    /// An object, by number.
    Object(u32),
    /// A buff, by id.
    Buff(i32),
}

/// A row of list 5: what an entry contributed.
#[derive(Debug, Copy, Clone, PartialEq)]
pub struct Source {
    /// What it comes from.
    pub from: SourceFrom,
    /// The effect; none for a buff.
    pub effect: Option<i32>,
    /// Where the strength was read; none for a buff.
    pub attribute: Option<i32>,
    /// What it did.
    pub operator: Operator,
    /// The strength, after resistance.
    pub value: f64,
    /// How many of it this row is of.
    pub quantity: u32,
    /// The weight of a penalised copy.
    pub penalty: Option<f64>,
    /// Whether it runs.
    pub applied: bool,
    /// The lowest state of its source in which it runs; Passive for a buff.
    pub state: State,
}

impl Source {
    /// Whether its source can be in the state that it needs: that is at most the source's max state. A buff needs none.
    pub fn reachable(&self, figures: &Figures) -> bool {
        match self.from {
            SourceFrom::Object(object) => figures.states(object).is_some_and(|(_, most)| self.state <= most),
            SourceFrom::Buff(_) => true,
        }
    }
}

/// The result of a run, as it stands in the lists of the [`Engine`](crate::Engine), [`Pool`](crate::Pool) or
/// [`Hall`](crate::Hall) that it is borrowed from. Objects go by their numbers, attributes by their ids.
#[derive(Debug, Copy, Clone)]
pub struct Figures<'a> {
    pub(crate) lists: Lists<'a>,
}

impl Figures<'_> {
    /// The rows used of lists 1 to 5.
    pub fn counts(&self) -> [usize; 5] {
        let lists = &self.lists;
        [lists.collected.len(), lists.rows.len(), lists.entries.len(), lists.plain.len(), lists.sources.len()]
    }

    /// How many attribute rows there are.
    pub fn row_count(&self) -> usize {
        self.lists.rows.len()
    }

    /// The value of an object's attribute, if it has a row.
    pub fn value(&self, object: u32, attribute: i32) -> Option<f64> {
        self.find(object, attribute).map(|row| row.value)
    }

    /// The row of an object's attribute, if there is one: rows are in order, so this is a search by halves.
    pub fn find(&self, object: u32, attribute: i32) -> Option<Row> {
        let at = self.lists.rows.binary_search_by_key(&(object, attribute), |row| (row[0], row[1] as i32));
        at.ok().and_then(|at| self.row(at))
    }

    /// State and max state of an object after collection. Objects that the fit does not have are Passive; there are none from 1,024 on.
    pub fn states(&self, object: u32) -> Option<(State, State)> {
        self.lists.states.get(object as usize).map(|[state, most]| (State::of(*state), State::of(*most)))
    }

    /// A row by its number in list 2.
    pub fn row(&self, number: usize) -> Option<Row> {
        let [object, attribute, first_entry, entries, first_source, sources] = *self.lists.rows.get(number)?;
        let range = |first: u32, count: u32| first as usize..first as usize + count as usize;
        Some(Row {
            object,
            attribute: attribute as i32,
            base: *self.lists.bases.get(number)?,
            value: *self.lists.values.get(number)?,
            entries: range(first_entry, entries),
            sources: range(first_source, sources),
        })
    }

    /// All rows, by object, then by attribute.
    pub fn rows(&self) -> impl Iterator<Item = Row> + '_ {
        (0..self.row_count()).filter_map(|number| self.row(number))
    }

    /// What acts on a row, in the order of collection.
    pub fn entries(&self, row: &Row) -> impl Iterator<Item = Entry> + '_ {
        row.entries.clone().filter_map(|number| self.entry(number))
    }

    /// Where a row's value comes from; empty unless the sheet asks for recording.
    pub fn sources(&self, row: &Row) -> impl Iterator<Item = Source> + '_ {
        row.sources.clone().filter_map(|number| self.source(number))
    }

    /// All collected effects, in the order of collection.
    pub fn collected(&self) -> impl Iterator<Item = Collected> + '_ {
        self.lists.collected.iter().zip(self.lists.collected_values).map(|(numbers, value)| Collected {
            origin: origin_of(&numbers[..6], *value),
            modifier: modifier_of(numbers[6], numbers[7] as i32),
            operator: Operator::of(numbers[8]),
            source_quantity: numbers[9],
            target: numbers[10],
            target_attribute: numbers[11] as i32,
            resistance: given(numbers[12], numbers[13]),
        })
    }

    /// Effects in use that have no modifiers: object and effect.
    pub fn plain(&self) -> impl Iterator<Item = (u32, i32)> + '_ {
        self.lists.plain.iter().map(|[object, effect]| (*object, *effect as i32))
    }

    /// Every entry with its row, in the order in which their effects were collected; those of one effect by row.
    pub fn entries_by_collection(&self) -> impl Iterator<Item = (Row, Entry)> + '_ {
        let mut pairs: Vec<(Row, Entry)> =
            self.rows().flat_map(|row| self.entries(&row).map(move |entry| (row.clone(), entry)).collect::<Vec<_>>()).collect();
        pairs.sort_by_key(|(_, entry)| entry.collected);
        pairs.into_iter()
    }

    fn entry(&self, number: usize) -> Option<Entry> {
        let numbers = self.lists.entries.get(number)?;
        Some(Entry {
            origin: origin_of(&numbers[..6], *self.lists.entry_values.get(number)?),
            operator: Operator::of(numbers[6]),
            penalty: numbers[7] == 1,
            quantity: numbers[8],
            resistance: given(numbers[9], numbers[10]),
            collected: numbers[11],
        })
    }

    fn source(&self, number: usize) -> Option<Source> {
        let [from, object_or_buff, effect_given, effect, attribute_given, attribute, operator, quantity, penalty_given, applied, state] =
            *self.lists.sources.get(number)?;
        let [value, penalty] = *self.lists.source_values.get(number)?;
        Some(Source {
            from: if from == 0 { SourceFrom::Object(object_or_buff) } else { SourceFrom::Buff(object_or_buff as i32) },
            effect: given(effect_given, effect),
            attribute: given(attribute_given, attribute),
            operator: Operator::of(operator),
            value,
            quantity,
            penalty: (penalty_given == 1).then_some(penalty),
            applied: applied == 1,
            state: State::of(state),
        })
    }
}

fn given(flag: u32, id: u32) -> Option<i32> {
    (flag == 1).then_some(id as i32)
}

fn modifier_of(func: u32, key: i32) -> Modifier {
    match func {
        0 => Modifier::LocationRequiredSkill(key),
        1 => Modifier::LocationGroup(key),
        2 => Modifier::Location,
        3 => Modifier::OwnerRequiredSkill(key),
        _ => Modifier::Item,
    }
}

/// The first six numbers of a row of list 1 or 3.
fn origin_of(numbers: &[u32], value: f64) -> Origin {
    match *numbers {
        [0, effect, source, category, attribute, ..] => {
            Origin::Effect { effect: effect as i32, source, category: Category::of(category), attribute: attribute as i32 }
        }
        [_, _, _, _, _, buff, ..] => Origin::Buff { buff: buff as i32, value },
        _ => Origin::Buff { buff: 0, value },
    }
}
