//! Sheets from nothing: a book of records and a fit of objects, by name.
use std::collections::{BTreeMap, HashMap};
use std::fmt;

use crate::codes::{Category, Domain, Func, Operator, Slot, State};
use crate::refusal::Refusal;
use crate::tables::Tables;

/// Why nothing was written.
#[derive(Debug, Clone, PartialEq, Eq)]
pub enum WriteError {
    /// Nothing of this name is in the book.
    Unknown {
        /// What was looked for: an attribute, an effect, a type or a buff.
        what: &'static str,
        /// The name.
        name: String,
    },
    /// The library's own refusal: SHAPE, as reading the bytes would have got it.
    Refused(Refusal),
}

impl fmt::Display for WriteError {
    fn fmt(&self, f: &mut fmt::Formatter) -> fmt::Result {
        match self {
            WriteError::Unknown { what, name } => write!(f, "the book has no {what} of the name \"{name}\""),
            WriteError::Refused(refusal) => refusal.fmt(f),
        }
    }
}

impl std::error::Error for WriteError {}

impl From<Refusal> for WriteError {
    fn from(refusal: Refusal) -> WriteError {
        WriteError::Refused(refusal)
    }
}

/// The category numbers of modules, subsystems and structure modules.
#[derive(Debug, Copy, Clone, PartialEq, Eq)]
pub struct Categories {
    /// Of modules.
    pub module: i32,
    /// Of subsystems.
    pub subsystem: i32,
    /// Of structure modules.
    pub structure_module: i32,
}

impl Categories {
    /// The game's.
    pub const GAME: Categories = Categories { module: 7, subsystem: 32, structure_module: 66 };
}

// ---- the book

/// An attribute of a [`Book`]: not stackable, high is not good, default 0, no limits, until it is said otherwise.
#[derive(Debug, Clone, Default)]
pub struct Attribute {
    id: i32,
    flags: u32,
    default: f64,
    min: Option<String>,
    max: Option<String>,
}

impl Attribute {
    /// No penalty is ever taken on it.
    pub fn stackable(&mut self) -> &mut Attribute {
        self.flags |= 1;
        self
    }
    /// Of several that are assigned the greatest counts.
    pub fn high_is_good(&mut self) -> &mut Attribute {
        self.flags |= 2;
        self
    }
    /// The base where an object lacks the attribute.
    pub fn default_value(&mut self, value: f64) -> &mut Attribute {
        self.default = value;
        self
    }
    /// The attribute of the same object that it is never below.
    pub fn at_least(&mut self, attribute: &str) -> &mut Attribute {
        self.min = Some(attribute.to_string());
        self
    }
    /// The attribute of the same object that it is never above.
    pub fn at_most(&mut self, attribute: &str) -> &mut Attribute {
        self.max = Some(attribute.to_string());
        self
    }
}

/// Whom a modifier touches: with the skill or the group that it goes by.
#[derive(Debug, Clone, PartialEq, Eq)]
pub enum Touches {
    /// The object that the domain names.
    Item,
    /// What is in the location.
    Location,
    /// What is in the location, of a group.
    LocationGroup(i32),
    /// Items in the ship, and their charges, that require a skill.
    LocationRequiredSkill(Skill),
    /// Drones, fighters and charges that require a skill.
    OwnerRequiredSkill(Skill),
}

/// A skill that a modifier's targets require.
#[derive(Debug, Clone, PartialEq, Eq)]
pub enum Skill {
    /// A type, by its name in the book.
    Named(String),
    /// The type that has the effect.
    Own,
}

#[derive(Debug, Clone)]
struct Modifier {
    touches: Touches,
    domain: Domain,
    operation: Operator,
    modifying: Option<String>,
    modified: String,
}

/// An effect of a [`Book`].
#[derive(Debug, Clone)]
pub struct Effect {
    id: i32,
    category: Category,
    resistance: Option<String>,
    usage_chance: Option<String>,
    modifiers: Vec<Modifier>,
}

impl Effect {
    /// The ship's attribute that resists it where it is projected.
    pub fn resisted_by(&mut self, attribute: &str) -> &mut Effect {
        self.resistance = Some(attribute.to_string());
        self
    }
    /// A side effect: it runs only in an object that names it.
    pub fn usage_chance(&mut self, attribute: &str) -> &mut Effect {
        self.usage_chance = Some(attribute.to_string());
        self
    }
    /// One attribute of the source changes another, of those whom it touches.
    pub fn modifier(&mut self, touches: Touches, domain: Domain, operation: Operator, modifying: &str, modified: &str) -> &mut Effect {
        let (modifying, modified) = (Some(modifying.to_string()), modified.to_string());
        self.modifiers.push(Modifier { touches, domain, operation, modifying, modified });
        self
    }
}

/// A type of a [`Book`]: its group and category, and its effects.
#[derive(Debug, Clone, Default)]
pub struct Type {
    id: i32,
    group: i32,
    category: i32,
    effects: Vec<(String, bool)>,
}

impl Type {
    /// Its group.
    pub fn group(&mut self, group: i32) -> &mut Type {
        self.group = group;
        self
    }
    /// Its category: 7 modules, 18 drones, 20 implants and boosters, 32 subsystems, 87 fighters, ..
    pub fn category(&mut self, category: i32) -> &mut Type {
        self.category = category;
        self
    }
    /// An effect of it, behind those before.
    pub fn effect(&mut self, effect: &str) -> &mut Type {
        self.effects.push((effect.to_string(), false));
        self
    }
    /// A fighter's ability that runs where the fit names none.
    pub fn default_effect(&mut self, effect: &str) -> &mut Type {
        self.effects.push((effect.to_string(), true));
        self
    }
}

/// A buff of a [`Book`], for [`Fit::projected_buff`].
#[derive(Debug, Clone)]
pub struct Buff {
    id: i32,
    operation: Operator,
    modifiers: Vec<Modifier>,
}

impl Buff {
    /// An attribute that it changes, of those whom it touches from the ship on.
    pub fn modifier(&mut self, touches: Touches, modified: &str) -> &mut Buff {
        let (operation, modified) = (self.operation, modified.to_string());
        self.modifiers.push(Modifier { touches, domain: Domain::Ship, operation, modifying: None, modified });
        self
    }
}

/// The game's records that a fit needs, by the names that you give them. One book serves many fits.
///
/// Records may be given in any order. Where a name is given again its record is the same, with the id given last.
#[derive(Debug, Clone)]
pub struct Book {
    categories: Categories,
    attributes: BTreeMap<String, Attribute>,
    effects: BTreeMap<String, Effect>,
    types: BTreeMap<String, Type>,
    buffs: BTreeMap<String, Buff>,
}

fn found<'a, T>(records: &'a BTreeMap<String, T>, what: &'static str, name: &str) -> Result<&'a T, WriteError> {
    records.get(name).ok_or_else(|| WriteError::Unknown { what, name: name.to_string() })
}

/// Records in the order of their ids.
fn by_id<T>(records: &BTreeMap<String, T>, id: impl Fn(&T) -> i32) -> Vec<&T> {
    let mut sorted: Vec<&T> = records.values().collect();
    sorted.sort_by_key(|record| id(record));
    sorted
}

impl Book {
    /// A book without records; the categories are [`Categories::GAME`] unless you try something.
    pub fn new(categories: Categories) -> Book {
        Book { categories, attributes: BTreeMap::new(), effects: BTreeMap::new(), types: BTreeMap::new(), buffs: BTreeMap::new() }
    }
    /// An attribute.
    pub fn attribute(&mut self, name: &str, id: i32) -> &mut Attribute {
        let record = self.attributes.entry(name.to_string()).or_default();
        record.id = id;
        record
    }
    /// An effect, without modifiers yet.
    pub fn effect(&mut self, name: &str, id: i32, category: Category) -> &mut Effect {
        let new = Effect { id, category, resistance: None, usage_chance: None, modifiers: Vec::new() };
        let record = self.effects.entry(name.to_string()).or_insert(new);
        (record.id, record.category) = (id, category);
        record
    }
    /// A type.
    pub fn type_of(&mut self, name: &str, id: i32) -> &mut Type {
        let record = self.types.entry(name.to_string()).or_default();
        record.id = id;
        record
    }
    /// A buff, and what its strength does.
    pub fn buff(&mut self, name: &str, id: i32, operation: Operator) -> &mut Buff {
        let record = self.buffs.entry(name.to_string()).or_insert(Buff { id, operation, modifiers: Vec::new() });
        record.id = id;
        record
    }
    /// The id of an attribute, to find its rows by.
    pub fn attribute_id(&self, name: &str) -> Result<i32, WriteError> {
        found(&self.attributes, "attribute", name).map(|record| record.id)
    }
    /// The book's file, for several pilots.
    pub fn write_book(&self) -> Result<Vec<u8>, WriteError> {
        Ok(self.tables()?.write_book()?)
    }

    fn effect_id(&self, name: &str) -> Result<i32, WriteError> {
        found(&self.effects, "effect", name).map(|record| record.id)
    }
    fn type_named(&self, name: &str) -> Result<&Type, WriteError> {
        found(&self.types, "type", name)
    }
    fn optional_attribute(&self, name: &Option<String>) -> Result<u32, WriteError> {
        name.as_ref().map_or(Ok(0), |name| self.attribute_id(name)).map(|id| id as u32)
    }
    fn skill_id(&self, skill: &Skill) -> Result<i32, WriteError> {
        match skill {
            Skill::Own => Ok(-1),
            Skill::Named(name) => self.type_named(name).map(|record| record.id),
        }
    }

    fn modifier_row(&self, modifier: &Modifier) -> Result<[u32; 7], WriteError> {
        let (func, skill, group) = match &modifier.touches {
            Touches::LocationRequiredSkill(skill) => (Func::LocationRequiredSkill, self.skill_id(skill)?, 0),
            Touches::LocationGroup(group) => (Func::LocationGroup, 0, *group),
            Touches::Location => (Func::Location, 0, 0),
            Touches::OwnerRequiredSkill(skill) => (Func::OwnerRequiredSkill, self.skill_id(skill)?, 0),
            Touches::Item => (Func::Item, 0, 0),
        };
        let modifying = self.optional_attribute(&modifier.modifying)?;
        let modified = self.attribute_id(&modifier.modified)? as u32;
        Ok([func as u32, modifier.domain as u32, modifier.operation as u32, modifying, modified, skill as u32, group as u32])
    }

    /// Modifiers of one record, laid behind those before; their first and count.
    fn lay(&self, modifiers: &[Modifier], rows: &mut Vec<[u32; 7]>) -> Result<[u32; 2], WriteError> {
        let first = rows.len() as u32;
        for modifier in modifiers {
            rows.push(self.modifier_row(modifier)?);
        }
        Ok([first, modifiers.len() as u32])
    }

    /// Tables 1 to 5, in order, with firsts and counts.
    fn tables(&self) -> Result<Tables, WriteError> {
        let Categories { module, subsystem, structure_module } = self.categories;
        let mut tables = Tables { header: [module as u32, subsystem as u32, structure_module as u32, 0, 0], ..Tables::default() };
        for record in by_id(&self.attributes, |record| record.id) {
            let (min, max) = (self.optional_attribute(&record.min)?, self.optional_attribute(&record.max)?);
            tables.attributes.push([record.id as u32, record.flags, min, max]);
            tables.defaults.push(record.default);
        }
        for record in by_id(&self.effects, |record| record.id) {
            let [first, count] = self.lay(&record.modifiers, &mut tables.modifiers)?;
            let (resistance, usage) = (self.optional_attribute(&record.resistance)?, self.optional_attribute(&record.usage_chance)?);
            tables.effects.push([record.id as u32, record.category as u32, resistance, usage, first, count]);
        }
        for record in by_id(&self.types, |record| record.id) {
            for (effect, default) in &record.effects {
                tables.type_effects.push([record.id as u32, self.effect_id(effect)? as u32, u32::from(*default)]);
            }
        }
        for record in by_id(&self.buffs, |record| record.id) {
            let [first, count] = self.lay(&record.modifiers, &mut tables.modifiers)?;
            tables.buff_collections.push([record.id as u32, record.operation as u32, first, count]);
        }
        Ok(tables)
    }
}

// ---- the fit

#[derive(Debug, Copy, Clone, PartialEq, Eq)]
enum Kind {
    Ship = 0,
    Mode = 1,
    Char = 2,
    Item = 3,
    Charge = 4,
    Skill = 5,
    Projected = 6,
}

/// The order in which objects stand; charges stand behind their items.
const ORDER: [Kind; 6] = [Kind::Ship, Kind::Mode, Kind::Char, Kind::Projected, Kind::Item, Kind::Skill];

/// An object of a [`Fit`], as [`Fit::last`] gives it.
#[derive(Debug, Copy, Clone, PartialEq, Eq)]
pub struct ObjectOf(usize);

/// An object of a [`Fit`]: one of it, in the state that the game gives it, until it is said otherwise.
#[derive(Debug, Clone)]
pub struct Object {
    kind: Kind,
    type_of: Option<String>,
    slot: Slot,
    quantity: u32,
    state: State,
    max_state: State,
    mutated_from: Option<String>,
    projected_effect: Option<String>,
    bases: Vec<(String, f64)>,
    abilities: Option<Vec<String>>,
    side_effects: Vec<String>,
    charge: Option<Box<Object>>,
}

impl Object {
    fn new(kind: Kind, type_of: Option<&str>, slot: Slot) -> Object {
        let (state, max_state) = match (kind, slot) {
            (Kind::Projected, _) => (State::AlwaysOn, State::AlwaysOn),
            // collection raises an item's max state by its effects
            (Kind::Item, Slot::DroneBay | Slot::FighterTube) => (State::Active, State::Active),
            (Kind::Item, _) => (State::Passive, State::Passive),
            _ => (State::Active, State::Active),
        };
        Object {
            kind,
            type_of: type_of.map(String::from),
            slot,
            quantity: 1,
            state,
            max_state,
            mutated_from: None,
            projected_effect: None,
            bases: Vec::new(),
            abilities: None,
            side_effects: Vec::new(),
            charge: None,
        }
    }
    /// How many of it there are.
    pub fn quantity(&mut self, quantity: u32) -> &mut Object {
        self.quantity = quantity;
        self
    }
    /// The state that the player chose; a calculation lowers it to what its effects allow.
    pub fn state(&mut self, state: State) -> &mut Object {
        self.state = state;
        self
    }
    /// The greatest state before its effects raise it.
    pub fn max_state(&mut self, state: State) -> &mut Object {
        self.max_state = state;
        self
    }
    /// The value of an attribute, by its name in the book.
    pub fn base(&mut self, attribute: &str, value: f64) -> &mut Object {
        self.bases.push((attribute.to_string(), value));
        self
    }
    /// The type that it is a mutation of.
    pub fn mutated_from(&mut self, type_of: &str) -> &mut Object {
        self.mutated_from = Some(type_of.to_string());
        self
    }
    /// The abilities that run, by effect; none named is not the same as not given.
    pub fn abilities(&mut self, effects: &[&str]) -> &mut Object {
        self.abilities = Some(effects.iter().map(|name| name.to_string()).collect());
        self
    }
    /// A side effect of it that runs.
    pub fn side_effect(&mut self, effect: &str) -> &mut Object {
        self.side_effects.push(effect.to_string());
        self
    }
    /// The charge in this item. In the result its number is one more than the item's.
    pub fn charge(&mut self, type_of: &str) -> &mut Object {
        self.charge.insert(Box::new(Object::new(Kind::Charge, Some(type_of), Slot::Other)))
    }
}

/// One pilot's ship: objects by kind, in any order; they are put in order when they are written.
#[derive(Debug, Clone)]
pub struct Fit {
    depth: u32,
    recording: bool,
    objects: Vec<Object>,
    buffs: Vec<(String, f64)>,
    asks: Vec<(ObjectOf, String)>,
}

impl Default for Fit {
    fn default() -> Fit {
        Fit::new()
    }
}

impl Fit {
    /// No objects, the greatest depth, nothing recorded.
    pub fn new() -> Fit {
        Fit { depth: 256, recording: false, objects: Vec::new(), buffs: Vec::new(), asks: Vec::new() }
    }
    /// How many calculations may stand one inside another, 1 to 256.
    pub fn depth(&mut self, depth: u32) -> &mut Fit {
        self.depth = depth;
        self
    }
    /// Whether source rows are wanted.
    pub fn recording(&mut self, recording: bool) -> &mut Fit {
        self.recording = recording;
        self
    }
    /// The ship. There is one.
    pub fn ship(&mut self, type_of: &str) -> &mut Object {
        self.push(Object::new(Kind::Ship, Some(type_of), Slot::Other))
    }
    /// The ship's mode; at most one.
    pub fn mode(&mut self, type_of: &str) -> &mut Object {
        self.push(Object::new(Kind::Mode, Some(type_of), Slot::Other))
    }
    /// The pilot; at most one. Where none is given a char of type 0 without attributes stands for it.
    pub fn character(&mut self, type_of: &str) -> &mut Object {
        self.push(Object::new(Kind::Char, Some(type_of), Slot::Other))
    }
    /// A module, drone, fighter, implant or booster. A drone and a fighter in a tube are Active, all others Passive.
    pub fn item(&mut self, type_of: &str, slot: Slot) -> &mut Object {
        self.push(Object::new(Kind::Item, Some(type_of), slot))
    }
    /// A skill; its level is the base of an attribute, the game's 280.
    pub fn skill(&mut self, type_of: &str) -> &mut Object {
        self.push(Object::new(Kind::Skill, Some(type_of), Slot::Other))
    }
    /// What is aimed at the ship: an object and the effect that it does.
    pub fn projected(&mut self, type_of: &str, effect: &str) -> &mut Object {
        let object = self.push(Object::new(Kind::Projected, Some(type_of), Slot::Other));
        object.projected_effect = Some(effect.to_string());
        object
    }
    /// A buff on the ship, and its strength.
    pub fn projected_buff(&mut self, buff: &str, value: f64) -> &mut Fit {
        self.buffs.push((buff.to_string(), value));
        self
    }
    /// The object that was given last.
    pub fn last(&self) -> Option<ObjectOf> {
        self.objects.len().checked_sub(1).map(ObjectOf)
    }
    /// An attribute that is to be calculated first. It matters only where an attribute leads back to itself, or depth is short.
    pub fn ask(&mut self, object: ObjectOf, attribute: &str) -> &mut Fit {
        self.asks.push((object, attribute.to_string()));
        self
    }
    /// The object's number in the result, as the fit stands now.
    pub fn number_of(&self, object: ObjectOf) -> Option<u32> {
        self.numbers().get(object.0).copied()
    }
    /// The ten tables.
    pub fn tables(&self, book: &Book) -> Result<Tables, WriteError> {
        let mut tables = book.tables()?;
        self.lay(book, &mut tables)?;
        Ok(tables)
    }
    /// The sheet's bytes.
    pub fn write_sheet(&self, book: &Book) -> Result<Vec<u8>, WriteError> {
        Ok(self.tables(book)?.write_sheet()?)
    }
    /// The fit's file, for one of several pilots over this book.
    pub fn write_fit(&self, book: &Book) -> Result<Vec<u8>, WriteError> {
        let mut tables = Tables::default();
        self.lay(book, &mut tables)?;
        Ok(tables.write_fit()?)
    }

    fn push(&mut self, object: Object) -> &mut Object {
        let at = self.objects.len();
        self.objects.push(object);
        &mut self.objects[at]
    }

    /// Objects in order; None is the char that stands for one.
    fn in_order(&self) -> Vec<Option<usize>> {
        let mut order = Vec::new();
        for kind in ORDER {
            let own = (0..self.objects.len()).filter(|&at| self.objects[at].kind == kind);
            let before = order.len();
            order.extend(own.map(Some));
            if kind == Kind::Char && order.len() == before {
                order.push(None);
            }
        }
        order
    }

    /// Of each object its number, charges counted.
    fn numbers(&self) -> Vec<u32> {
        let mut numbers = vec![0; self.objects.len()];
        let mut next = 0;
        for at in self.in_order() {
            if let Some(at) = at {
                numbers[at] = next;
                next += u32::from(self.objects[at].charge.is_some());
            }
            next += 1;
        }
        numbers
    }

    /// Lays tables 6 to 10.
    fn lay(&self, book: &Book, tables: &mut Tables) -> Result<(), WriteError> {
        tables.header[3] = self.depth;
        tables.header[4] = u32::from(self.recording);
        let mut laid = Laid::new();
        let stand_in = Object::new(Kind::Char, None, Slot::Other);
        for at in self.in_order() {
            let object = at.map_or(&stand_in, |at| &self.objects[at]);
            lay_object(book, object, tables, &mut laid)?;
            if let Some(charge) = &object.charge {
                lay_object(book, charge, tables, &mut laid)?;
            }
        }
        for (name, value) in &self.buffs {
            tables.buffs.push(found(&book.buffs, "buff", name)?.id as u32);
            tables.buff_values.push(*value);
        }
        let numbers = self.numbers();
        for (object, attribute) in &self.asks {
            // one of another fit may be none of this: SHAPE refuses it
            tables.asks.push([numbers.get(object.0).copied().unwrap_or(u32::MAX), book.attribute_id(attribute)? as u32]);
        }
        Ok(())
    }
}

fn lay_object(book: &Book, object: &Object, tables: &mut Tables, laid: &mut Laid) -> Result<(), WriteError> {
    let nothing = Type::default();
    let own = object.type_of.as_ref().map_or(Ok(&nothing), |name| book.type_named(name))?;
    let bases = object.bases.iter().map(|(name, value)| Ok((book.attribute_id(name)?, *value))).collect::<Result<_, WriteError>>()?;
    let [first_base, bases] = lay_bases(bases, tables, laid);
    let [first_ability, abilities] = lay_effects(book, object.abilities.as_deref().unwrap_or_default(), tables)?;
    let [first_side_effect, side_effects] = lay_effects(book, &object.side_effects, tables)?;
    let mutated = object.mutated_from.as_ref().map_or(Ok(0), |name| book.type_named(name).map(|base| base.id))?;
    let effect = object.projected_effect.as_ref().map_or(Ok(0), |name| book.effect_id(name))?;
    let flags = u32::from(object.abilities.is_some()) | u32::from(object.mutated_from.is_some()) << 1;
    tables.objects.push([
        object.kind as u32,
        own.id as u32,
        own.group as u32,
        own.category as u32,
        object.slot as u32,
        object.quantity,
        object.state as u32,
        object.max_state as u32,
        flags,
        mutated as u32,
        effect as u32,
        first_base,
        bases,
        first_ability,
        abilities,
        first_side_effect,
        side_effects,
    ]);
    Ok(())
}

/// Where ranges of base attributes stand, to the bit.
type Laid = HashMap<Vec<(i32, u64)>, u32>;

/// Base attributes in order, behind those before; a range that stands already is taken again. First and count.
fn lay_bases(mut own: Vec<(i32, f64)>, tables: &mut Tables, laid: &mut Laid) -> [u32; 2] {
    if own.is_empty() {
        return [0, 0];
    }
    own.sort_by_key(|&(attribute, _)| attribute);
    let bits = own.iter().map(|&(attribute, value)| (attribute, value.to_bits())).collect();
    let first = *laid.entry(bits).or_insert_with(|| {
        let first = tables.base_attributes.len() as u32;
        tables.base_attributes.extend(own.iter().map(|(attribute, _)| *attribute as u32));
        tables.base_values.extend(own.iter().map(|(_, value)| value));
        first
    });
    [first, own.len() as u32]
}

/// Effects by name, behind those before. First and count.
fn lay_effects(book: &Book, names: &[String], tables: &mut Tables) -> Result<[u32; 2], WriteError> {
    if names.is_empty() {
        return Ok([0, 0]);
    }
    let first = tables.ids.len() as u32;
    for name in names {
        tables.ids.push(book.effect_id(name)? as u32);
    }
    Ok([first, names.len() as u32])
}
