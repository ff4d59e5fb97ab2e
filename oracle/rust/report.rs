// A sheet into objects, and what comes back as text: one line for each row of a list, floats by their bits.
use std::cell::{Cell, RefCell};
use std::collections::BTreeSet;
use std::fmt::Write;
use std::panic::{AssertUnwindSafe, catch_unwind};

use super::item::{Attribute, EffectOperator, Item, ItemState, Object, Origin};
use super::output::SourceRef;
use super::{Objects, Pass, Projected, pass_2, pass_3};
use crate::eve::{self, LAST, Vector};
use crate::fit::Slot;
use crate::info::Info;
use crate::projection::ProjectedBuff;
use crate::sheet::Sheet;

thread_local! {
    static CATEGORIES: Cell<[i32; 3]> = const { Cell::new([0; 3]) };
    static COLLECTED: RefCell<Vec<String>> = const { RefCell::new(Vec::new()) };
    static NUMBERS: RefCell<Numbers> = RefCell::new(Numbers::default());
    static ASKS: RefCell<Vec<(Object, i32)>> = const { RefCell::new(Vec::new()) };
    pub static MESSAGE: RefCell<String> = const { RefCell::new(String::new()) };
}

// What a guarded run refuses by: the depth, the lists' rooms and what is used of them, the owners under calculation.
#[derive(Default)]
struct Guard {
    depth: usize,
    rooms: [u32; 5],
    used: [u32; 5],
    owners: Vec<u32>,
}

thread_local! {
    static GUARD: RefCell<Guard> = RefCell::new(Guard::default());
}

// A calculation under way.
pub struct Level;

impl Drop for Level {
    fn drop(&mut self) {
        GUARD.with_borrow_mut(|guard| guard.owners.pop());
    }
}

pub fn start(objects: &Objects, owner: &Item) -> Level {
    let all = in_order(objects);
    let number = all.iter().position(|item| std::ptr::eq(*item, owner));
    let number = number.unwrap() as u32;
    let deep = GUARD.with_borrow_mut(|guard| {
        guard.owners.push(number);
        guard.owners.len() > guard.depth
    });
    let level = Level;
    if deep {
        LAST.set(number);
        panic!("Deeper than the depth");
    }
    level
}

pub fn step(value: f64) -> f64 {
    if !value.is_finite() {
        LAST.set(GUARD.with_borrow(|guard| *guard.owners.last().unwrap()));
        panic!("Not finite");
    }
    value
}

pub fn power(base: f64, exponent: u32) -> f64 {
    crate::own::power_by(base, exponent, step)
}

// Room for one more in a list, 1 to 5.
pub fn take(list: usize) {
    let full = GUARD.with_borrow_mut(|guard| {
        guard.used[list - 1] += 1;
        guard.used[list - 1] > guard.rooms[list - 1]
    });
    if full {
        LAST.set(list as u32);
        panic!("No room");
    }
}

// How many rows of each list were taken, the one that was refused not counted.
pub fn reached() -> [u32; 5] {
    GUARD.with_borrow(|guard| std::array::from_fn(|list| guard.used[list].min(guard.rooms[list])))
}

fn guard(sheet: &Sheet, rooms: [u32; 5]) {
    GUARD.set(Guard {
        depth: sheet.depth as usize,
        rooms,
        ..Guard::default()
    });
    for object in &sheet.objects {
        (0..object.bases.1).for_each(|_| take(2));
    }
}

// The sheet's object numbers.
#[derive(Default)]
struct Numbers {
    mode: u32,
    char: u32,
    projected: Vec<u32>,
    items: Vec<u32>,
    skills: Vec<u32>,
}

pub fn number(object: Object) -> u32 {
    NUMBERS.with_borrow(|numbers| match object {
        Object::Ship => 0,
        Object::Mode => numbers.mode,
        Object::Char => numbers.char,
        Object::Projected(index) => numbers.projected[index],
        Object::Item(index) => numbers.items[index],
        Object::Charge(index) => numbers.items[index] + 1,
        Object::Skill(index) => numbers.skills[index],
    })
}

pub fn is_module_category(category_id: i32) -> bool {
    CATEGORIES.get().contains(&category_id)
}

pub fn collected(line: String) {
    COLLECTED.with_borrow_mut(|lines| lines.push(line));
}

pub fn asks() -> Vec<(Object, i32)> {
    ASKS.with_borrow(|asks| asks.clone())
}

pub fn optional(id: Option<i32>) -> (u32, i32) {
    (id.is_some() as u32, id.unwrap_or(0))
}

// The origin's numbers, and its value's bits.
pub fn origin(origin: Origin) -> (String, String) {
    match origin {
        Origin::Effect {
            effect_id,
            source,
            source_category,
            attribute_id,
        } => (
            format!(
                "0 {effect_id} {} {} {attribute_id} 0",
                number(source),
                source_category as u32
            ),
            bits(0.0),
        ),
        Origin::Buff { buff_id, value } => (format!("1 0 0 0 0 {buff_id}"), bits(value)),
    }
}

fn bits(value: f64) -> String {
    format!("{:016x}", value.to_bits())
}

impl EffectOperator {
    pub fn iter() -> impl Iterator<Item = EffectOperator> {
        [
            EffectOperator::PreAssign,
            EffectOperator::PreMul,
            EffectOperator::PreDiv,
            EffectOperator::ModAdd,
            EffectOperator::ModSub,
            EffectOperator::PostMul,
            EffectOperator::PostDiv,
            EffectOperator::PostPercent,
            EffectOperator::PostAssign,
        ]
        .into_iter()
    }
}

impl Info for Sheet {
    fn get_dogma_attributes(&self, _: i32) -> Option<Vector<'_, eve::TypeDogmaAttribute>> {
        None
    }

    fn get_dogma_attribute(&self, attribute_id: i32) -> Option<eve::DogmaAttribute<'_>> {
        let at = self
            .attributes
            .binary_search_by_key(&attribute_id, |record| record.id);
        at.ok().map(|at| eve::DogmaAttribute(&self.attributes[at]))
    }

    fn get_dogma_effects(&self, type_id: i32) -> Option<Vector<'_, eve::TypeDogmaEffect>> {
        let list = &self.type_effects;
        let from = list.partition_point(|record| record.type_id < type_id);
        let to = list.partition_point(|record| record.type_id <= type_id);
        (from < to).then(|| Vector(&list[from..to]))
    }

    fn get_dogma_effect(&self, effect_id: i32) -> Option<eve::DogmaEffect<'_>> {
        let at = self
            .effects
            .binary_search_by_key(&effect_id, |record| record.id);
        at.ok().map(|at| {
            let record = &self.effects[at];
            let list = self.modifiers_of(record.first, record.count);
            eve::DogmaEffect { record, list }
        })
    }

    fn get_type(&self, _: i32) -> Option<eve::Type<'_>> {
        None
    }

    fn get_dbuff_collection(&self, buff_id: i32) -> Option<eve::DbuffCollection<'_>> {
        let at = self
            .collections
            .binary_search_by_key(&buff_id, |record| record.id);
        at.ok().map(|at| {
            let record = &self.collections[at];
            let list = self.modifiers_of(record.first, record.count);
            eve::DbuffCollection { record, list }
        })
    }

    fn attribute_name_to_id(&self, _: &str) -> Option<i32> {
        None
    }
}

fn state_of(code: u32) -> ItemState {
    match code {
        0 => ItemState::Passive,
        1 => ItemState::Online,
        2 => ItemState::Active,
        3 => ItemState::Overload,
        _ => ItemState::AlwaysOn,
    }
}

fn item_of(sheet: &Sheet, at: usize) -> Item {
    let object = &sheet.objects[at];
    let ids = |first: u32, count: u32| -> BTreeSet<i32> {
        let first = first as usize;
        sheet.ids[first..first + count as usize]
            .iter()
            .copied()
            .collect()
    };
    let first = object.bases.0 as usize;
    let bases = &sheet.bases[first..first + object.bases.1 as usize];
    let mut item = Item::new_fake(object.type_id);
    item.group_id = object.group;
    item.category_id = object.category;
    item.slot = Slot::of_code(object.slot);
    item.quantity = object.quantity;
    item.state = state_of(object.state);
    item.max_state = state_of(object.max_state);
    item.attributes = bases
        .iter()
        .map(|(id, value)| (*id, Attribute::new(*value)))
        .collect();
    item.fighter_abilities =
        (object.flags & 1 != 0).then(|| ids(object.abilities.0, object.abilities.1));
    item.booster_side_effects = ids(object.side_effects.0, object.side_effects.1);
    item.mutation_base = (object.flags & 2 != 0).then_some(object.mutation_base);
    item
}

fn objects_of(sheet: &Sheet) -> Objects {
    let mut objects = Objects::new(0, None);
    let mut numbers = Numbers::default();
    let mut named = Vec::new();
    for (at, record) in sheet.objects.iter().enumerate() {
        let item = item_of(sheet, at);
        let number = at as u32;
        named.push(match record.kind {
            0 => {
                objects.ship = item;
                Object::Ship
            }
            1 => {
                objects.mode = Some(item);
                numbers.mode = number;
                Object::Mode
            }
            2 => {
                objects.char = item;
                numbers.char = number;
                Object::Char
            }
            3 => {
                objects.items.push(item);
                numbers.items.push(number);
                Object::Item(objects.items.len() - 1)
            }
            4 => {
                objects.items.last_mut().unwrap().charge = Some(Box::new(item));
                Object::Charge(objects.items.len() - 1)
            }
            5 => {
                objects.skills.push(item);
                numbers.skills.push(number);
                Object::Skill(objects.skills.len() - 1)
            }
            _ => {
                let effect_id = record.projected_effect;
                objects.projected.push(Projected { effect_id, item });
                numbers.projected.push(number);
                Object::Projected(objects.projected.len() - 1)
            }
        });
    }
    let buffs = sheet.buffs.iter();
    objects.buffs = buffs
        .map(|(id, value)| ProjectedBuff {
            id: *id,
            value: *value,
        })
        .collect();
    objects.sources = sheet.recording == 1;
    let asks = sheet.asks.iter();
    let asks = asks.map(|(object, id)| (named[*object as usize], *id));
    ASKS.set(asks.collect());
    NUMBERS.set(numbers);
    CATEGORIES.set(sheet.categories);
    objects
}

// Ship, mode, char, projected, items with their charges, skills: the sheet's order.
fn in_order(objects: &Objects) -> Vec<&Item> {
    let mut all = vec![&objects.ship];
    all.extend(&objects.mode);
    all.push(&objects.char);
    all.extend(objects.projected.iter().map(|projected| &projected.item));
    for item in &objects.items {
        all.push(item);
        all.extend(item.charge.as_deref());
    }
    all.extend(&objects.skills);
    all
}

fn written(objects: &Objects) -> String {
    let mut out = String::from("0 0\n");
    let all = in_order(objects);
    for item in &all {
        let _ = writeln!(out, "S {} {}", item.state as u32, item.max_state as u32);
    }
    for line in COLLECTED.take() {
        let _ = writeln!(out, "{line}");
    }
    for (at, item) in all.iter().enumerate() {
        for id in &item.effects {
            let _ = writeln!(out, "P {at} {id}");
        }
    }
    let (mut entries, mut sources) = (String::new(), String::new());
    let (mut first_entry, mut first_source) = (0, 0);
    for (at, item) in all.iter().enumerate() {
        for (id, attribute) in &item.attributes {
            let (e, s) = (attribute.effects.len(), attribute.sources.borrow().len());
            let base = bits(attribute.base_value);
            let value = bits(attribute.value.get().unwrap());
            let _ = writeln!(
                out,
                "R {at} {id} {first_entry} {e} {first_source} {s} {base} {value}"
            );
            first_entry += e;
            first_source += s;
            write_entries(attribute, &mut entries);
            write_sources(attribute, &mut sources);
        }
    }
    out + &entries + &sources
}

fn write_entries(attribute: &Attribute, out: &mut String) {
    for effect in &attribute.effects {
        let (from, value) = origin(effect.origin);
        let (given, resistance) = optional(effect.resistance);
        let _ = writeln!(
            out,
            "E {from} {} {} {} {given} {resistance} {} {value}",
            effect.operator as u32, effect.penalty as u32, effect.quantity, effect.number
        );
    }
}

fn write_sources(attribute: &Attribute, out: &mut String) {
    for source in attribute.sources.borrow().iter() {
        let (tag, from) = match source.from {
            SourceRef::Object(object) => (0, i64::from(number(object))),
            SourceRef::Buff { id } => (1, i64::from(id)),
        };
        let (effect_given, effect) = optional(source.effect_id);
        let (attribute_given, attribute) = optional(source.source_attribute_id);
        let _ = writeln!(
            out,
            "Q {tag} {from} {effect_given} {effect} {attribute_given} {attribute} {} {} {} {} {} {} {}",
            source.operator as u32,
            source.quantity,
            source.penalty.is_some() as u32,
            source.applied as u32,
            source.state as u32,
            bits(source.value),
            bits(source.penalty.unwrap_or(0.0)),
        );
    }
}

// The refusal a panic stands for, and its place.
fn refusal() -> String {
    let message = MESSAGE.take();
    let numbers = [
        ("Unknown modifier func", 2),
        ("Unknown modifier domain", 3),
        ("Unknown effect category", 4),
        ("Unknown effect operation", 5),
        ("Effect operation is not set", 5),
        ("Invalid origin for OtherID domain", 6),
        ("No room", 7),
        ("Not finite", 8),
        ("Deeper than the depth", 9),
    ];
    let found = numbers.iter().find(|(start, _)| message.starts_with(start));
    match found {
        Some((_, number)) => format!("{number} {}\n", LAST.get()),
        None => format!("panic {message}\n"),
    }
}

// Everything of one sheet, or the refusal; rooms are those of the lists 1 to 5, and only a guarded run heeds them.
pub fn answer(sheet: &Sheet, rooms: Option<[u32; 5]>) -> String {
    COLLECTED.take();
    let run = || {
        if let Some(rooms) = rooms {
            guard(sheet, rooms);
        }
        let mut objects = objects_of(sheet);
        pass_2::PassTwo::pass(sheet, &mut objects);
        pass_3::PassThree::pass(sheet, &mut objects);
        written(&objects)
    };
    catch_unwind(AssertUnwindSafe(run)).unwrap_or_else(|_| refusal())
}
