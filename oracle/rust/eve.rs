// Stand-ins for the records behind `Info`: the sheet's own, tables 1 to 5.
use std::cell::Cell;

// A borrowed list, as the original's vectors are read.
pub struct Vector<'a, T>(pub &'a [T]);

impl<T> Clone for Vector<'_, T> {
    fn clone(&self) -> Self {
        *self
    }
}

impl<T> Copy for Vector<'_, T> {}

impl<'a, T: Copy> Vector<'a, T> {
    pub fn iter(&self) -> impl Iterator<Item = T> + 'a {
        self.0.iter().copied()
    }

    pub fn is_empty(&self) -> bool {
        self.0.is_empty()
    }
}

impl<'a, T: Copy> IntoIterator for Vector<'a, T> {
    type Item = T;
    type IntoIter = std::iter::Copied<std::slice::Iter<'a, T>>;

    fn into_iter(self) -> Self::IntoIter {
        self.0.iter().copied()
    }
}

thread_local! {
    // The record whose code was read last: the place of a panic.
    pub static LAST: Cell<u32> = const { Cell::new(0) };
}

#[derive(Debug, Copy, Clone, PartialEq, Eq)]
pub struct ModifierFunc(pub u32);

#[allow(non_upper_case_globals)]
impl ModifierFunc {
    pub const LocationRequiredSkillModifier: ModifierFunc = ModifierFunc(0);
    pub const LocationGroupModifier: ModifierFunc = ModifierFunc(1);
    pub const LocationModifier: ModifierFunc = ModifierFunc(2);
    pub const OwnerRequiredSkillModifier: ModifierFunc = ModifierFunc(3);
    pub const ItemModifier: ModifierFunc = ModifierFunc(4);
    pub const EffectStopper: ModifierFunc = ModifierFunc(5);
}

#[derive(Debug, Copy, Clone, PartialEq, Eq)]
pub struct ModifierDomain(pub u32);

#[allow(non_upper_case_globals)]
impl ModifierDomain {
    pub const ItemID: ModifierDomain = ModifierDomain(0);
    pub const ShipID: ModifierDomain = ModifierDomain(1);
    pub const CharID: ModifierDomain = ModifierDomain(2);
    pub const OtherID: ModifierDomain = ModifierDomain(3);
    pub const StructureID: ModifierDomain = ModifierDomain(4);
    pub const TargetID: ModifierDomain = ModifierDomain(5);
    pub const Target: ModifierDomain = ModifierDomain(6);
}

#[derive(Debug, Copy, Clone, PartialEq, Eq)]
pub struct ModifierOperation(pub u32);

#[allow(non_upper_case_globals)]
impl ModifierOperation {
    pub const PreAssign: ModifierOperation = ModifierOperation(0);
    pub const PreMul: ModifierOperation = ModifierOperation(1);
    pub const PreDiv: ModifierOperation = ModifierOperation(2);
    pub const ModAdd: ModifierOperation = ModifierOperation(3);
    pub const ModSub: ModifierOperation = ModifierOperation(4);
    pub const PostMul: ModifierOperation = ModifierOperation(5);
    pub const PostDiv: ModifierOperation = ModifierOperation(6);
    pub const PostPercent: ModifierOperation = ModifierOperation(7);
    pub const PostAssign: ModifierOperation = ModifierOperation(8);
    pub const Unset: ModifierOperation = ModifierOperation(u32::MAX);
}

#[derive(Debug, Copy, Clone, PartialEq, Eq)]
pub struct EffectCategory(pub u32);

#[allow(non_upper_case_globals)]
impl EffectCategory {
    pub const Passive: EffectCategory = EffectCategory(0);
    pub const Online: EffectCategory = EffectCategory(1);
    pub const Active: EffectCategory = EffectCategory(2);
    pub const Overload: EffectCategory = EffectCategory(3);
    pub const Target: EffectCategory = EffectCategory(4);
    pub const Area: EffectCategory = EffectCategory(5);
    pub const Dungeon: EffectCategory = EffectCategory(6);
    pub const System: EffectCategory = EffectCategory(7);
}

#[derive(Copy, Clone)]
pub struct AttributeRecord {
    pub id: i32,
    pub flags: u32,
    pub default: f64,
    pub min: i32,
    pub max: i32,
}

#[derive(Copy, Clone)]
pub struct DogmaAttribute<'a>(pub &'a AttributeRecord);

impl DogmaAttribute<'_> {
    pub fn stackable(&self) -> bool {
        self.0.flags & 1 != 0
    }

    pub fn high_is_good(&self) -> bool {
        self.0.flags & 2 != 0
    }

    pub fn default_value(&self) -> f64 {
        self.0.default
    }

    pub fn min_attribute_id(&self) -> i32 {
        self.0.min
    }

    pub fn max_attribute_id(&self) -> i32 {
        self.0.max
    }
}

#[derive(Copy, Clone)]
pub struct DogmaModifier {
    pub number: u32,
    pub func: u32,
    pub domain: u32,
    pub operation: u32,
    pub modifying: i32,
    pub modified: i32,
    pub skill: i32,
    pub group: i32,
}

impl DogmaModifier {
    pub fn func(&self) -> ModifierFunc {
        LAST.set(self.number);
        ModifierFunc(self.func)
    }

    pub fn domain(&self) -> ModifierDomain {
        LAST.set(self.number);
        ModifierDomain(self.domain)
    }

    pub fn operation(&self) -> ModifierOperation {
        LAST.set(self.number);
        ModifierOperation(self.operation)
    }

    pub fn modifying_attribute_id(&self) -> i32 {
        self.modifying
    }

    pub fn modified_attribute_id(&self) -> i32 {
        self.modified
    }

    pub fn skill_type_id(&self) -> i32 {
        self.skill
    }

    pub fn group_id(&self) -> i32 {
        self.group
    }
}

#[derive(Copy, Clone)]
pub struct EffectRecord {
    pub number: u32,
    pub id: i32,
    pub category: u32,
    pub resistance: i32,
    pub chance: i32,
    pub first: u32,
    pub count: u32,
}

#[derive(Copy, Clone)]
pub struct DogmaEffect<'a> {
    pub record: &'a EffectRecord,
    pub list: &'a [DogmaModifier],
}

impl<'a> DogmaEffect<'a> {
    pub fn effect_category(&self) -> EffectCategory {
        LAST.set(self.record.number);
        EffectCategory(self.record.category)
    }

    pub fn resistance_attribute_id(&self) -> i32 {
        self.record.resistance
    }

    pub fn fitting_usage_chance_attribute_id(&self) -> i32 {
        self.record.chance
    }

    pub fn modifiers(&self) -> Option<Vector<'a, DogmaModifier>> {
        Some(Vector(self.list))
    }
}

#[derive(Copy, Clone)]
pub struct TypeDogmaEffect {
    pub type_id: i32,
    pub effect: i32,
    pub default: u32,
}

impl TypeDogmaEffect {
    pub fn effect_id(&self) -> i32 {
        self.effect
    }

    pub fn is_default(&self) -> bool {
        self.default != 0
    }
}

#[derive(Copy, Clone)]
pub struct CollectionRecord {
    pub number: u32,
    pub id: i32,
    pub operation: u32,
    pub first: u32,
    pub count: u32,
}

#[derive(Copy, Clone)]
pub struct DbuffCollection<'a> {
    pub record: &'a CollectionRecord,
    pub list: &'a [DogmaModifier],
}

impl<'a> DbuffCollection<'a> {
    pub fn operation(&self) -> ModifierOperation {
        LAST.set(self.record.number);
        ModifierOperation(self.record.operation)
    }

    pub fn modifiers(&self) -> Option<Vector<'a, DogmaModifier>> {
        Some(Vector(self.list))
    }
}

// Named by `Info`, read by nothing that is carried over.
#[derive(Copy, Clone)]
pub struct TypeDogmaAttribute;

#[derive(Copy, Clone)]
pub struct Type<'a>(pub &'a ());

impl Type<'_> {
    pub fn category_id(&self) -> i32 {
        0
    }

    pub fn group_id(&self) -> i32 {
        0
    }
}

#[derive(Copy, Clone)]
pub struct Mutaplasmid<'a>(pub &'a ());
