// The sheet's tables, read without any test: only well-formed sheets are given.
use crate::eve::{
    AttributeRecord, CollectionRecord, DogmaModifier, EffectRecord, TypeDogmaEffect,
};

pub struct ObjectRecord {
    pub kind: u32,
    pub type_id: i32,
    pub group: i32,
    pub category: i32,
    pub slot: u32,
    pub quantity: u32,
    pub state: u32,
    pub max_state: u32,
    pub flags: u32,
    pub mutation_base: i32,
    pub projected_effect: i32,
    pub bases: (u32, u32),
    pub abilities: (u32, u32),
    pub side_effects: (u32, u32),
}

pub struct Sheet {
    pub attributes: Vec<AttributeRecord>,
    pub effects: Vec<EffectRecord>,
    pub modifiers: Vec<DogmaModifier>,
    pub type_effects: Vec<TypeDogmaEffect>,
    pub collections: Vec<CollectionRecord>,
    pub objects: Vec<ObjectRecord>,
    pub bases: Vec<(i32, f64)>,
    pub ids: Vec<i32>,
    pub buffs: Vec<(i32, f64)>,
    pub asks: Vec<(u32, i32)>,
    pub categories: [i32; 3],
    pub depth: u32,
    pub recording: u32,
}

// One record, read field by field.
struct Fields<'a>(&'a [u8], u32);

impl Fields<'_> {
    fn u32(&mut self) -> u32 {
        let (head, rest) = self.0.split_at(4);
        self.0 = rest;
        u32::from_le_bytes(head.try_into().unwrap())
    }

    fn i32(&mut self) -> i32 {
        self.u32() as i32
    }

    fn f64(&mut self) -> f64 {
        let (head, rest) = self.0.split_at(8);
        self.0 = rest;
        f64::from_le_bytes(head.try_into().unwrap())
    }

    fn pair(&mut self) -> (u32, u32) {
        (self.u32(), self.u32())
    }
}

fn table<T>(bytes: &[u8], no: usize, width: usize, read: impl Fn(&mut Fields) -> T) -> Vec<T> {
    let (count, offset) = Fields(&bytes[8 * (no - 1)..], 0).pair();
    let at = |k: u32| Fields(&bytes[offset as usize + k as usize * width..], k);
    (0..count).map(|k| read(&mut at(k))).collect()
}

fn object(f: &mut Fields) -> ObjectRecord {
    ObjectRecord {
        kind: f.u32(),
        type_id: f.i32(),
        group: f.i32(),
        category: f.i32(),
        slot: f.u32(),
        quantity: f.u32(),
        state: f.u32(),
        max_state: f.u32(),
        flags: f.u32(),
        mutation_base: f.i32(),
        projected_effect: f.i32(),
        bases: f.pair(),
        abilities: f.pair(),
        side_effects: f.pair(),
    }
}

fn modifier(f: &mut Fields) -> DogmaModifier {
    DogmaModifier {
        number: f.1,
        func: f.u32(),
        domain: f.u32(),
        operation: f.u32(),
        modifying: f.i32(),
        modified: f.i32(),
        skill: f.i32(),
        group: f.i32(),
    }
}

fn effect(f: &mut Fields) -> EffectRecord {
    EffectRecord {
        number: f.1,
        id: f.i32(),
        category: f.u32(),
        resistance: f.i32(),
        chance: f.i32(),
        first: f.u32(),
        count: f.u32(),
    }
}

impl Sheet {
    pub fn read(bytes: &[u8]) -> Sheet {
        let mut rest = Fields(&bytes[80..], 0);
        Sheet {
            attributes: table(bytes, 1, 24, |f| AttributeRecord {
                id: f.i32(),
                flags: f.u32(),
                default: f.f64(),
                min: f.i32(),
                max: f.i32(),
            }),
            effects: table(bytes, 2, 24, effect),
            modifiers: table(bytes, 3, 28, modifier),
            type_effects: table(bytes, 4, 12, |f| TypeDogmaEffect {
                type_id: f.i32(),
                effect: f.i32(),
                default: f.u32(),
            }),
            collections: table(bytes, 5, 16, |f| CollectionRecord {
                number: f.1,
                id: f.i32(),
                operation: f.u32(),
                first: f.u32(),
                count: f.u32(),
            }),
            objects: table(bytes, 6, 68, object),
            bases: table(bytes, 7, 12, |f| (f.i32(), f.f64())),
            ids: table(bytes, 8, 4, |f| f.i32()),
            buffs: table(bytes, 9, 12, |f| (f.i32(), f.f64())),
            asks: table(bytes, 10, 8, |f| (f.u32(), f.i32())),
            categories: [rest.i32(), rest.i32(), rest.i32()],
            depth: rest.u32(),
            recording: rest.u32(),
        }
    }

    pub fn modifiers_of(&self, first: u32, count: u32) -> &[DogmaModifier] {
        let first = first as usize;
        &self.modifiers[first..first + count as usize]
    }
}
