// Stand-ins for a source row and what it is from.
use super::item::{EffectOperator, ItemState, Object, Origin};

#[derive(Debug, Copy, Clone)]
pub enum SourceRef {
    Object(Object),
    Buff { id: i32 },
}

impl SourceRef {
    pub fn new(object: Object, _type_id: i32) -> SourceRef {
        SourceRef::Object(object)
    }
}

#[derive(Debug, Copy, Clone)]
pub struct Source {
    pub from: SourceRef,
    pub effect_id: Option<i32>,
    pub source_attribute_id: Option<i32>,
    pub operator: EffectOperator,
    pub value: f64,
    pub quantity: u32,
    pub penalty: Option<f64>,
    pub applied: bool,
    pub state: ItemState,
}

/* In the order of the states. */
const STATES: [ItemState; 5] = [
    ItemState::Passive,
    ItemState::Online,
    ItemState::Active,
    ItemState::Overload,
    ItemState::AlwaysOn,
];

// M-104: the first of the states that `runs_at` says yes to; Passive for a buff's.
pub fn lowest_state(origin: &Origin) -> ItemState {
    match origin {
        Origin::Effect { source_category, .. } => {
            let lowest = STATES.into_iter().find(|state| source_category.runs_at(*state));
            lowest.unwrap()
        }
        Origin::Buff { .. } => ItemState::Passive,
    }
}
