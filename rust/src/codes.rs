//! Codes of the sheet and of the lists, as enums. Their numbers are docs/FORMAT.md's, section 3.

/// An object's state, or the greatest that it can be in.
#[derive(Debug, Copy, Clone, PartialEq, Eq, PartialOrd, Ord, Hash, Default)]
pub enum State {
    /// Offline, or nothing that is switched on.
    #[default]
    Passive = 0,
    /// Online.
    Online = 1,
    /// Active.
    Active = 2,
    /// Overheated.
    Overload = 3,
    /// What is projected is never off.
    AlwaysOn = 4,
}

impl State {
    // the engine gives no code above 4: SHAPE refuses it
    pub(crate) fn of(code: u32) -> State {
        match code {
            0 => State::Passive,
            1 => State::Online,
            2 => State::Active,
            3 => State::Overload,
            _ => State::AlwaysOn,
        }
    }
}

/// From which state on an effect runs: the first four from the state of the same name, the others from Active.
#[derive(Debug, Copy, Clone, PartialEq, Eq, Hash)]
pub enum Category {
    /// Always.
    Passive = 0,
    /// While its object is online.
    Online = 1,
    /// While it is active.
    Active = 2,
    /// While it is overheated.
    Overload = 3,
    /// Aimed at a target; while its object is active.
    Target = 4,
    /// In an area; while its object is active.
    Area = 5,
    /// In a dungeon; while its object is active.
    Dungeon = 6,
    /// In a system; while its object is active.
    System = 7,
}

impl Category {
    // the engine gives no code above 7: a higher one is refused with CATEGORY
    pub(crate) fn of(code: u32) -> Category {
        match code {
            0 => Category::Passive,
            1 => Category::Online,
            2 => Category::Active,
            3 => Category::Overload,
            4 => Category::Target,
            5 => Category::Area,
            6 => Category::Dungeon,
            _ => Category::System,
        }
    }
}

/// What a modifier does to the value, in the order in which they are applied.
#[derive(Debug, Copy, Clone, PartialEq, Eq, PartialOrd, Ord, Hash)]
pub enum Operator {
    /// The value is the greatest given, or the least where high is not good.
    PreAssign = 0,
    /// Times, penalised.
    PreMul = 1,
    /// Divided by, penalised.
    PreDiv = 2,
    /// Plus, times the quantity.
    ModAdd = 3,
    /// Minus, times the quantity.
    ModSub = 4,
    /// Times, penalised.
    PostMul = 5,
    /// Divided by, penalised.
    PostDiv = 6,
    /// Times 1 + strength / 100, penalised.
    PostPercent = 7,
    /// As PreAssign, at the end.
    PostAssign = 8,
}

impl Operator {
    // the engine gives no code above 8: 9 is passed over, a higher one is refused with OPERATION
    pub(crate) fn of(code: u32) -> Operator {
        match code {
            0 => Operator::PreAssign,
            1 => Operator::PreMul,
            2 => Operator::PreDiv,
            3 => Operator::ModAdd,
            4 => Operator::ModSub,
            5 => Operator::PostMul,
            6 => Operator::PostDiv,
            7 => Operator::PostPercent,
            _ => Operator::PostAssign,
        }
    }
}

/// Whom a modifier touches.
#[derive(Debug, Copy, Clone, PartialEq, Eq, Hash)]
pub enum Func {
    /// Items in the ship, and their charges, that require a skill.
    LocationRequiredSkill = 0,
    /// What is in the location, of a group.
    LocationGroup = 1,
    /// What is in the location.
    Location = 2,
    /// Drones, fighters and charges that require a skill.
    OwnerRequiredSkill = 3,
    /// The object that the domain names.
    Item = 4,
}

/// Which object a modifier starts from.
#[derive(Debug, Copy, Clone, PartialEq, Eq, Hash)]
pub enum Domain {
    /// The object that has the effect.
    Item = 0,
    /// The ship.
    Ship = 1,
    /// The char.
    Char = 2,
    /// An item's charge, or a charge's item.
    Other = 3,
    /// The ship, where it is a structure.
    Structure = 4,
    /// The target of a projected effect: the ship that it is projected on.
    TargetId = 5,
    /// The same.
    Target = 6,
}

/// Where an item sits.
#[derive(Debug, Copy, Clone, PartialEq, Eq, Hash)]
pub enum Slot {
    /// Nowhere that counts: the item is passed over.
    Other = 0,
    /// A high slot.
    High = 1,
    /// A medium slot.
    Medium = 2,
    /// A low slot.
    Low = 3,
    /// A rig slot.
    Rig = 4,
    /// A subsystem slot.
    Subsystem = 5,
    /// A structure's service slot.
    Service = 6,
    /// The drone bay.
    DroneBay = 7,
    /// A fighter tube.
    FighterTube = 8,
    /// The fighter bay.
    FighterBay = 9,
    /// An implant slot.
    Implant = 10,
    /// A booster slot.
    Booster = 11,
}
