// Stand-ins for the slots and states of a fit.
#[derive(Debug, Copy, Clone, PartialEq)]
pub enum Slot {
    High(u8),
    Medium(u8),
    Low(u8),
    Rig(u8),
    Subsystem(u8),
    Service(u8),
    DroneBay,
    FighterTube(u8),
    FighterBay,
    Implant(u8),
    Booster(u8),
}

impl Slot {
    // The sheet's code; 0 is none or another.
    pub fn of_code(code: u32) -> Option<Slot> {
        match code {
            1 => Some(Slot::High(0)),
            2 => Some(Slot::Medium(0)),
            3 => Some(Slot::Low(0)),
            4 => Some(Slot::Rig(0)),
            5 => Some(Slot::Subsystem(0)),
            6 => Some(Slot::Service(0)),
            7 => Some(Slot::DroneBay),
            8 => Some(Slot::FighterTube(0)),
            9 => Some(Slot::FighterBay),
            10 => Some(Slot::Implant(0)),
            11 => Some(Slot::Booster(0)),
            _ => None,
        }
    }
}

#[derive(Debug, Copy, Clone, PartialEq)]
pub enum State {
    Offline,
    Online,
    Active,
    Overload,
}
