//! One sheet at a time.
use crate::ffi::{self, Answer, OBJECTS};
use crate::figures::Figures;
use crate::lists::{Columns, Rooms, States};
use crate::refusal::Refusal;

/// Calculates sheets, in lists of its own that serve again from sheet to sheet. Each thread has its own.
///
/// No bound by the tables' limits could be lent, and the engine does not tell beforehand how many rows it will use. So a list that is
/// full is made twice as long and the sheet is calculated again, until it fits or the list has grown to its most: with [`Engine::new`]
/// from 1,024 rows to 1,048,576 in each list (228 MiB in all). What is grown stays, so that only the first such sheet pays for it.
#[derive(Debug, Clone)]
pub struct Engine {
    pub(crate) states: Box<States>,
    pub(crate) columns: Columns,
    rooms: Rooms,
    most: Rooms,
}

impl Default for Engine {
    fn default() -> Engine {
        Engine::new()
    }
}

impl Engine {
    /// Lists that grow as they must.
    pub fn new() -> Engine {
        Engine::growing(Rooms::all(1 << 10), Rooms::all(1 << 20))
    }

    /// Lists of a fixed length: what does not fit is refused with [`Refusal::Room`].
    pub fn with_rooms(rooms: Rooms) -> Engine {
        Engine::growing(rooms, rooms)
    }

    /// Lists that grow from one length to another.
    pub fn growing(rooms: Rooms, most: Rooms) -> Engine {
        Engine { states: Box::new([[0; 2]; OBJECTS]), columns: Columns::new(rooms), rooms, most }
    }

    /// How long the lists are now.
    pub fn rooms(&self) -> Rooms {
        self.rooms
    }

    /// Every attribute's value, or why there is none.
    pub fn calculate(&mut self, sheet: &[u8]) -> Result<Figures<'_>, Refusal> {
        let answer = self.until_it_fits(|engine| {
            let answer = ffi::calculate(&mut engine.states, &mut engine.columns, sheet);
            match answer.number {
                0 => Ok(answer),
                number => Err(Refusal::of(number, answer.place)),
            }
        })?;
        Ok(self.figures(answer))
    }

    /// Calls again with longer lists as long as one is full and may grow.
    pub(crate) fn until_it_fits<T>(&mut self, mut call: impl FnMut(&mut Engine) -> Result<T, Refusal>) -> Result<T, Refusal> {
        loop {
            match call(self) {
                Err(Refusal::Room { list }) if self.grow(list) => (),
                answer => return answer,
            }
        }
    }

    fn grow(&mut self, list: crate::refusal::List) -> bool {
        let (mut rooms, mut most) = (self.rooms, self.most);
        let (Some(room), Some(most)) = (rooms.of(list), most.of(list)) else { return false };
        if *room >= *most {
            return false;
        }
        *room = room.saturating_mul(2).clamp(1, *most);
        self.rooms = rooms;
        self.columns = Columns::new(rooms);
        true
    }

    pub(crate) fn figures(&self, answer: Answer) -> Figures<'_> {
        Figures { lists: self.columns.part(&self.states, answer.counts.map(|count| 0..count as usize)) }
    }
}
