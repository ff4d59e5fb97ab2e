//! Several pilots over one book, each with rows of its own in one pool; and pilots that come and go.
use crate::ffi::{self, Answer, Stretches, FREE, LISTS, OBJECTS, PILOTS};
use crate::figures::Figures;
use crate::lists::{Columns, Rooms, States};
use crate::refusal::Refusal;

/// One pool of rows for up to 16 pilots, each with its own stretch of every list, over one book.
///
/// A pilot's result stands until that pilot is calculated again; no pilot can change another's. Stretches do not grow: a pilot whose
/// stretch of a list is too short is refused with [`Refusal::Room`], and wants a longer one.
///
/// ```
/// # use dogma::{Book, Categories, Fit, Pool, Rooms};
/// # let mut book = Book::new(Categories::GAME);
/// # book.attribute("maxVelocity", 37);
/// # book.type_of("hull", 587);
/// # let mut fit = Fit::new();
/// # fit.ship("hull").base("maxVelocity", 200.0);
/// let (book, fit) = (book.write_book()?, fit.write_fit(&book)?);
/// let mut pool = Pool::new(&[(0, Rooms::all(64)), (3, Rooms::all(256))])?;
/// pool.calculate(3, &book, &fit)?;
/// assert_eq!(pool.figures(3).and_then(|figures| figures.value(0, 37)), Some(200.0));
/// # Ok::<(), Box<dyn std::error::Error>>(())
/// ```
#[derive(Debug, Clone)]
pub struct Pool {
    states: Box<[States; PILOTS]>,
    columns: Columns,
    stretches: Stretches,
    // of each pilot what its last answer was, as long as its rows stand in the pool
    answers: [Option<Answer>; PILOTS],
}

impl Pool {
    /// A pool that is as long as the rooms of these pilots (numbers 0 to 15, each once) together.
    pub fn new(pilots: &[(u32, Rooms)]) -> Result<Pool, Refusal> {
        let mut stretches = [[[0; 2]; LISTS]; PILOTS];
        let mut ends = [0u32; LISTS];
        let mut there = [false; PILOTS];
        for &(pilot, rooms) in pilots {
            let seat = there.get_mut(pilot as usize).ok_or(Refusal::NoPilot { pilot: pilot.into() })?;
            if std::mem::replace(seat, true) {
                return Err(Refusal::IsIn { pilot: pilot.into() });
            }
            for (list, room) in rooms.by_list().into_iter().enumerate() {
                stretches[pilot as usize][list] = [ends[list], room];
                ends[list] = ends[list].checked_add(room).ok_or(Refusal::Astray { pilot: pilot.into() })?;
            }
        }
        let [collected, rows, entries, plain, sources] = ends;
        Ok(Pool::with_stretches(Rooms { collected, rows, entries, plain, sources }, stretches))
    }

    /// A pool with this table of stretches, whatever it says: calls answer [`Refusal::Astray`] where it is wrong.
    pub fn with_stretches(rooms: Rooms, stretches: Stretches) -> Pool {
        // made on the heap: 128 KiB are too much for some stacks
        let states: Box<[States]> = vec![[[0; 2]; OBJECTS]; PILOTS].into_boxed_slice();
        let states = states.try_into().unwrap_or_else(|_| Box::new([[[0; 2]; OBJECTS]; PILOTS]));
        Pool { states, columns: Columns::new(rooms), stretches, answers: [None; PILOTS] }
    }

    /// Of each pilot and each list the first row and the length.
    pub fn stretches(&self) -> &Stretches {
        &self.stretches
    }

    /// The pilot's fit over the book. The other pilots' results stand as they were, whatever comes of it.
    pub fn calculate(&mut self, pilot: u32, book: &[u8], fit: &[u8]) -> Result<Figures<'_>, Refusal> {
        let answer = ffi::calculate_pilot(&mut self.states, &mut self.columns, &self.stretches, book, fit, pilot);
        let number = answer.number;
        if number == 12 {
            return Err(if self.seated(pilot) { Refusal::Astray { pilot: answer.place } } else { Refusal::NoStretch { pilot: answer.place } });
        }
        let refusal = Refusal::of_files(number, answer.place);
        if let Some(kept) = self.answers.get_mut(pilot as usize) {
            *kept = (number == 0).then_some(answer);
        }
        self.figures(pilot).ok_or(refusal)
    }

    /// A pilot's last result, if it was not refused.
    pub fn figures(&self, pilot: u32) -> Option<Figures<'_>> {
        let pilot = pilot as usize;
        let answer = (*self.answers.get(pilot)?)?;
        let (states, stretches) = (self.states.get(pilot)?, self.stretches.get(pilot)?);
        let used = std::array::from_fn(|list| {
            let count = answer.counts[list] as usize;
            // a stretch without rows may have any first
            let first = if count == 0 { 0 } else { stretches[list][0] as usize };
            first..first + count
        });
        Some(Figures { lists: self.columns.part(states, used) })
    }

    fn seated(&self, pilot: u32) -> bool {
        self.stretches.get(pilot as usize).is_some_and(|lists| lists.iter().any(|[_, length]| *length > 0))
    }
}

/// A pool whose rows are lent to pilots as they come, and taken back when they go.
///
/// A pilot gets the lowest run of as many free rows as it wants, the same of every list; so admit the long ones first where you can.
/// One whose rows are too few ([`Refusal::Room`]) leaves and is admitted with more.
///
/// ```
/// # use dogma::{Book, Categories, Fit, Hall};
/// # let mut book = Book::new(Categories::GAME);
/// # book.attribute("maxVelocity", 37);
/// # book.type_of("hull", 587);
/// # let mut fit = Fit::new();
/// # fit.ship("hull").base("maxVelocity", 200.0);
/// let (book, fit) = (book.write_book()?, fit.write_fit(&book)?);
/// let mut hall = Hall::new(1024);
/// hall.admit(3, 256)?;
/// assert_eq!(hall.calculate(3, &book, &fit)?.row_count(), 1);
/// hall.leave(3)?;
/// assert_eq!(hall.free(), [[0, 1024]]);
/// # Ok::<(), Box<dyn std::error::Error>>(())
/// ```
#[derive(Debug, Clone)]
pub struct Hall {
    pool: Pool,
    free: [[u32; 2]; FREE],
    count: u32,
    rows: u32,
}

impl Hall {
    /// So many rows of every list, all free.
    pub fn new(rows: u32) -> Hall {
        let whole = [[0, rows]];
        Hall::with_state(rows, [[[0; 2]; LISTS]; PILOTS], if rows > 0 { &whole } else { &[] })
    }

    /// A hall in a state that was kept: the pilots' stretches, and the free ones in order, start and length. Its rows hold nothing yet.
    /// Calls answer [`Refusal::Table`] where it is no state of so many rows.
    pub fn with_state(rows: u32, stretches: Stretches, free: &[[u32; 2]]) -> Hall {
        let mut table = [[0; 2]; FREE];
        table.iter_mut().zip(free).for_each(|(place, stretch)| *place = *stretch);
        // more than there are places is no state: the count says so
        let count = u32::try_from(free.len()).unwrap_or(u32::MAX);
        Hall { pool: Pool::with_stretches(Rooms::all(rows), stretches), free: table, count, rows }
    }

    /// The free stretches, in order: start and length.
    pub fn free(&self) -> &[[u32; 2]] {
        self.free.get(..self.count as usize).unwrap_or(&self.free)
    }

    /// Of each pilot and each list the first row and the length.
    pub fn stretches(&self) -> &Stretches {
        self.pool.stretches()
    }

    /// Lends a pilot the lowest run of so many free rows.
    pub fn admit(&mut self, pilot: u32, rows: u32) -> Result<(), Refusal> {
        let seat = ffi::admit(&mut self.free, &mut self.pool.stretches, self.count, self.rows, pilot, rows);
        self.count = seat.free as u32;
        match seat.number {
            0 => Ok(()),
            12 => Err(Refusal::NoRun { pilot: seat.place }),
            13 if seat.place >= PILOTS as u64 => Err(Refusal::NoPilot { pilot: seat.place }),
            13 => Err(Refusal::IsIn { pilot: seat.place }),
            14 => Err(Refusal::NoRows { pilot: seat.place }),
            18 => Err(Refusal::Table),
            number => Err(Refusal::of(number, seat.place)),
        }
    }

    /// Clears a pilot's rows and takes them back.
    pub fn leave(&mut self, pilot: u32) -> Result<(), Refusal> {
        let Pool { states, columns, stretches, answers } = &mut self.pool;
        let seat = ffi::leave(states, columns, &mut self.free, stretches, self.count, pilot);
        self.count = seat.free as u32;
        match seat.number {
            0 => {
                if let Some(kept) = answers.get_mut(pilot as usize) {
                    *kept = None;
                }
                Ok(())
            }
            13 if seat.place >= PILOTS as u64 => Err(Refusal::NoPilot { pilot: seat.place }),
            13 => Err(Refusal::NotIn { pilot: seat.place }),
            18 => Err(Refusal::Table),
            number => Err(Refusal::of(number, seat.place)),
        }
    }

    /// The pilot's fit over the book. What the other pilots have stays as it was.
    pub fn calculate(&mut self, pilot: u32, book: &[u8], fit: &[u8]) -> Result<Figures<'_>, Refusal> {
        self.pool.calculate(pilot, book, fit)
    }

    /// A pilot's last result since it was admitted, if it was not refused.
    pub fn figures(&self, pilot: u32) -> Option<Figures<'_>> {
        self.pool.figures(pilot)
    }
}
