//! The ten tables of a sheet as columns: written as bytes, and read back.
use crate::ffi::{self, Written};
use crate::refusal::{Part, Refusal};

/// The ten tables, a row for each record, its numbers in the order of docs/FORMAT.md's fields (section 13); a signed number goes by its
/// 32 bits, a record's float stands in a column beside. [`Book`](crate::Book) and [`Fit`](crate::Fit) make them by name.
#[derive(Debug, Clone, PartialEq, Default)]
pub struct Tables {
    /// The category numbers of modules, subsystems and structure modules; depth; recording.
    pub header: [u32; 5],
    /// Table 1: id, flags, min attribute, max attribute.
    pub attributes: Vec<[u32; 4]>,
    /// Table 1's floats: the base where an object lacks the attribute.
    pub defaults: Vec<f64>,
    /// Table 2: id, category, resistance, usage chance, first and count in table 3.
    pub effects: Vec<[u32; 6]>,
    /// Table 3: func, domain, operation, modifying, modified, skill type, group.
    pub modifiers: Vec<[u32; 7]>,
    /// Table 4: type, effect, default.
    pub type_effects: Vec<[u32; 3]>,
    /// Table 5: id, operation, first and count in table 3.
    pub buff_collections: Vec<[u32; 4]>,
    /// Table 6: kind, type, group, category, slot, quantity, state, max state, flags, mutation base, projected effect, then first and
    /// count of base attributes, abilities and side effects.
    pub objects: Vec<[u32; 17]>,
    /// Table 7: attribute.
    pub base_attributes: Vec<u32>,
    /// Table 7's floats.
    pub base_values: Vec<f64>,
    /// Table 8: effects, as abilities or side effects of objects.
    pub ids: Vec<u32>,
    /// Table 9: buff.
    pub buffs: Vec<u32>,
    /// Table 9's floats.
    pub buff_values: Vec<f64>,
    /// Table 10: object, attribute.
    pub asks: Vec<[u32; 2]>,
}

const SHEET_HEADER: usize = 100;
const BOOK_HEADER: usize = 52;
const FIT_HEADER: usize = 48;
/// Bytes a record of each table.
const WIDTHS: [usize; 10] = [24, 24, 28, 12, 16, 68, 12, 4, 12, 8];

impl Tables {
    fn lengths(&self) -> [usize; 10] {
        let counts = [
            self.attributes.len(),
            self.effects.len(),
            self.modifiers.len(),
            self.type_effects.len(),
            self.buff_collections.len(),
            self.objects.len(),
            self.base_attributes.len(),
            self.ids.len(),
            self.buffs.len(),
            self.asks.len(),
        ];
        std::array::from_fn(|table| counts[table].saturating_mul(WIDTHS[table]))
    }

    /// How many bytes the sheet has.
    pub fn sheet_length(&self) -> usize {
        SHEET_HEADER + self.lengths().iter().sum::<usize>()
    }

    /// How many bytes the book's file has.
    pub fn book_length(&self) -> usize {
        BOOK_HEADER + self.lengths()[..5].iter().sum::<usize>()
    }

    /// How many bytes the fit's file has.
    pub fn fit_length(&self) -> usize {
        FIT_HEADER + self.lengths()[5..].iter().sum::<usize>()
    }

    /// The sheet's bytes. What is refused is just what reading the sheet would refuse with SHAPE.
    pub fn write_sheet(&self) -> Result<Vec<u8>, Refusal> {
        owned(self.sheet_length(), |bytes| self.write_sheet_into(bytes))
    }

    /// The book's file: tables 1 to 5.
    pub fn write_book(&self) -> Result<Vec<u8>, Refusal> {
        owned(self.book_length(), |bytes| self.write_book_into(bytes))
    }

    /// The fit's file: tables 6 to 10.
    pub fn write_fit(&self) -> Result<Vec<u8>, Refusal> {
        owned(self.fit_length(), |bytes| self.write_fit_into(bytes))
    }

    /// The sheet into bytes of the caller's: how many were written; those behind are zero, after a refusal all are.
    pub fn write_sheet_into(&self, bytes: &mut [u8]) -> Result<usize, Refusal> {
        done(ffi::write_sheet(bytes, &self.header, self), Part::Sheet)
    }

    /// The same of the book's file.
    pub fn write_book_into(&self, bytes: &mut [u8]) -> Result<usize, Refusal> {
        let [module, subsystem, structure_module, ..] = self.header;
        done(ffi::write_book(bytes, &[module, subsystem, structure_module], self), Part::Book)
    }

    /// The same of the fit's file.
    pub fn write_fit_into(&self, bytes: &mut [u8]) -> Result<usize, Refusal> {
        let [.., depth, recording] = self.header;
        done(ffi::write_fit(bytes, &[depth, recording], self), Part::Fit)
    }

    /// A sheet's bytes as tables, or the refusal that the engine has for them. Written again they are the same bytes.
    ///
    /// ```
    /// # use dogma::{Book, Categories, Fit, Tables};
    /// # let mut book = Book::new(Categories::GAME);
    /// # book.attribute("maxVelocity", 37);
    /// # book.type_of("hull", 587);
    /// # let mut fit = Fit::new();
    /// # fit.ship("hull").base("maxVelocity", 200.0);
    /// let sheet = fit.write_sheet(&book)?;
    /// let mut tables = Tables::read_sheet(&sheet)?;
    /// assert_eq!(tables.write_sheet()?, sheet);
    /// tables.base_values[0] = 250.0;
    /// assert_ne!(tables.write_sheet()?, sheet);
    /// # Ok::<(), Box<dyn std::error::Error>>(())
    /// ```
    pub fn read_sheet(bytes: &[u8]) -> Result<Tables, Refusal> {
        let header_bad = Refusal::Shape { part: Part::Sheet, table: 0 };
        let tables = cut(bytes).ok_or(header_bad)?;
        // the library itself judges the tables, by writing them; what is not the same then is in the header
        if tables.write_sheet()? != bytes {
            return Err(header_bad);
        }
        Ok(tables)
    }
}

/// Bytes that are just long enough.
fn owned(length: usize, write: impl FnOnce(&mut [u8]) -> Result<usize, Refusal>) -> Result<Vec<u8>, Refusal> {
    let mut bytes = vec![0; length];
    let length = write(&mut bytes)?;
    bytes.truncate(length);
    Ok(bytes)
}

fn done(written: Written, part: Part) -> Result<usize, Refusal> {
    match (written.number, part) {
        (0, _) => Ok(written.length as usize),
        (number, Part::Sheet) => Err(Refusal::of(number, written.place)),
        (number, _) => Err(Refusal::of_files(number, written.place)),
    }
}

/// The records that the header's counts and offsets name, where they are the sheet's.
fn cut(bytes: &[u8]) -> Option<Tables> {
    let mut rest = bytes.get(SHEET_HEADER..)?;
    let mut at = SHEET_HEADER;
    let mut parts: [&[u8]; 10] = [&[]; 10];
    for (table, part) in parts.iter_mut().enumerate() {
        let (count, offset) = (number(bytes, 8 * table)? as usize, number(bytes, 8 * table + 4)? as usize);
        let length = count.checked_mul(WIDTHS[table])?;
        if offset != at || length > rest.len() {
            return None;
        }
        (*part, rest) = rest.split_at(length);
        at += length;
    }
    if !rest.is_empty() {
        return None;
    }
    let [attributes, effects, modifiers, type_effects, buff_collections, objects, bases, ids, buffs, asks] = parts;
    let header = std::array::from_fn(|field| number(bytes, 80 + 4 * field).unwrap_or(0));
    Some(Tables {
        header,
        // the default stands behind the flags, at 8
        attributes: attributes.chunks_exact(24).filter_map(|r| Some([number(r, 0)?, number(r, 4)?, number(r, 16)?, number(r, 20)?])).collect(),
        defaults: attributes.chunks_exact(24).filter_map(|r| float(r, 8)).collect(),
        effects: rows(effects),
        modifiers: rows(modifiers),
        type_effects: rows(type_effects),
        buff_collections: rows(buff_collections),
        objects: rows(objects),
        base_attributes: bases.chunks_exact(12).filter_map(|r| number(r, 0)).collect(),
        base_values: bases.chunks_exact(12).filter_map(|r| float(r, 4)).collect(),
        ids: ids.chunks_exact(4).filter_map(|r| number(r, 0)).collect(),
        buffs: buffs.chunks_exact(12).filter_map(|r| number(r, 0)).collect(),
        buff_values: buffs.chunks_exact(12).filter_map(|r| float(r, 4)).collect(),
        asks: rows(asks),
    })
}

fn number(bytes: &[u8], at: usize) -> Option<u32> {
    bytes.get(at..at + 4)?.try_into().ok().map(u32::from_le_bytes)
}

fn float(bytes: &[u8], at: usize) -> Option<f64> {
    bytes.get(at..at + 8)?.try_into().ok().map(f64::from_le_bytes)
}

/// Records of numbers alone.
fn rows<const WIDTH: usize>(bytes: &[u8]) -> Vec<[u32; WIDTH]> {
    bytes.chunks_exact(4 * WIDTH).map(|record| std::array::from_fn(|field| number(record, 4 * field).unwrap_or(0))).collect()
}
