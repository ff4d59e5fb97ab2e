//! A run's rows as text for a spreadsheet.
use crate::engine::Engine;
use crate::ffi;
use crate::refusal::Refusal;

/// The header record, and the most that a record can have.
const HEADER: usize = 30;
const RECORD: usize = 172;

impl Engine {
    /// A run's rows as comma-separated text by RFC 4180: object, attribute, label, value. Labels are (attribute, label), ids ascending,
    /// each at most 64 bytes of printable ASCII, CR or LF; an attribute without one has an empty field.
    ///
    /// A label that begins with `=`, `+`, `-` or `@` is a formula to some spreadsheet programs; it is given as it is.
    ///
    /// ```
    /// # use dogma::{Book, Categories, Engine, Fit};
    /// # let mut book = Book::new(Categories::GAME);
    /// # book.attribute("maxVelocity", 37);
    /// # book.type_of("hull", 587);
    /// # let mut fit = Fit::new();
    /// # fit.ship("hull").base("maxVelocity", 200.0);
    /// let text = Engine::new().export(&fit.write_sheet(&book)?, &[(37, "Speed, m/s")])?;
    /// assert_eq!(text, "object,attribute,label,value\r\n0,37,\"Speed, m/s\",200.00\r\n");
    /// # Ok::<(), Box<dyn std::error::Error>>(())
    /// ```
    pub fn export(&mut self, sheet: &[u8], labels: &[(i32, &str)]) -> Result<String, Refusal> {
        let mut text = Vec::new();
        let length = self.until_it_fits(|engine| {
            // no record is longer, so the text has room
            text.resize(HEADER + RECORD * engine.rooms().rows as usize, 0);
            engine.exported(&mut text, sheet, labels)
        })?;
        text.truncate(length);
        // the text is ASCII, so that nothing is lost
        Ok(String::from_utf8_lossy(&text).into_owned())
    }

    /// The same into bytes of the caller's: how many of them the text has; the rest are zero, after a refusal all are.
    pub fn export_into(&mut self, text: &mut [u8], sheet: &[u8], labels: &[(i32, &str)]) -> Result<usize, Refusal> {
        self.until_it_fits(|engine| engine.exported(text, sheet, labels))
    }

    fn exported(&mut self, text: &mut [u8], sheet: &[u8], labels: &[(i32, &str)]) -> Result<usize, Refusal> {
        let mut bytes = Vec::new();
        let mut table = Vec::with_capacity(labels.len());
        for (id, label) in labels {
            // a label of over 64 bytes is refused whatever it holds, so 65 of them will do
            let kept = &label.as_bytes()[..label.len().min(65)];
            table.push([*id as u32, u32::try_from(bytes.len()).unwrap_or(u32::MAX), kept.len() as u32]);
            bytes.extend_from_slice(kept);
        }
        let exported = ffi::export(text, &mut self.states, &mut self.columns, &table, &bytes, sheet);
        match exported.answer.number {
            0 => Ok(exported.length as usize),
            16 => Err(Refusal::Label { label: exported.answer.place }),
            number => Err(Refusal::of(number, exported.answer.place)),
        }
    }
}
