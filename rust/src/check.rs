//! Another planner's figures, held to the rules to the last bit.
use crate::engine::Engine;
use crate::ffi;
use crate::figures::Figures;
use crate::refusal::Refusal;

/// A line of another planner's listing.
#[derive(Debug, Copy, Clone, PartialEq)]
pub struct Listed {
    /// The object's number.
    pub object: u32,
    /// The attribute's id.
    pub attribute: i32,
    /// Its value; it is judged by its bits, so that -0.0 is not 0.0.
    pub value: f64,
}

impl Listed {
    fn line(&self) -> [u32; 4] {
        let bits = self.value.to_bits();
        [self.object, self.attribute as u32, bits as u32, (bits >> 32) as u32]
    }
}

impl Engine {
    /// Holds a listing against the rules: every row once, by object, then by attribute, and each value what the rules give from the other
    /// listed values. Where it is accepted it is that of every run of the sheet, whatever its asks, depth and recording; the figures are
    /// the listed ones, without source rows.
    pub fn check(&mut self, sheet: &[u8], listing: &[Listed]) -> Result<Figures<'_>, Refusal> {
        let lines: Vec<[u32; 4]> = listing.iter().map(Listed::line).collect();
        let answer = self.until_it_fits(|engine| {
            // scratch, a column of list 2
            let mut work = vec![[0; 4]; engine.rooms().rows as usize];
            let answer = ffi::check(&mut engine.states, &mut engine.columns, &mut work, sheet, &lines);
            match answer.number {
                0 => Ok(answer),
                10 => Err(Refusal::Loop { object: answer.place }),
                15 => Err(Refusal::Listing { line: answer.place }),
                number => Err(Refusal::of(number, answer.place)),
            }
        })?;
        Ok(self.figures(answer))
    }
}
