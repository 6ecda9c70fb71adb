//! For the order `frame`: the cells of a frame for which bit 5 holds, strike on chip A and graphics on chip B, and with
//! what else.

use crate::board::{Lent, Page, Place};
use crate::machine::Shown;

/// Groups 0 to 4, and none lent.
const GROUPS: usize = 6;
const NO_GROUPS: usize = 5;

/// A code on a scan line, in one group.
const SHAPES: usize = 256 * 16;

pub struct Bit5 {
    /// By the code of the row.
    codes: [u32; 4],
    /// Which shapes were shown, by the group of the scan line.
    shapes: [Vec<bool>; GROUPS],
    /// Reverse, blank, blink, underline and highlight; under the cursor; on the strike line; in field mode a cell that
    /// sets attributes, with ACD low, and one for which they run on.
    with: [u32; 9],
}

impl Default for Bit5 {
    fn default() -> Bit5 {
        Bit5 { codes: [0; 4], shapes: [(); GROUPS].map(|_| vec![false; SHAPES]), with: [0; 9] }
    }
}

impl Bit5 {
    /// A step that began at a place of a line that shows a row, and ended at another.
    pub fn step(&mut self, page: &Page, lent: &Lent, before: Place, shown: &Shown, after: Place) {
        let own = lent.attrs[usize::from(shown.address)];
        let valid = if page.field_mode() { after.latch } else { own };
        if shown.signals.blank || valid & 0xA0 != 0xA0 {
            return;
        }
        let row_code = usize::from(after.row_code % 4);
        let (lines, own_line) = (page.lines_per_row(), before.line % page.lines_per_row());
        let line = [own_line, own_line, own_line / 2, (lines + own_line) / 2][row_code];
        let sets = page.field_mode() && !page.acd() && own >= 128;
        self.codes[row_code] += 1;
        let has = |bit: u32| valid >> bit & 1 == 1;
        let with = [
            has(0),
            has(1),
            has(2),
            has(3) && line == page.underline_line(),
            has(4),
            shown.signals.cursor,
            line == u32::from(page.strike),
            sets,
            page.field_mode() && own < 128,
        ];
        self.with.iter_mut().zip(with).for_each(|(count, holds)| *count += u32::from(holds));
        if !sets {
            let group = lent.font.groups.get(line as usize).map_or(NO_GROUPS, |&group| usize::from(group));
            self.shapes[group][usize::from(lent.chars[usize::from(shown.address)]) * 16 + line as usize] = true;
        }
    }

    pub fn text(&self) -> String {
        let shapes =
            [0, 1, 2, 3, 4, 5].map(|group: usize| self.shapes[group].iter().filter(|&&met| met).count() as u32);
        let counts = [("bit5", &self.codes[..]), ("shapes", &shapes), ("with", &self.with)];
        let words = |numbers: &[u32]| numbers.iter().map(|number| format!(" {}", number)).collect::<String>();
        counts.iter().map(|(name, numbers)| format!(" {}{}", name, words(numbers))).collect()
    }
}
