//! Random numbers from a fixed seed, random pages that a board accepts, random groups, and random lists of phrases.

use crate::board::{Page, Place, FONT_GROUPS};
use crate::judge;
use crate::records::Phrase;

pub struct Dice(u64);

impl Dice {
    /// The same for a seed and a number for ever, so that one script can be made again alone.
    pub fn new(seed: u64, number: u64) -> Dice {
        Dice(seed.wrapping_mul(0x9E37_79B9_7F4A_7C15) ^ number.wrapping_mul(0xD1B5_4A32_D192_ED03))
    }

    fn next(&mut self) -> u64 {
        self.0 = self.0.wrapping_add(0x9E37_79B9_7F4A_7C15);
        let mixed = (self.0 ^ self.0 >> 30).wrapping_mul(0xBF58_476D_1CE4_E5B9);
        let mixed = (mixed ^ mixed >> 27).wrapping_mul(0x94D0_49BB_1331_11EB);
        mixed ^ mixed >> 31
    }

    pub fn between(&mut self, least: u32, most: u32) -> u32 {
        (u64::from(least) + self.next() % (u64::from(most - least) + 1)) as u32
    }

    pub fn byte(&mut self) -> u8 {
        self.next() as u8
    }

    pub fn seed(&mut self) -> u32 {
        self.between(1, u32::MAX)
    }

    pub fn one_in(&mut self, times: u32) -> bool {
        self.between(1, times) == 1
    }

    pub fn pick<T: Copy>(&mut self, from: &[T]) -> T {
        from[self.between(0, from.len() as u32 - 1) as usize]
    }
}

/// How large a page shall be.
#[derive(Clone, Copy)]
pub struct Shape {
    pub hact: u32,
    pub rows: u32,
    pub lines: u32,
    pub dots: u32,
}

impl Shape {
    pub fn small(dice: &mut Dice) -> Shape {
        Shape {
            hact: dice.between(1, 24),
            rows: dice.between(1, 5),
            lines: dice.between(1, 16),
            dots: dice.between(6, 12),
        }
    }
}

/// A page of this shape, accepted, display on, everything else as it falls.
pub fn page(dice: &mut Dice, shape: Shape) -> Page {
    loop {
        let mut page = registers(dice, shape);
        page.start1 = dice.between(0, 16383) as u16;
        page.cursor = dice.between(0, 16383) as u16;
        page.start2 = dice.between(0, 16383) as u16;
        page.switches = 1 | dice.pick(&[0, 2, 2, 2]) | dice.pick(&[0, 4, 8, 12]);
        page.version = dice.pick(&[1, 2, 3, 3]);
        page.switches |= match page.version {
            1 => 0,
            // field mode without and with ACD, seldom character mode
            2 => dice.pick(&[0x10, 0x10, 0x10, 0x30, 0x30, 0x30, 0x00, 0x20]),
            _ => dice.pick(&[0x10, 0x30, 0x00, 0x20]),
        };
        page.chip = u8::from(page.version == 3 && !dice.one_in(4));
        page.dots = shape.dots;
        page.strike = dice.between(0, shape.lines.min(15)) as u8;
        if !judge::first(&judge::page(&page)).refused() {
            return page;
        }
    }
}

/// The page as version 1 has it.
pub fn in_version_1(page: Page) -> Page {
    Page { version: 1, switches: page.switches & 0x0F, chip: 0, ..page }
}

/// In a version that has it.
pub fn in_field_mode(page: Page, acd: bool) -> Page {
    let switches = page.switches & 0x0F | 0x10 | u8::from(acd) << 5;
    Page { version: page.version.max(2), switches, ..page }
}

/// The page in version 2 or, with chip B, in version 3, with these of switches 4 and 5.
fn in_mode(page: Page, chip_b: bool, upper: u8) -> Page {
    let (version, chip) = if chip_b { (3, 1) } else { (2, 0) };
    Page { version, switches: page.switches & 0x0F | upper, chip, ..page }
}

/// For each chip character mode, of A in both versions that have it alone, and field mode without and with ACD.
pub const MODES: [fn(Page) -> Page; 8] = [
    in_version_1,
    |page| in_mode(page, false, 0x20),
    |page| in_mode(page, false, 0x10),
    |page| in_mode(page, false, 0x30),
    |page| in_mode(page, true, 0x00),
    |page| in_mode(page, true, 0x20),
    |page| in_mode(page, true, 0x10),
    |page| in_mode(page, true, 0x30),
];

/// Any mode.
pub fn any_mode(dice: &mut Dice) -> usize {
    dice.between(0, MODES.len() as u32 - 1) as usize
}

/// Groups that a font may have, one for each scan line.
pub fn groups(dice: &mut Dice) -> [u8; FONT_GROUPS] {
    [0; FONT_GROUPS].map(|_| dice.between(0, 4) as u8)
}

/// Row table on, and its entries have codes.
pub fn with_codes(mut page: Page) -> Page {
    page.irs[0] |= 0x80;
    page.irs[2] |= 0x80;
    page
}

/// With codes one time in so many.
pub fn some_with_codes(dice: &mut Dice, times: u32, page: Page) -> Page {
    if dice.one_in(times) {
        with_codes(page)
    } else {
        page
    }
}

/// IR1 has the least EC that leaves a front porch of 2 or 3, or some more. Bits that 01 ignores are set at random.
fn registers(dice: &mut Dice, shape: Shape) -> Page {
    let mut page = Page::power();
    page.irs.iter_mut().for_each(|ir| *ir = dice.byte());
    page.irs[0] = page.irs[0] & 7 | ((shape.lines - 1) << 3) as u8;
    page.irs[2] = dice.pick(&[0, 0, 1, 2, page.irs[2] >> 4]) << 3 | (page.irs[2] % 7 + 1);
    page.irs[3] = if dice.one_in(6) { page.irs[3] } else { dice.pick(&[0x00, 0x20, 0x01, 0x02]) };
    page.irs[4] = page.irs[4] & 0x80 | (shape.rows - 1) as u8;
    page.irs[5] = (shape.hact - 1) as u8;
    let least = (shape.hact + page.hsync() + page.hbp() as u32 + 3) / 2;
    let ec = least.saturating_sub(2 * page.hsync()).max(1) + dice.pick(&[0, 0, 0, 1, 4, 30]);
    page.irs[1] = (ec - 1).min(127) as u8;
    if dice.one_in(2) {
        // a cursor that can be seen on a low row
        page.irs[6] = dice.between(0, 3) as u8 * 16 + dice.between(0, 15) as u8;
        page.irs[7] = page.irs[7] & 0xF0 | dice.between(0, shape.lines - 1) as u8;
    }
    page
}

/// Any place in range, with any latches and row code.
pub fn any_place(dice: &mut Dice, page: &Page) -> Place {
    Place {
        field: dice.byte(),
        line: dice.between(0, page.vt() - 1),
        clock: dice.between(0, page.ht() - 1),
        address: dice.between(0, 16383) as u16,
        latch: dice.byte(),
        row_start: dice.between(0, 16383) as u16,
        row_latch: dice.byte(),
        row_code: dice.byte(),
    }
}

/// The page with these buffer bounds and screen start 1.
pub fn in_buffer(mut page: Page, first: u16, last: u16, start1: u16) -> Page {
    page.irs[8] = (first % 256) as u8;
    page.irs[9] = (last / 1024) as u8 * 16 + (first / 256) as u8;
    Page { start1, ..page }
}

/// Where a page's cells lie: buffer bounds and screen start 1.
pub fn place_cells(dice: &mut Dice, page: &mut Page) {
    let last_code = dice.pick(&[0, 0, 1, 2, 3, 7, 15, 15]);
    let last = 1024 * (u32::from(last_code) + 1) - 1;
    let cells = page.hact() * page.rows();
    let near = |dice: &mut Dice, end: u32| (end + 16384 - dice.between(0, cells)) % 16384;
    let (first, start) = match dice.between(0, 4) {
        0 => {
            // the page runs over the end of its own buffer
            let first = dice.between(0, last.min(4095));
            (first, near(dice, last).max(first).min(last))
        }
        1 => {
            // the first buffer address lies above the last
            let first = dice.between(last.min(4094) + 1, 4095);
            (first, dice.pick(&[last.saturating_sub(5), first, 16383, 16380, 0]))
        }
        2 => (dice.between(0, 4095), near(dice, 16383)),
        3 => (dice.between(last.min(4095).saturating_sub(3), last.min(4095)), near(dice, last)),
        _ => (dice.between(0, 4095), dice.between(0, 16383)),
    };
    page.irs[8] = (first % 256) as u8;
    page.irs[9] = last_code << 4 | (first / 256) as u8;
    page.start1 = start as u16;
}

/// A list of phrases about the cells that a row fetches. In every second list records of one name are equal, and in every fourth
/// one record is refused.
pub fn phrases_about(dice: &mut Dice, cells: &[u16]) -> Vec<Phrase> {
    let equal = dice.one_in(2);
    let mut list: Vec<Phrase> = Vec::new();
    for number in 0..dice.pick(&[0, 1, 1, 2, 3, 5, 8, 20, 60]) {
        let (from, to) = stretch(dice, cells);
        let fresh = Phrase::over(dice.between(1, 3), if equal { number } else { dice.between(0, 9) }, from, to);
        let again = !list.is_empty() && dice.one_in(4);
        list.push(if again { dice.pick(&list) } else { fresh });
    }
    if !list.is_empty() && dice.one_in(4) {
        let at = dice.between(0, list.len() as u32 - 1) as usize;
        let (first, length) = refused_stretch(dice);
        list[at] = Phrase { first, length, ..list[at] };
    }
    list
}

/// The first and the last cell of a record: often the row's lowest and highest, or cells beside them.
fn stretch(dice: &mut Dice, cells: &[u16]) -> (u32, u32) {
    let low = cells.iter().copied().min().map_or(0, u32::from);
    let high = cells.iter().copied().max().map_or(0, u32::from);
    let beside = |dice: &mut Dice, cell: u32| (cell + dice.between(0, 4)).saturating_sub(2).min(16383);
    let (a, b) = match dice.between(0, 6) {
        0 | 1 => (low, high),
        2 | 3 => (beside(dice, low), beside(dice, high)),
        4 => (dice.between(low, high), dice.pick(&[low, high])),
        5 => (dice.between(0, low), dice.between(high, 16383)),
        _ => (dice.between(0, 16383), dice.between(0, 16383)),
    };
    (a.min(b), a.max(b))
}

/// First cell and length of a record that no list may have.
fn refused_stretch(dice: &mut Dice) -> (u32, u32) {
    let first = dice.between(0, 16383);
    let any = dice.seed();
    dice.pick(&[
        (first, 0),
        (first, 16384 - first + 1),
        (first, u32::MAX),
        (16384, 1),
        (u32::MAX, first + 1),
        (u32::MAX - first, first + 2),
        (any | 0x4000, any),
    ])
}
