//! What a board holds (01 "The board that is built", 02 R-1, R-4 and R-7) and what its registers say (01 "Register
//! fields"). Only 01's table of fields is here; both ways of drawing read it and share nothing else.

pub const MEMORY: usize = 16384;
pub const FONT_WORDS: usize = 1152;
pub const FONT_FLAGS: usize = 128;
pub const FONT_LIST: usize = 9;
/// "sixteen group numbers", where a font has any
pub const FONT_GROUPS: usize = 16;

#[derive(Clone, Copy, PartialEq, Eq, Debug, Default)]
pub struct Page {
    /// In a board any byte; one that is neither 1, 2 nor 3 counts as 1.
    pub version: u8,
    pub irs: [u8; 15],
    pub start1: u16,
    pub cursor: u16,
    pub start2: u16,
    pub switches: u8,
    pub dots: u32,
    pub strike: u8,
    /// In a board any byte; it counts in version 3 alone.
    pub chip: u8,
}

#[derive(Clone, Copy, PartialEq, Eq, Debug, Default)]
pub struct Place {
    pub field: u8,
    pub line: u32,
    pub clock: u32,
    pub address: u16,
    /// The attribute byte that is valid now, 0 for none.
    pub latch: u8,
    pub row_start: u16,
    /// The one that the row began with.
    pub row_latch: u8,
    /// "the row's code, kept with its row start". Any byte may be handed over; the two low bits count.
    pub row_code: u8,
}

#[derive(Clone, Copy, PartialEq, Eq, Debug, Default)]
pub struct Board {
    pub page: Page,
    pub place: Place,
    pub pointer: u8,
    pub resets: u8,
}

/// What a drawing call is lent beside the board.
#[derive(Clone, Copy)]
pub struct Lent<'a> {
    pub chars: &'a [u8],
    pub attrs: &'a [u8],
    pub font: Font<'a>,
}

#[derive(Clone, Copy)]
pub struct Font<'a> {
    pub words: &'a [u16],
    pub flags: &'a [u8],
    pub unshifted: &'a [u8],
    pub shifted: &'a [u8],
    /// Of a version 1 font none, of version 2 one for each scan line.
    pub groups: &'a [u8],
}

impl Board {
    /// "Power gives zeros throughout"; R-1: "a board keeps its page's version, 1 after power"
    pub fn power() -> Board {
        Board { page: Page::power(), ..Board::default() }
    }

    /// "A page read gives an active board at clock 0, pointer at IR0."
    pub fn of_page(page: Page) -> Board {
        Board { page, resets: 2, ..Board::default() }
    }

    /// "After power the board is inactive until two master resets in a row"
    pub fn active(&self) -> bool {
        self.resets >= 2
    }

    /// "an inactive board steps and draws with its display off"
    pub fn display_on(&self) -> bool {
        self.active() && self.page.display_switch()
    }
}

impl Page {
    pub fn power() -> Page {
        Page { version: 1, ..Page::default() }
    }

    fn ir(&self, number: usize, high: u32, low: u32) -> u32 {
        (u32::from(self.irs[number]) >> low) & ((1 << (high - low + 1)) - 1)
    }

    /// "while IR0[7] is set, the two upper bits of a row table entry are the row's code"
    pub fn rows_have_codes(&self) -> bool {
        self.ir(0, 7, 7) == 1
    }
    pub fn lines_per_row(&self) -> u32 {
        self.ir(0, 6, 3) + 1
    }
    pub fn interlace(&self) -> bool {
        self.ir(1, 7, 7) == 1
    }
    pub fn ec(&self) -> u32 {
        self.ir(1, 6, 0) + 1
    }
    pub fn row_table_on(&self) -> bool {
        self.ir(2, 7, 7) == 1
    }
    pub fn hsync(&self) -> u32 {
        2 * self.ir(2, 6, 3) + 2
    }
    pub fn hbp_code(&self) -> u32 {
        self.ir(2, 2, 0)
    }
    /// "HBP 4n-1, code 0 refused": -1 at the refused code.
    pub fn hbp(&self) -> i32 {
        4 * self.hbp_code() as i32 - 1
    }
    pub fn vfp(&self) -> u32 {
        4 * self.ir(3, 7, 5) + 4
    }
    pub fn vbp(&self) -> u32 {
        2 * self.ir(3, 4, 0) + 4
    }
    pub fn blink_fields(&self) -> u32 {
        if self.ir(4, 7, 7) == 0 {
            64
        } else {
            128
        }
    }
    pub fn rows(&self) -> u32 {
        self.ir(4, 6, 0) + 1
    }
    pub fn hact(&self) -> u32 {
        self.ir(5, 7, 0) + 1
    }
    pub fn cursor_first(&self) -> u32 {
        self.ir(6, 7, 4)
    }
    pub fn cursor_last(&self) -> u32 {
        self.ir(6, 3, 0)
    }
    /// "VSYNC 3, 1, 5, 7"
    pub fn vsync(&self) -> u32 {
        [3, 1, 5, 7][self.ir(7, 7, 6) as usize]
    }
    pub fn cursor_blinks(&self) -> bool {
        self.ir(7, 5, 5) == 1
    }
    pub fn cursor_fields(&self) -> u32 {
        if self.ir(7, 4, 4) == 0 {
            32
        } else {
            64
        }
    }
    pub fn underline_line(&self) -> u32 {
        self.ir(7, 3, 0)
    }
    /// "IR8, IR9[3:0]: first buffer address, 12 bits"
    pub fn first_address(&self) -> u16 {
        (self.ir(9, 3, 0) * 256 + self.ir(8, 7, 0)) as u16
    }
    /// "IR9[7:4]: last buffer address 1024(n+1)-1"
    pub fn last_address(&self) -> u16 {
        (1024 * (self.ir(9, 7, 4) + 1) - 1) as u16
    }

    /// "switches (bit 0 display, 1 cursor, 2 BKGND, 3 RBLANK, others 0)"
    pub fn display_switch(&self) -> bool {
        self.switches & 1 != 0
    }
    pub fn cursor_on(&self) -> bool {
        self.switches & 2 != 0
    }
    pub fn bkgnd(&self) -> bool {
        self.switches & 4 != 0
    }
    pub fn rblank(&self) -> bool {
        self.switches & 8 != 0
    }
    /// "Field mode and ACD are switches 4 and 5 of page file version 2"; version 1 "means character mode". R-7:
    /// "version 3 is version 2 with one more byte"
    pub fn field_mode(&self) -> bool {
        self.known_version() >= 2 && self.switches & 16 != 0
    }
    pub fn acd(&self) -> bool {
        self.switches & 32 != 0
    }
    /// What the version counts as, and what numbers and files of the page say.
    pub fn known_version(&self) -> u8 {
        match self.version {
            2 | 3 => self.version,
            _ => 1,
        }
    }
    /// "0 for A and 1 for B; versions 1 and 2 are still read and mean A"
    pub fn is_chip_b(&self) -> bool {
        self.known_version() == 3 && self.chip == 1
    }

    /// "clocks per line HT = 2(EC + 2 HSYNC)"
    pub fn ht(&self) -> u32 {
        2 * (self.ec() + 2 * self.hsync())
    }
    /// "HFP = HT - HACT - HSYNC - HBP"
    pub fn hfp(&self) -> i32 {
        self.ht() as i32 - self.hact() as i32 - self.hsync() as i32 - self.hbp()
    }
    pub fn visible_lines(&self) -> u32 {
        self.rows() * self.lines_per_row()
    }
    /// "Lines per frame VT = rows x lines + VFP + VSYNC + VBP"
    pub fn vt(&self) -> u32 {
        self.visible_lines() + self.vfp() + self.vsync() + self.vbp()
    }
    pub fn frame_clocks(&self) -> u32 {
        self.ht() * self.vt()
    }
    /// "HACT x dots bytes in all"
    pub fn line_dots(&self) -> usize {
        self.hact() as usize * self.dots as usize
    }
    /// All visible lines, end to end.
    pub fn picture_dots(&self) -> usize {
        self.visible_lines() as usize * self.line_dots()
    }
}
