//! For the order `moves`: what a move may change, and what a page shows before and after it.

use std::ops::Range;

use crate::board::Lent;
use crate::calls;
use crate::files::page_of_numbers;
use crate::judge::Refusal;
use crate::machine::{self, Shown};
use crate::script::{Buffers, Sum};

/// Where the numbers have IR2, screen start 1 and screen start 2.
const IR2: usize = 3;
const START1: Range<usize> = 16..18;
const START2: Range<usize> = 20..22;

/// What a move is lent to change.
#[derive(PartialEq, Eq)]
pub struct Movable {
    pub numbers: Vec<u8>,
    pub chars: Vec<u8>,
}

impl Movable {
    pub fn of(buffers: &Buffers) -> Movable {
        Movable { numbers: buffers.numbers.clone(), chars: buffers.chars.clone() }
    }

    pub fn is_sheet(&self) -> bool {
        self.numbers[IR2] & 0x80 == 0
    }

    /// What a page may be answered that is moved to its own kind again. A sheet goes back, and begins where it did; a table page's
    /// cells may leave no room for another table.
    pub fn came_home(&self, now: &Movable, refusal: Refusal) -> bool {
        if self.is_sheet() {
            refusal == Refusal::NONE && self.numbers[START1] == now.numbers[START1]
        } else {
            [0, 17].contains(&refusal.number)
        }
    }

    /// R-5: there IR2[7], screen start 2 and the table's cells are others than before, back IR2[7] and screen start 1, "and
    /// nothing else".
    pub fn changed_alone(self, there: bool, now: &Movable) -> bool {
        let Movable { mut numbers, mut chars } = self;
        let address = if there { START2 } else { START1 };
        numbers[IR2] ^= 0x80;
        numbers[address.clone()].copy_from_slice(&now.numbers[address]);
        if there {
            let (place, rows) = now.table();
            let table = place..place + 2 * rows;
            chars[table.clone()].copy_from_slice(&now.chars[table]);
        }
        *now == Movable { numbers, chars }
    }

    /// Where a row table stands, and for how many rows.
    pub fn table(&self) -> (usize, usize) {
        let page = page_of_numbers(&self.numbers).expect("what was moved is a page");
        (page.start2.into(), page.rows() as usize)
    }
}

/// Of a longer frame so many clocks are looked at.
const MOST_CLOCKS: usize = 30_000;

/// What a page shows: its pictures in some fields, and its first clocks.
#[derive(PartialEq, Eq)]
pub struct Look {
    pub refusal: Refusal,
    fields: usize,
    /// The pictures, one after the other.
    dots: Vec<u8>,
    clocks: Vec<Shown>,
}

impl Look {
    pub fn at(page: &Movable, lent: Lent, fields: &[u8]) -> Look {
        let lent = Lent { chars: &page.chars, ..lent };
        let (refusal, lines, width) = calls::page_size(&page.numbers);
        let mut look = Look { refusal, fields: fields.len(), dots: Vec::new(), clocks: Vec::new() };
        for &field in fields {
            let mut picture = vec![0; lines as usize * width as usize];
            look.refusal = calls::picture_draw(&page.numbers, &lent, field, &mut picture);
            if look.refusal.refused() {
                return look;
            }
            look.dots.extend(picture);
        }
        look.clocks = first_clocks(&page.numbers, &lent);
        look
    }

    pub fn text(&self) -> String {
        let mut sum = Sum::new();
        self.clocks.iter().for_each(|shown| add_shown(&mut sum, shown));
        let (pictures, clocks) = (Sum::of(&self.dots).0, self.clocks.len());
        format!("pictures {} {:016x} steps {} {:016x}", self.fields, pictures, clocks, sum.0)
    }
}

/// From clock 0 on.
fn first_clocks(numbers: &[u8], lent: &Lent) -> Vec<Shown> {
    let (_, mut board) = calls::board_of(numbers);
    let mut clocks = Vec::new();
    loop {
        clocks.push(machine::step(&mut board, lent));
        if (board.place.line, board.place.clock) == (0, 0) || clocks.len() == MOST_CLOCKS {
            return clocks;
        }
    }
}

/// A step's answer: refusal and the number beside it, signals, address, dots.
pub fn add_shown(sum: &mut Sum, shown: &Shown) {
    let signals = shown.signals;
    sum.add(0);
    sum.add(0);
    for signal in [signals.hsync, signals.vsync, signals.blank, signals.cursor, signals.blink] {
        sum.add(u32::from(signal));
    }
    sum.add(u32::from(shown.address));
    shown.dots.iter().for_each(|&dot| sum.add(u32::from(dot)));
}
