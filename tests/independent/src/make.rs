//! Makes scripts from a seed: first a fixed list that meets every call, answer and corner of 01 by name, then
//! random ones of every kind without end.

use std::io::Write;

use crate::board::{Board, Page};
use crate::dice::{groups, Dice};
use crate::files::{numbers_of, page_bytes};
use crate::records::Phrase;
use crate::script::{board_text, filled, hex, phrases_text};
use crate::{corners, faults, kinds, moves, phrases};

#[derive(Default)]
pub struct Script {
    pub text: String,
    /// The pages that were moved since a memory was last changed.
    moved: Vec<Page>,
}

/// A script's name and what writes it.
pub type Maker = (String, Box<dyn Fn(&mut Script, &mut Dice)>);

pub fn make(seed: u64, count: u64, first: u64, output: &mut dyn Write) -> Result<(), String> {
    let fixed = fixed();
    for number in first..first + count {
        let mut dice = Dice::new(seed, number);
        let script = match fixed.get(number as usize) {
            Some((name, maker)) => written(&format!("{}-{}", number, name), &mut dice, maker),
            None => {
                let (name, maker) = kinds::KINDS[number as usize % kinds::KINDS.len()];
                written(&format!("{}-{}", number, name), &mut dice, &maker)
            }
        };
        output.write_all(script.text.as_bytes()).map_err(|error| error.to_string())?;
    }
    Ok(())
}

/// How many scripts the fixed list has.
pub fn fixed_count() -> u64 {
    fixed().len() as u64
}

fn fixed() -> Vec<Maker> {
    let mut all = corners::all();
    all.extend(moves::all());
    all.extend(phrases::all());
    all.extend(faults::all());
    all
}

pub fn written(name: &str, dice: &mut Dice, maker: &dyn Fn(&mut Script, &mut Dice)) -> Script {
    let mut script = Script::default();
    script.say(format!("script {}", name));
    maker(&mut script, dice);
    script
}

impl Script {
    pub fn say(&mut self, line: impl AsRef<str>) {
        let line = line.as_ref();
        if line.contains(" chars ") || line.contains(" attrs ") || line == "call page_read" {
            self.moved.clear();
        }
        self.text.push_str(line);
        self.text.push('\n');
    }

    pub fn numbers(&mut self, page: &Page) {
        self.say("fill numbers 32 0");
        self.say(format!("set numbers 0 {}", hex(&numbers_of(page)[..1 + page_bytes(page.version)])));
    }

    pub fn board(&mut self, board: &Board) {
        self.say(format!("board {}", board_text(board)));
    }

    /// Character memory of random bytes, given back for the maker's own use.
    pub fn chars(&mut self, dice: &mut Dice) -> Vec<u8> {
        let seed = dice.seed();
        self.say(format!("fill chars 16384 {}", seed));
        filled(16384, seed)
    }

    /// Some pages have every attribute, some none that hides.
    pub fn attrs(&mut self, dice: &mut Dice) {
        self.say(format!("fill attrs 16384 {}", dice.seed()));
        self.say(format!("mask attrs {}", dice.pick(&["ff", "ff", "fd", "f9", "bf", "9d"])));
    }

    /// Among attributes that no cell sets, these that one does.
    pub fn set_only(&mut self, cells: &[(u16, u8)]) {
        self.say("mask attrs 7f");
        cells
            .iter()
            .for_each(|&(cell, attribute)| self.say(format!("set attrs {} {}", cell, hex(&[attribute | 0x80]))));
    }

    /// Words with bits that do not count, flags of 0 and not 0, lists with upper halves that do not count; groups, or
    /// none.
    pub fn font(&mut self, dice: &mut Dice) {
        self.say(format!("fill words 1152 {}", dice.seed()));
        self.say(format!("fill flags 128 {}", dice.seed()));
        self.say(format!("mask flags {}", dice.pick(&["01", "80", "03"])));
        for list in ["unshifted", "shifted"] {
            self.say(format!("fill {} 9 {}", list, dice.seed()));
            if dice.one_in(2) {
                let from = dice.between(0, 7);
                let lines: Vec<u8> = (0..9).map(|line| (from + line) as u8 + dice.pick(&[0, 0x10, 0xF0])).collect();
                self.say(format!("set {} 0 {}", list, hex(&lines)));
            }
        }
        match dice.between(0, 5) {
            0 => self.say("none groups"),
            1 => self.say("fill groups 0 1"),
            _ => self.groups(&groups(dice)),
        }
    }

    /// The font's groups.
    pub fn groups(&mut self, groups: &[u8]) {
        self.say(format!("fill groups {} 0", groups.len()));
        if !groups.is_empty() {
            self.say(format!("set groups 0 {}", hex(groups)));
        }
    }

    /// The list of phrases.
    pub fn phrases(&mut self, list: &[Phrase]) {
        self.say(format!("fill phrases {} 0", list.len()));
        if !list.is_empty() {
            self.say(format!("set phrases 0 {}", phrases_text(list)));
        }
    }

    /// One frame by steps, lines, picture and rows. A page that has frames is also moved to its other kind and back, once.
    pub fn frame(&mut self, page: &Page) {
        self.say("frame");
        if !self.moved.contains(page) {
            self.moves(page);
        }
    }

    /// The frame that begins with this field of all since clock 0.
    pub fn frame_of(&mut self, page: &Page, field: u32) {
        self.say(format!("call state_at {}", field * page.frame_clocks()));
        self.frame(page);
    }

    /// The page of the numbers to its other kind and back.
    pub fn moves(&mut self, page: &Page) {
        self.say(format!("moves {}", hex(&phases(page))));
        self.moved.push(*page);
    }
}

/// The first field of each phase, of what blinks and of the cursor; of a large picture only field 0, since it takes long to draw.
fn phases(page: &Page) -> Vec<u8> {
    if page.picture_dots() > 50_000 {
        return vec![0];
    }
    let blink = |field: u32| field * 4 / page.blink_fields() % 4 == 3;
    let cursor = |field: u32| page.cursor_blinks() && field * 2 / page.cursor_fields() % 2 == 1;
    let mut met = Vec::new();
    let mut fields = Vec::new();
    for field in (0..128).step_by(16) {
        let phase = (blink(field), cursor(field));
        if !met.contains(&phase) {
            met.push(phase);
            fields.push(field as u8);
        }
    }
    fields
}
