//! Inputs for the listing program and for examples/draw.c: a page file, then a font file, of the pages that the scripts draw. Even
//! numbers are whole, odd ones damaged; both begin with a fixed list and go on with random ones without end.

use crate::corners;
use crate::dice::Dice;
use crate::faults::{of_file, spoiled, Fault};
use crate::files::{font_file, font_parts, page_bytes, page_file, page_of_numbers, page_parts};
use crate::kinds::{catalogue, screen, sheet, tall, wide, Kind};
use crate::listing::page_and_font;
use crate::make::{written, Script};
use crate::script::Buffers;

const KINDS: [Kind; 8] = [sheet, catalogue, sheet, wide, catalogue, tall, sheet, screen];

/// Where a cut meets the end of a part of the page, of the font's head, and of the font with and without groups, or one
/// byte beside it.
const PAGE_CUTS: [usize; 8] = [0, 1, 4, 5, 28, 29, 30, 31];
const FONT_CUTS: [i32; 7] = [-1, 0, 1, 4, 5, 6, 2454];
const GROUPS_CUTS: [i32; 4] = [2455, 2456, 2463, 2470];

type Damage = Box<dyn Fn(&[u8]) -> Vec<u8>>;

/// Of a whole input.
fn page_size(input: &[u8]) -> usize {
    page_and_font(input).0.len()
}

pub fn input(seed: u64, number: u64) -> Result<Vec<u8>, String> {
    let mut dice = Dice::new(seed, number);
    let turn = (number / 2) as usize;
    if number % 2 == 0 {
        whole(seed, &mut dice, turn)
    } else {
        damaged(&mut dice, turn)
    }
}

fn whole(seed: u64, dice: &mut Dice, turn: usize) -> Result<Vec<u8>, String> {
    let mut left = turn;
    for (at, (_, maker)) in corners::pages().iter().enumerate() {
        let mut pages = drawn_by(maker, &mut Dice::new(seed, at as u64))?;
        if left < pages.len() {
            return Ok(pages.swap_remove(left));
        }
        left -= pages.len();
    }
    one_of(KINDS[left % KINDS.len()], dice)
}

/// The page and font of each frame that a script draws; once where frames follow one another.
fn drawn_by(maker: &dyn Fn(&mut Script, &mut Dice), dice: &mut Dice) -> Result<Vec<Vec<u8>>, String> {
    let script = written("input", dice, maker);
    let mut buffers = Buffers::default();
    let mut all = Vec::new();
    for line in script.text.lines() {
        let words: Vec<&str> = line.split(' ').collect();
        if words == ["frame"] {
            let page = page_of_numbers(&buffers.numbers).ok_or("a frame of no page")?;
            let lent = buffers.lent();
            all.push([page_file(&page, lent.chars, lent.attrs), font_file(&lent.font)].concat());
            all.dedup();
        } else {
            buffers.obey(&words)?;
        }
    }
    Ok(all)
}

/// A kind's scripts draw one frame.
fn one_of(kind: Kind, dice: &mut Dice) -> Result<Vec<u8>, String> {
    drawn_by(&kind, dice)?.pop().ok_or_else(|| "a script without a frame".to_string())
}

fn damaged(dice: &mut Dice, turn: usize) -> Result<Vec<u8>, String> {
    let input = one_of([sheet, catalogue][turn % 2], dice)?;
    Ok(match fixed().get(turn) {
        Some(damage) => damage(&input),
        None => by_chance(dice, turn, &input),
    })
}

/// Every fault of a font file with and without groups, every fault of a page file of chip B, in version 1 and in field
/// mode, every cut of pages and fonts of both sizes, and bytes behind the font.
fn fixed() -> Vec<Damage> {
    let mut all: Vec<Damage> = Vec::new();
    for groups in [true, false] {
        for fault in of_file("font_read") {
            all.push(Box::new(move |input| with_faults(&with_font(input, groups), &[], &[&fault])));
        }
    }
    for (version, mode) in [(3, 0), (1, 0), (2, 0x10)] {
        for fault in of_file("page_read") {
            all.push(Box::new(move |input| with_faults(&in_mode(input, version, mode), &[&fault], &[])));
        }
    }
    all.extend(cuts(2, false));
    all.extend(cuts(3, true));
    all
}

/// Of an input with such a page and such a font.
fn cuts(version: u8, groups: bool) -> Vec<Damage> {
    let of_version = move |input: &[u8]| with_font(&in_mode(input, version, 0), groups);
    let mut all: Vec<Damage> = Vec::new();
    for size in PAGE_CUTS {
        all.push(Box::new(move |input| of_version(input)[..size].to_vec()));
    }
    for behind in FONT_CUTS.into_iter().chain(GROUPS_CUTS.into_iter().filter(|_| groups)) {
        all.push(Box::new(move |input| {
            let mut cut = of_version(input);
            cut.truncate((page_size(&cut) as i32 + behind) as usize);
            cut
        }));
    }
    for more in [1, 5, 16, 2455, 35_000] {
        all.push(Box::new(move |input| [&of_version(input)[..], &of_version(input)[..more]].concat()));
    }
    all
}

/// The input with a page of this version, of which 3 is of chip B, and these of its switches 4 to 7.
fn in_mode(input: &[u8], version: u8, mode: u8) -> Vec<u8> {
    let (page, font) = page_and_font(input);
    let (mut page, chars, attrs) = page_parts(page);
    page.version = version;
    page.chip = u8::from(version == 3);
    page.switches = page.switches & 0x0F | mode;
    [page_file(&page, chars, attrs), font.to_vec()].concat()
}

/// The input with a font that has groups, or none.
fn with_font(input: &[u8], groups: bool) -> Vec<u8> {
    let (page, font) = page_and_font(input);
    let mut parts = font_parts(font);
    let groups = if groups { &[1, 1, 1, 2, 2, 2, 3, 3, 3, 4, 4, 4, 0, 0, 1, 4][..] } else { &[] };
    parts.groups = groups.to_vec();
    [page, &font_file(&parts.lent())].concat()
}

fn with_faults(input: &[u8], of_page: &[&Fault], of_font: &[&Fault]) -> Vec<u8> {
    let (page, font) = page_and_font(input);
    [spoiled("page_read", page, of_page), spoiled("font_read", font, of_font)].concat()
}

fn by_chance(dice: &mut Dice, turn: usize, input: &[u8]) -> Vec<u8> {
    let (page, font) = (of_file("page_read"), of_file("font_read"));
    let upto = |dice: &mut Dice, last: usize| dice.between(0, last as u32) as usize;
    let page_end = page_size(input);
    let mut damaged = input.to_vec();
    match turn % 8 {
        // head and numbers of the page, head of the font or a group
        0 | 1 => damaged[upto(dice, 4 + page_bytes(input[0]))] = dice.byte(),
        2 if dice.one_in(2) => damaged[page_end + upto(dice, 4)] = dice.byte(),
        2 => damaged[input.len() - 1 - upto(dice, 15)] = dice.byte(),
        3 if dice.one_in(2) => damaged.truncate(upto(dice, page_end)),
        3 => damaged.truncate(page_end + upto(dice, input.len() - page_end - 1)),
        4 | 5 => {
            let (a, b) = (upto(dice, page.len() - 1), upto(dice, page.len() - 1));
            damaged = with_faults(input, &[&page[a], &page[b]], &[]);
        }
        6 => {
            let (a, b) = (upto(dice, page.len() - 1), upto(dice, font.len() - 1));
            damaged = with_faults(input, &[&page[a]], &[&font[b]]);
        }
        // a byte too many or too few: what follows it is moved
        _ if dice.one_in(2) => damaged.insert(upto(dice, input.len()), dice.byte()),
        _ => drop(damaged.remove(upto(dice, input.len() - 1))),
    }
    damaged
}
