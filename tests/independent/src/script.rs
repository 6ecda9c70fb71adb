//! tests/scripts/SCRIPTS.md: the generator, sums, a board as text, and the buffers that a script lends.

use std::collections::BTreeMap;

use crate::board::{Board, Font, Lent, Page, Place};
use crate::records::Phrase;

/// xorshift32; seed 0 gives zeros for ever.
pub struct Generator(pub u32);

impl Generator {
    pub fn next(&mut self) -> u32 {
        self.0 ^= self.0 << 13;
        self.0 ^= self.0 >> 17;
        self.0 ^= self.0 << 5;
        self.0
    }
}

/// A byte of a buffer, 16 bits of the font's words and of a row's cells, or a phrase's four numbers.
pub trait Element: Copy + PartialEq {
    /// How many numbers it has, and the bits of each.
    const NUMBERS: usize;
    const BITS: u32;
    /// Of the numbers that come next.
    fn of(next: impl FnMut() -> u32) -> Self;
    fn each(self, act: impl FnMut(u32));
    /// With only those bits that the other has too.
    fn and(self, bits: Self) -> Self;
}

impl Element for u8 {
    const NUMBERS: usize = 1;
    const BITS: u32 = 8;
    fn of(mut next: impl FnMut() -> u32) -> u8 {
        next() as u8
    }
    fn each(self, mut act: impl FnMut(u32)) {
        act(self.into())
    }
    fn and(self, bits: u8) -> u8 {
        self & bits
    }
}

impl Element for u16 {
    const NUMBERS: usize = 1;
    const BITS: u32 = 16;
    fn of(mut next: impl FnMut() -> u32) -> u16 {
        next() as u16
    }
    fn each(self, mut act: impl FnMut(u32)) {
        act(self.into())
    }
    fn and(self, bits: u16) -> u16 {
        self & bits
    }
}

impl Element for Phrase {
    const NUMBERS: usize = 4;
    const BITS: u32 = 32;
    fn of(mut next: impl FnMut() -> u32) -> Phrase {
        let [language, number, first, length] = [next(), next(), next(), next()];
        Phrase { language, number, first, length }
    }
    fn each(self, act: impl FnMut(u32)) {
        [self.language, self.number, self.first, self.length].into_iter().for_each(act)
    }
    fn and(self, bits: Phrase) -> Phrase {
        Phrase {
            language: self.language & bits.language,
            number: self.number & bits.number,
            first: self.first & bits.first,
            length: self.length & bits.length,
        }
    }
}

/// COUNT elements, each number the upper bits of the generator's next one.
pub fn filled<E: Element>(count: usize, seed: u32) -> Vec<E> {
    let mut generator = Generator(seed);
    (0..count).map(|_| E::of(|| generator.next() >> (32 - E::BITS))).collect()
}

#[derive(Clone, Copy)]
pub struct Sum(pub u64);

impl Sum {
    pub fn new() -> Sum {
        Sum(14695981039346656037)
    }

    pub fn add(&mut self, number: u32) {
        self.0 = (self.0 ^ u64::from(number)).wrapping_mul(1099511628211);
    }

    pub fn of<E: Element>(elements: &[E]) -> Sum {
        let mut sum = Sum::new();
        elements.iter().for_each(|element| element.each(|number| sum.add(number)));
        sum
    }
}

pub fn hex(bytes: &[u8]) -> String {
    bytes.iter().map(|byte| format!("{:02x}", byte)).collect()
}

pub fn number(text: &str) -> Result<u32, String> {
    text.parse().map_err(|_| format!("no number: {}", text))
}

pub fn small(text: &str) -> Result<u8, String> {
    text.parse().map_err(|_| format!("no number below 256: {}", text))
}

/// As many hex digits as an element has are one element.
pub fn elements<E: Element>(text: &str) -> Result<Vec<E>, String> {
    let digits = (E::BITS / 4) as usize;
    if !text.is_ascii() || text.len() % (digits * E::NUMBERS) != 0 {
        return Err(format!("no hex elements: {}", text));
    }
    let one = |at: usize| u32::from_str_radix(&text[at..at + digits], 16);
    let all: Result<Vec<u32>, _> = (0..text.len()).step_by(digits).map(one).collect();
    let numbers = all.map_err(|_| format!("no hex elements: {}", text))?;
    let of_numbers = |numbers: &[u32]| {
        let mut next = numbers.iter().copied();
        E::of(|| next.next().expect("an element's numbers"))
    };
    Ok(numbers.chunks(E::NUMBERS).map(of_numbers).collect())
}

/// The digits of a `set`.
pub fn phrases_text(phrases: &[Phrase]) -> String {
    let mut text = String::new();
    phrases.iter().for_each(|phrase| phrase.each(|number| text += &format!("{:08x}", number)));
    text
}

pub fn board_text(board: &Board) -> String {
    let (page, place) = (&board.page, &board.place);
    let mut bytes = vec![page.version];
    bytes.extend(page.irs);
    for address in [page.start1, page.cursor, page.start2] {
        bytes.extend(address.to_be_bytes());
    }
    bytes.push(page.switches);
    bytes.extend(page.dots.to_be_bytes());
    bytes.extend([page.strike, page.chip, place.field]);
    bytes.extend(place.line.to_be_bytes());
    bytes.extend(place.clock.to_be_bytes());
    bytes.extend(place.address.to_be_bytes());
    bytes.push(place.latch);
    bytes.extend(place.row_start.to_be_bytes());
    bytes.extend([place.row_latch, place.row_code, board.pointer, board.resets]);
    hex(&bytes)
}

pub fn board_of_text(text: &str) -> Result<Board, String> {
    let b: Vec<u8> = elements(text)?;
    if b.len() != 47 {
        return Err(format!("a board has 94 hex digits: {}", text));
    }
    let two = |at: usize| u16::from_be_bytes([b[at], b[at + 1]]);
    let four = |at: usize| u32::from_be_bytes([b[at], b[at + 1], b[at + 2], b[at + 3]]);
    let mut irs = [0; 15];
    irs.copy_from_slice(&b[1..16]);
    let page = Page {
        version: b[0],
        irs,
        start1: two(16),
        cursor: two(18),
        start2: two(20),
        switches: b[22],
        dots: four(23),
        strike: b[27],
        chip: b[28],
    };
    let place = Place {
        field: b[29],
        line: four(30),
        clock: four(34),
        address: two(38),
        latch: b[40],
        row_start: two(41),
        row_latch: b[43],
        row_code: b[44],
    };
    Ok(Board { page, place, pointer: b[45], resets: b[46] })
}

/// What a script's calls are lent: "none" is an empty buffer here.
#[derive(Default)]
pub struct Buffers {
    pub numbers: Vec<u8>,
    pub chars: Vec<u8>,
    pub attrs: Vec<u8>,
    pub words: Vec<u16>,
    pub flags: Vec<u8>,
    pub unshifted: Vec<u8>,
    pub shifted: Vec<u8>,
    pub groups: Vec<u8>,
    pub file: Vec<u8>,
    pub out: Vec<u8>,
    pub cells: Vec<u16>,
    pub phrases: Vec<Phrase>,
}

/// A buffer by the width of its elements.
enum Named<'a> {
    Bytes(&'a mut Vec<u8>),
    Wide(&'a mut Vec<u16>),
    Phrases(&'a mut Vec<Phrase>),
}

impl Buffers {
    fn named(&mut self, name: &str) -> Result<Named<'_>, String> {
        Ok(match name {
            "words" => Named::Wide(&mut self.words),
            "cells" => Named::Wide(&mut self.cells),
            "phrases" => Named::Phrases(&mut self.phrases),
            _ => Named::Bytes(self.bytes(name)?),
        })
    }

    fn bytes(&mut self, name: &str) -> Result<&mut Vec<u8>, String> {
        Ok(match name {
            "numbers" => &mut self.numbers,
            "chars" => &mut self.chars,
            "attrs" => &mut self.attrs,
            "flags" => &mut self.flags,
            "unshifted" => &mut self.unshifted,
            "shifted" => &mut self.shifted,
            "groups" => &mut self.groups,
            "file" => &mut self.file,
            "out" => &mut self.out,
            _ => return Err(format!("no buffer of bytes: {}", name)),
        })
    }

    pub fn lent(&self) -> Lent<'_> {
        let (words, flags, groups) = (&self.words, &self.flags, &self.groups);
        let font = Font { words, flags, unshifted: &self.unshifted, shifted: &self.shifted, groups };
        Lent { chars: &self.chars, attrs: &self.attrs, font }
    }

    /// Obeys an order that is about buffers alone; false where it is another one.
    pub fn obey(&mut self, words: &[&str]) -> Result<bool, String> {
        match *words {
            ["none", buffer] => self.fill(buffer, 0, 0)?,
            ["fill", buffer, count, seed] => self.fill(buffer, number(count)? as usize, number(seed)?)?,
            ["set", buffer, at, digits] => self.set(buffer, number(at)? as usize, digits)?,
            ["mask", buffer, digits] => self.mask(buffer, digits)?,
            ["take", buffer, from, count] => self.take(buffer, from, number(count)? as usize)?,
            _ => return Ok(false),
        }
        Ok(true)
    }

    pub fn fill(&mut self, name: &str, count: usize, seed: u32) -> Result<(), String> {
        match self.named(name)? {
            Named::Bytes(elements) => *elements = filled(count, seed),
            Named::Wide(elements) => *elements = filled(count, seed),
            Named::Phrases(elements) => *elements = filled(count, seed),
        }
        Ok(())
    }

    fn set(&mut self, name: &str, at: usize, text: &str) -> Result<(), String> {
        match self.named(name)? {
            Named::Bytes(elements) => put(elements, at, text),
            Named::Wide(elements) => put(elements, at, text),
            Named::Phrases(elements) => put(elements, at, text),
        }
    }

    fn mask(&mut self, name: &str, text: &str) -> Result<(), String> {
        match self.named(name)? {
            Named::Bytes(elements) => keep(elements, text),
            Named::Wide(elements) => keep(elements, text),
            Named::Phrases(elements) => keep(elements, text),
        }
    }

    fn take(&mut self, name: &str, from: &str, count: usize) -> Result<(), String> {
        let taken = self.bytes(from)?.get(..count).map(<[u8]>::to_vec);
        *self.bytes(name)? = taken.ok_or_else(|| format!("{} is shorter than {}", from, count))?;
        Ok(())
    }
}

/// The last sum of each buffer, and what it was taken of: most calls leave most buffers as they were.
#[derive(Default)]
pub struct Sums {
    bytes: BTreeMap<String, (Vec<u8>, Sum)>,
    wide: BTreeMap<String, (Vec<u16>, Sum)>,
    phrases: BTreeMap<String, (Vec<Phrase>, Sum)>,
}

impl Sums {
    /// "NAME COUNT SUM" for each buffer named.
    pub fn report(&mut self, buffers: &mut Buffers, names: &[&str]) -> Result<String, String> {
        let mut text = String::new();
        for &name in names {
            let (count, sum) = match buffers.named(name)? {
                Named::Bytes(elements) => (elements.len(), sum_of(&mut self.bytes, name, elements)),
                Named::Wide(elements) => (elements.len(), sum_of(&mut self.wide, name, elements)),
                Named::Phrases(elements) => (elements.len(), sum_of(&mut self.phrases, name, elements)),
            };
            text += &format!(" {} {} {:016x}", name, count, sum.0);
        }
        Ok(text)
    }
}

fn sum_of<E: Element>(last: &mut BTreeMap<String, (Vec<E>, Sum)>, name: &str, elements: &[E]) -> Sum {
    match last.get(name) {
        Some((taken_of, sum)) if taken_of == elements => *sum,
        _ => {
            let sum = Sum::of(elements);
            last.insert(name.to_string(), (elements.to_vec(), sum));
            sum
        }
    }
}

fn put<E: Element>(buffer: &mut [E], at: usize, text: &str) -> Result<(), String> {
    let elements: Vec<E> = elements(text)?;
    let place = buffer.get_mut(at..at + elements.len()).ok_or("set reaches past the buffer")?;
    place.copy_from_slice(&elements);
    Ok(())
}

fn keep<E: Element>(buffer: &mut [E], text: &str) -> Result<(), String> {
    match elements::<E>(text)?[..] {
        [bits] => buffer.iter_mut().for_each(|element| *element = element.and(bits)),
        _ => return Err(format!("a mask is one element: {}", text)),
    }
    Ok(())
}
