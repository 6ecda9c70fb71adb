//! 01 "Files", R-1's version 2 and R-7's versions: a page's numbers, page files and font files as bytes.

use crate::board::{Font, Page, FONT_FLAGS, FONT_LIST, FONT_WORDS, MEMORY};

/// "length of what follows it, four bytes big-endian, 32,792"; R-7: "Page file version 3 is version 2 with one more
/// byte after the strike line". None for a version that is not known.
pub fn page_length(version: u8) -> Option<u32> {
    match version {
        1 | 2 => Some(32792),
        3 => Some(32793),
        _ => None,
    }
}

/// "Font file: version byte 1; length likewise, 2,450"; R-7: "font file version 2 adds sixteen group numbers"
pub fn font_length(version: u8) -> Option<u32> {
    match version {
        1 => Some(2450),
        2 => Some(2466),
        _ => None,
    }
}

/// Files of versions 1 and 2, and of version 3; fonts of version 1, and of version 2.
pub const PAGE_FILE: usize = 32797;
pub const CHIP_PAGE_FILE: usize = 32798;
pub const FONT_FILE: usize = 2455;
pub const GROUPS_FONT_FILE: usize = 2471;
/// A page's numbers for C: the version byte, 24 bytes or in version 3 one more, then zeros to 32.
pub const NUMBERS: usize = 32;

/// How many bytes of a page file are its numbers, and stand behind the version in numbers for C.
pub fn page_bytes(version: u8) -> usize {
    if version == 3 {
        25
    } else {
        24
    }
}

/// "The listing program takes a page's size from its version byte."
pub fn page_file_size(version: u8) -> Option<usize> {
    page_length(version).map(|length| 5 + length as usize)
}

/// "then 15 IRs, screen start 1, cursor, screen start 2 (two bytes big-endian each), switches (..), dots,
/// strike line"; R-1: "version 2, which is otherwise as version 1"; R-7: the chip, of which versions 1 and 2 mean A
pub fn page_of(version: u8, bytes: &[u8]) -> Page {
    let two = |at: usize| u16::from_be_bytes([bytes[at], bytes[at + 1]]);
    let mut irs = [0; 15];
    irs.copy_from_slice(&bytes[..15]);
    Page {
        version,
        irs,
        start1: two(15),
        cursor: two(17),
        start2: two(19),
        switches: bytes[21],
        dots: u32::from(bytes[22]),
        strike: bytes[23],
        chip: if version == 3 { bytes[24] } else { 0 },
    }
}

pub fn bytes_of(page: &Page) -> Vec<u8> {
    let mut bytes = page.irs.to_vec();
    for address in [page.start1, page.cursor, page.start2] {
        bytes.extend(address.to_be_bytes());
    }
    bytes.extend([page.switches, page.dots as u8, page.strike, page.chip]);
    bytes.truncate(page_bytes(page.version));
    bytes
}

pub fn numbers_of(page: &Page) -> Vec<u8> {
    let mut numbers = vec![page.known_version()];
    numbers.extend(bytes_of(page));
    numbers.resize(NUMBERS, 0);
    numbers
}

/// Another size and an unknown version are no page.
pub fn page_of_numbers(numbers: &[u8]) -> Option<Page> {
    if numbers.len() == NUMBERS && page_length(numbers[0]).is_some() {
        Some(page_of(numbers[0], &numbers[1..]))
    } else {
        None
    }
}

/// The page of a file that has a known version and all of its numbers, whatever else is wrong with it.
pub fn page_of_head(file: &[u8]) -> Option<Page> {
    let version = *file.first().filter(|&&version| page_length(version).is_some())?;
    Some(page_of(version, file.get(5..5 + page_bytes(version))?))
}

fn with_head(version: u8, length: u32) -> Vec<u8> {
    let mut file = vec![version];
    file.extend(length.to_be_bytes());
    file
}

/// A page file up to its memories.
pub fn page_head(page: &Page) -> Vec<u8> {
    let version = page.known_version();
    let mut head = with_head(version, page_length(version).expect("a version that counts is known"));
    head.extend(bytes_of(page));
    head
}

pub fn page_file(page: &Page, chars: &[u8], attrs: &[u8]) -> Vec<u8> {
    let mut file = page_head(page);
    file.extend(chars);
    file.extend(attrs);
    file
}

/// An accepted page file's page, character memory and attribute memory.
pub fn page_parts(file: &[u8]) -> (Page, &[u8], &[u8]) {
    let (bytes, memories) = file[5..].split_at(page_bytes(file[0]));
    let (chars, attrs) = memories.split_at(MEMORY);
    (page_of(file[0], bytes), chars, attrs)
}

/// The head of a font file with groups, or of one without.
pub fn font_head(groups: bool) -> Vec<u8> {
    let version = if groups { 2 } else { 1 };
    with_head(version, font_length(version).expect("both versions are known"))
}

/// "1,152 words big-endian; 128 flags; unshifted list; shifted list", and the groups last
pub fn font_file(font: &Font) -> Vec<u8> {
    let mut file = font_head(!font.groups.is_empty());
    font.words.iter().for_each(|word| file.extend(word.to_be_bytes()));
    file.extend(font.flags);
    file.extend(font.unshifted);
    file.extend(font.shifted);
    file.extend(font.groups);
    file
}

pub struct OwnFont {
    pub words: Vec<u16>,
    pub flags: Vec<u8>,
    pub unshifted: Vec<u8>,
    pub shifted: Vec<u8>,
    pub groups: Vec<u8>,
}

impl OwnFont {
    pub fn lent(&self) -> Font<'_> {
        let (words, flags, groups) = (&self.words, &self.flags, &self.groups);
        Font { words, flags, unshifted: &self.unshifted, shifted: &self.shifted, groups }
    }
}

/// The parts of a font file that has a known version and its size.
pub fn font_parts(file: &[u8]) -> OwnFont {
    let (words, rest) = file[5..].split_at(2 * FONT_WORDS);
    let (flags, rest) = rest.split_at(FONT_FLAGS);
    let (unshifted, rest) = rest.split_at(FONT_LIST);
    let (shifted, groups) = rest.split_at(FONT_LIST);
    OwnFont {
        words: words.chunks(2).map(|pair| u16::from_be_bytes([pair[0], pair[1]])).collect(),
        flags: flags.to_vec(),
        unshifted: unshifted.to_vec(),
        shifted: shifted.to_vec(),
        groups: groups.to_vec(),
    }
}
