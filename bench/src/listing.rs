//! The host call in plain Rust: reads a sheet, joins it, and writes the listing.

use std::array;

use crate::plain::{Buffers, TopkJoin, ENTRY_WORDS};

pub const REFUSED: u64 = 1_000_000;

/// Reads on from a place of a sheet.
struct Cursor<'a> {
    rest: &'a [u8],
}

impl Cursor<'_> {
    fn key(&mut self, key: &[u8]) -> Option<()> {
        self.rest = self.rest.strip_prefix(key)?;
        Some(())
    }

    fn byte(&mut self) -> Option<u8> {
        let (&first, rest) = self.rest.split_first()?;
        self.rest = rest;
        Some(first)
    }

    /// A number without leading zeros, at most 65,535.
    fn number(&mut self) -> Option<u16> {
        let digits = self.rest.iter().take_while(|b| b.is_ascii_digit()).count();
        if digits == 0 || digits > 5 || (digits > 1 && self.rest[0] == b'0') {
            return None;
        }
        let (number, rest) = self.rest.split_at(digits);
        self.rest = rest;
        let value = number.iter().fold(0u32, |n, &b| 10 * n + u32::from(b - b'0'));
        u16::try_from(value).ok()
    }
}

/// Writes from the front of a text.
struct Pen<'a> {
    text: &'a mut [u8],
    at: usize,
}

impl Pen<'_> {
    fn bytes(&mut self, bytes: &[u8]) -> Option<()> {
        self.text.get_mut(self.at..self.at + bytes.len())?.copy_from_slice(bytes);
        self.at += bytes.len();
        Some(())
    }

    fn number(&mut self, mut n: usize) -> Option<()> {
        let mut digits = [0u8; 20];
        let mut from = digits.len();
        loop {
            from -= 1;
            digits[from] = b'0' + (n % 10) as u8;
            n /= 10;
            if n == 0 {
                break self.bytes(&digits[from..]);
            }
        }
    }

    fn line(&mut self, key: &[u8], numbers: &[usize]) -> Option<()> {
        self.bytes(key)?;
        for (i, &n) in numbers.iter().enumerate() {
            if i > 0 {
                self.bytes(b" ")?;
            }
            self.number(n)?;
        }
        self.bytes(b"\n")
    }
}

/// Keeps its tables from call to call, and clears them with each.
pub struct Lister {
    join: TopkJoin,
    offsets: Vec<u16>,
    codes: Vec<u16>,
    buffers: Buffers,
}

impl Lister {
    pub fn new() -> Lister {
        Lister {
            join: TopkJoin::new(),
            offsets: Vec::with_capacity(257),
            codes: Vec::with_capacity(4096),
            buffers: Buffers { list: vec![0; ENTRY_WORDS * 64], work: vec![0; 10240], trail: vec![0; 4096] },
        }
    }

    /// The length of the listing, or 1,000,000 and the refusal's number. (A sheet that is badly
    /// formed in any way is 9 here: only well-formed ones are timed.)
    pub fn listing(&mut self, sheet: &[u8], text: &mut [u8]) -> u64 {
        let length = if sheet.len() > 24576 { Err(11) } else { self.list(sheet, text) };
        match length {
            Ok(length) => {
                text[length..].fill(0);
                length as u64
            }
            Err(number) => {
                text.fill(0);
                REFUSED + number
            }
        }
    }

    fn list(&mut self, sheet: &[u8], text: &mut [u8]) -> Result<usize, u64> {
        let k = self.read(sheet).ok_or(9u64)?;
        let counts = self.join.join(k, &self.offsets, &self.codes, &mut self.buffers)?;
        let mut pen = Pen { text, at: 0 };
        let mut write = || {
            pen.line(b"k=", &[k as usize])?;
            pen.line(b"found=", &[counts.found])?;
            pen.line(b"events=", &[counts.events])?;
            pen.line(b"met=", &[counts.met])?;
            for entry in self.buffers.list.chunks_exact(ENTRY_WORDS).take(counts.found) {
                pen.line(b"pair=", &array::from_fn::<usize, ENTRY_WORDS, _>(|i| entry[i] as usize))?;
            }
            Some(pen.at)
        };
        write().ok_or(12)
    }

    /// Reads a well-formed sheet into the tables, and gives its k.
    fn read(&mut self, sheet: &[u8]) -> Option<u16> {
        self.offsets.clear();
        self.codes.clear();
        let mut at = Cursor { rest: sheet };
        at.key(b"k=")?;
        let k = at.number()?;
        at.key(b"\ncontexts=")?;
        let contexts = at.number()?;
        at.key(b"\n")?;
        if contexts > 256 {
            return None;
        }
        self.offsets.push(0);
        for _ in 0..contexts {
            at.key(b"c=")?;
            if at.rest.first() == Some(&b'\n') {
                at.byte()?;
            } else {
                loop {
                    self.codes.push(at.number()?);
                    match at.byte()? {
                        b' ' => {}
                        b'\n' => break,
                        _ => return None,
                    }
                }
            }
            if self.codes.len() > 4096 {
                return None;
            }
            self.offsets.push(self.codes.len() as u16);
        }
        at.rest.is_empty().then_some(k)
    }
}

#[cfg(test)]
mod tests {
    use super::*;

    fn listed(sheet: &[u8], room: usize) -> (u64, Vec<u8>) {
        let mut text = vec![7; room];
        let told = Lister::new().listing(sheet, &mut text);
        (told, text)
    }

    #[test]
    fn examples() {
        for name in ["three", "cemetery"] {
            let sheet = std::fs::read(format!("../examples/{name}.sheet")).unwrap();
            let expected = std::fs::read(format!("../examples/{name}.listing")).unwrap();
            let (told, text) = listed(&sheet, 2048);
            assert_eq!(told as usize, expected.len());
            assert_eq!(text[..expected.len()], expected);
            assert!(text[expected.len()..].iter().all(|&b| b == 0));
            assert_eq!(listed(&sheet, expected.len()).0 as usize, expected.len());
            assert_eq!(listed(&sheet, expected.len() - 1), (REFUSED + 12, vec![0; expected.len() - 1]));
        }
    }

    #[test]
    fn refused() {
        let sheet = std::fs::read("../examples/refused/08.sheet").unwrap();
        assert_eq!(listed(&sheet, 100), (REFUSED + 8, vec![0; 100]));
        assert_eq!(listed(b"k=1\ncontexts=1\nc=1 \n", 100), (REFUSED + 9, vec![0; 100]));
        assert_eq!(listed(&[b'x'; 24577], 10), (REFUSED + 11, vec![0; 10]));
    }
}
