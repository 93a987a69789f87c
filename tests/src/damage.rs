//! Sound tables and sheets, damaged in every way that the paper refuses and in some that it does not mind.

use crate::random::{large_site, small_site, tables, Random, KINDS};
use crate::sheet;

/// The tables of a site and its k, sound or broken.
#[derive(Clone, Debug)]
pub struct Tables {
    pub k: u16,
    pub offsets: Vec<u16>,
    pub codes: Vec<u16>,
}

/// All words of up to `most` letters.
fn all_words(letters: &[u16], most: usize) -> Vec<Vec<u16>> {
    let mut words = vec![Vec::new()];
    let mut last = words.clone();
    for _ in 0..most {
        last = last
            .iter()
            .flat_map(|word: &Vec<u16>| letters.iter().map(move |&letter| [word.as_slice(), &[letter]].concat()))
            .collect();
        words.extend(last.clone());
    }
    words
}

/// All tables of up to four offsets of 0 to 3 and up to three codes, most of them broken.
pub fn all_tables() -> Vec<(Vec<u16>, Vec<u16>)> {
    let codes = all_words(&[0, 1, 4095, 4096], 3);
    let offsets = all_words(&[0, 1, 2, 3], 4);
    offsets.iter().flat_map(|offsets| codes.iter().map(move |codes| (offsets.clone(), codes.clone()))).collect()
}

/// All sites of up to four contexts over the codes 1, 2 and 3.
pub fn all_sites() -> Vec<Vec<Vec<u16>>> {
    let subset = |bits: u16| (1..=3).filter(|code| bits >> (code - 1) & 1 == 1).collect::<Vec<u16>>();
    let subsets: Vec<u16> = (0..8).collect();
    all_words(&subsets, 4).iter().map(|word| word.iter().map(|&bits| subset(bits)).collect()).collect()
}

/// The ways to break tables. Some broken tables are still sound: the paper decides, not the damage.
pub fn break_tables(random: &mut Random, tables: &mut Tables) {
    let Tables { k, offsets, codes } = tables;
    match random.below(14) {
        0 => *k = 0,
        1 => *k = *random.pick(&[65, 66, 127, 128, 255, 256, 257, 320, 1000, 32_768, 65_535]),
        2 => offsets.clear(),
        3 => {
            let last = offsets.last().copied().unwrap_or(0);
            let len = *random.pick(&[256, 257, 258, 259, 300, 512, 513]);
            offsets.resize(len, last);
        }
        4 => {
            let len = *random.pick(&[4095, 4096, 4097, 4098, 5000]);
            codes.resize(len, 17);
            if random.once_in(2) {
                if let Some(last) = offsets.last_mut() {
                    *last = len as u16;
                }
            }
        }
        5 => {
            if let Some(first) = offsets.first_mut() {
                *first = random.between(1, 4) as u16;
            }
        }
        6 if offsets.len() > 1 => {
            let at = random.between(1, offsets.len() - 1);
            offsets[at] = offsets[at - 1].saturating_sub(random.between(1, 3) as u16);
        }
        7 => {
            if let Some(last) = offsets.last_mut() {
                *last = if random.once_in(2) {
                    last.wrapping_add(random.between(1, 3) as u16)
                } else {
                    last.wrapping_sub(random.between(1, 3) as u16)
                };
            }
        }
        8 if !codes.is_empty() => {
            let at = random.below(codes.len());
            codes[at] = *random.pick(&[4095, 4096, 4097, 8191, 8192, 40_000, 65_535]);
        }
        // A code equal to the one before it, or below; where a context begins this may well be sound.
        9 if codes.len() > 1 => {
            let at = random.between(1, codes.len() - 1);
            codes[at] = codes[at - 1];
        }
        10 if codes.len() > 1 => {
            let at = random.between(1, codes.len() - 1);
            codes[at] = codes[at - 1].saturating_sub(random.between(1, 3) as u16);
        }
        11 if !offsets.is_empty() => {
            let at = random.below(offsets.len());
            offsets[at] = random.below(codes.len() + 4) as u16;
        }
        12 if !codes.is_empty() => {
            let at = random.below(codes.len());
            codes[at] = random.next() as u16;
        }
        // Codes lost or added at the end, with the offsets left as they are.
        _ => {
            if random.once_in(2) {
                codes.pop();
            } else {
                codes.push(random.below(4096) as u16);
            }
        }
    }
}

/// Well-formed sheets, of sites that may well be refused by the join.
pub fn sound_sheet(random: &mut Random) -> Vec<u8> {
    match random.below(24) {
        // About the greatest number of contexts.
        0 => {
            let contexts = *random.pick(&[254, 255, 256, 256, 257, 258]);
            let mut text = format!("k=2\ncontexts={contexts}\n");
            for _ in 0..contexts {
                text.push_str(if random.once_in(8) { "c=7\n" } else { "c=\n" });
            }
            text.into_bytes()
        }
        // About the greatest number of codes.
        1 if random.once_in(3) => {
            let codes = *random.pick(&[4094, 4095, 4096, 4096, 4097, 4098]);
            let contexts = random.between(1, 256);
            let mut lines: Vec<Vec<String>> = vec![Vec::new(); contexts];
            let wide = random.once_in(2);
            for i in 0..codes {
                let code = if wide { random.below(65_536) } else { random.below(10) };
                lines[i * contexts / codes].push(code.to_string());
            }
            let mut text = format!("k=3\ncontexts={contexts}\n");
            for line in lines {
                text.push_str(&format!("c={}\n", line.join(" ")));
            }
            text.into_bytes()
        }
        // Values about every limit, in no order.
        2..=9 => {
            let numbers = [
                "0", "1", "7", "9", "10", "42", "99", "100", "255", "256", "257", "999", "1000", "4095", "4096",
                "6553", "9999", "10000", "65534", "65535",
            ];
            let mut text = format!("k={}\n", random.pick(&["0", "1", "2", "9", "10", "64", "65", "100", "65535"]));
            let contexts = random.between(0, 5);
            text.push_str(&format!("contexts={contexts}\n"));
            for _ in 0..contexts {
                let words: Vec<&str> = (0..random.between(0, 5)).map(|_| *random.pick(&numbers)).collect();
                text.push_str(&format!("c={}\n", words.join(" ")));
            }
            text.into_bytes()
        }
        // Sites that the join accepts.
        _ => accepted_sheet(random),
    }
}

/// A sheet of a small site that the join accepts if its trail has room.
pub fn accepted_sheet(random: &mut Random) -> Vec<u8> {
    let kind = random.below(KINDS);
    let (offsets, codes) = tables(&small_site(random, kind));
    let k = if random.once_in(4) { random.between(1, 64) } else { random.between(1, 6) };
    sheet::text(k as u16, &offsets, &codes).into_bytes()
}

/// A sheet of a large site.
pub fn large_sheet(random: &mut Random, kind: usize) -> Vec<u8> {
    let (offsets, codes) = tables(&large_site(random, kind));
    sheet::text(*random.pick(&[1, 10, 64]), &offsets, &codes).into_bytes()
}

/// Bytes that a damaged sheet may well hold, and some that it should not.
const BYTES: &[u8] = b"0123456789  \n\n==ckontexs\r\t\0x+-.,\x0B\x7F\x80\xFF";

fn some_byte(random: &mut Random) -> u8 {
    if random.once_in(6) {
        random.next() as u8
    } else {
        *random.pick(BYTES)
    }
}

/// The places where a number of the sheet begins, with its length.
fn numbers(sheet: &[u8]) -> Vec<(usize, usize)> {
    let mut numbers: Vec<(usize, usize)> = Vec::new();
    for (i, byte) in sheet.iter().enumerate() {
        match numbers.last_mut() {
            _ if !byte.is_ascii_digit() => {}
            Some((from, length)) if *from + *length == i => *length += 1,
            _ => numbers.push((i, 1)),
        }
    }
    numbers
}

/// Another number for one of the sheet, with leading zeros, of great size, empty, or about a limit.
fn other_number(random: &mut Random, old: &[u8]) -> Vec<u8> {
    match random.below(10) {
        0 => [b"0", old].concat(),
        1 => [vec![b'0'; random.between(1, 6)], old.to_vec()].concat(),
        2 => vec![b'9'; random.between(4, 40)],
        3 => Vec::new(),
        4 => [old, b"0"].concat(),
        5 => random
            .pick(&[
                "18446744073709551615",
                "18446744073709551616",
                "18446744073709551617",
                "4294967295",
                "4294967296",
                "4294967297",
                "131072",
                "131073",
                "340282366920938463463374607431768211457",
            ])
            .as_bytes()
            .to_vec(),
        6 => random
            .pick(&["65534", "65535", "65536", "65537", "65540", "66000", "70000", "100000", "655360"])
            .as_bytes()
            .to_vec(),
        7 => random.pick(&["254", "255", "256", "257", "258", "300", "1000"]).as_bytes().to_vec(),
        8 => random.pick(&["0", "1", "2", "3", "4", "5"]).as_bytes().to_vec(),
        _ => (random.next() >> random.below(64)).to_string().into_bytes(),
    }
}

/// One damage to a sheet.
pub fn damage(random: &mut Random, sheet: &mut Vec<u8>) {
    if sheet.is_empty() {
        sheet.push(some_byte(random));
        return;
    }
    // Half of the damages fall on the first lines, which long sheets would hardly ever see hit.
    let len = if random.once_in(2) { sheet.len().min(24) } else { sheet.len() };
    let at = random.below(len);
    match random.below(18) {
        0 => sheet[at] ^= 1 << random.below(8),
        1 => sheet[at] = some_byte(random),
        2 => {
            sheet.remove(at);
        }
        3 => {
            let byte = sheet[at];
            sheet.insert(at, byte);
        }
        4 => {
            let byte = some_byte(random);
            sheet.insert(at, byte);
        }
        5 => {
            let other = random.below(sheet.len());
            sheet.swap(at, other);
        }
        6 => {
            if at + 1 < sheet.len() {
                sheet.swap(at, at + 1);
            }
        }
        7 => sheet.truncate(at),
        8 => {
            let cut = random.below(sheet.len().min(6)) + 1;
            sheet.truncate(sheet.len() - cut);
        }
        9 => {
            sheet.pop();
        }
        10 => {
            // CR before a byte 10, as another system's editor would leave it.
            let ends: Vec<usize> = (0..sheet.len()).filter(|&i| sheet[i] == 10).collect();
            if let Some(&end) = ends.get(random.below(ends.len().max(1))) {
                sheet.insert(end, 13);
            }
        }
        11..=13 => {
            let numbers = numbers(sheet);
            if numbers.is_empty() {
                return;
            }
            // The first two numbers are hit as often as all the rest.
            let number =
                if random.once_in(2) { random.below(numbers.len().min(2)) } else { random.below(numbers.len()) };
            let (from, length) = numbers[number];
            let new = other_number(random, &sheet[from..from + length]);
            sheet.splice(from..from + length, new);
        }
        14 => sheet.extend_from_slice(random.pick(&["c=\n", "c=1 2\n", "\n", " ", "c", "c=", "k=1\n", "0"]).as_bytes()),
        15 => {
            // A line lost or doubled.
            let mut lines: Vec<Vec<u8>> = sheet.split_inclusive(|&b| b == 10).map(<[u8]>::to_vec).collect();
            let line = random.below(lines.len());
            if random.once_in(2) {
                lines.remove(line);
            } else {
                let copy = lines[line].clone();
                lines.insert(line, copy);
            }
            *sheet = lines.concat();
        }
        16 => {
            // A number grown by codes behind it.
            let numbers = numbers(sheet);
            if numbers.is_empty() {
                return;
            }
            let (from, length) = *random.pick(&numbers);
            let more = random.pick(&[" 5", " 65536", " 07", " ", "  8", " 0"]);
            sheet.splice(from + length..from + length, more.bytes());
        }
        _ => {
            // A stretch lost.
            let to = (at + random.between(1, 12)).min(sheet.len());
            sheet.drain(at..to);
        }
    }
}

/// A sound sheet but for one number that is above 65,535.
pub fn number_above_limit(random: &mut Random) -> Vec<u8> {
    let mut sheet = accepted_sheet(random);
    let (from, length) = *random.pick(&numbers(&sheet));
    let number = match random.below(4) {
        0 => "65536".to_string(),
        1 => random.between(65_537, 99_999).to_string(),
        2 => random.pick(&["4294967297", "18446744073709551617"]).to_string(),
        _ => "9".repeat(random.between(6, 40)),
    };
    sheet.splice(from..from + length, number.bytes());
    sheet
}

/// A sheet, sound or damaged up to three times.
pub fn some_sheet(random: &mut Random) -> Vec<u8> {
    let mut sheet = sound_sheet(random);
    if !random.once_in(4) {
        for _ in 0..random.between(1, 3) {
            damage(random, &mut sheet);
        }
    }
    sheet
}

/// A sheet as it is printed with a mismatch: readable, and with no byte lost.
pub fn shown(sheet: &[u8]) -> String {
    format!("b\"{}\"", sheet.escape_ascii())
}
