//! `trials read` and `trials write`, or both as `trials sheets`: the reader and the writer against their definitions,
//! and both round trips.

use super::{Choice, Kind};
use crate::cases;
use crate::damage::{all_tables, break_tables, damage, shown, some_sheet, sound_sheet, Tables};
use crate::ffi::{self, Lent};
use crate::paper::{self, Answer};
use crate::random::{large_site, seed_of, small_site, tables, Random, KINDS, LARGE_KINDS};
use crate::sheet;
use crate::tally::{Outcome, Tally};

pub const READ: Kind = Kind {
    name: "read",
    gate: 80_000,
    owed: &[0, 9, 10, 11],
    ways: &[],
    threads: 1,
    of_program: false,
    named: readings_by_name,
    trial: |choice, number| read_trial(&mut Random::new(seed_of(choice.seed, number))),
};

pub const WRITE: Kind = Kind {
    name: "write",
    gate: 20_000,
    owed: &[0, 1, 2, 3, 4, 5, 12],
    ways: &[],
    threads: 1,
    of_program: false,
    named: writings_by_name,
    trial: |choice, number| write_trial(&mut Random::new(seed_of(choice.seed, number))),
};

/// What a call has done, once it is found to be right.
struct Read {
    answer: Answer,
    offsets: Vec<u16>,
    codes: Vec<u16>,
}

/// Reads a sheet with junk in both tables, and compares every word.
fn read(
    random: &mut Random,
    text: &[u8],
    offset_room: usize,
    code_room: usize,
    answer_room: usize,
) -> Result<Read, String> {
    let expected = sheet::reading(text, offset_room, code_room);
    let offsets = random.junk_words(offset_room);
    let codes = random.junk_words(code_room);
    let answer: Vec<u64> = (0..answer_room).map(|_| random.next()).collect();
    let guard = random.next();
    let mut lent_sheet = Lent::new(text, guard as u8);
    let mut lent_offsets = Lent::new(&offsets, guard as u16);
    let mut lent_codes = Lent::new(&codes, guard as u16);
    let mut lent_answer = Lent::new(&answer, guard);
    ffi::read(&mut lent_sheet, &mut lent_offsets, &mut lent_codes, &mut lent_answer);

    let compare = || -> Result<(), String> {
        lent_sheet.check("sheet", text)?;
        if answer_room < 4 {
            lent_answer.check("answer", &answer)?;
            lent_offsets.check("offsets", &offsets)?;
            return lent_codes.check("codes", &codes);
        }
        lent_answer.check("answer", &[&expected.answer[..], &answer[4..]].concat())?;
        lent_offsets.check("offsets", &expected.offsets.words(&offsets))?;
        lent_codes.check("codes", &expected.codes.words(&codes))
    };
    compare().map_err(|what| {
        let rooms = format!("offsets {offset_room}, codes {code_room}, answer {answer_room}");
        format!(
            "read: {what}\nexpected answer {:?}, got {:?}\nsheet {}\nlent words: {rooms}",
            expected.answer,
            lent_answer.words(),
            shown(text)
        )
    })?;
    Ok(Read { answer: expected.answer, offsets: lent_offsets.words().to_vec(), codes: lent_codes.words().to_vec() })
}

/// Writes tables with junk in the text, and compares every byte. Gives the answer and the text.
fn write(random: &mut Random, tables: &Tables, room: usize, answer_room: usize) -> Result<(Answer, Vec<u8>), String> {
    let Tables { k, offsets, codes } = tables;
    let expected = sheet::writing(*k, offsets, codes, room);
    let text = random.junk_bytes(room);
    let answer: Vec<u64> = (0..answer_room).map(|_| random.next()).collect();
    let guard = random.next();
    let mut lent_offsets = Lent::new(offsets, guard as u16);
    let mut lent_codes = Lent::new(codes, guard as u16);
    let mut lent_text = Lent::new(&text, guard as u8);
    let mut lent_answer = Lent::new(&answer, guard);
    ffi::write(*k, &mut lent_offsets, &mut lent_codes, &mut lent_text, &mut lent_answer);

    let compare = || -> Result<(), String> {
        lent_offsets.check("offsets", offsets)?;
        lent_codes.check("codes", codes)?;
        if answer_room < 4 {
            lent_answer.check("answer", &answer)?;
            return lent_text.check("text", &text);
        }
        lent_answer.check("answer", &[&expected.answer[..], &answer[4..]].concat())?;
        lent_text.check("text", &expected.text.words(&text))
    };
    compare().map_err(|what| {
        let got = format!("expected answer {:?}, got {:?}", expected.answer, lent_answer.words());
        let rooms = format!("text of {room} bytes, answer of {answer_room} words");
        format!("write: {what}\n{got}\nk {k}\noffsets {offsets:?}\ncodes {codes:?}\n{rooms}")
    })?;
    Ok((expected.answer, lent_text.words().to_vec()))
}

/// A length for a lent table of which `needed` words are needed, below `limit` for the most part.
fn some_room(random: &mut Random, needed: usize, limit: usize) -> usize {
    match random.below(12) {
        0 => 0,
        1 => 1,
        2..=5 => needed,
        6 => needed.saturating_sub(1),
        7 => needed + 1,
        8 => random.below(needed + 4),
        9 => limit,
        10 => limit + random.between(0, 3),
        _ => needed + random.below(40),
    }
}

fn some_answer_room(random: &mut Random) -> usize {
    match random.below(30) {
        0 => random.below(4),
        1 => random.between(5, 8),
        _ => 4,
    }
}

/// A sheet read; and if the tables are sound, written back byte for byte into a text that just fits.
fn read_trial(random: &mut Random) -> Result<Outcome, String> {
    let text = some_sheet(random);
    // Rooms about what the sheet needs, as far as it can tell.
    let (contexts, codes) = match sheet::read(&text, usize::MAX, usize::MAX) {
        Ok(site) => (site.offsets.len() - 1, site.codes.len()),
        Err(_) => (
            text.iter().filter(|&&b| b == 10).count().saturating_sub(2),
            text.iter().filter(|&&b| b == b' ').count() + 1,
        ),
    };
    let offset_room = some_room(random, contexts + 1, 257);
    let code_room = some_room(random, codes, 4096);
    let answer_room = some_answer_room(random);
    let done = read(random, &text, offset_room, code_room, answer_room)?;
    if answer_room < 4 {
        return Ok(None.into());
    }
    if done.answer[0] == 0 {
        let (contexts, codes) = (done.answer[2] as usize, done.answer[3] as usize);
        let tables = Tables {
            k: done.answer[1] as u16,
            offsets: done.offsets[..=contexts].to_vec(),
            codes: done.codes[..codes].to_vec(),
        };
        if paper::judge(tables.k, &tables.offsets, &tables.codes).is_ok() {
            let (_, back) = write(random, &tables, text.len(), 4)?;
            if back != text {
                return Err(format!("round trip: sheet {} is written back as {}", shown(&text), shown(&back)));
            }
        }
    }
    Ok(Some(done.answer[0]).into())
}

/// Tables written; and if that is accepted, read back the same into tables that just fit.
fn write_trial(random: &mut Random) -> Result<Outcome, String> {
    let contexts = if random.once_in(200) {
        let kind = random.below(LARGE_KINDS);
        large_site(random, kind)
    } else {
        let kind = random.below(KINDS);
        small_site(random, kind)
    };
    let (offsets, codes) = tables(&contexts);
    let exact = sheet::text(1, &offsets, &codes).len();
    let mut tables = Tables {
        k: if random.once_in(2) { random.between(1, 9) as u16 } else { random.between(1, 64) as u16 },
        offsets,
        codes,
    };
    let exact = exact + usize::from(tables.k > 9);
    if random.once_in(2) {
        for _ in 0..random.between(1, 2) {
            break_tables(random, &mut tables);
        }
    }
    let room = match random.below(10) {
        0 => 0,
        1..=4 => exact,
        5 => exact - 1,
        6 => exact + 1,
        7 => random.below(exact),
        8 => exact + random.below(200),
        _ => 25_200,
    };
    let answer_room = some_answer_room(random);
    let (answer, text) = write(random, &tables, room, answer_room)?;
    if answer_room < 4 {
        return Ok(None.into());
    }
    if answer[0] == 0 {
        let text = &text[..answer[1] as usize];
        let back = read(random, text, tables.offsets.len(), tables.codes.len(), 4)?;
        if back.answer[0] != 0
            || back.answer[1] != u64::from(tables.k)
            || back.offsets != tables.offsets
            || back.codes != tables.codes
        {
            return Err(format!(
                "round trip: {tables:?} is read back as {:?} {:?} {:?}",
                back.answer, back.offsets, back.codes
            ));
        }
    }
    Ok(Some(answer[0]).into())
}

/// The worked examples by name: with exactly the words they speak of, and the place they state.
fn named_readings() -> Result<u64, String> {
    let mut random = Random::new(0);
    let cases = cases::readings();
    for case in &cases {
        case.stated()?;
        for answer_room in [4, 6, 0, 3] {
            read(&mut random, &case.sheet, case.offsets, case.codes, answer_room)
                .map_err(|what| format!("case '{}'\n{what}", case.name))?;
        }
    }
    Ok(cases.len() as u64)
}

/// The shortest sheet and the longest that is accepted: a text as long as the room is written, and no longer one.
fn border_writings() -> Result<(), String> {
    let mut random = Random::new(0);
    let shortest = Tables { k: 1, offsets: vec![0], codes: Vec::new() };
    let offsets = [vec![0, 3096], vec![4096; 255]].concat();
    let longest = Tables { k: 64, offsets, codes: (1000..4096).chain(1000..2000).collect() };
    let text = cases::longest_accepted();
    for (tables, text) in [(shortest, &b"k=1\ncontexts=0\n"[..]), (longest, &text)] {
        let length = text.len();
        for room in [length, length + 1, length - 1, 0] {
            let (done, written) = write(&mut random, &tables, room, 4).map_err(|what| format!("case 'N23'\n{what}"))?;
            let answer = if room < length { [12, 0, 0, 0] } else { [0, length as u64, 0, 0] };
            if done != answer || (room >= length && &written[..length] != text) {
                return Err(format!("a sheet of {length} bytes in {room}: {answer:?} is stated, {done:?} is found"));
            }
        }
    }
    Ok(())
}

/// The joins by name are written too: their tables are refused with 1 to 5 or become a text.
fn named_writings() -> Result<u64, String> {
    let mut random = Random::new(0);
    let cases = cases::joins();
    for case in &cases {
        let tables = Tables { k: case.k, offsets: case.offsets.clone(), codes: case.codes.clone() };
        for room in [0, 15, 48, 25_200] {
            write(&mut random, &tables, room, 4).map_err(|what| format!("case '{}'\n{what}", case.name))?;
        }
    }
    Ok(cases.len() as u64)
}

/// Small sheets damaged in every way at every byte: cut there, the byte lost, doubled, swapped, and each other byte in
/// its place or before it.
fn every_byte() -> Result<Tally, String> {
    let mut random = Random::new(0);
    let mut tally = Tally::default();
    let sheets: [(&[u8], usize, usize); 5] = [
        (b"k=1\ncontexts=3\nc=2 3 4 5\nc=1 2 3 4 5\nc=1 2 3 4\n", 4, 13),
        (b"k=64\ncontexts=2\nc=\nc=0 65535\n", 3, 2),
        (b"k=65535\ncontexts=1\nc=10 65530 9\n", 2, 2),
        (b"k=0\ncontexts=0\n", 1, 0),
        (b"k=7\ncontexts=25\nc=1\n", 26, 0),
    ];
    for (sound, offsets, codes) in sheets {
        let mut texts: Vec<Vec<u8>> = vec![sound.to_vec()];
        for at in 0..=sound.len() {
            let (front, back) = sound.split_at(at);
            texts.push(front.to_vec());
            texts.push([front, &front[front.len().saturating_sub(1)..], back].concat());
            if at < sound.len() {
                texts.push([front, &back[1..]].concat());
            }
            if at + 1 < sound.len() {
                texts.push([front, &[back[1], back[0]], &back[2..]].concat());
            }
            for byte in 0..=255u8 {
                texts.push([front, &[byte], back].concat());
                if at < sound.len() {
                    texts.push([front, &[byte], &back[1..]].concat());
                }
            }
        }
        for text in texts {
            tally.add(Some(read(&mut random, &text, offsets, codes, 4)?.answer[0]));
        }
    }
    Ok(tally)
}

/// Every ending of up to four bytes of a small alphabet behind some beginnings of sheets, with tables that just fit and
/// with tables that are short.
fn every_ending() -> Result<Tally, String> {
    let mut random = Random::new(0);
    let mut tally = Tally::default();
    let beginnings: [&[u8]; 10] = [
        b"",
        b"k=",
        b"k=6553",
        b"k=1\nc",
        b"k=1\ncontexts=",
        b"k=1\ncontexts=25",
        b"k=1\ncontexts=1\n",
        b"k=1\ncontexts=1\nc=",
        b"k=1\ncontexts=2\nc=\nc=1 ",
        b"k=1\ncontexts=1\nc=6 6553",
    ];
    for beginning in beginnings {
        let mut texts = vec![beginning.to_vec()];
        for _ in 0..=4 {
            for text in &texts {
                for (offsets, codes) in [(257, 4), (3, 1)] {
                    tally.add(Some(read(&mut random, text, offsets, codes, 4)?.answer[0]));
                }
            }
            texts = texts
                .iter()
                .flat_map(|text| b"0156 \nc=".iter().map(move |&byte| [text.as_slice(), &[byte]].concat()))
                .collect();
        }
    }
    Ok(tally)
}

/// All small tables, broken or not, written with a text that has ample room.
fn every_table() -> Result<Tally, String> {
    let mut random = Random::new(0);
    let mut tally = Tally::default();
    for (offsets, codes) in all_tables() {
        tally.add(Some(write(&mut random, &Tables { k: 1, offsets, codes }, 60, 4)?.0[0]));
    }
    Ok(tally)
}

/// Sheets about the limits of the lent tables and of the paper, cut and damaged.
fn large_reads(random: &mut Random) -> Result<Tally, String> {
    let mut tally = Tally::default();
    for length in [21_009, 21_010, 24_576, 24_577, 25_105] {
        for _ in 0..20 {
            let mut text = cases::sheet_of_length(length);
            if random.once_in(2) {
                damage(random, &mut text);
            }
            let (offsets, codes) = (*random.pick(&[256, 257, 258]), *random.pick(&[4095, 4096, 4097]));
            tally.add(Some(read(random, &text, offsets, codes, 4)?.answer[0]));
        }
    }
    for _ in 0..100 {
        let text = sound_sheet(random);
        for _ in 0..10 {
            let cut = random.below(text.len() + 1);
            tally.add(Some(read(random, &text[..cut], 257, 4096, 4)?.answer[0]));
        }
    }
    Ok(tally)
}

/// The readings by name, and those that are counted out.
fn readings_by_name(choice: &Choice) -> Result<(), String> {
    println!("read: {} readings by name agree", named_readings()?);
    every_byte()?.report("read, every byte of five sheets damaged", &[0, 9, 10, 11])?;
    every_ending()?.report("read, every ending of ten beginnings", &[0, 9, 10, 11])?;
    large_reads(&mut Random::new(choice.seed))?.report("read, large sheets", &[0, 9, 11])
}

/// The writings by name, and those that are counted out.
fn writings_by_name(_: &Choice) -> Result<(), String> {
    border_writings()?;
    println!("write: {} tables by name agree", named_writings()?);
    every_table()?.report("write, every small table", &[0, 2, 3, 4, 5])
}
