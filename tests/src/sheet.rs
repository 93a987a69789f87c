//! Site sheets and listings. The reader is no parser that walks the bytes: it asks of whole sheets and of
//! their beginnings whether they are well-formed, finds the place of refusal 9 by that question alone, then
//! gathers the numbers before that place, judges each, and lets the smallest place win.

use crate::paper::{self, refuse, refused, After, Answer, Refusal, Rooms, ENTRY_WORDS};

/// A number by the form: `0`, or digits of any number that do not begin with 0.
fn is_number(text: &[u8]) -> bool {
    text == b"0" || (!text.is_empty() && text[0] != b'0' && text.iter().all(u8::is_ascii_digit))
}

/// A whole line `key` and number.
fn is_key_line(key: &[u8], line: &[u8]) -> bool {
    line.strip_prefix(key).is_some_and(is_number)
}

/// A beginning of such a line. (Every beginning of a number is a number, but for the empty one.)
fn begins_key_line(key: &[u8], text: &[u8]) -> bool {
    key.starts_with(text) || text.strip_prefix(key).is_some_and(|rest| rest.is_empty() || is_number(rest))
}

/// A whole `c=` line: alone, or numbers with one space between.
fn is_context_line(line: &[u8]) -> bool {
    line.strip_prefix(b"c=").is_some_and(|rest| rest.is_empty() || rest.split(|&b| b == b' ').all(is_number))
}

/// A beginning of a `c=` line: all words but the last are numbers, and the last is one or is yet to come.
fn begins_context_line(text: &[u8]) -> bool {
    if b"c=".starts_with(text) {
        return true;
    }
    let Some(rest) = text.strip_prefix(b"c=") else { return false };
    let mut words: Vec<&[u8]> = rest.split(|&b| b == b' ').collect();
    let last = words.pop().expect("a split gives one word at least");
    words.into_iter().all(is_number) && (last.is_empty() || is_number(last))
}

/// The size of a number: as it is, or the greatest u64 if it is longer than that can tell.
fn size_of(digits: &[u8]) -> u64 {
    if digits.len() > 18 {
        return u64::MAX;
    }
    std::str::from_utf8(digits).expect("digits").parse().expect("digits")
}

/// The lines ended by byte 10, and what stands behind the last byte 10.
fn lines(text: &[u8]) -> (Vec<&[u8]>, &[u8]) {
    let mut lines: Vec<&[u8]> = text.split(|&b| b == 10).collect();
    let rest = lines.pop().expect("a split gives one part at least");
    (lines, rest)
}

/// The number of `c=` lines owed, by a whole `contexts=` line.
fn owed(line: &[u8]) -> u64 {
    size_of(&line[b"contexts=".len()..])
}

/// Whether the whole lines stand as the form wants them, and no line is too many.
fn lines_in_order(lines: &[&[u8]]) -> bool {
    lines.first().map_or(true, |line| is_key_line(b"k=", line))
        && lines.get(1).map_or(true, |line| is_key_line(b"contexts=", line) && lines.len() as u64 - 2 <= owed(line))
        && lines.iter().skip(2).all(|line| is_context_line(line))
}

/// Whether some well-formed sheet begins with this text.
pub fn begins_sheet(text: &[u8]) -> bool {
    let (lines, rest) = lines(text);
    lines_in_order(&lines)
        && match lines.len() {
            0 => begins_key_line(b"k=", rest),
            1 => begins_key_line(b"contexts=", rest),
            n if n as u64 - 2 < owed(lines[1]) => begins_context_line(rest),
            _ => rest.is_empty(),
        }
}

/// Whether this text is a well-formed sheet.
pub fn is_sheet(text: &[u8]) -> bool {
    let (lines, rest) = lines(text);
    rest.is_empty() && lines.len() >= 2 && lines_in_order(&lines) && lines.len() as u64 - 2 == owed(lines[1])
}

/// The place of refusal 9, if there is one. A text whose beginning begins no sheet begins none itself, so that
/// halving finds the first byte that cannot continue.
pub fn nine(sheet: &[u8]) -> Option<usize> {
    if is_sheet(sheet) {
        return None;
    }
    if begins_sheet(sheet) {
        return Some(sheet.len());
    }
    // The first `good` bytes begin a sheet, the first `bad` bytes begin none.
    let (mut good, mut bad) = (0, sheet.len());
    while bad - good > 1 {
        let middle = (good + bad) / 2;
        if begins_sheet(&sheet[..middle]) {
            good = middle;
        } else {
            bad = middle;
        }
    }
    Some(good)
}

/// A number of a sheet: where its first digit stands, and its digits.
struct Number<'a> {
    place: usize,
    digits: &'a [u8],
}

impl Number<'_> {
    /// Compared as text, so that no number is too long to be judged.
    fn above(&self, limit: u64) -> bool {
        let limit = limit.to_string();
        (self.digits.len(), self.digits) > (limit.len(), limit.as_bytes())
    }
}

/// The numbers whose first digit stands before `end`. The keys have no digits, so a number begins where a digit
/// stands that has none before it.
fn numbers(sheet: &[u8], end: usize) -> Vec<Number<'_>> {
    let digit = |i: usize| sheet.get(i).is_some_and(u8::is_ascii_digit);
    let mut numbers = Vec::new();
    for place in (0..end).filter(|&i| digit(i) && (i == 0 || !digit(i - 1))) {
        // Behind a first digit 0 the form forbids every digit.
        let length = if sheet[place] == b'0' { 1 } else { (place..).take_while(|&i| digit(i)).count() };
        numbers.push(Number { place, digits: &sheet[place..place + length] });
    }
    numbers
}

/// The values of a sheet that is read.
#[derive(Clone, Debug, PartialEq, Eq)]
pub struct Site {
    pub k: u16,
    pub offsets: Vec<u16>,
    pub codes: Vec<u16>,
}

/// Form and room: refusals 9, 10 and 11, the smallest place of all, 10 before 11 at one place.
pub fn read(sheet: &[u8], offset_room: usize, code_room: usize) -> Result<Site, Refusal> {
    let nine = nine(sheet);
    let numbers = numbers(sheet, nine.unwrap_or(sheet.len()));
    let mut faults: Vec<(usize, u64)> = Vec::new();
    faults.extend(nine.map(|place| (place, 9)));
    faults.extend(numbers.iter().filter(|number| number.above(65_535)).map(|number| (number.place, 10)));
    if let Some(contexts) = numbers.get(1) {
        if contexts.above(256) || size_of(contexts.digits).saturating_add(1) > offset_room as u64 {
            faults.push((contexts.place, 11));
        }
    }
    // The numbers behind the second are the codes, counted from 0.
    let first_without_room = code_room.min(4096);
    faults.extend(numbers.get(2 + first_without_room).map(|code| (code.place, 11)));
    match faults.into_iter().min() {
        Some((place, number)) => Err(refuse(number, place)),
        None => Ok(values(sheet)),
    }
}

/// The values of a well-formed sheet without numbers above 65,535.
fn values(sheet: &[u8]) -> Site {
    let text = std::str::from_utf8(sheet).expect("a well-formed sheet is ASCII");
    let number = |digits: &str| digits.parse::<u16>().expect("no number is above 65,535");
    let mut lines = text.lines();
    let mut key = |key: &str| number(lines.next().unwrap().strip_prefix(key).unwrap());
    let (k, contexts) = (key("k="), key("contexts="));
    let (mut offsets, mut codes) = (vec![0], Vec::new());
    for line in lines {
        codes.extend(line.strip_prefix("c=").unwrap().split_ascii_whitespace().map(number));
        offsets.push(codes.len() as u16);
    }
    assert_eq!(offsets.len(), usize::from(contexts) + 1);
    Site { k, offsets, codes }
}

/// The whole outcome of a reading: the answer, and both lent tables.
pub struct Reading {
    pub answer: Answer,
    pub offsets: After<u16>,
    pub codes: After<u16>,
}

pub fn reading(sheet: &[u8], offset_room: usize, code_room: usize) -> Reading {
    match read(sheet, offset_room, code_room) {
        Ok(site) => Reading {
            answer: [0, u64::from(site.k), site.offsets.len() as u64 - 1, site.codes.len() as u64],
            offsets: After::Holds(site.offsets),
            codes: After::Holds(site.codes),
        },
        Err(refusal) => {
            Reading { answer: refused(refusal), offsets: After::Holds(Vec::new()), codes: After::Holds(Vec::new()) }
        }
    }
}

/// The text of a sheet with these tables, which must have sound offsets.
pub fn text(k: u16, offsets: &[u16], codes: &[u16]) -> String {
    let mut text = format!("k={k}\ncontexts={}\n", offsets.len() - 1);
    for context in paper::contexts(offsets, codes) {
        let words: Vec<String> = context.iter().map(u16::to_string).collect();
        text.push_str(&format!("c={}\n", words.join(" ")));
    }
    text
}

/// The whole outcome of a writing: the answer, and the lent text.
pub struct Writing {
    pub answer: Answer,
    pub text: After<u8>,
}

pub fn writing(k: u16, offsets: &[u16], codes: &[u16], room: usize) -> Writing {
    if let Err(refusal) = paper::judge(k, offsets, codes) {
        return Writing { answer: refused(refusal), text: After::Unchanged };
    }
    let text = text(k, offsets, codes);
    if text.len() > room {
        return Writing { answer: refused(refuse(12, 0)), text: After::Holds(Vec::new()) };
    }
    Writing { answer: [0, text.len() as u64, 0, 0], text: After::Holds(text.into_bytes()) }
}

/// The greatest sheet that the program and the host call take, in bytes.
pub const SHEET_LIMIT: usize = 24_576;

/// The rooms that the program and the host call lend: 64 entries, the work area, 2,048 pairs.
pub const ROOMS: Rooms = Rooms { list: ENTRY_WORDS * 64, work: 10_240, trail: 2 * 2_048 };

/// The listing of a sheet, or its refusal.
pub type Listing = Result<String, Refusal>;

pub fn listing(sheet: &[u8]) -> Listing {
    if sheet.len() > SHEET_LIMIT {
        return Err(refuse(11, SHEET_LIMIT));
    }
    let site = read(sheet, 257, 4096)?;
    let joined = paper::join(site.k, &site.offsets, &site.codes, ROOMS);
    let [number, found, events, met] = joined.answer;
    if number != 0 {
        return Err(Refusal { number, place: joined.answer[1] });
    }
    let mut text = format!("k={}\nfound={found}\nevents={events}\nmet={met}\n", site.k);
    let After::Holds(list) = joined.list else { panic!("an accepted join fills its list") };
    for entry in list.chunks(ENTRY_WORDS) {
        let words: Vec<String> = entry.iter().map(u16::to_string).collect();
        text.push_str(&format!("pair={}\n", words.join(" ")));
    }
    Ok(text)
}

/// What the program prints.
pub fn printed(listing: &Listing) -> String {
    match listing {
        Ok(text) => text.clone(),
        Err(refusal) => format!("refused={} {}\n", refusal.number, refusal.place),
    }
}

/// What the host call answers, and what its byte buffer of `room` bytes then holds.
pub fn host(listing: &Listing, room: usize) -> (u64, Vec<u8>) {
    let (value, mut text) = match listing {
        Ok(text) if text.len() <= room => (text.len() as u64, text.clone().into_bytes()),
        Ok(_) => (1_000_012, Vec::new()),
        Err(refusal) => (1_000_000 + refusal.number, Vec::new()),
    };
    text.resize(room, 0);
    (value, text)
}

#[cfg(test)]
mod tests {
    use super::*;
    use crate::random::Random;

    fn printed(sheet: &[u8]) -> String {
        super::printed(&listing(sheet))
    }

    fn host(sheet: &[u8], room: usize) -> (u64, Vec<u8>) {
        super::host(&listing(sheet), room)
    }

    const THREE: &[u8] = b"k=1\ncontexts=3\nc=2 3 4 5\nc=1 2 3 4 5\nc=1 2 3 4\n";

    #[test]
    fn the_sheet_of_the_paper_is_listed() {
        assert_eq!(printed(THREE), "k=1\nfound=1\nevents=4\nmet=2\npair=0 1 4 5 2\n");
        let text = "k=1\nfound=1\nevents=4\nmet=2\npair=0 1 4 5 2\n".as_bytes();
        assert_eq!(host(THREE, text.len()), (text.len() as u64, text.to_vec()));
        assert_eq!(host(THREE, text.len() - 1), (1_000_012, vec![0; text.len() - 1]));
        assert_eq!(host(THREE, text.len() + 2).1, [text, &[0, 0]].concat());
        assert_eq!(host(THREE, 0), (1_000_012, vec![]));
        assert_eq!(host(b"k=65\ncontexts=0\n", 0), (1_000_001, vec![]));
    }

    #[test]
    fn program_and_host_lend_320_words_for_64_entries() {
        assert_eq!(ROOMS, Rooms { list: 320, work: 10_240, trail: 4_096 });
    }

    #[test]
    fn refusals_are_printed_with_their_place() {
        assert_eq!(printed(b"k=1\ncontexts=1\nc=1 2 3 4 5 6 7 7\n"), "refused=5 7\n");
        assert_eq!(printed(b"k=0\ncontexts=0\n"), "refused=1 0\n");
        assert_eq!(printed(b"k=1\ncontexts=1\nc=4095 4096\n"), "refused=4 1\n");
        assert_eq!(printed(b""), "refused=9 0\n");
        assert_eq!(printed(&vec![b'x'; 24_577]), "refused=11 24576\n");
        assert_eq!(printed(&vec![b'x'; 24_576]), "refused=9 0\n");
        assert_eq!(host(&vec![b'x'; 24_577], 3), (1_000_011, vec![0; 3]));
    }

    #[test]
    fn a_sheet_gives_its_tables_and_back() {
        let site = read(THREE, 257, 4096).unwrap();
        assert_eq!(site, Site { k: 1, offsets: vec![0, 4, 9, 13], codes: vec![2, 3, 4, 5, 1, 2, 3, 4, 5, 1, 2, 3, 4] });
        assert_eq!(text(site.k, &site.offsets, &site.codes).as_bytes(), THREE);
        assert!(read(THREE, 4, 13).is_ok() && read(THREE, 3, 13).is_err() && read(THREE, 4, 12).is_err());
    }

    /// The place of 9 by its bare definition, byte by byte.
    fn nine_by_definition(sheet: &[u8]) -> Option<usize> {
        if is_sheet(sheet) {
            return None;
        }
        Some((1..=sheet.len()).find(|&n| !begins_sheet(&sheet[..n])).map_or(sheet.len(), |n| n - 1))
    }

    #[test]
    fn halving_finds_the_place_of_the_definition() {
        let mut random = Random::new(9);
        for _ in 0..20_000 {
            let mut sheet = THREE[..random.between(0, THREE.len())].to_vec();
            for _ in 0..random.below(3) {
                let at = random.below(sheet.len() + 1);
                sheet.insert(at, *random.pick(b"0123 \n=ck\r"));
            }
            assert_eq!(nine(&sheet), nine_by_definition(&sheet), "{:?}", String::from_utf8_lossy(&sheet));
        }
    }

    /// All texts of three bytes of a small alphabet behind a fixed beginning: a text begins a sheet exactly if it
    /// is one or one of its continuations by one byte begins one.
    #[test]
    fn beginnings_go_on() {
        let alphabet = b"k=contexs0123 \nc";
        for start in
            ["", "k=", "k=1\nc", "k=1\ncontexts=", "k=1\ncontexts=2\nc=", "k=1\ncontexts=0", "k=1\ncontexts=1\nc=4 "]
        {
            let mut texts = vec![start.as_bytes().to_vec()];
            for _ in 0..2 {
                texts =
                    texts.iter().flat_map(|t| alphabet.iter().map(move |&b| [t.as_slice(), &[b]].concat())).collect();
                for text in &texts {
                    let goes_on = (0..=255u8).any(|b| begins_sheet(&[text.as_slice(), &[b]].concat()));
                    assert_eq!(begins_sheet(text), is_sheet(text) || goes_on, "{:?}", String::from_utf8_lossy(text));
                }
            }
        }
    }
}
