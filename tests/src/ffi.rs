//! The calls under trial. A slice passes as its pointer and then its length; what a probe function returns is mostly
//! ignored, since its answer stands in `answer`. Every table lent here stands between guard words. Tables that must not
//! change are lent as if they could, so that the check behind the call does look at them again.

use std::fmt::Debug;

#[cfg(any(feature = "probe", feature = "host"))]
use crate::heat::{Asked, Bits};

#[cfg(feature = "probe")]
extern "C" {
    fn probe_join(
        k: u16,
        offsets: *const u16,
        offsets_len: usize,
        codes: *const u16,
        codes_len: usize,
        list: *mut u16,
        list_len: usize,
        work: *mut u16,
        work_len: usize,
        trail: *mut u16,
        trail_len: usize,
        answer: *mut u64,
        answer_len: usize,
    ) -> u64;
    fn probe_read(
        sheet: *const u8,
        sheet_len: usize,
        offsets: *mut u16,
        offsets_len: usize,
        codes: *mut u16,
        codes_len: usize,
        answer: *mut u64,
        answer_len: usize,
    ) -> u64;
    fn probe_write(
        k: u16,
        offsets: *const u16,
        offsets_len: usize,
        codes: *const u16,
        codes_len: usize,
        text: *mut u8,
        text_len: usize,
        answer: *mut u64,
        answer_len: usize,
    ) -> u64;
    fn probe_cell(
        contexts: u16,
        list: *const u16,
        list_len: usize,
        entries: usize,
        first: u16,
        second: u16,
        value: *mut f64,
        value_len: usize,
        answer: *mut u64,
        answer_len: usize,
    ) -> u64;
}

#[cfg(feature = "host")]
extern "C" {
    fn sazamkhri_listing(sheet: *const u8, sheet_len: usize, text: *mut u8, text_len: usize) -> u64;
    fn sazamkhri_cell(
        contexts: u16,
        list: *const u16,
        list_len: usize,
        entries: usize,
        first: u16,
        second: u16,
        value: *mut f64,
    ) -> u64;
}

/// How many guard words stand before and behind each lent table.
const GUARD: usize = 16;

/// A table to lend, between guard words.
pub struct Lent<T> {
    all: Vec<T>,
    len: usize,
    guard: T,
}

impl<T: Copy + PartialEq + Debug> Lent<T> {
    /// A table that holds these words at entry.
    pub fn new(words: &[T], guard: T) -> Lent<T> {
        let mut all = vec![guard; GUARD];
        all.extend_from_slice(words);
        all.extend(vec![guard; GUARD]);
        Lent { all, len: words.len(), guard }
    }

    pub fn words(&self) -> &[T] {
        &self.all[GUARD..GUARD + self.len]
    }

    fn words_mut(&mut self) -> &mut [T] {
        &mut self.all[GUARD..GUARD + self.len]
    }

    /// Every word must be as expected, and every guard word as it was.
    pub fn check(&self, name: &str, expected: &[T]) -> Result<(), String> {
        assert_eq!(expected.len(), self.len, "expectations are as long as the table");
        let held = self.all[..GUARD].iter().chain(&self.all[GUARD + self.len..]).all(|&word| word == self.guard);
        if !held {
            return Err(format!("{name}: a word outside of the lent table has changed"));
        }
        let words = self.words();
        // Whole tables are compared at once, since nearly all are as expected.
        if words == expected {
            return Ok(());
        }
        let i = (0..self.len).find(|&i| words[i] != expected[i]).expect("the tables differ");
        Err(format!("{name}[{i}] of {}: expected {:?}, got {:?}", self.len, expected[i], words[i]))
    }
}

/// The four tables that the join fills.
pub struct JoinBuffers {
    pub list: Lent<u16>,
    pub work: Lent<u16>,
    pub trail: Lent<u16>,
    pub answer: Lent<u64>,
}

#[cfg(feature = "probe")]
pub fn join(k: u16, offsets: &mut Lent<u16>, codes: &mut Lent<u16>, buffers: &mut JoinBuffers) {
    let (offsets, codes) = (offsets.words_mut(), codes.words_mut());
    let list = buffers.list.words_mut();
    let work = buffers.work.words_mut();
    let trail = buffers.trail.words_mut();
    let answer = buffers.answer.words_mut();
    // Sound: each pointer comes with the length of its own slice, and no two slices overlap.
    unsafe {
        probe_join(
            k,
            offsets.as_mut_ptr(),
            offsets.len(),
            codes.as_mut_ptr(),
            codes.len(),
            list.as_mut_ptr(),
            list.len(),
            work.as_mut_ptr(),
            work.len(),
            trail.as_mut_ptr(),
            trail.len(),
            answer.as_mut_ptr(),
            answer.len(),
        );
    }
}

#[cfg(feature = "probe")]
pub fn read(sheet: &mut Lent<u8>, offsets: &mut Lent<u16>, codes: &mut Lent<u16>, answer: &mut Lent<u64>) {
    let sheet = sheet.words_mut();
    let (offsets, codes, answer) = (offsets.words_mut(), codes.words_mut(), answer.words_mut());
    // Sound: as above.
    unsafe {
        probe_read(
            sheet.as_mut_ptr(),
            sheet.len(),
            offsets.as_mut_ptr(),
            offsets.len(),
            codes.as_mut_ptr(),
            codes.len(),
            answer.as_mut_ptr(),
            answer.len(),
        );
    }
}

#[cfg(feature = "probe")]
pub fn write(k: u16, offsets: &mut Lent<u16>, codes: &mut Lent<u16>, text: &mut Lent<u8>, answer: &mut Lent<u64>) {
    let (offsets, codes) = (offsets.words_mut(), codes.words_mut());
    let (text, answer) = (text.words_mut(), answer.words_mut());
    // Sound: as above.
    unsafe {
        probe_write(
            k,
            offsets.as_mut_ptr(),
            offsets.len(),
            codes.as_mut_ptr(),
            codes.len(),
            text.as_mut_ptr(),
            text.len(),
            answer.as_mut_ptr(),
            answer.len(),
        );
    }
}

#[cfg(feature = "host")]
pub fn listing(sheet: &mut Lent<u8>, text: &mut Lent<u8>) -> u64 {
    let sheet = sheet.words_mut();
    let text = text.words_mut();
    // Sound: as above.
    unsafe { sazamkhri_listing(sheet.as_mut_ptr(), sheet.len(), text.as_mut_ptr(), text.len()) }
}

/// One cell by the call for tests. Gives what it returns.
#[cfg(feature = "probe")]
pub fn cell(asked: Asked, list: &mut Lent<u16>, value: &mut Lent<Bits>, answer: &mut Lent<u64>) -> u64 {
    let Asked { contexts, entries, first, second } = asked;
    let (list, value, answer) = (list.words_mut(), value.words_mut(), answer.words_mut());
    // Sound: as above; the bits of an f64 are lent as one.
    unsafe {
        probe_cell(
            contexts,
            list.as_mut_ptr(),
            list.len(),
            entries,
            first,
            second,
            value.as_mut_ptr().cast(),
            value.len(),
            answer.as_mut_ptr(),
            answer.len(),
        )
    }
}

/// One cell by the host call, which is lent a value of one word. Gives what it returns.
#[cfg(feature = "host")]
pub fn host_cell(asked: Asked, list: &mut Lent<u16>, value: &mut Lent<Bits>) -> u64 {
    let Asked { contexts, entries, first, second } = asked;
    let (list, value) = (list.words_mut(), value.words_mut());
    assert_eq!(value.len(), 1, "the call takes no length of the value");
    // Sound: as above.
    unsafe {
        sazamkhri_cell(contexts, list.as_mut_ptr(), list.len(), entries, first, second, value.as_mut_ptr().cast())
    }
}
