//! The calls that are timed: the join as words, and the host's listing.

use crate::plain::{Buffers, Outcome};

#[cfg(feature = "probe")]
extern "C" {
    fn probe_join(
        k: u16,
        offsets: *const u16,
        offsets_len: usize,
        codes: *const u16,
        codes_len: usize,
        list: *mut u16,
        list_len: usize,
        work: *mut u16,
        work_len: usize,
        trail: *mut u16,
        trail_len: usize,
        answer: *mut u64,
        answer_len: usize,
    ) -> u64;
}

#[cfg(feature = "host")]
extern "C" {
    fn sazamkhri_listing(sheet: *const u8, sheet_len: usize, text: *mut u8, text_len: usize) -> u64;
}

/// The join, where its library is linked.
#[cfg(feature = "probe")]
pub fn join(k: u16, offsets: &[u16], codes: &[u16], to: &mut Buffers) -> Option<Outcome> {
    let mut answer = [0u64; 4];
    // Each pointer comes with the length of its own slice, and no two of them overlap.
    unsafe {
        probe_join(
            k,
            offsets.as_ptr(),
            offsets.len(),
            codes.as_ptr(),
            codes.len(),
            to.list.as_mut_ptr(),
            to.list.len(),
            to.work.as_mut_ptr(),
            to.work.len(),
            to.trail.as_mut_ptr(),
            to.trail.len(),
            answer.as_mut_ptr(),
            answer.len(),
        );
    }
    Some(match answer[0] {
        0 => Ok(crate::plain::Counts { found: answer[1] as usize, events: answer[2] as usize, met: answer[3] as usize }),
        number => Err(number),
    })
}

#[cfg(not(feature = "probe"))]
pub fn join(_: u16, _: &[u16], _: &[u16], _: &mut Buffers) -> Option<Outcome> {
    None
}

/// The host call, where its library is linked.
#[cfg(feature = "host")]
pub fn listing(sheet: &[u8], text: &mut [u8]) -> Option<u64> {
    // As above.
    Some(unsafe { sazamkhri_listing(sheet.as_ptr(), sheet.len(), text.as_mut_ptr(), text.len()) })
}

#[cfg(not(feature = "host"))]
pub fn listing(_: &[u8], _: &mut [u8]) -> Option<u64> {
    None
}
