//! A call that crashes takes the whole run down with it. Its trial is named all the same.

use std::cell::Cell;
use std::sync::OnceLock;

extern "C" {
    fn signal(number: i32, handler: usize) -> usize;
    fn write(file: i32, bytes: *const u8, length: usize) -> isize;
}

/// Illegal instruction, abort, bus error, arithmetic fault, segmentation fault.
const CRASHES: [i32; 5] = [4, 6, 7, 8, 11];
const AS_BEFORE: usize = 0;
const STANDARD_OUTPUT: i32 = 1;

thread_local! {
    /// The trial of this thread, and what to say of it: the command up to the trial's number.
    static CURRENT: Cell<Option<(&'static str, u64)>> = const { Cell::new(None) };
}

static WATCHED: OnceLock<()> = OnceLock::new();

/// From now on a crash of this thread is one of this trial. The command is said up to the trial's number.
pub fn now(command: &'static str, number: u64) {
    WATCHED.get_or_init(|| CRASHES.iter().for_each(|&crash| watch(crash)));
    CURRENT.with(|current| current.set(Some((command, number))));
}

/// From now on a crash of this thread is none of a trial.
pub fn over() {
    CURRENT.with(|current| current.set(None));
}

fn watch(crash: i32) {
    // Sound: the handler calls nothing but what a handler of signals may call.
    unsafe { signal(crash, crashed as *const () as usize) };
}

/// Names the trial, and lets the signal do what it does without us.
extern "C" fn crashed(crash: i32) {
    if let Some((command, number)) = CURRENT.with(Cell::get) {
        say(b"trials: FAILED\nthe call crashed\nTo see it again: ");
        say(command.as_bytes());
        let mut digits = [0; 20];
        say(decimal(number, &mut digits));
        say(b"\n");
    }
    // Sound: as above. The crash comes again behind this, and ends the run.
    unsafe { signal(crash, AS_BEFORE) };
}

fn say(text: &[u8]) {
    // Sound: the pointer comes with the length of its slice. Nothing can be done if nobody listens.
    unsafe { write(STANDARD_OUTPUT, text.as_ptr(), text.len()) };
}

/// The digits of a number, in a room of its own: nothing may be allocated here.
fn decimal(mut number: u64, digits: &mut [u8; 20]) -> &[u8] {
    let mut from = digits.len();
    loop {
        from -= 1;
        digits[from] = b'0' + (number % 10) as u8;
        number /= 10;
        if number == 0 {
            return &digits[from..];
        }
    }
}

#[cfg(test)]
mod tests {
    use super::*;
    use std::os::unix::process::ExitStatusExt;
    use std::process::{abort, Command};

    #[test]
    fn numbers_are_written_in_digits() {
        for number in [0, 9, 10, 1_234_567, u64::MAX] {
            assert_eq!(decimal(number, &mut [0; 20]), number.to_string().as_bytes());
        }
    }

    /// This test runs itself again as another process, which crashes.
    #[test]
    fn a_crash_names_its_trial() {
        if let Ok(crash) = std::env::var("TRIALS_CRASH") {
            now("make trials KIND=join SEED=7 TRIAL=", 123_456);
            match crash.as_str() {
                "abort" => abort(),
                // Nothing stands at address 64, so that this is the crash that is wanted.
                _ => unsafe { std::ptr::write_volatile(std::hint::black_box(64) as *mut u8, 1) },
            }
        }
        for (crash, number) in [("abort", 6), ("segmentation fault", 11)] {
            let again = Command::new(std::env::current_exe().unwrap())
                .args(["--exact", "crash::tests::a_crash_names_its_trial", "--nocapture"])
                .env("TRIALS_CRASH", crash)
                .output()
                .unwrap();
            let said = String::from_utf8(again.stdout).unwrap();
            let command = "To see it again: make trials KIND=join SEED=7 TRIAL=123456\n";
            assert!(said.ends_with(command), "{crash}: {said}");
            assert_eq!(again.status.signal(), Some(number), "{crash}");
        }
    }
}
