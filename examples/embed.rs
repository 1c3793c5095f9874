//! Answers a task on a net by the library: embed WORDS < NET, as embed "bounds --rows 500" < net.pnml.

use std::io::{Read, Write, stderr, stdin, stdout};
use std::process::ExitCode;

const TEXT_CUT: u8 = 9;

/// How many bytes of each buffer a call filled.
#[repr(C)]
#[derive(Default)]
struct Written {
    out: usize,
    err: usize,
}

unsafe extern "C" {
    // As `share/pnmlstruct.h` declares it; nothing checks the one against the other.
    fn pnmlstruct_run(
        words: *const u8,
        words_size: usize,
        input: *const u8,
        input_size: usize,
        out: *mut u8,
        out_size: usize,
        err: *mut u8,
        err_size: usize,
        written: *mut Written,
    ) -> u8;
}

/// The status, the text and the line of a run, with this much room for the text.
fn run_within(words: &str, input: &[u8], room: usize) -> (u8, Vec<u8>, Vec<u8>) {
    let (mut text, mut line) = (vec![0; room], vec![0; 16384]);
    let mut written = Written::default();
    // Slices of Rust meet what the call owes: they aren't null, their sizes are true, and `&mut` ones overlap nothing.
    let status = unsafe {
        pnmlstruct_run(
            words.as_ptr(),
            words.len(),
            input.as_ptr(),
            input.len(),
            text.as_mut_ptr(),
            text.len(),
            line.as_mut_ptr(),
            line.len(),
            &mut written,
        )
    };
    text.truncate(written.out);
    line.truncate(written.err);
    (status, text, line)
}

fn main() -> ExitCode {
    let words = std::env::args().skip(1).collect::<Vec<_>>().join(" ");
    let mut input = Vec::new();
    stdin().read_to_end(&mut input).expect("standard input can be read");
    let mut room = 16;
    let (status, text, line) = loop {
        let ran = run_within(&words, &input, room);
        if ran.0 != TEXT_CUT {
            break ran;
        }
        room *= 16;
    };
    stdout().write_all(&text).expect("standard output takes the text");
    stderr().write_all(&line).expect("standard error takes the line");
    ExitCode::from(status)
}
