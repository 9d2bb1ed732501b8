//! The program that libFuzzer drives. `FUZZ_TARGET` names the target; the words are libFuzzer's.
//!
//! A difference is printed with the function, the input and both answers, and ends the run.

#![no_main]

use fuzz::mutate::mutated;
use fuzz::targets::{NAMES, Target};
use std::sync::{LazyLock, Mutex};

static NAME: LazyLock<String> = LazyLock::new(|| std::env::var("FUZZ_TARGET").unwrap_or_default());
static TARGET: LazyLock<Mutex<Target>> = LazyLock::new(|| {
    let target = Target::named(&NAME);
    Mutex::new(target.unwrap_or_else(|| panic!("FUZZ_TARGET is none of {NAMES:?}")))
});

unsafe extern "C" {
    fn LLVMFuzzerMutate(data: *mut u8, size: usize, most: usize) -> usize;
}

/// Compares one input.
#[unsafe(no_mangle)]
extern "C" fn LLVMFuzzerTestOneInput(data: *const u8, size: usize) -> i32 {
    let checks = TARGET.lock().unwrap().compare(lent(data, size));
    if checks.iter().any(|check| check.differences > 0) {
        std::process::abort();
    }
    0
}

#[unsafe(no_mangle)]
extern "C" fn LLVMFuzzerCustomMutator(data: *mut u8, size: usize, most: usize, seed: u32) -> usize {
    let input = lent(data, size).to_vec();
    let changed = mutated(&NAME, &input, most, seed.into(), &mut own);
    let length = changed.len().min(most);
    // SAFETY: libFuzzer lends `most` bytes to write.
    unsafe { data.copy_from_nonoverlapping(changed.as_ptr(), length) };
    length
}

/// libFuzzer's own mutation.
fn own(bytes: &[u8], most: usize) -> Vec<u8> {
    let most = most.max(1);
    let mut buffer = bytes[..bytes.len().min(most)].to_vec();
    let size = buffer.len();
    buffer.resize(most, 0);
    // SAFETY: the buffer has `most` bytes, of which the first `size` are the input.
    let length = unsafe { LLVMFuzzerMutate(buffer.as_mut_ptr(), size, most) };
    buffer.truncate(length);
    buffer
}

fn lent<'a>(data: *const u8, size: usize) -> &'a [u8] {
    if size == 0 {
        return &[];
    }
    // SAFETY: libFuzzer lends so many bytes for the call.
    unsafe { std::slice::from_raw_parts(data, size) }
}
