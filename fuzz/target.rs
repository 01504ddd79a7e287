//! The target for libFuzzer: aborts where the library and the second implementation differ. Prints at the end how often each call was made.
#![allow(dead_code)]
mod calls;
#[path = "../second/reference.rs"]
mod reference;

use std::sync::atomic::{AtomicU64, Ordering};

static MADE: [AtomicU64; calls::CALLS.len()] = [const { AtomicU64::new(0) }; calls::CALLS.len()];

extern "C" {
    fn atexit(at_end: extern "C" fn()) -> i32;
}

extern "C" fn told() {
    for (name, count) in calls::CALLS.iter().zip(&MADE) {
        println!("{name}: {} compared", count.load(Ordering::Relaxed));
    }
}

#[no_mangle]
pub extern "C" fn LLVMFuzzerInitialize(_: *const i32, _: *const *const *const u8) -> i32 {
    unsafe { atexit(told) }
}

/// # Safety
/// libFuzzer hands in `size` bytes.
#[no_mangle]
pub unsafe extern "C" fn LLVMFuzzerTestOneInput(data: *const u8, size: usize) -> i32 {
    let input = unsafe { std::slice::from_raw_parts(data, size) };
    match calls::compare(input) {
        Ok(compared) => MADE[compared.call].fetch_add(1, Ordering::Relaxed),
        Err(what) => {
            eprintln!("DIFFERENT: {what}\n  input: {input:?}");
            std::process::abort();
        }
    };
    0
}
