//! The functions of `sys`, called with slices: all unsafe code of the wrapper. The first call makes
//! sure that the archive is of the package's version.

use crate::{sys, Version};
use core::sync::atomic::{AtomicBool, Ordering};

pub fn list(text: &[u8], work: &mut [u16], report: &mut [u16], answer: &mut [u32; 2]) -> u32 {
    check_version();
    // SAFETY: each pointer and length are those of one slice, no two slices overlap, and the
    // library keeps within them.
    unsafe {
        sys::porthwynna_list(
            text.as_ptr(),
            text.len(),
            work.as_mut_ptr(),
            work.len(),
            report.as_mut_ptr(),
            report.len(),
            answer.as_mut_ptr(),
            answer.len(),
        )
    }
}

pub fn stands(text: &[u8], start: u64, half: u64, answer: &mut [u32; 1]) -> u32 {
    check_version();
    // SAFETY: as in `list`.
    unsafe {
        sys::porthwynna_stands(
            text.as_ptr(),
            text.len(),
            start,
            half,
            answer.as_mut_ptr(),
            answer.len(),
        )
    }
}

pub fn is_free(text: &[u8], work: &mut [u16], answer: &mut [u32; 1]) -> u32 {
    check_version();
    // SAFETY: as in `list`.
    unsafe {
        sys::porthwynna_is_free(
            text.as_ptr(),
            text.len(),
            work.as_mut_ptr(),
            work.len(),
            answer.as_mut_ptr(),
            answer.len(),
        )
    }
}

pub fn longest(text: &[u8], work: &mut [u16], answer: &mut [u32; 2]) -> u32 {
    check_version();
    // SAFETY: as in `list`.
    unsafe {
        sys::porthwynna_longest(
            text.as_ptr(),
            text.len(),
            work.as_mut_ptr(),
            work.len(),
            answer.as_mut_ptr(),
            answer.len(),
        )
    }
}

pub fn room(n: usize, answer: &mut [u32; 1]) -> u32 {
    check_version();
    // SAFETY: as in `list`.
    unsafe { sys::porthwynna_room(n, answer.as_mut_ptr(), answer.len()) }
}

pub fn version() -> Version {
    // SAFETY: it takes no pointer and reaches no memory.
    Version::from_number(unsafe { sys::porthwynna_version() })
}

/// Ends a call whose reply no contract allows.
pub fn unknown(function: &str, reply: u32) -> ! {
    unreachable!("porthwynna_{function} gave {reply}, which is none of its replies")
}

fn check_version() {
    static CHECKED: AtomicBool = AtomicBool::new(false);
    if CHECKED.load(Ordering::Relaxed) {
        return;
    }
    let (package, archive) = (Version::PACKAGE, version());
    assert!(
        package == archive,
        "the package porthwynna is of version {package}, and the archive that it is linked with \
         of version {archive}: build the archive again"
    );
    CHECKED.store(true, Ordering::Relaxed);
}
