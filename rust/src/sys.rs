//! The library's functions as they are exported. A slice is a pointer and a length.
//!
//! Each but [`porthwynna_version`] gives a reply number and writes its values to the front of the
//! lent answer, whose rest stays as before. [`ANSWER_TOO_SHORT`] is tried before everything else
//! and leaves all memory as before.
//!
//! # Safety
//!
//! Each pointer is that of a Rust slice of the length beside it, and a slice that may be written
//! overlaps no other. [`porthwynna_version`] takes no pointer and may be called at any time.

/// The reply when the question is answered.
pub const DONE: u32 = 0;
/// The text has more than 16,384 bytes.
pub const TEXT_TOO_LONG: u32 = 1;
/// The work space has fewer than twice as many numbers as the text has bytes.
pub const WORK_TOO_SHORT: u32 = 2;
/// There are more blocks than the report has room for.
pub const FULL: u32 = 3;
/// The half is 0, or start plus twice the half is past the end of the text.
pub const NO_SUCH_PLACE: u32 = 4;
/// The answer is shorter than the values that it is for.
pub const ANSWER_TOO_SHORT: u32 = 99;

extern "C" {
    /// The list of all repetitions, as blocks in the report. Replies [`DONE`] and [`FULL`] write
    /// two values, the blocks and the comparisons of the full list, and set as many numbers of the
    /// work space to 0 as it needs; other replies are [`TEXT_TOO_LONG`] and [`WORK_TOO_SHORT`].
    pub fn porthwynna_list(
        text: *const u8,
        text_len: usize,
        work: *mut u16,
        work_len: usize,
        report: *mut u16,
        report_len: usize,
        answer: *mut u32,
        answer_len: usize,
    ) -> u32;

    /// Whether the repetition with this start and half stands in the text. Reply [`DONE`] writes
    /// one value, 1 for yes and 0 for no; other replies are [`TEXT_TOO_LONG`] and
    /// [`NO_SUCH_PLACE`].
    pub fn porthwynna_stands(
        text: *const u8,
        text_len: usize,
        start: u64,
        half: u64,
        answer: *mut u32,
        answer_len: usize,
    ) -> u32;

    /// Whether the text has no repetition. Reply [`DONE`] writes one value, 1 for yes and 0 for
    /// no. Work space and other replies are as for [`porthwynna_list`].
    pub fn porthwynna_is_free(
        text: *const u8,
        text_len: usize,
        work: *mut u16,
        work_len: usize,
        answer: *mut u32,
        answer_len: usize,
    ) -> u32;

    /// The longest repetition. Reply [`DONE`] writes two values, start and half, which are 0 and 0
    /// when there is none. Work space and other replies are as for [`porthwynna_list`].
    pub fn porthwynna_longest(
        text: *const u8,
        text_len: usize,
        work: *mut u16,
        work_len: usize,
        answer: *mut u32,
        answer_len: usize,
    ) -> u32;

    /// The blocks that the list of a text of n bytes may have, at most. Reply [`DONE`] writes one
    /// value; the other is [`TEXT_TOO_LONG`].
    pub fn porthwynna_room(n: usize, answer: *mut u32, answer_len: usize) -> u32;

    /// The version that the library is built as, as one number: 10000 for each major version, 100
    /// for each minor one, and the patch.
    pub fn porthwynna_version() -> u32;
}
