//! The functions of `libfoamlattice.a`, declared as `include/foamlattice.h` has them, and the number that each answers.

use crate::refusal::Refusal;

unsafe extern "C" {
    pub fn foam_read(expression: *const u8, expression_length: usize, records: *mut u8, records_length: usize) -> u64;
    pub fn foam_read2(
        expression: *const u8,
        expression_length: usize,
        records: *mut u8,
        records_length: usize,
        classes: *mut u8,
        classes_length: usize,
    ) -> u64;
    pub fn foam_check(expression: *const u8, expression_length: usize) -> u64;
    pub fn foam_check2(expression: *const u8, expression_length: usize) -> u64;
    pub fn foam_match(
        records: *const u8,
        records_length: usize,
        classes: *const u8,
        classes_length: usize,
        text: *const u8,
        text_length: usize,
    ) -> u64;
    pub fn foam_search(
        records: *const u8,
        records_length: usize,
        classes: *const u8,
        classes_length: usize,
        text: *const u8,
        text_length: usize,
    ) -> u64;
    pub fn foam_start(
        records: *const u8,
        records_length: usize,
        classes: *const u8,
        classes_length: usize,
        words: *mut u64,
        words_length: usize,
    ) -> u64;
    pub fn foam_step(
        records: *const u8,
        records_length: usize,
        classes: *const u8,
        classes_length: usize,
        words: *mut u64,
        words_length: usize,
        byte: u8,
    ) -> u64;
    pub fn foam_steps(
        records: *const u8,
        records_length: usize,
        classes: *const u8,
        classes_length: usize,
        words: *mut u64,
        words_length: usize,
        bytes: *const u8,
        bytes_length: usize,
    ) -> u64;
    pub fn foam_lines(
        records: *const u8,
        records_length: usize,
        classes: *const u8,
        classes_length: usize,
        text: *const u8,
        text_length: usize,
        answers: *mut u8,
        answers_length: usize,
    ) -> u64;
    pub fn foam_table(
        records: *const u8,
        records_length: usize,
        classes: *const u8,
        classes_length: usize,
        table: *mut u16,
        table_length: usize,
        room: *mut u64,
        room_length: usize,
    ) -> u64;
    pub fn foam_match_table(table: *const u16, table_length: usize, text: *const u8, text_length: usize) -> u64;
    pub fn foam_lines_table(
        table: *const u16,
        table_length: usize,
        text: *const u8,
        text_length: usize,
        answers: *mut u8,
        answers_length: usize,
    ) -> u64;
    pub fn foam_pick(input: *const u8, input_length: usize, output: *mut u8, output_length: usize) -> u64;
    pub fn foam_widen(old: *const u8, old_length: usize, records: *mut u8, records_length: usize) -> u64;
}

/// What a call answers where it is not refused: a flag and two numbers.
pub struct Answer {
    pub flag: bool,
    pub x: usize,
    pub y: usize,
}

impl Answer {
    /// Takes apart the number that a call gave back.
    pub fn of(packed: u64) -> Result<Answer, Refusal> {
        let x = (packed >> 16 & 0xff_ffff) as usize;
        match packed as u8 {
            0 => Ok(Answer { flag: packed >> 8 & 0xff == 1, x, y: (packed >> 40) as usize }),
            number => Err(Refusal::new(number, x)),
        }
    }
}
