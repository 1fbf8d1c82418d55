//! The exported functions, as `bindings/c/gelvatos.h` declares them.

use crate::Record;

#[repr(C)]
pub struct Job {
    pub collective: u32,
    pub root: usize,
    pub operation: u32,
    pub modulus: u32,
    pub ranks: usize,
    pub sweeps: usize,
}

#[repr(C)]
#[derive(Default)]
pub struct Report {
    pub rounds: u32,
    pub messages: usize,
    pub rank: usize,
    pub fault: u32,
    pub word: usize,
}

unsafe extern "C" {
    pub fn gelvatos_over_log(
        job: &Job,
        members: *const usize,
        members_len: usize,
        inputs: *const u32,
        inputs_len: usize,
        records: *mut Record,
        records_len: usize,
        out: *mut u32,
        out_len: usize,
        report: &mut Report,
    ) -> u32;

    pub fn gelvatos_over_mailbox(
        job: &Job,
        members: *const usize,
        members_len: usize,
        inputs: *const u32,
        inputs_len: usize,
        depth: usize,
        words: *mut u32,
        words_len: usize,
        out: *mut u32,
        out_len: usize,
        report: &mut Report,
    ) -> u32;

    pub fn gelvatos_measure(
        text: *const u8,
        text_len: usize,
        block: *mut u32,
        block_len: usize,
    ) -> u32;
}
