//! The exported functions as `include/accudrina.h` has them: a slice is a pointer and then a length.

pub type Answer = [u32; 16];

extern "C" {
    pub fn accudrina_rounds(rows: usize) -> usize;
    pub fn accudrina_proof_bytes(rounds: usize) -> usize;
    pub fn accudrina_point_words(rounds: usize) -> usize;
    pub fn accudrina_log_words(rounds: usize, modes: u32) -> usize;
    pub fn accudrina_workspace_words(rounds: usize) -> usize;
    pub fn accudrina_challenge_words(rounds: usize) -> usize;

    pub fn accudrina_read_sheet(sheet: *const u8, sheet_len: usize, rows: *mut u32, rows_len: usize, answer: *mut Answer) -> u32;

    pub fn accudrina_prove(
        rows: *const u32,
        rows_len: usize,
        modes: u32,
        challenges: *const u32,
        challenges_len: usize,
        proof: *mut u8,
        proof_len: usize,
        point: *mut u32,
        point_len: usize,
        log: *mut u32,
        log_len: usize,
        work: *mut u32,
        work_len: usize,
        answer: *mut Answer,
    ) -> u32;

    pub fn accudrina_verify(
        proof: *const u8,
        proof_len: usize,
        rounds: usize,
        modes: u32,
        challenges: *const u32,
        challenges_len: usize,
        point: *mut u32,
        point_len: usize,
        log: *mut u32,
        log_len: usize,
        answer: *mut Answer,
    ) -> u32;

    pub fn accudrina_replay(
        proof: *const u8,
        proof_len: usize,
        rounds: usize,
        modes: u32,
        log: *const u32,
        log_len: usize,
        point: *mut u32,
        point_len: usize,
        answer: *mut Answer,
    ) -> u32;

    pub fn accudrina_evaluate(rows: *const u32, rows_len: usize, point: *const u32, point_len: usize, answer: *mut Answer) -> u32;
}
