//! `boundary-test N SEED [exact]`: N random calls of the two C functions of the
//! library that ZIMAROLFO_LIBRARY named at build time, compared with the second
//! program. With `exact`, what is lent stands without guard bytes, each slice a
//! piece of memory of its own, for a checker of memory.

use second::boundary::test;
use second::lending::program;
use std::process::ExitCode;

extern "C" {
    fn zimarolfo_row(
        w: u64,
        p: u64,
        q: u64,
        path: *const u8,
        path_length: usize,
        columns: u64,
        rows: u64,
        row: u64,
        runs: *mut u8,
        runs_length: usize,
    ) -> u64;
    fn zimarolfo_packed_row(
        w: u64,
        p: u64,
        q: u64,
        path: *const u8,
        path_length: usize,
        columns: u64,
        rows: u64,
        row: u64,
        bytes: *mut u8,
        bytes_length: usize,
    ) -> u64;
}

fn main() -> ExitCode {
    program("boundary-test", |count, seed, guards| {
        test(zimarolfo_row, zimarolfo_packed_row, count, seed, guards)
    })
}
