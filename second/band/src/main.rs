//! `band-test N SEED [exact]`: N random calls of the C function `zimarolfo_band` of the
//! library that ZIMAROLFO_LIBRARY named at build time, compared with the second
//! program. With `exact`, what is lent stands without guard bytes, each slice a
//! piece of memory of its own, for a checker of memory.

use second::band_boundary::test;
use second::lending::program;
use std::process::ExitCode;

extern "C" {
    fn zimarolfo_band(
        w: u64,
        p: u64,
        q: u64,
        path: *const u8,
        path_length: usize,
        columns: u64,
        rows: u64,
        first_row: u64,
        n_rows: u64,
        bytes: *mut u8,
        bytes_length: usize,
        stride: u64,
    ) -> u64;
}

fn main() -> ExitCode {
    program("band-test", |count, seed, guards| {
        test(zimarolfo_band, count, seed, guards)
    })
}
