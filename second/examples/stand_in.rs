//! A stand-in for the libraries under test, with the same three C functions over
//! the second program's fast way.

use second::abi::{band, lent};
use second::band::Request;
use second::setting::Setting;

second::export!(zimarolfo_row, row);
second::export!(zimarolfo_packed_row, packed_row);

/// # Safety
/// Both pointers have as many bytes as their lengths say, and those do not overlap.
#[no_mangle]
pub unsafe extern "C" fn zimarolfo_band(
    w: u64,
    p: u64,
    q: u64,
    path: *const u8,
    path_length: usize,
    columns: u64,
    rows: u64,
    first_row: u64,
    n_rows: u64,
    bytes: *mut u8,
    bytes_length: usize,
    stride: u64,
) -> u64 {
    let request = Request {
        setting: Setting::new(w, p, q),
        path: lent(path.cast_mut(), path_length),
        columns,
        rows,
        first_row,
        n_rows,
        stride,
    };
    band(&request, lent(bytes, bytes_length))
}
