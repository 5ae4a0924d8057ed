//! The fast way for the benchmark: a stroke drawn into a whole film, and the
//! three functions for C under names of their own.

use second::abi::{band, lent};
use second::band::Request;
use second::fast::{draw, Pen};
use second::setting::Setting;

/// The pen of a setting, to be given back to `peer_pen_free`; null for what is
/// no setting.
#[no_mangle]
pub extern "C" fn peer_pen(w: u64, p: u64, q: u64) -> *mut Pen {
    match Pen::new(Setting::new(w, p, q)) {
        Some(pen) => Box::into_raw(Box::new(pen)),
        None => std::ptr::null_mut(),
    }
}

/// # Safety
/// The pen is one of `peer_pen`, not given back before.
#[no_mangle]
pub unsafe extern "C" fn peer_pen_free(pen: *mut Pen) {
    drop(Box::from_raw(pen));
}

/// Draws a stroke into a film: its rows one after another, the top one first,
/// each of as many bytes as it needs.
///
/// # Safety
/// The pen is one of `peer_pen`, the path is good, and the film has all bytes
/// of its rows.
#[no_mangle]
pub unsafe extern "C" fn peer_draw(
    pen: *const Pen,
    path: *const u8,
    path_length: usize,
    columns: usize,
    rows: usize,
    film: *mut u8,
) {
    let path = lent(path.cast_mut(), path_length);
    let film = lent(film, columns.div_ceil(8) * rows);
    draw(&*pen, path, columns, rows, film);
}

second::export!(peer_row, row);
second::export!(peer_packed_row, packed_row);

/// # Safety
/// Both pointers have as many bytes as their lengths say, and those do not overlap.
#[no_mangle]
pub unsafe extern "C" fn peer_band(
    w: u64,
    p: u64,
    q: u64,
    path: *const u8,
    path_length: usize,
    columns: u64,
    rows: u64,
    first_row: u64,
    n_rows: u64,
    bytes: *mut u8,
    bytes_length: usize,
    stride: u64,
) -> u64 {
    let request = Request {
        setting: Setting::new(w, p, q),
        path: lent(path.cast_mut(), path_length),
        columns,
        rows,
        first_row,
        n_rows,
        stride,
    };
    band(&request, lent(bytes, bytes_length))
}
