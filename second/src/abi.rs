//! The fast way behind the C boundary, for the stand-in library and for the
//! benchmark.

use crate::band;
use crate::fast::Drawer;
use crate::lending::in_one_number;
use crate::row::Request;
use std::cell::RefCell;

thread_local! {
    static DRAWER: RefCell<Drawer> = RefCell::default();
}

/// What is lent as a pointer and a length; a null pointer with length 0 is
/// nothing.
///
/// # Safety
/// The pointer has that many bytes, and nothing else refers to them.
pub unsafe fn lent<'a>(pointer: *mut u8, length: usize) -> &'a mut [u8] {
    match length {
        0 => &mut [],
        _ => std::slice::from_raw_parts_mut(pointer, length),
    }
}

/// Exports one of the two row functions under a name.
#[macro_export]
macro_rules! export {
    ($name:ident, $answer:ident) => {
        /// # Safety
        /// Both pointers have as many bytes as their lengths say, and those do
        /// not overlap.
        #[no_mangle]
        pub unsafe extern "C" fn $name(
            w: u64,
            p: u64,
            q: u64,
            path: *const u8,
            path_length: usize,
            columns: u64,
            rows: u64,
            row: u64,
            room: *mut u8,
            room_length: usize,
        ) -> u64 {
            let request = $crate::row::Request {
                setting: $crate::setting::Setting::new(w, p, q),
                path: $crate::abi::lent(path.cast_mut(), path_length),
                columns,
                rows,
                row,
            };
            $crate::abi::$answer(&request, $crate::abi::lent(room, room_length))
        }
    };
}

pub fn row(request: &Request, runs: &mut [u8]) -> u64 {
    DRAWER.with_borrow_mut(|drawer| in_one_number(drawer.row_answer(request, runs)))
}

pub fn packed_row(request: &Request, bytes: &mut [u8]) -> u64 {
    DRAWER.with_borrow_mut(|drawer| in_one_number(drawer.packed_row(request, bytes)))
}

pub fn band(request: &band::Request, bytes: &mut [u8]) -> u64 {
    DRAWER.with_borrow_mut(|drawer| in_one_number(drawer.band(request, bytes)))
}
