//! What the benchmark calls from C.

use crate::book::Book;
use crate::bundle::{read, write};
use std::slice::{from_raw_parts, from_raw_parts_mut};

/// read: the number alone.
///
/// # Safety
/// `bytes` points to `length` bytes.
#[no_mangle]
pub unsafe extern "C" fn reference_read(bytes: *const u8, length: usize) -> u16 {
    read(from_raw_parts(bytes, length)).0 .0
}

/// The book of an accepted bundle.
///
/// # Safety
/// `bytes` points to `length` bytes.
#[no_mangle]
pub unsafe extern "C" fn reference_held(bytes: *const u8, length: usize) -> *mut Book {
    let ((number, _), book) = read(from_raw_parts(bytes, length));
    assert_eq!(number, 0, "the bundle is refused");
    Box::into_raw(Box::new(book))
}

/// write: the value alone.
///
/// # Safety
/// `book` comes from `reference_held`; `out` points to `room` bytes.
#[no_mangle]
pub unsafe extern "C" fn reference_write(book: *const Book, out: *mut u8, room: usize) -> u64 {
    write(&*book, from_raw_parts_mut(out, room)).1
}

/// A book with these rows, four numbers a row.
///
/// # Safety
/// `rows` points to `4 * count` numbers.
#[no_mangle]
pub unsafe extern "C" fn reference_book(rows: *const u16, count: usize) -> *mut Book {
    let mut book = Book::default();
    for row in from_raw_parts(rows, 4 * count).chunks_exact(4) {
        assert_eq!(book.term(row.try_into().unwrap()).0, 0, "row {row:?} is refused");
    }
    Box::into_raw(Box::new(book))
}

/// select: the number alone. The marks are as many as the document's rows.
///
/// # Safety
/// `book` comes from `reference_book`; `document` points to `3 * nodes` numbers and `marks` to `nodes` bytes.
#[no_mangle]
pub unsafe extern "C" fn reference_select(
    book: *const Book,
    row: u16,
    document: *const u16,
    nodes: usize,
    context: u16,
    limit: u32,
    marks: *mut u8,
) -> u16 {
    let numbers = from_raw_parts(document, 3 * nodes);
    (*book).select(row, numbers, context, limit, from_raw_parts_mut(marks, nodes)).0
}
