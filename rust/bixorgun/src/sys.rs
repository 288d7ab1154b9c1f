//! The six functions of `include/bixorgun.h`, and their calls: the only unsafe code of the crate.
//!
//! The header asks two things of a caller. A pointer is valid for the length that follows it and is never null: a slice's
//! is, an empty slice's too. The buffer that a call writes shares no byte with what that call reads: an exclusive
//! reference shares none with any other.

mod declared {
    extern "C" {
        pub fn bixorgun_open(book: *const u8, book_len: usize, ledger: *mut u8, ledger_len: usize) -> u64;
        pub fn bixorgun_request(
            book: *const u8,
            book_len: usize,
            ledger: *mut u8,
            ledger_len: usize,
            request: *const u8,
            request_len: usize,
        ) -> u64;
        pub fn bixorgun_show(
            book: *const u8,
            book_len: usize,
            ledger: *const u8,
            ledger_len: usize,
            person: u8,
            view: *mut u8,
            view_len: usize,
        ) -> u64;
        pub fn bixorgun_replay(book: *const u8, book_len: usize, plan: *const u8, plan_len: usize) -> u64;
        pub fn bixorgun_plan(book: *const u8, book_len: usize, out: *mut u8, out_len: usize) -> u64;
        pub fn bixorgun_page(book: *const u8, book_len: usize, table: *mut u8, table_len: usize) -> u64;
    }
}

pub(crate) fn open(book: &[u8], ledger: &mut [u8]) -> u64 {
    // SAFETY: both pointers are non-null and valid for their slices' lengths; `ledger` alone is written, and it is
    // exclusive, so it shares no byte with `book`.
    unsafe { declared::bixorgun_open(book.as_ptr(), book.len(), ledger.as_mut_ptr(), ledger.len()) }
}

pub(crate) fn request(book: &[u8], ledger: &mut [u8], request: &[u8]) -> u64 {
    // SAFETY: the three pointers are non-null and valid for their slices' lengths; `ledger` alone is written, and it is
    // exclusive, so it shares no byte with `book` or `request`.
    unsafe {
        declared::bixorgun_request(
            book.as_ptr(),
            book.len(),
            ledger.as_mut_ptr(),
            ledger.len(),
            request.as_ptr(),
            request.len(),
        )
    }
}

pub(crate) fn show(book: &[u8], ledger: &[u8], person: u8, view: &mut [u8]) -> u64 {
    // SAFETY: the three pointers are non-null and valid for their slices' lengths; `view` alone is written, and it is
    // exclusive, so it shares no byte with `book` or `ledger`.
    unsafe {
        declared::bixorgun_show(
            book.as_ptr(),
            book.len(),
            ledger.as_ptr(),
            ledger.len(),
            person,
            view.as_mut_ptr(),
            view.len(),
        )
    }
}

pub(crate) fn replay(book: &[u8], plan: &[u8]) -> u64 {
    // SAFETY: both pointers are non-null and valid for their slices' lengths; nothing is written.
    unsafe { declared::bixorgun_replay(book.as_ptr(), book.len(), plan.as_ptr(), plan.len()) }
}

pub(crate) fn plan(book: &[u8], out: &mut [u8]) -> u64 {
    // SAFETY: both pointers are non-null and valid for their slices' lengths; `out` alone is written, and it is
    // exclusive, so it shares no byte with `book`.
    unsafe { declared::bixorgun_plan(book.as_ptr(), book.len(), out.as_mut_ptr(), out.len()) }
}

pub(crate) fn page(book: &[u8], table: &mut [u8]) -> u64 {
    // SAFETY: both pointers are non-null and valid for their slices' lengths; `table` alone is written, and it is
    // exclusive, so it shares no byte with `book`.
    unsafe { declared::bixorgun_page(book.as_ptr(), book.len(), table.as_mut_ptr(), table.len()) }
}
