//! The functions of the C library on lent slices, one for one. All `unsafe` code of this crate is here.
//!
//! Each answers [`OK`], [`NONE`] or the number of a refusal, and changes nothing unless it answers
//! [`OK`]. A record has [`record_bytes`] bytes; the functions panic where the slice has another length.

use crate::LONGEST_KEY;

/// Answered: record, output and out-parameters are written.
pub const OK: u32 = 0;
/// Refused: the record is not the shape of any set of keys.
pub const DAMAGED: u32 = 2;
/// Refused: the key has no byte, or more than 16.
pub const BAD_KEY: u32 = 3;
/// Refused: the key is new and 64 are held.
pub const FULL: u32 = 18;
/// No such key is held.
pub const NONE: u32 = 32;

mod c {
    extern "C" {
        pub fn wallathi_index_record_bytes() -> u64;
        pub fn wallathi_index_set_up(record: *mut u8) -> u32;
        pub fn wallathi_index_put(record: *mut u8, key: *const u8, key_length: usize, value: u32) -> u32;
        pub fn wallathi_index_remove(
            record: *mut u8,
            key: *const u8,
            key_length: usize,
            count: *mut u64,
        ) -> u32;
        pub fn wallathi_index_find(
            record: *const u8,
            key: *const u8,
            key_length: usize,
            value: *mut u64,
        ) -> u32;
        pub fn wallathi_index_first_at_or_above(
            record: *const u8,
            key: *const u8,
            key_length: usize,
            output: *mut u8,
            found_length: *mut u64,
            value: *mut u64,
        ) -> u32;
        pub fn wallathi_index_last_at_or_below(
            record: *const u8,
            key: *const u8,
            key_length: usize,
            output: *mut u8,
            found_length: *mut u64,
            value: *mut u64,
        ) -> u32;
    }
}

// In every call below, pointers and lengths are those of slices or of one number, `checked` has
// seen that a record is as long as the library takes it to be, the type that an output is, and the
// borrow rules keep what is written apart from all else.

/// How many bytes a record has.
#[must_use]
pub fn record_bytes() -> usize {
    // SAFETY: it takes nothing and answers a number.
    unsafe { c::wallathi_index_record_bytes() as usize }
}

fn checked(length: usize) {
    assert_eq!(length, record_bytes(), "the length of a record");
}

/// Makes the record that of an index without keys, whatever its bytes were.
#[must_use]
pub fn set_up(record: &mut [u8]) -> u32 {
    checked(record.len());
    // SAFETY: see above.
    unsafe { c::wallathi_index_set_up(record.as_mut_ptr()) }
}

/// Sets the value of a key, new or held.
#[must_use]
pub fn put(record: &mut [u8], key: &[u8], value: u32) -> u32 {
    checked(record.len());
    // SAFETY: see above.
    unsafe { c::wallathi_index_put(record.as_mut_ptr(), key.as_ptr(), key.len(), value) }
}

/// Removes a key; the count is 1, or 0 where it is not held.
#[must_use]
pub fn remove(record: &mut [u8], key: &[u8], count: &mut u64) -> u32 {
    checked(record.len());
    // SAFETY: see above.
    unsafe { c::wallathi_index_remove(record.as_mut_ptr(), key.as_ptr(), key.len(), count) }
}

/// The value of a key.
#[must_use]
pub fn find(record: &[u8], key: &[u8], value: &mut u64) -> u32 {
    checked(record.len());
    // SAFETY: see above.
    unsafe { c::wallathi_index_find(record.as_ptr(), key.as_ptr(), key.len(), value) }
}

/// The first key that is the given one or comes after it, written to the start of the output.
#[must_use]
pub fn first_at_or_above(
    record: &[u8],
    key: &[u8],
    output: &mut [u8; LONGEST_KEY],
    found_length: &mut u64,
    value: &mut u64,
) -> u32 {
    checked(record.len());
    // SAFETY: see above.
    unsafe {
        c::wallathi_index_first_at_or_above(
            record.as_ptr(),
            key.as_ptr(),
            key.len(),
            output.as_mut_ptr(),
            found_length,
            value,
        )
    }
}

/// The last key that is the given one or comes before it, written to the start of the output.
#[must_use]
pub fn last_at_or_below(
    record: &[u8],
    key: &[u8],
    output: &mut [u8; LONGEST_KEY],
    found_length: &mut u64,
    value: &mut u64,
) -> u32 {
    checked(record.len());
    // SAFETY: see above.
    unsafe {
        c::wallathi_index_last_at_or_below(
            record.as_ptr(),
            key.as_ptr(),
            key.len(),
            output.as_mut_ptr(),
            found_length,
            value,
        )
    }
}

#[cfg(all(test, feature = "alloc"))]
mod tests {
    use super::*;

    /// A key of no byte is refused wherever its pointer points.
    #[test]
    fn a_null_pointer_to_no_byte() {
        let mut record = alloc::vec![0; record_bytes()];
        assert_eq!(set_up(&mut record), OK);
        let mut value = 7;
        // SAFETY: the header allows NULL where the length is 0.
        let answer = unsafe { c::wallathi_index_find(record.as_ptr(), core::ptr::null(), 0, &mut value) };
        assert_eq!((answer, value), (BAD_KEY, 7));
    }
}
