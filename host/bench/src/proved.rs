//! The proved functions of the crates `bench_decimal`, `bench` and `bench_node`, as safe Rust.

use wallathi_model::id::Id;

extern "C" {
    fn wallathi_bench_recognise(string: *const u8, length: usize, pattern: *mut u64) -> u32;
    fn wallathi_bench_steps(string: *const u8, length: usize, pattern: *mut u64) -> u32;
    fn wallathi_bench_check(bytes: *const u8, length: usize) -> u32;
    fn wallathi_bench_write_integers(out: *mut u8, length: usize, first: u64, step: u64) -> u64;
    fn wallathi_bench_write_texts(out: *mut u8, length: usize, text: *const u8, text_length: usize) -> u64;
    fn wallathi_bench_judge(slot: *const u8, length: usize, key_ms: u64, key_seq: u64) -> u32;
    fn wallathi_bench_find(
        slot: *const u8,
        length: usize,
        key_ms: u64,
        key_seq: u64,
        ms: u64,
        seq: u64,
    ) -> u32;
    fn wallathi_bench_append(
        slot: *mut u8,
        length: usize,
        key_ms: u64,
        key_seq: u64,
        ms: u64,
        seq: u64,
        slip: *const u8,
        slip_length: usize,
    ) -> u32;
    fn wallathi_bench_delete(
        slot: *mut u8,
        length: usize,
        key_ms: u64,
        key_seq: u64,
        ms: u64,
        seq: u64,
    ) -> u32;
    fn wallathi_bench_read(
        slot: *const u8,
        length: usize,
        key_ms: u64,
        key_seq: u64,
        ms: u64,
        seq: u64,
        out: *mut u8,
        out_length: usize,
    ) -> u64;
    fn wallathi_bench_field(
        slot: *const u8,
        length: usize,
        key_ms: u64,
        key_seq: u64,
        ms: u64,
        seq: u64,
        name: *const u8,
        name_length: usize,
        out: *mut u8,
        out_length: usize,
    ) -> u64;
}

/// The pattern of the integer that a string is.
pub fn recognise(string: &[u8]) -> Option<u64> {
    let mut pattern = 0;
    // SAFETY: pointer and length are those of a slice, which the function only reads; the out-parameter is ours.
    let code = unsafe { wallathi_bench_recognise(string.as_ptr(), string.len(), &mut pattern) };
    (code == 1).then_some(pattern)
}

/// The same by one step of the recogniser for each byte, however many there are.
pub fn steps(string: &[u8]) -> Option<u64> {
    let mut pattern = 0;
    // SAFETY: as above.
    let code = unsafe { wallathi_bench_steps(string.as_ptr(), string.len(), &mut pattern) };
    (code == 1).then_some(pattern)
}

pub fn check(bytes: &[u8]) -> bool {
    // SAFETY: pointer and length are those of a slice, and the function only reads it.
    unsafe { wallathi_bench_check(bytes.as_ptr(), bytes.len()) == 1 }
}

pub fn write_integers(out: &mut [u8], first: u64, step: u64) -> usize {
    // SAFETY: pointer and length are those of a slice that is lent alone.
    unsafe { wallathi_bench_write_integers(out.as_mut_ptr(), out.len(), first, step) as usize }
}

pub fn write_texts(out: &mut [u8], text: &[u8]) -> usize {
    // SAFETY: as above; the borrow rules keep the two slices apart.
    unsafe { wallathi_bench_write_texts(out.as_mut_ptr(), out.len(), text.as_ptr(), text.len()) as usize }
}

/// Whether the slot holds a node with this key.
pub fn judge(slot: &[u8], key: Id) -> bool {
    // SAFETY: pointer and length are those of a slice, and the function only reads it.
    unsafe { wallathi_bench_judge(slot.as_ptr(), slot.len(), key.ms, key.seq) == 1 }
}

/// Whether the message is live in a slot, which is judged first.
pub fn find(slot: &[u8], key: Id, id: Id) -> bool {
    // SAFETY: as above.
    unsafe { wallathi_bench_find(slot.as_ptr(), slot.len(), key.ms, key.seq, id.ms, id.seq) == 1 }
}

/// Appends the message of a slip, if the node has less than 100 live ones and then at most 4,095 bytes.
pub fn append(slot: &mut [u8], key: Id, id: Id, slip: &[u8]) -> bool {
    // SAFETY: pointers and lengths are those of slices, of which the first is lent alone.
    let answer = unsafe {
        wallathi_bench_append(
            slot.as_mut_ptr(),
            slot.len(),
            key.ms,
            key.seq,
            id.ms,
            id.seq,
            slip.as_ptr(),
            slip.len(),
        )
    };
    answer == 1
}

/// Deletes a message, unless it is not live or the last live one.
pub fn delete(slot: &mut [u8], key: Id, id: Id) -> bool {
    // SAFETY: pointer and length are those of a slice that is lent alone.
    unsafe { wallathi_bench_delete(slot.as_mut_ptr(), slot.len(), key.ms, key.seq, id.ms, id.seq) == 1 }
}

/// The length of a live message's slip, which starts the output then; 0 where there is none or it does not fit.
pub fn read_message(slot: &[u8], key: Id, id: Id, out: &mut [u8]) -> usize {
    // SAFETY: pointers and lengths are those of slices, of which the last is lent alone.
    let length = unsafe {
        wallathi_bench_read(
            slot.as_ptr(),
            slot.len(),
            key.ms,
            key.seq,
            id.ms,
            id.seq,
            out.as_mut_ptr(),
            out.len(),
        )
    };
    length as usize
}

/// The length of a field's value, which starts the output then; 0 where there is none or it does not fit.
pub fn field(slot: &[u8], key: Id, id: Id, name: &[u8], out: &mut [u8]) -> usize {
    // SAFETY: as above.
    let length = unsafe {
        wallathi_bench_field(
            slot.as_ptr(),
            slot.len(),
            key.ms,
            key.seq,
            id.ms,
            id.seq,
            name.as_ptr(),
            name.len(),
            out.as_mut_ptr(),
            out.len(),
        )
    };
    length as usize
}
