//! The functions of the C library on lent slices, one for one. All `unsafe` code of this crate is here.
//!
//! Each answers [`OK`], [`NONE`], [`ABSENT`], [`NOT_MOVED`], [`NO_INTEGERS`] or the number of a refusal (`host/include/wallathi.h` has
//! them), and changes nothing unless it answers [`OK`], but for the four numbers that [`NO_INTEGERS`] goes with; an answer that is not
//! looked at is lost. A state has [`STATE_BYTES`] bytes. The numbers that a command gives are written to `values`, in the header's order.

/// Answered, done, moved: what is lent to be written is written.
pub const OK: u32 = 0;
/// There is none, or nothing new.
pub const NONE: u32 = 32;
/// The message does not have the field.
pub const ABSENT: u32 = 33;
/// The claim moved nothing.
pub const NOT_MOVED: u32 = 34;
/// The report is over no integer: counts and sum are written, smallest and largest are not.
pub const NO_INTEGERS: u32 = 35;
/// The kind of a range reply.
pub const RANGE_REPLY: u64 = 1;
/// The kind of an integer reply.
pub const INTEGER_REPLY: u64 = 2;
/// The kind of an error reply.
pub const ERROR_REPLY: u64 = 3;
/// The size of a state.
pub const STATE_BYTES: usize = 64_434;

/// A state, as lent.
pub type State = [u8; STATE_BYTES];

/// The functions themselves.
mod c {
    extern "C" {
        pub fn wallathi_state_bytes() -> u64;
        pub fn wallathi_set_up(store: *mut u8, store_length: usize, state: *mut u8) -> u32;
        pub fn wallathi_add(
            store: *mut u8,
            store_length: usize,
            state: *mut u8,
            ms: u64,
            seq: u64,
            slip: *const u8,
            slip_length: usize,
            id_ms: *mut u64,
            id_seq: *mut u64,
        ) -> u32;
        pub fn wallathi_add_by_clock(
            store: *mut u8,
            store_length: usize,
            state: *mut u8,
            time: u64,
            slip: *const u8,
            slip_length: usize,
            id_ms: *mut u64,
            id_seq: *mut u64,
        ) -> u32;
        pub fn wallathi_delete(
            store: *mut u8,
            store_length: usize,
            state: *mut u8,
            ms: u64,
            seq: u64,
            count: *mut u64,
        ) -> u32;
        pub fn wallathi_trim(
            store: *mut u8,
            store_length: usize,
            state: *mut u8,
            most: u64,
            count: *mut u64,
        ) -> u32;
        pub fn wallathi_next(
            store: *const u8,
            store_length: usize,
            state: *const u8,
            ms: u64,
            seq: u64,
            id_ms: *mut u64,
            id_seq: *mut u64,
        ) -> u32;
        pub fn wallathi_read(
            store: *const u8,
            store_length: usize,
            state: *const u8,
            ms: u64,
            seq: u64,
            output: *mut u8,
            output_length: usize,
            written: *mut u64,
        ) -> u32;
        pub fn wallathi_field(
            store: *const u8,
            store_length: usize,
            state: *const u8,
            ms: u64,
            seq: u64,
            name: *const u8,
            name_length: usize,
            output: *mut u8,
            output_length: usize,
            written: *mut u64,
        ) -> u32;
        pub fn wallathi_report(
            store: *const u8,
            store_length: usize,
            state: *const u8,
            name: *const u8,
            name_length: usize,
            first_ms: u64,
            first_seq: u64,
            last_ms: u64,
            last_seq: u64,
            lacking: *mut u64,
            other: *mut u64,
            integers: *mut u64,
            sum: *mut i64,
            smallest: *mut i64,
            largest: *mut i64,
        ) -> u32;
        pub fn wallathi_range_reply(
            store: *const u8,
            store_length: usize,
            state: *const u8,
            first_ms: u64,
            first_seq: u64,
            last_ms: u64,
            last_seq: u64,
            output: *mut u8,
            output_length: usize,
            written: *mut u64,
        ) -> u32;
        pub fn wallathi_integer_reply(
            number: u64,
            output: *mut u8,
            output_length: usize,
            written: *mut u64,
        ) -> u32;
        pub fn wallathi_error_reply(
            number: u64,
            output: *mut u8,
            output_length: usize,
            written: *mut u64,
        ) -> u32;
        pub fn wallathi_read_reply(
            reply: *const u8,
            reply_length: usize,
            kind: *mut u64,
            number: *mut u64,
        ) -> u32;
        pub fn wallathi_reply_message(
            reply: *const u8,
            reply_length: usize,
            place: u64,
            output: *mut u8,
            output_length: usize,
            id_ms: *mut u64,
            id_seq: *mut u64,
            written: *mut u64,
        ) -> u32;
        pub fn wallathi_create_group(
            store: *const u8,
            store_length: usize,
            state: *mut u8,
            group: *const u8,
            group_length: usize,
            start_ms: u64,
            start_seq: u64,
        ) -> u32;
        pub fn wallathi_destroy_group(
            store: *const u8,
            store_length: usize,
            state: *mut u8,
            group: *const u8,
            group_length: usize,
        ) -> u32;
        pub fn wallathi_group_read(
            store: *const u8,
            store_length: usize,
            state: *mut u8,
            group: *const u8,
            group_length: usize,
            consumer: *const u8,
            consumer_length: usize,
            now: u64,
            id_ms: *mut u64,
            id_seq: *mut u64,
        ) -> u32;
        pub fn wallathi_group_read_many(
            store: *const u8,
            store_length: usize,
            state: *mut u8,
            group: *const u8,
            group_length: usize,
            consumer: *const u8,
            consumer_length: usize,
            now: u64,
            n: u64,
            output: *mut u8,
            output_length: usize,
            written: *mut u64,
        ) -> u32;
        pub fn wallathi_acknowledge(
            store: *const u8,
            store_length: usize,
            state: *mut u8,
            group: *const u8,
            group_length: usize,
            ms: u64,
            seq: u64,
            count: *mut u64,
        ) -> u32;
        pub fn wallathi_claim(
            store: *const u8,
            store_length: usize,
            state: *mut u8,
            group: *const u8,
            group_length: usize,
            consumer: *const u8,
            consumer_length: usize,
            least_idle: u64,
            ms: u64,
            seq: u64,
            now: u64,
        ) -> u32;
        pub fn wallathi_next_pending(
            store: *const u8,
            store_length: usize,
            state: *const u8,
            group: *const u8,
            group_length: usize,
            consumer: *const u8,
            consumer_length: usize,
            after_ms: u64,
            after_seq: u64,
            id_ms: *mut u64,
            id_seq: *mut u64,
            time: *mut u64,
            count: *mut u64,
            lives: *mut u64,
        ) -> u32;
        pub fn wallathi_drop_consumer(
            store: *const u8,
            store_length: usize,
            state: *mut u8,
            group: *const u8,
            group_length: usize,
            consumer: *const u8,
            consumer_length: usize,
            count: *mut u64,
        ) -> u32;
        pub fn wallathi_save(
            store: *const u8,
            store_length: usize,
            state: *const u8,
            output: *mut u8,
            output_length: usize,
            written: *mut u64,
        ) -> u32;
        pub fn wallathi_load(
            store: *mut u8,
            store_length: usize,
            state: *mut u8,
            file: *const u8,
            file_length: usize,
        ) -> u32;
    }
}

// In every call below, pointers and lengths are those of slices or of one number, a state is as long as the library takes it to be by
// its type, and the borrow rules keep what is written apart from all else.

/// How many bytes a state has.
#[must_use]
pub fn state_bytes() -> u64 {
    // SAFETY: it takes nothing and answers a number.
    unsafe { c::wallathi_state_bytes() }
}

/// Makes the store one without messages and groups, whatever the bytes were.
#[must_use]
pub fn set_up(store: &mut [u8], state: &mut State) -> u32 {
    // SAFETY: see above.
    unsafe { c::wallathi_set_up(store.as_mut_ptr(), store.len(), state.as_mut_ptr()) }
}

/// Adds a message with an ID above the last one.
#[must_use]
pub fn add(
    store: &mut [u8],
    state: &mut State,
    ms: u64,
    seq: u64,
    slip: &[u8],
    values: &mut [u64; 2],
) -> u32 {
    let [id_ms, id_seq] = values;
    // SAFETY: see above.
    unsafe {
        c::wallathi_add(
            store.as_mut_ptr(),
            store.len(),
            state.as_mut_ptr(),
            ms,
            seq,
            slip.as_ptr(),
            slip.len(),
            id_ms,
            id_seq,
        )
    }
}

/// Adds a message at a time in ms.
#[must_use]
pub fn add_by_clock(
    store: &mut [u8],
    state: &mut State,
    time: u64,
    slip: &[u8],
    values: &mut [u64; 2],
) -> u32 {
    let [id_ms, id_seq] = values;
    // SAFETY: see above.
    unsafe {
        c::wallathi_add_by_clock(
            store.as_mut_ptr(),
            store.len(),
            state.as_mut_ptr(),
            time,
            slip.as_ptr(),
            slip.len(),
            id_ms,
            id_seq,
        )
    }
}

/// Deletes a message; the count is 1, or 0 where the ID is not live.
#[must_use]
pub fn delete(store: &mut [u8], state: &mut State, ms: u64, seq: u64, count: &mut u64) -> u32 {
    // SAFETY: see above.
    unsafe { c::wallathi_delete(store.as_mut_ptr(), store.len(), state.as_mut_ptr(), ms, seq, count) }
}

/// Deletes the oldest messages until at most so many remain; the count is how many went.
#[must_use]
pub fn trim(store: &mut [u8], state: &mut State, most: u64, count: &mut u64) -> u32 {
    // SAFETY: see above.
    unsafe { c::wallathi_trim(store.as_mut_ptr(), store.len(), state.as_mut_ptr(), most, count) }
}

/// The first live ID that is the given one or comes after it.
#[must_use]
pub fn next(store: &[u8], state: &State, ms: u64, seq: u64, values: &mut [u64; 2]) -> u32 {
    let [id_ms, id_seq] = values;
    // SAFETY: see above.
    unsafe { c::wallathi_next(store.as_ptr(), store.len(), state.as_ptr(), ms, seq, id_ms, id_seq) }
}

/// Writes a live message as a slip to the start of the output.
#[must_use]
pub fn read(store: &[u8], state: &State, ms: u64, seq: u64, output: &mut [u8], written: &mut u64) -> u32 {
    // SAFETY: see above.
    unsafe {
        c::wallathi_read(
            store.as_ptr(),
            store.len(),
            state.as_ptr(),
            ms,
            seq,
            output.as_mut_ptr(),
            output.len(),
            written,
        )
    }
}

/// Writes the value of the first pair with this field name.
#[must_use]
pub fn field(
    store: &[u8],
    state: &State,
    ms: u64,
    seq: u64,
    name: &[u8],
    output: &mut [u8],
    written: &mut u64,
) -> u32 {
    // SAFETY: see above.
    unsafe {
        c::wallathi_field(
            store.as_ptr(),
            store.len(),
            state.as_ptr(),
            ms,
            seq,
            name.as_ptr(),
            name.len(),
            output.as_mut_ptr(),
            output.len(),
            written,
        )
    }
}

/// Counts what the live messages from one ID to another hold in the first pair of this name: how many lack it, how many hold something
/// else than an integer from -1,000,000,000 to 1,000,000,000, how many such an integer; and the sum, the smallest and the largest of
/// these.
#[must_use]
#[allow(clippy::too_many_arguments)]
pub fn report(
    store: &[u8],
    state: &State,
    name: &[u8],
    first_ms: u64,
    first_seq: u64,
    last_ms: u64,
    last_seq: u64,
    counts: &mut [u64; 3],
    values: &mut [i64; 3],
) -> u32 {
    let ([lacking, other, integers], [sum, smallest, largest]) = (counts, values);
    // SAFETY: see above.
    unsafe {
        c::wallathi_report(
            store.as_ptr(),
            store.len(),
            state.as_ptr(),
            name.as_ptr(),
            name.len(),
            first_ms,
            first_seq,
            last_ms,
            last_seq,
            lacking,
            other,
            integers,
            sum,
            smallest,
            largest,
        )
    }
}

/// Writes the range reply of the live messages from one ID to another.
#[must_use]
#[allow(clippy::too_many_arguments)]
pub fn range_reply(
    store: &[u8],
    state: &State,
    first_ms: u64,
    first_seq: u64,
    last_ms: u64,
    last_seq: u64,
    output: &mut [u8],
    written: &mut u64,
) -> u32 {
    // SAFETY: see above.
    unsafe {
        c::wallathi_range_reply(
            store.as_ptr(),
            store.len(),
            state.as_ptr(),
            first_ms,
            first_seq,
            last_ms,
            last_seq,
            output.as_mut_ptr(),
            output.len(),
            written,
        )
    }
}

/// Writes the integer reply of a number.
#[must_use]
pub fn integer_reply(number: u64, output: &mut [u8], written: &mut u64) -> u32 {
    // SAFETY: see above.
    unsafe { c::wallathi_integer_reply(number, output.as_mut_ptr(), output.len(), written) }
}

/// Writes the error reply of a refusal's number.
#[must_use]
pub fn error_reply(number: u64, output: &mut [u8], written: &mut u64) -> u32 {
    // SAFETY: see above.
    unsafe { c::wallathi_error_reply(number, output.as_mut_ptr(), output.len(), written) }
}

/// Gives the kind of a reply ([`RANGE_REPLY`], [`INTEGER_REPLY`], [`ERROR_REPLY`]), and how many messages it has or its number.
#[must_use]
pub fn read_reply(reply: &[u8], values: &mut [u64; 2]) -> u32 {
    let [kind, number] = values;
    // SAFETY: see above.
    unsafe { c::wallathi_read_reply(reply.as_ptr(), reply.len(), kind, number) }
}

/// Writes the message at a place of a range reply as a slip, and gives its ID and the slip's length.
#[must_use]
pub fn reply_message(reply: &[u8], place: u64, output: &mut [u8], values: &mut [u64; 3]) -> u32 {
    let [id_ms, id_seq, written] = values;
    // SAFETY: see above.
    unsafe {
        c::wallathi_reply_message(
            reply.as_ptr(),
            reply.len(),
            place,
            output.as_mut_ptr(),
            output.len(),
            id_ms,
            id_seq,
            written,
        )
    }
}

/// Creates a group that has what comes after the start ID delivered.
#[must_use]
pub fn create_group(store: &[u8], state: &mut State, group: &[u8], start_ms: u64, start_seq: u64) -> u32 {
    // SAFETY: see above.
    unsafe {
        c::wallathi_create_group(
            store.as_ptr(),
            store.len(),
            state.as_mut_ptr(),
            group.as_ptr(),
            group.len(),
            start_ms,
            start_seq,
        )
    }
}

/// Destroys a group with its consumers and pending entries.
#[must_use]
pub fn destroy_group(store: &[u8], state: &mut State, group: &[u8]) -> u32 {
    // SAFETY: see above.
    unsafe {
        c::wallathi_destroy_group(
            store.as_ptr(),
            store.len(),
            state.as_mut_ptr(),
            group.as_ptr(),
            group.len(),
        )
    }
}

/// Delivers the first live message above the last delivered one to a consumer.
#[must_use]
pub fn group_read(
    store: &[u8],
    state: &mut State,
    group: &[u8],
    consumer: &[u8],
    now: u64,
    values: &mut [u64; 2],
) -> u32 {
    let [id_ms, id_seq] = values;
    // SAFETY: see above.
    unsafe {
        c::wallathi_group_read(
            store.as_ptr(),
            store.len(),
            state.as_mut_ptr(),
            group.as_ptr(),
            group.len(),
            consumer.as_ptr(),
            consumer.len(),
            now,
            id_ms,
            id_seq,
        )
    }
}

/// Delivers up to n live messages above the last delivered one to a consumer, and writes their IDs to the start of the output.
#[must_use]
#[allow(clippy::too_many_arguments)]
pub fn group_read_many(
    store: &[u8],
    state: &mut State,
    group: &[u8],
    consumer: &[u8],
    now: u64,
    n: u64,
    output: &mut [u8],
    written: &mut u64,
) -> u32 {
    // SAFETY: see above.
    unsafe {
        c::wallathi_group_read_many(
            store.as_ptr(),
            store.len(),
            state.as_mut_ptr(),
            group.as_ptr(),
            group.len(),
            consumer.as_ptr(),
            consumer.len(),
            now,
            n,
            output.as_mut_ptr(),
            output.len(),
            written,
        )
    }
}

/// Removes a pending entry; the count is 1, or 0 where the ID is not pending.
#[must_use]
pub fn acknowledge(store: &[u8], state: &mut State, group: &[u8], ms: u64, seq: u64, count: &mut u64) -> u32 {
    // SAFETY: see above.
    unsafe {
        c::wallathi_acknowledge(
            store.as_ptr(),
            store.len(),
            state.as_mut_ptr(),
            group.as_ptr(),
            group.len(),
            ms,
            seq,
            count,
        )
    }
}

/// Moves a pending entry to a consumer, where it is idle for long enough.
#[must_use]
#[allow(clippy::too_many_arguments)]
pub fn claim(
    store: &[u8],
    state: &mut State,
    group: &[u8],
    consumer: &[u8],
    least_idle: u64,
    ms: u64,
    seq: u64,
    now: u64,
) -> u32 {
    // SAFETY: see above.
    unsafe {
        c::wallathi_claim(
            store.as_ptr(),
            store.len(),
            state.as_mut_ptr(),
            group.as_ptr(),
            group.len(),
            consumer.as_ptr(),
            consumer.len(),
            least_idle,
            ms,
            seq,
            now,
        )
    }
}

/// A consumer's first pending entry above an ID, and whether its message lives.
#[must_use]
pub fn next_pending(
    store: &[u8],
    state: &State,
    group: &[u8],
    consumer: &[u8],
    after_ms: u64,
    after_seq: u64,
    values: &mut [u64; 5],
) -> u32 {
    let [id_ms, id_seq, time, count, lives] = values;
    // SAFETY: see above.
    unsafe {
        c::wallathi_next_pending(
            store.as_ptr(),
            store.len(),
            state.as_ptr(),
            group.as_ptr(),
            group.len(),
            consumer.as_ptr(),
            consumer.len(),
            after_ms,
            after_seq,
            id_ms,
            id_seq,
            time,
            count,
            lives,
        )
    }
}

/// Removes a consumer; the count is how many entries went.
#[must_use]
pub fn drop_consumer(store: &[u8], state: &mut State, group: &[u8], consumer: &[u8], count: &mut u64) -> u32 {
    // SAFETY: see above.
    unsafe {
        c::wallathi_drop_consumer(
            store.as_ptr(),
            store.len(),
            state.as_mut_ptr(),
            group.as_ptr(),
            group.len(),
            consumer.as_ptr(),
            consumer.len(),
            count,
        )
    }
}

/// Writes a snapshot to the start of the output.
#[must_use]
pub fn save(store: &[u8], state: &State, output: &mut [u8], written: &mut u64) -> u32 {
    // SAFETY: see above.
    unsafe {
        c::wallathi_save(
            store.as_ptr(),
            store.len(),
            state.as_ptr(),
            output.as_mut_ptr(),
            output.len(),
            written,
        )
    }
}

/// Makes the store hold what a snapshot holds, whatever the bytes were.
#[must_use]
pub fn load(store: &mut [u8], state: &mut State, file: &[u8]) -> u32 {
    // SAFETY: see above.
    unsafe {
        c::wallathi_load(store.as_mut_ptr(), store.len(), state.as_mut_ptr(), file.as_ptr(), file.len())
    }
}
