//! The proved functions of the crate `bench_groups`, as safe Rust. Each judges the bytes first: 2 where they are not sound.

use wallathi_model::id::Id;

extern "C" {
    fn wallathi_bench_groups_judge(area: *const u8, length: usize, ms: u64, seq: u64) -> u32;
    fn wallathi_bench_deliver(
        region: *mut u8,
        length: usize,
        consumer: *const u8,
        consumer_length: usize,
        time: u64,
        ms: u64,
        seq: u64,
    ) -> u32;
    fn wallathi_bench_acknowledge(region: *mut u8, length: usize, ms: u64, seq: u64) -> u64;
    fn wallathi_bench_claim(
        region: *mut u8,
        length: usize,
        consumer: *const u8,
        consumer_length: usize,
        least: u64,
        ms: u64,
        seq: u64,
        time: u64,
    ) -> u32;
    fn wallathi_bench_drop(
        region: *mut u8,
        length: usize,
        consumer: *const u8,
        consumer_length: usize,
    ) -> u64;
    fn wallathi_bench_create(
        area: *mut u8,
        length: usize,
        name: *const u8,
        name_length: usize,
        ms: u64,
        seq: u64,
    ) -> u32;
    fn wallathi_bench_destroy(area: *mut u8, length: usize, name: *const u8, name_length: usize) -> u32;
}

pub fn judge(area: &[u8], last: Id) -> bool {
    // SAFETY: pointer and length are those of a slice, and the function only reads it.
    unsafe { wallathi_bench_groups_judge(area.as_ptr(), area.len(), last.ms, last.seq) == 1 }
}

pub fn deliver(region: &mut [u8], consumer: &[u8], time: u64, id: Id) -> u32 {
    let (name, size) = (consumer.as_ptr(), consumer.len());
    // SAFETY: pointers and lengths are those of slices, of which the first is lent alone.
    unsafe { wallathi_bench_deliver(region.as_mut_ptr(), region.len(), name, size, time, id.ms, id.seq) }
}

pub fn acknowledge(region: &mut [u8], id: Id) -> u64 {
    // SAFETY: as above.
    unsafe { wallathi_bench_acknowledge(region.as_mut_ptr(), region.len(), id.ms, id.seq) }
}

pub fn claim(region: &mut [u8], consumer: &[u8], least_idle: u64, id: Id, now: u64) -> u32 {
    let (name, size) = (consumer.as_ptr(), consumer.len());
    // SAFETY: as above.
    unsafe {
        wallathi_bench_claim(region.as_mut_ptr(), region.len(), name, size, least_idle, id.ms, id.seq, now)
    }
}

/// One and the number of entries that went; 0 for a region that is not sound.
pub fn drop_consumer(region: &mut [u8], consumer: &[u8]) -> u64 {
    // SAFETY: as above.
    unsafe { wallathi_bench_drop(region.as_mut_ptr(), region.len(), consumer.as_ptr(), consumer.len()) }
}

pub fn create(area: &mut [u8], name: &[u8], start: Id) -> u32 {
    let (pointer, size) = (name.as_ptr(), name.len());
    // SAFETY: as above.
    unsafe { wallathi_bench_create(area.as_mut_ptr(), area.len(), pointer, size, start.ms, start.seq) }
}

pub fn destroy(area: &mut [u8], name: &[u8]) -> u32 {
    // SAFETY: as above.
    unsafe { wallathi_bench_destroy(area.as_mut_ptr(), area.len(), name.as_ptr(), name.len()) }
}
