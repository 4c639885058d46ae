//! The archive's functions, as `include/sangueko.h` declares them. All unsafe
//! code of the crate is here.

use crate::{Batched, Refusal, Store};

/// What a call answers: number 0 and a count, or the number of its refusal
/// and count 0; of a batch, what stopped it, or 0, and the writes done.
#[repr(C)]
struct Answer {
    number: u32,
    count: u64,
}

unsafe extern "C" {
    fn sangueko_fresh(
        image: *const u8,
        image_len: usize,
        head: *mut u8,
        head_len: usize,
        cards: *mut u8,
        cards_len: usize,
        extents: *mut u8,
        extents_len: usize,
        groups: *mut u8,
        groups_len: usize,
        used: *mut u8,
        used_len: usize,
        retired: *mut u8,
        retired_len: usize,
        uuid: *const u8,
        uuid_len: usize,
        reserved: u64,
    ) -> Answer;

    fn sangueko_enter(
        image: *const u8,
        image_len: usize,
        head: *mut u8,
        head_len: usize,
        cards: *mut u8,
        cards_len: usize,
        extents: *const u8,
        extents_len: usize,
        groups: *const u8,
        groups_len: usize,
        used: *const u8,
        used_len: usize,
        retired: *const u8,
        retired_len: usize,
        object: u64,
        seconds: u64,
        nanoseconds: u64,
    ) -> Answer;

    fn sangueko_write(
        image: *mut u8,
        image_len: usize,
        head: *mut u8,
        head_len: usize,
        cards: *mut u8,
        cards_len: usize,
        extents: *mut u8,
        extents_len: usize,
        groups: *mut u8,
        groups_len: usize,
        used: *mut u8,
        used_len: usize,
        retired: *mut u8,
        retired_len: usize,
        object: u64,
        offset: u64,
        bytes: *const u8,
        bytes_len: usize,
        seconds: u64,
        nanoseconds: u64,
    ) -> Answer;

    fn sangueko_write_archive(
        image: *mut u8,
        image_len: usize,
        head: *mut u8,
        head_len: usize,
        cards: *mut u8,
        cards_len: usize,
        extents: *mut u8,
        extents_len: usize,
        groups: *mut u8,
        groups_len: usize,
        used: *mut u8,
        used_len: usize,
        retired: *mut u8,
        retired_len: usize,
        object: u64,
        offset: u64,
        bytes: *const u8,
        bytes_len: usize,
        seconds: u64,
        nanoseconds: u64,
    ) -> Answer;

    fn sangueko_grow(
        image: *mut u8,
        image_len: usize,
        head: *mut u8,
        head_len: usize,
        cards: *mut u8,
        cards_len: usize,
        extents: *mut u8,
        extents_len: usize,
        groups: *mut u8,
        groups_len: usize,
        used: *mut u8,
        used_len: usize,
        retired: *mut u8,
        retired_len: usize,
        object: u64,
        size: u64,
        seconds: u64,
        nanoseconds: u64,
    ) -> Answer;

    fn sangueko_settle(
        image: *const u8,
        image_len: usize,
        head: *const u8,
        head_len: usize,
        cards: *const u8,
        cards_len: usize,
        extents: *const u8,
        extents_len: usize,
        groups: *const u8,
        groups_len: usize,
        used: *mut u8,
        used_len: usize,
        retired: *mut u8,
        retired_len: usize,
    ) -> Answer;

    fn sangueko_fill(
        image: *const u8,
        image_len: usize,
        head: *const u8,
        head_len: usize,
        cards: *const u8,
        cards_len: usize,
        extents: *const u8,
        extents_len: usize,
        groups: *const u8,
        groups_len: usize,
        used: *const u8,
        used_len: usize,
        retired: *const u8,
        retired_len: usize,
    ) -> Answer;

    fn sangueko_read(
        image: *const u8,
        image_len: usize,
        head: *const u8,
        head_len: usize,
        cards: *const u8,
        cards_len: usize,
        extents: *const u8,
        extents_len: usize,
        groups: *const u8,
        groups_len: usize,
        used: *const u8,
        used_len: usize,
        retired: *const u8,
        retired_len: usize,
        object: u64,
        offset: u64,
        out: *mut u8,
        out_len: usize,
    ) -> Answer;

    fn sangueko_read_many(
        image: *const u8,
        image_len: usize,
        head: *const u8,
        head_len: usize,
        cards: *const u8,
        cards_len: usize,
        extents: *const u8,
        extents_len: usize,
        groups: *const u8,
        groups_len: usize,
        used: *const u8,
        used_len: usize,
        retired: *const u8,
        retired_len: usize,
        list: *const u8,
        list_len: usize,
        out: *mut u8,
        out_len: usize,
    ) -> Answer;

    fn sangueko_write_batch(
        image: *mut u8,
        image_len: usize,
        head: *mut u8,
        head_len: usize,
        cards: *mut u8,
        cards_len: usize,
        extents: *mut u8,
        extents_len: usize,
        groups: *mut u8,
        groups_len: usize,
        used: *mut u8,
        used_len: usize,
        retired: *mut u8,
        retired_len: usize,
        list: *const u8,
        list_len: usize,
        bytes: *const u8,
        bytes_len: usize,
        seconds: u64,
        nanoseconds: u64,
    ) -> Answer;

    fn sangueko_data_stretches(
        image: *const u8,
        image_len: usize,
        head: *const u8,
        head_len: usize,
        cards: *const u8,
        cards_len: usize,
        extents: *const u8,
        extents_len: usize,
        groups: *const u8,
        groups_len: usize,
        used: *const u8,
        used_len: usize,
        retired: *const u8,
        retired_len: usize,
        object: u64,
        first: u64,
        units: u64,
        out: *mut u8,
        out_len: usize,
    ) -> Answer;
}

// SAFETY of each: the pointers and lengths are those of slices that live
// through the call; those of one call do not overlap where the call may
// write, since they are borrowed alone; the calls ask nothing else.

pub fn fresh(store: &mut Store<'_>, uuid: &[u8], reserved: u64) -> Result<u64, Refusal> {
    result(unsafe {
        sangueko_fresh(
            store.image.as_ptr(),
            store.image.len(),
            store.head.as_mut_ptr(),
            store.head.len(),
            store.cards.as_mut_ptr(),
            store.cards.len(),
            store.extents.as_mut_ptr(),
            store.extents.len(),
            store.groups.as_mut_ptr(),
            store.groups.len(),
            store.used.as_mut_ptr(),
            store.used.len(),
            store.retired.as_mut_ptr(),
            store.retired.len(),
            uuid.as_ptr(),
            uuid.len(),
            reserved,
        )
    })
}

pub fn enter(
    store: &mut Store<'_>,
    object: u64,
    seconds: u64,
    nanoseconds: u64,
) -> Result<u64, Refusal> {
    result(unsafe {
        sangueko_enter(
            store.image.as_ptr(),
            store.image.len(),
            store.head.as_mut_ptr(),
            store.head.len(),
            store.cards.as_mut_ptr(),
            store.cards.len(),
            store.extents.as_ptr(),
            store.extents.len(),
            store.groups.as_ptr(),
            store.groups.len(),
            store.used.as_ptr(),
            store.used.len(),
            store.retired.as_ptr(),
            store.retired.len(),
            object,
            seconds,
            nanoseconds,
        )
    })
}

pub fn write(
    store: &mut Store<'_>,
    object: u64,
    offset: u64,
    bytes: &[u8],
    seconds: u64,
    nanoseconds: u64,
) -> Result<u64, Refusal> {
    result(unsafe {
        sangueko_write(
            store.image.as_mut_ptr(),
            store.image.len(),
            store.head.as_mut_ptr(),
            store.head.len(),
            store.cards.as_mut_ptr(),
            store.cards.len(),
            store.extents.as_mut_ptr(),
            store.extents.len(),
            store.groups.as_mut_ptr(),
            store.groups.len(),
            store.used.as_mut_ptr(),
            store.used.len(),
            store.retired.as_mut_ptr(),
            store.retired.len(),
            object,
            offset,
            bytes.as_ptr(),
            bytes.len(),
            seconds,
            nanoseconds,
        )
    })
}

pub fn write_archive(
    store: &mut Store<'_>,
    object: u64,
    offset: u64,
    bytes: &[u8],
    seconds: u64,
    nanoseconds: u64,
) -> Result<u64, Refusal> {
    result(unsafe {
        sangueko_write_archive(
            store.image.as_mut_ptr(),
            store.image.len(),
            store.head.as_mut_ptr(),
            store.head.len(),
            store.cards.as_mut_ptr(),
            store.cards.len(),
            store.extents.as_mut_ptr(),
            store.extents.len(),
            store.groups.as_mut_ptr(),
            store.groups.len(),
            store.used.as_mut_ptr(),
            store.used.len(),
            store.retired.as_mut_ptr(),
            store.retired.len(),
            object,
            offset,
            bytes.as_ptr(),
            bytes.len(),
            seconds,
            nanoseconds,
        )
    })
}

pub fn grow(
    store: &mut Store<'_>,
    object: u64,
    size: u64,
    seconds: u64,
    nanoseconds: u64,
) -> Result<u64, Refusal> {
    result(unsafe {
        sangueko_grow(
            store.image.as_mut_ptr(),
            store.image.len(),
            store.head.as_mut_ptr(),
            store.head.len(),
            store.cards.as_mut_ptr(),
            store.cards.len(),
            store.extents.as_mut_ptr(),
            store.extents.len(),
            store.groups.as_mut_ptr(),
            store.groups.len(),
            store.used.as_mut_ptr(),
            store.used.len(),
            store.retired.as_mut_ptr(),
            store.retired.len(),
            object,
            size,
            seconds,
            nanoseconds,
        )
    })
}

pub fn settle(store: &mut Store<'_>) -> Result<u64, Refusal> {
    result(unsafe {
        sangueko_settle(
            store.image.as_ptr(),
            store.image.len(),
            store.head.as_ptr(),
            store.head.len(),
            store.cards.as_ptr(),
            store.cards.len(),
            store.extents.as_ptr(),
            store.extents.len(),
            store.groups.as_ptr(),
            store.groups.len(),
            store.used.as_mut_ptr(),
            store.used.len(),
            store.retired.as_mut_ptr(),
            store.retired.len(),
        )
    })
}

pub fn fill(store: &Store<'_>) -> Result<u64, Refusal> {
    result(unsafe {
        sangueko_fill(
            store.image.as_ptr(),
            store.image.len(),
            store.head.as_ptr(),
            store.head.len(),
            store.cards.as_ptr(),
            store.cards.len(),
            store.extents.as_ptr(),
            store.extents.len(),
            store.groups.as_ptr(),
            store.groups.len(),
            store.used.as_ptr(),
            store.used.len(),
            store.retired.as_ptr(),
            store.retired.len(),
        )
    })
}

pub fn read(store: &Store<'_>, object: u64, offset: u64, out: &mut [u8]) -> Result<u64, Refusal> {
    result(unsafe {
        sangueko_read(
            store.image.as_ptr(),
            store.image.len(),
            store.head.as_ptr(),
            store.head.len(),
            store.cards.as_ptr(),
            store.cards.len(),
            store.extents.as_ptr(),
            store.extents.len(),
            store.groups.as_ptr(),
            store.groups.len(),
            store.used.as_ptr(),
            store.used.len(),
            store.retired.as_ptr(),
            store.retired.len(),
            object,
            offset,
            out.as_mut_ptr(),
            out.len(),
        )
    })
}

pub fn read_many(store: &Store<'_>, list: &[u8], out: &mut [u8]) -> Result<u64, Refusal> {
    result(unsafe {
        sangueko_read_many(
            store.image.as_ptr(),
            store.image.len(),
            store.head.as_ptr(),
            store.head.len(),
            store.cards.as_ptr(),
            store.cards.len(),
            store.extents.as_ptr(),
            store.extents.len(),
            store.groups.as_ptr(),
            store.groups.len(),
            store.used.as_ptr(),
            store.used.len(),
            store.retired.as_ptr(),
            store.retired.len(),
            list.as_ptr(),
            list.len(),
            out.as_mut_ptr(),
            out.len(),
        )
    })
}

pub fn write_batch(
    store: &mut Store<'_>,
    list: &[u8],
    bytes: &[u8],
    seconds: u64,
    nanoseconds: u64,
) -> Result<Batched, Refusal> {
    batched(unsafe {
        sangueko_write_batch(
            store.image.as_mut_ptr(),
            store.image.len(),
            store.head.as_mut_ptr(),
            store.head.len(),
            store.cards.as_mut_ptr(),
            store.cards.len(),
            store.extents.as_mut_ptr(),
            store.extents.len(),
            store.groups.as_mut_ptr(),
            store.groups.len(),
            store.used.as_mut_ptr(),
            store.used.len(),
            store.retired.as_mut_ptr(),
            store.retired.len(),
            list.as_ptr(),
            list.len(),
            bytes.as_ptr(),
            bytes.len(),
            seconds,
            nanoseconds,
        )
    })
}

pub fn data_stretches(
    store: &Store<'_>,
    object: u64,
    first: u64,
    units: u64,
    out: &mut [u8],
) -> Result<u64, Refusal> {
    result(unsafe {
        sangueko_data_stretches(
            store.image.as_ptr(),
            store.image.len(),
            store.head.as_ptr(),
            store.head.len(),
            store.cards.as_ptr(),
            store.cards.len(),
            store.extents.as_ptr(),
            store.extents.len(),
            store.groups.as_ptr(),
            store.groups.len(),
            store.used.as_ptr(),
            store.used.len(),
            store.retired.as_ptr(),
            store.retired.len(),
            object,
            first,
            units,
            out.as_mut_ptr(),
            out.len(),
        )
    })
}

// That these hold of every answer is proved of the archive; a breach is a panic.

fn refusal(number: u32) -> Refusal {
    Refusal::of(number).expect("the number of a refusal")
}

/// An answer as a result. A refused call has count 0.
fn result(answer: Answer) -> Result<u64, Refusal> {
    if answer.number == 0 {
        return Ok(answer.count);
    }
    assert_eq!(answer.count, 0, "the count of a refused call");
    Err(refusal(answer.number))
}

/// The answer of a batch: 1, 2 and 18 alone refuse it, and then no write was
/// done. By 18 it does not stop.
fn batched(answer: Answer) -> Result<Batched, Refusal> {
    let done = usize::try_from(answer.count).expect("as many writes as a list has");
    if answer.number == 0 {
        return Ok(Batched::All { writes: done });
    }
    let by = refusal(answer.number);
    assert!(done == 0 || by != Refusal::BadBatch, "writes of no list");
    match by {
        Refusal::WrongLength | Refusal::BrokenRule | Refusal::BadBatch if done == 0 => Err(by),
        _ => Ok(Batched::Stopped { done, by }),
    }
}

#[cfg(test)]
mod tests {
    use super::*;

    /// Every number with no write done and with some: which answers are refused
    /// batches, and which are batches that stopped.
    #[test]
    fn a_batch_is_refused_by_1_2_and_18_alone() {
        let told = |number, count| batched(Answer { number, count });
        assert_eq!(told(0, 0), Ok(Batched::All { writes: 0 }));
        assert_eq!(told(0, 64), Ok(Batched::All { writes: 64 }));
        for by in Refusal::ALL {
            let stopped = |done| Ok(Batched::Stopped { done, by });
            let refuses = matches!(by.number(), 1 | 2 | 18);
            let expected = if refuses { Err(by) } else { stopped(0) };
            assert_eq!(told(by.number(), 0), expected);
            if by != Refusal::BadBatch {
                assert_eq!(told(by.number(), 1), stopped(1));
            }
        }
    }
}
