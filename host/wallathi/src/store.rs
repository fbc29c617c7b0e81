//! The store: commands on bytes that are owned or borrowed.

use core::borrow::{Borrow, BorrowMut};
use core::ops::RangeInclusive;

#[cfg(feature = "alloc")]
use alloc::{boxed::Box, vec, vec::Vec};

use crate::raw::{self, State};
use crate::{Id, Refusal, SlipRef};
#[cfg(feature = "alloc")]
use crate::{Slip, ID_BYTES, LONGEST_STRING, STATE_BYTES};

/// How many bytes a slot has.
pub const SLOT_BYTES: usize = 4096;

/// More slots than these are never used.
pub const MOST_SLOTS: usize = 64;

/// No slip of a message that a store holds is longer: an output of this length suffices for every read.
pub const LONGEST_SLIP: usize = 5353;

/// No snapshot is longer: an output of this length suffices for every save.
pub const LONGEST_SNAPSHOT: usize = 321_604;

/// A batch has at most so many messages.
pub const LARGEST_BATCH: usize = 256;

/// A store and its state. `S` and `T` own the bytes or borrow them: [`Owned`], [`Borrowed`].
///
/// Commands that change something take `&mut self`, so two threads cannot share a store without a lock.
///
/// ```
/// use wallathi::{Id, Owned, Slip};
/// let mut store = Owned::new(4)?;
/// let id = store.add_by_clock(1_763_000_000_000, &Slip::of([("west", "-120"), ("east", "0")])?)?;
/// assert_eq!(store.field(id, b"east")?.as_deref(), Some(&b"0"[..]));
/// assert_eq!(store.field(id, b"middle")?, None); // absent, not zero and not empty
/// let file = store.save()?;
/// let mut other = Owned::new(64)?;
/// other.load(&file)?;
/// assert_eq!(other.save()?, file);
/// # Ok::<(), wallathi::Refusal>(())
/// ```
#[derive(Clone, Debug)]
pub struct Store<S, T> {
    store: S,
    state: T,
}

/// A store that owns its bytes.
#[cfg(feature = "alloc")]
pub type Owned = Store<Vec<u8>, Box<State>>;

/// A store in bytes that somebody else owns.
pub type Borrowed<'a> = Store<&'a mut [u8], &'a mut State>;

/// A pending entry of a consumer.
#[derive(Clone, Copy, Debug, PartialEq, Eq)]
pub struct Pending {
    /// The ID of the message.
    pub id: Id,
    /// When it was delivered last.
    pub time: u64,
    /// How often, at most 65,535.
    pub count: u64,
    /// Whether its message lives.
    pub lives: bool,
}

/// What the messages of a range hold under one name ([`Store::report`]). Each message is in one of the three counts.
#[derive(Clone, Copy, Debug, PartialEq, Eq)]
pub struct Report {
    /// How many messages have no pair of that name: seconds without a sample, say. They are no zeros, and in no other number here.
    pub lacking: u64,
    /// How many hold something else than an integer from -1,000,000,000 to 1,000,000,000: a text, an empty value, an integer beyond.
    pub other: u64,
    /// Those that hold such an integer; none where no message does.
    pub integers: Option<Integers>,
}

/// The integers of a report. All four numbers are exact.
#[derive(Clone, Copy, Debug, PartialEq, Eq)]
pub struct Integers {
    /// How many, 1 at least.
    pub count: u64,
    /// Their sum.
    pub sum: i64,
    /// The smallest.
    pub smallest: i64,
    /// The largest.
    pub largest: i64,
}

/// The answer of a code: 0, or a refusal. Codes of "none" are taken apart before.
pub(crate) fn answered(code: u32) -> Result<(), Refusal> {
    match code {
        raw::OK => Ok(()),
        _ => Err(Refusal::from_number(code).expect("the library answers 0 or a refusal's number here")),
    }
}

/// The answer of a code where `none` says that there is nothing.
pub(crate) fn found<A>(code: u32, none: u32, answer: A) -> Result<Option<A>, Refusal> {
    match code {
        _ if code == none => Ok(None),
        _ => answered(code).map(|()| Some(answer)),
    }
}

fn id_of([ms, seq]: [u64; 2]) -> Id {
    Id::new(ms, seq)
}

/// The IDs that a batch wrote.
#[cfg(feature = "alloc")]
fn ids_of(bytes: &[u8]) -> Vec<Id> {
    let ids = bytes.chunks_exact(ID_BYTES).map(|id| id.try_into().expect("the length of an ID"));
    ids.map(Id::from_bytes).collect()
}

/// A length that the library wrote: at most the output's.
#[allow(clippy::cast_possible_truncation)]
pub(crate) fn length_of(written: u64) -> usize {
    written as usize
}

#[cfg(feature = "alloc")]
impl Owned {
    /// A fresh store of so many slots, 64 at most.
    ///
    /// # Errors
    ///
    /// [`Refusal::NoSlot`] for none.
    pub fn new(slots: usize) -> Result<Owned, Refusal> {
        let store = vec![0; slots.min(MOST_SLOTS) * SLOT_BYTES];
        let state = vec![0; STATE_BYTES].into_boxed_slice().try_into();
        let mut store =
            Store { store, state: state.unwrap_or_else(|_| unreachable!("the length of a state")) };
        store.set_up()?;
        Ok(store)
    }
}

impl<S, T> Store<S, T> {
    /// Bytes as they are: set up, load, or whatever was kept of an earlier store. Every command judges them first.
    #[must_use]
    pub fn from_parts(store: S, state: T) -> Store<S, T> {
        Store { store, state }
    }

    /// The bytes of the store and of the state, to keep.
    #[must_use]
    pub fn into_parts(self) -> (S, T) {
        (self.store, self.state)
    }
}

/// What only reads. Each command judges store and state first: [`Refusal::Damaged`] where they are no image.
impl<S: Borrow<[u8]>, T: Borrow<State>> Store<S, T> {
    /// The first live ID at or above an ID.
    ///
    /// # Errors
    ///
    /// [`Refusal::Damaged`].
    pub fn next(&self, from: Id) -> Result<Option<Id>, Refusal> {
        let mut id = [0; 2];
        let code = raw::next(self.store.borrow(), self.state.borrow(), from.ms, from.seq, &mut id);
        found(code, raw::NONE, id_of(id))
    }

    /// A live message.
    ///
    /// # Errors
    ///
    /// [`Refusal::Damaged`]; [`Refusal::NotLive`] where there is none of that ID.
    #[cfg(feature = "alloc")]
    pub fn read(&self, id: Id) -> Result<Slip, Refusal> {
        let mut out = [0; LONGEST_SLIP];
        let length = self.read_into(id, &mut out)?;
        Ok(Slip::as_written(&out[..length]))
    }

    /// A live message as the bytes of a slip at the start of `out`; the answer is their number.
    ///
    /// # Errors
    ///
    /// [`Refusal::Damaged`]; [`Refusal::ShortOutput`] where `out` is shorter; [`Refusal::NotLive`] where there is none of that ID.
    pub fn read_into(&self, id: Id, out: &mut [u8]) -> Result<usize, Refusal> {
        let mut length = 0;
        answered(raw::read(self.store.borrow(), self.state.borrow(), id.ms, id.seq, out, &mut length))?;
        Ok(length_of(length))
    }

    /// The value of the first pair with that name; none where the message lacks it, which is neither zero nor empty.
    ///
    /// # Errors
    ///
    /// [`Refusal::Damaged`]; [`Refusal::BadArgument`] for a name of over 1,000 bytes; [`Refusal::NotLive`].
    #[cfg(feature = "alloc")]
    pub fn field(&self, id: Id, name: &[u8]) -> Result<Option<Vec<u8>>, Refusal> {
        let mut out = [0; LONGEST_STRING];
        let length = self.field_into(id, name, &mut out)?;
        Ok(length.map(|length| out[..length].to_vec()))
    }

    /// The same at the start of `out`; the answer is its length.
    ///
    /// # Errors
    ///
    /// [`Refusal::Damaged`]; [`Refusal::BadArgument`] for a name of over 1,000 bytes; [`Refusal::ShortOutput`] where `out` is shorter;
    /// [`Refusal::NotLive`].
    pub fn field_into(&self, id: Id, name: &[u8], out: &mut [u8]) -> Result<Option<usize>, Refusal> {
        let mut length = 0;
        let code =
            raw::field(self.store.borrow(), self.state.borrow(), id.ms, id.seq, name, out, &mut length);
        found(code, raw::ABSENT, length_of(length))
    }

    /// Counts what the live messages of a range, both ends included, hold in their first pair of that name. A range whose start is above
    /// its end has no messages. Store and state are judged once, however many messages there are.
    ///
    /// ```
    /// use wallathi::{Id, Integers, Owned, Slip};
    /// let mut store = Owned::new(1)?;
    /// store.add_by_clock(1_000, &Slip::of([("west", "-3"), ("east", "12")])?)?;
    /// store.add_by_clock(2_000, &Slip::of([("west", "-5")])?)?; // the eastern station gave no sample
    /// store.add_by_clock(3_000, &Slip::of([("west", "-4"), ("east", "0")])?)?;
    /// store.add_by_clock(4_000, &Slip::of([("west", "clipped"), ("east", "-2")])?)?;
    /// let east = store.report(b"east", Id::LEAST..=Id::GREATEST)?;
    /// assert_eq!((east.lacking, east.other), (1, 0));
    /// assert_eq!(east.integers, Some(Integers { count: 3, sum: 10, smallest: -2, largest: 12 }));
    /// let late = store.report(b"west", Id::new(4_000, 0)..=Id::new(4_999, u64::MAX))?;
    /// assert_eq!((late.lacking, late.other, late.integers), (0, 1, None)); // no smallest, no largest
    /// # Ok::<(), wallathi::Refusal>(())
    /// ```
    ///
    /// # Errors
    ///
    /// [`Refusal::Damaged`]; [`Refusal::BadArgument`] for a name of over 1,000 bytes.
    pub fn report(&self, name: &[u8], range: RangeInclusive<Id>) -> Result<Report, Refusal> {
        let (first, last) = range.into_inner();
        let (mut counts, mut values) = ([0; 3], [0; 3]);
        let (store, state) = (self.store.borrow(), self.state.borrow());
        let code =
            raw::report(store, state, name, first.ms, first.seq, last.ms, last.seq, &mut counts, &mut values);
        let ([lacking, other, count], [sum, smallest, largest]) = (counts, values);
        let integers = found(code, raw::NO_INTEGERS, Integers { count, sum, smallest, largest })?;
        Ok(Report { lacking, other, integers })
    }

    /// The live messages of a range, both ends included, as a reply in RESP2 at the start of `out`; the answer is its length. A range whose
    /// start is above its end has no messages. Store and state are judged once, however many messages there are.
    ///
    /// A reply may be many times as long as the store, which keeps names once that messages share: every message has its own here.
    ///
    /// ```
    /// use wallathi::{read_reply, reply_message, Id, Owned, Reply, Slip};
    /// let mut store = Owned::new(1)?;
    /// store.add_by_clock(1_000, &Slip::of([("east", "-3")])?)?;
    /// store.add_by_clock(2_000, &Slip::of([("east", "12")])?)?;
    /// let mut out = [0; 1_000];
    /// let length = store.range_reply(Id::new(2_000, 0)..=Id::GREATEST, &mut out)?;
    /// let reply = &out[..length];
    /// assert_eq!(reply, b"*1\r\n*2\r\n$6\r\n2000-0\r\n*2\r\n$4\r\neast\r\n$2\r\n12\r\n");
    /// assert_eq!(read_reply(reply)?, Reply::Range(1));
    /// assert_eq!(reply_message(reply, 0)?, Some((Id::new(2_000, 0), Slip::of([("east", "12")])?)));
    /// # Ok::<(), wallathi::Refusal>(())
    /// ```
    ///
    /// # Errors
    ///
    /// [`Refusal::Damaged`]; [`Refusal::ShortOutput`] where `out` is shorter.
    pub fn range_reply(&self, range: RangeInclusive<Id>, out: &mut [u8]) -> Result<usize, Refusal> {
        let (first, last) = range.into_inner();
        let mut length = 0;
        let (store, state) = (self.store.borrow(), self.state.borrow());
        answered(raw::range_reply(store, state, first.ms, first.seq, last.ms, last.seq, out, &mut length))?;
        Ok(length_of(length))
    }

    /// The live messages from an ID on, in rising order. A refusal ends it.
    ///
    /// Each message is read once. It costs two judgements of store and state, one for its ID and one for its pairs.
    #[cfg(feature = "alloc")]
    pub fn messages(&self, from: Id) -> Messages<'_, S, T> {
        Messages { store: self, from: Some(from) }
    }

    /// A consumer's next pending entry above an ID; none also for an unknown consumer.
    ///
    /// # Errors
    ///
    /// [`Refusal::Damaged`]; [`Refusal::BadArgument`] for a name that does not have 1 to 16 bytes; [`Refusal::NoGroup`].
    pub fn next_pending(&self, group: &[u8], consumer: &[u8], after: Id) -> Result<Option<Pending>, Refusal> {
        let mut values = [0; 5];
        let (store, state) = (self.store.borrow(), self.state.borrow());
        let code = raw::next_pending(store, state, group, consumer, after.ms, after.seq, &mut values);
        let [ms, seq, time, count, lives] = values;
        found(code, raw::NONE, Pending { id: Id::new(ms, seq), time, count, lives: lives == 1 })
    }

    /// A consumer's pending entries, in rising order. A refusal ends it. Each entry costs a judgement of store and state.
    pub fn pending<'a>(&'a self, group: &'a [u8], consumer: &'a [u8]) -> PendingEntries<'a, S, T> {
        PendingEntries { store: self, group, consumer, after: Some(Id::LEAST) }
    }

    /// The snapshot: equal byte for byte exactly for equal messages, last ID and groups.
    ///
    /// # Errors
    ///
    /// [`Refusal::Damaged`]; [`Refusal::MostNodes`] where it would need over 64 nodes.
    #[cfg(feature = "alloc")]
    pub fn save(&self) -> Result<Vec<u8>, Refusal> {
        let mut out = vec![0; LONGEST_SNAPSHOT];
        let length = self.save_into(&mut out)?;
        out.truncate(length);
        out.shrink_to_fit();
        Ok(out)
    }

    /// The same at the start of `out`; the answer is its length.
    ///
    /// # Errors
    ///
    /// [`Refusal::Damaged`]; [`Refusal::ShortOutput`] where `out` is shorter; [`Refusal::MostNodes`] where it would need over 64 nodes.
    pub fn save_into(&self, out: &mut [u8]) -> Result<usize, Refusal> {
        let mut length = 0;
        answered(raw::save(self.store.borrow(), self.state.borrow(), out, &mut length))?;
        Ok(length_of(length))
    }
}

/// What changes the messages.
impl<S: BorrowMut<[u8]>, T: BorrowMut<State>> Store<S, T> {
    /// An empty store with last ID 0-0, whatever the bytes were.
    ///
    /// # Errors
    ///
    /// [`Refusal::NoSlot`].
    pub fn set_up(&mut self) -> Result<(), Refusal> {
        answered(raw::set_up(self.store.borrow_mut(), self.state.borrow_mut()))
    }

    /// What a snapshot holds, whatever the bytes were. A refused file changes nothing.
    ///
    /// # Errors
    ///
    /// [`Refusal::NoSlot`]; [`Refusal::NoSnapshot`]; [`Refusal::SmallStore`] where it has more nodes than the store has slots.
    pub fn load(&mut self, file: &[u8]) -> Result<(), Refusal> {
        answered(raw::load(self.store.borrow_mut(), self.state.borrow_mut(), file))
    }

    /// Adds a message with an ID above the last one, which it then is.
    ///
    /// # Errors
    ///
    /// [`Refusal::Damaged`]; [`Refusal::LowId`]; [`Refusal::LongMessage`]; [`Refusal::Full`].
    pub fn add<'a>(&mut self, id: Id, slip: impl Into<SlipRef<'a>>) -> Result<Id, Refusal> {
        let mut given = [0; 2];
        let (store, state) = (self.store.borrow_mut(), self.state.borrow_mut());
        answered(raw::add(store, state, id.ms, id.seq, slip.into().as_bytes(), &mut given))?;
        Ok(id_of(given))
    }

    /// Adds a message at a time. Its ID is (time, 0), or the one that follows the last ID where the clock did not go on.
    ///
    /// # Errors
    ///
    /// [`Refusal::Damaged`]; [`Refusal::NoIdLeft`]; [`Refusal::LongMessage`]; [`Refusal::Full`].
    pub fn add_by_clock<'a>(&mut self, time: u64, slip: impl Into<SlipRef<'a>>) -> Result<Id, Refusal> {
        let mut given = [0; 2];
        let (store, state) = (self.store.borrow_mut(), self.state.borrow_mut());
        answered(raw::add_by_clock(store, state, time, slip.into().as_bytes(), &mut given))?;
        Ok(id_of(given))
    }

    /// Deletes a message, and says whether there was one. Pending entries stay.
    ///
    /// # Errors
    ///
    /// [`Refusal::Damaged`].
    pub fn delete(&mut self, id: Id) -> Result<bool, Refusal> {
        let mut count = 0;
        answered(raw::delete(self.store.borrow_mut(), self.state.borrow_mut(), id.ms, id.seq, &mut count))?;
        Ok(count == 1)
    }

    /// Deletes the oldest until at most `keep` remain; how many went.
    ///
    /// # Errors
    ///
    /// [`Refusal::Damaged`].
    pub fn trim(&mut self, keep: u64) -> Result<u64, Refusal> {
        let mut count = 0;
        answered(raw::trim(self.store.borrow_mut(), self.state.borrow_mut(), keep, &mut count))?;
        Ok(count)
    }
}

/// What changes the groups. [`Refusal::BadArgument`] is for a name that does not have 1 to 16 bytes.
impl<S: Borrow<[u8]>, T: BorrowMut<State>> Store<S, T> {
    /// Creates a group to which what comes after the start ID is delivered.
    ///
    /// # Errors
    ///
    /// [`Refusal::Damaged`]; [`Refusal::BadArgument`]; [`Refusal::GroupExists`]; [`Refusal::MostGroups`].
    pub fn create_group(&mut self, group: &[u8], start: Id) -> Result<(), Refusal> {
        let (store, state) = (self.store.borrow(), self.state.borrow_mut());
        answered(raw::create_group(store, state, group, start.ms, start.seq))
    }

    /// Destroys a group with its consumers and pending entries.
    ///
    /// # Errors
    ///
    /// [`Refusal::Damaged`]; [`Refusal::BadArgument`]; [`Refusal::NoGroup`].
    pub fn destroy_group(&mut self, group: &[u8]) -> Result<(), Refusal> {
        answered(raw::destroy_group(self.store.borrow(), self.state.borrow_mut(), group))
    }

    /// The first live ID above the last delivered, now pending for the consumer; none where nothing is new.
    ///
    /// # Errors
    ///
    /// [`Refusal::Damaged`]; [`Refusal::BadArgument`]; [`Refusal::NoGroup`]; [`Refusal::MostConsumers`]; [`Refusal::MostPending`].
    pub fn group_read(&mut self, group: &[u8], consumer: &[u8], now: u64) -> Result<Option<Id>, Refusal> {
        let mut id = [0; 2];
        let code =
            raw::group_read(self.store.borrow(), self.state.borrow_mut(), group, consumer, now, &mut id);
        found(code, raw::NONE, id_of(id))
    }

    /// The next live IDs above the last delivered, now pending for the consumer: at most `n`, and no more than entries are free. It is
    /// what as many group reads in a row would give, at the cost of one.
    ///
    /// ```
    /// use wallathi::{Id, Owned, Slip};
    /// let mut store = Owned::new(1)?;
    /// for second in 1..=5 {
    ///     store.add_by_clock(1_000 * second, &Slip::of([("east", "-3")])?)?;
    /// }
    /// store.create_group(b"curves", Id::LEAST)?;
    /// assert_eq!(store.group_read_many(b"curves", b"analyst", 5_000, 3)?.len(), 3);
    /// let rest = store.group_read_many(b"curves", b"analyst", 5_000, 256)?;
    /// assert_eq!(rest, [Id::new(4_000, 0), Id::new(5_000, 0)]);
    /// assert!(store.group_read_many(b"curves", b"analyst", 5_000, 256)?.is_empty()); // nothing new
    /// # Ok::<(), wallathi::Refusal>(())
    /// ```
    ///
    /// # Errors
    ///
    /// [`Refusal::Damaged`]; [`Refusal::BadArgument`], also for an `n` above [`LARGEST_BATCH`]; [`Refusal::NoGroup`]. For an `n` above 0,
    /// where a live message is above the last delivered: [`Refusal::MostConsumers`]; [`Refusal::MostPending`] where no entry is free.
    #[cfg(feature = "alloc")]
    pub fn group_read_many(
        &mut self,
        group: &[u8],
        consumer: &[u8],
        now: u64,
        n: u64,
    ) -> Result<Vec<Id>, Refusal> {
        let mut out = [0; LARGEST_BATCH * ID_BYTES];
        let length = self.group_read_many_into(group, consumer, now, n, &mut out)?;
        Ok(ids_of(&out[..length]))
    }

    /// The same at the start of `out`, [`ID_BYTES`] bytes for each ID ([`Id::from_bytes`]); the answer is their number in bytes.
    ///
    /// # Errors
    ///
    /// Those of [`Store::group_read_many`]; [`Refusal::ShortOutput`] where `out` has less than `n` times [`ID_BYTES`] bytes, also where
    /// there is less to write.
    pub fn group_read_many_into(
        &mut self,
        group: &[u8],
        consumer: &[u8],
        now: u64,
        n: u64,
        out: &mut [u8],
    ) -> Result<usize, Refusal> {
        let mut length = 0;
        let (store, state) = (self.store.borrow(), self.state.borrow_mut());
        answered(raw::group_read_many(store, state, group, consumer, now, n, out, &mut length))?;
        Ok(length_of(length))
    }

    /// Removes a pending entry, and says whether there was one.
    ///
    /// # Errors
    ///
    /// [`Refusal::Damaged`]; [`Refusal::BadArgument`]; [`Refusal::NoGroup`].
    pub fn acknowledge(&mut self, group: &[u8], id: Id) -> Result<bool, Refusal> {
        let mut count = 0;
        let (store, state) = (self.store.borrow(), self.state.borrow_mut());
        answered(raw::acknowledge(store, state, group, id.ms, id.seq, &mut count))?;
        Ok(count == 1)
    }

    /// Moves a pending entry to the consumer where it is idle for at least `least_idle`, and says whether it did.
    ///
    /// # Errors
    ///
    /// [`Refusal::Damaged`]; [`Refusal::BadArgument`]; [`Refusal::NoGroup`]; [`Refusal::MostConsumers`].
    pub fn claim(
        &mut self,
        group: &[u8],
        consumer: &[u8],
        least_idle: u64,
        id: Id,
        now: u64,
    ) -> Result<bool, Refusal> {
        let (store, state) = (self.store.borrow(), self.state.borrow_mut());
        let code = raw::claim(store, state, group, consumer, least_idle, id.ms, id.seq, now);
        Ok(found(code, raw::NOT_MOVED, ())?.is_some())
    }

    /// Removes a consumer; how many entries went with it.
    ///
    /// # Errors
    ///
    /// [`Refusal::Damaged`]; [`Refusal::BadArgument`]; [`Refusal::NoGroup`].
    pub fn drop_consumer(&mut self, group: &[u8], consumer: &[u8]) -> Result<u64, Refusal> {
        let mut count = 0;
        let (store, state) = (self.store.borrow(), self.state.borrow_mut());
        answered(raw::drop_consumer(store, state, group, consumer, &mut count))?;
        Ok(count)
    }
}

/// Live messages, in rising order of their IDs ([`Store::messages`]).
#[cfg(feature = "alloc")]
#[derive(Clone, Debug)]
#[must_use = "messages are read as they are asked for"]
pub struct Messages<'a, S, T> {
    store: &'a Store<S, T>,
    from: Option<Id>,
}

#[cfg(feature = "alloc")]
impl<S: Borrow<[u8]>, T: Borrow<State>> Iterator for Messages<'_, S, T> {
    type Item = Result<(Id, Slip), Refusal>;

    fn next(&mut self) -> Option<Self::Item> {
        let from = self.from.take()?;
        match self.store.next(from) {
            Err(refusal) => Some(Err(refusal)),
            Ok(None) => None,
            Ok(Some(id)) => {
                self.from = id.following();
                Some(self.store.read(id).map(|slip| (id, slip)))
            }
        }
    }
}

/// Pending entries of a consumer, in rising order of their IDs ([`Store::pending`]).
#[derive(Clone, Debug)]
#[must_use = "entries are read as they are asked for"]
pub struct PendingEntries<'a, S, T> {
    store: &'a Store<S, T>,
    group: &'a [u8],
    consumer: &'a [u8],
    after: Option<Id>,
}

impl<S: Borrow<[u8]>, T: Borrow<State>> Iterator for PendingEntries<'_, S, T> {
    type Item = Result<Pending, Refusal>;

    fn next(&mut self) -> Option<Self::Item> {
        let after = self.after.take()?;
        let entry = self.store.next_pending(self.group, self.consumer, after).transpose()?;
        self.after = entry.as_ref().ok().map(|entry| entry.id);
        Some(entry)
    }
}
