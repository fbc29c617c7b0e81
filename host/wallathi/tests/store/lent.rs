//! Store and state as lent to one side.

use wallathi::raw::{State, STATE_BYTES};
use wallathi_model::id::Id;
use wallathi_model::image;
use wallathi_model::index::record::{self, RECORD_BYTES};
use wallathi_model::ledger::Model;

pub const RECORD: usize = 16;
pub const REGIONS: usize = RECORD + RECORD_BYTES;
/// Bytes before and after what is lent; three, so that nothing is aligned.
pub const GUARD: usize = 3;
const GUARD_BYTE: u8 = 0x5A;

/// Store and state, with guard bytes around them.
#[derive(Clone, PartialEq, Eq)]
pub struct Lent {
    store: Vec<u8>,
    state: Vec<u8>,
}

fn guarded(bytes: &[u8]) -> Vec<u8> {
    [&[GUARD_BYTE; GUARD][..], bytes, &[GUARD_BYTE; GUARD]].concat()
}

pub fn inner(bytes: &[u8]) -> &[u8] {
    &bytes[GUARD..bytes.len() - GUARD]
}

pub fn inner_mut(bytes: &mut [u8]) -> &mut [u8] {
    let end = bytes.len() - GUARD;
    &mut bytes[GUARD..end]
}

impl Lent {
    pub fn new(store: &[u8], state: &[u8]) -> Lent {
        assert_eq!(state.len(), STATE_BYTES);
        Lent { store: guarded(store), state: guarded(state) }
    }

    /// The image of a model in a store of this length, with bytes past the last slot that are not zero. The places of the index's
    /// nodes are in order.
    pub fn image(model: &Model, length: usize) -> Lent {
        let mut store = image::slots(&model.cut);
        store.extend((store.len()..length).map(|place| place as u8 | 1));
        let index = image::index(&model.cut);
        let places: Vec<usize> = (0..index.shape().node_count()).collect();
        let state = [
            &model.ledger.last_id.to_bytes()[..],
            &record::write(&index, &places),
            &image::regions(&model.ledger.groups),
        ];
        Lent::new(&store, &state.concat())
    }

    pub fn store(&self) -> &[u8] {
        inner(&self.store)
    }

    pub fn state(&self) -> &[u8] {
        inner(&self.state)
    }

    pub fn store_mut(&mut self) -> &mut [u8] {
        inner_mut(&mut self.store)
    }

    pub fn state_mut(&mut self) -> &mut [u8] {
        inner_mut(&mut self.state)
    }

    /// What the bytes are the image of, by the model.
    pub fn read(&self) -> Option<Model> {
        let (index, _) = record::read(&self.state()[RECORD..REGIONS]).ok()?;
        image::read(self.store(), self.last_id(), &index, &self.state()[REGIONS..]).ok()
    }

    pub fn last_id(&self) -> Id {
        Id::from_bytes(self.state()[..RECORD].try_into().expect("16 bytes"))
    }

    /// Both at once, to be lent.
    pub fn both(&mut self) -> (&mut [u8], &mut State) {
        let state = inner_mut(&mut self.state).try_into().expect("the length of a state");
        (inner_mut(&mut self.store), state)
    }

    pub fn has_guards(&self) -> bool {
        let has = |bytes: &[u8]| {
            let ends = [&bytes[..GUARD], &bytes[bytes.len() - GUARD..]];
            ends.iter().all(|end| **end == [GUARD_BYTE; GUARD])
        };
        has(&self.store) && has(&self.state)
    }
}
