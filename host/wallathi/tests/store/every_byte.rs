//! Every byte of whole nodes and of whole group regions, changed by a little and by much.

use wallathi_model::generate;
use wallathi_model::groups::{PENDING_BYTES, REGION_BYTES};
use wallathi_model::id::Id;
use wallathi_model::ledger::{Model, Store};
use wallathi_model::node::Node;
use wallathi_model::rng::Rng;

use crate::amount;
use crate::damage::Sweep;
use crate::groups::filled;
use crate::lent::REGIONS;
use crate::limits::{filling, name};
use crate::nodes::small_node;

const SLOT: usize = 4_096;
/// Where the entries of a region begin.
const ENTRIES: usize = 308;

/// Each of these bytes becomes one more, one less or one with another highest bit, in the long run all three. Answers how often the bytes
/// were an image, and how often not.
fn each_step(mut sweep: Sweep, places: impl Iterator<Item = usize>) -> (usize, usize) {
    for at in places {
        let steps = [1, 128, 255].into_iter().cycle().skip(at % 3).take(amount(1, 3));
        sweep.change(at, |good| steps.map(|step| good.wrapping_add(step)).collect());
    }
    (sweep.images, sweep.damaged)
}

/// A store of one slot that has this node.
pub fn store_of(node: Node) -> Store {
    let mut model = Model::fresh(1);
    model.ledger.last_id = node.greatest_id();
    model.ledger.messages = node.live().map(|entry| (entry.id, entry.pairs.clone())).collect();
    model.cut.slots[0] = Some(node);
    assert!(model.keeps_rules());
    Store { length: SLOT, model: Some(model) }
}

/// Nodes of every size, one of them of 4,096 bytes with a deleted count of three bytes; of the zeros after a node some.
#[test]
fn nodes() {
    let mut rng = Rng::new(7_001);
    let mut nodes: Vec<Node> = (0..30).map(|_| generate::node(&mut rng)).collect();
    nodes.sort_by_key(Node::size);
    let (many, id) = (small_node(2, 128), Id::new(0, 999));
    let largest = many.with(id, &filling(Some(&many), id, 4_096));
    for (node, seed) in nodes.into_iter().step_by(10).chain([many, largest]).zip(0..) {
        let (size, live) = (node.size(), node.live_count());
        let zeros = (size..SLOT).step_by(97);
        let (images, damaged) = each_step(Sweep::of_store(store_of(node), seed), (0..size).chain(zeros));
        assert!(images >= live / 2 && damaged > 20, "{size} bytes: {images} {damaged}");
    }
}

/// A group of 15 consumers and 250 entries, one of 5 and 30, and the front of a free region; no message, so that a judgement is short.
#[test]
fn regions() {
    let mut rng = Rng::new(7_002);
    let mut model = Model::fresh(1);
    model.ledger.last_id = Id::new(7, 3 * 250);
    model.ledger.groups.insert(name("a"), filled(&mut rng, 15, 250));
    model.ledger.groups.insert(name("group"), filled(&mut rng, 5, 30));
    let used = REGION_BYTES + ENTRIES + 30 * PENDING_BYTES;
    let places =
        (0..used).chain((used..8 * REGION_BYTES).step_by(97)).chain(2 * REGION_BYTES..2 * REGION_BYTES + 40);
    let store = Store { length: SLOT, model: Some(model) };
    let (images, damaged) = each_step(Sweep::of_state(store, 7), places.map(|place| REGIONS + place));
    assert!(images > 1_500 && damaged > 1_500, "{images} {damaged}");
}
