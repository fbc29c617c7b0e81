//! Nodes with one thing wrong, written by the rules otherwise: in a slot and in a file.

use wallathi_model::decimal;
use wallathi_model::generate::{self, Commands, Mood};
use wallathi_model::id::Id;
use wallathi_model::ledger::{Command, Model, Store};
use wallathi_model::listpack;
use wallathi_model::message::Message;
use wallathi_model::node::Node;
use wallathi_model::rng::Rng;
use wallathi_model::snapshot::file;

use crate::amount;
use crate::beside::run_damaged;
use crate::lent::Lent;
use crate::limits::filling;

const SLOT: usize = 4_096;

type Strings = Vec<Vec<u8>>;

fn number(number: i64) -> Vec<u8> {
    decimal::text(number)
}

/// The strings of the master, and of each message.
fn parts(node: &Node) -> (Strings, Vec<Strings>) {
    let strings = node.elements();
    let fields = node.entries[0].pairs.len();
    let (master, mut rest) = strings.split_at(4 + fields);
    let mut messages = Vec::new();
    for entry in &node.entries {
        let matching = rest[0] == b"2" || rest[0] == b"3";
        let count = if matching { 4 + fields } else { 5 + 2 * entry.pairs.len() };
        let (message, after) = rest.split_at(count);
        messages.push(message.to_vec());
        rest = after;
    }
    (master.to_vec(), messages)
}

/// A message with its own field names, whatever they are.
fn with_own_names(strings: &mut Strings, pairs: &Message, pair_count: i64) {
    strings.truncate(3);
    strings[0] = number(decimal::parse(&strings[0]).expect("flags") & 1);
    strings.push(number(pair_count));
    strings.extend(pairs.iter().flat_map(|(field, value)| [field.clone(), value.clone()]));
    strings.push(number(4 + 2 * pair_count));
}

fn change_an_integer(rng: &mut Rng, string: &mut Vec<u8>) {
    let value = decimal::parse(string).expect("an integer");
    let others = [value.wrapping_add(1), value.wrapping_sub(1), 0, 4, -1, 128, i64::MAX];
    *string = number(*rng.pick(&others));
}

/// The listpack of a node with one thing changed.
fn changed(rng: &mut Rng, node: &Node) -> Vec<u8> {
    let (mut master, mut messages) = parts(node);
    let place = rng.size_below(messages.len());
    let (message, pairs) = (&mut messages[place], &node.entries[place].pairs);
    let last = message.len() - 1;
    match rng.below(12) {
        0 | 1 => with_own_names(message, pairs, pairs.len() as i64),
        2 => with_own_names(message, &vec![], 0),
        3 => with_own_names(message, &vec![(vec![], vec![]); 33], 33),
        4 => message[0] = number(rng.below(6) as i64 - 1),
        5 => {
            let difference = 1 + rng.size_below(2);
            change_an_integer(rng, &mut message[difference]);
        }
        6 => change_an_integer(rng, &mut message[last]),
        7 => {
            let count = *rng.pick(&[0, 1, 2, master.len() - 1]);
            change_an_integer(rng, &mut master[count]);
        }
        8 => message[last - 1] = vec![b'x'; 1_000 + rng.size_below(2)],
        9 => message.insert(rng.size_below(last), b"7".to_vec()),
        10 => drop(message.remove(rng.size_below(last))),
        _ => messages.swap(0, place),
    }
    let strings: Strings = master.into_iter().chain(messages.into_iter().flatten()).collect();
    listpack::listpack(&strings).expect("strings of at most 1,001 bytes")
}

/// A store whose only node has these bytes, and a file of it; says whether it is an image.
fn judge(rng: &mut Rng, key: Id, bytes: &[u8]) -> bool {
    let load =
        Command::Load { file: file(&[(1, vec![255; 16]), (2, [&key.to_bytes()[..], bytes].concat())]) };
    run_damaged(&Lent::new(&[1; SLOT], &[2; wallathi::raw::STATE_BYTES]), None, &load);
    if bytes.len() > SLOT {
        return false;
    }
    let one = Node::of_one(key, vec![(vec![], vec![])]);
    let mut model = Model::fresh(2);
    model.cut.slots[1] = Some(one);
    model.ledger.last_id = Id::GREATEST;
    let mut lent = Lent::image(&model, 2 * SLOT);
    let slot = &mut lent.store_mut()[SLOT..];
    slot.fill(0);
    slot[..bytes.len()].copy_from_slice(bytes);
    let held = lent.read();
    let is_image = held.is_some();
    let like = Store { length: 2 * SLOT, model: held.clone().or(Some(Model::fresh(2))) };
    run_damaged(&lent, held, &Commands::with_mood(rng.next(), Mood::Fills).next(&like));
    is_image
}

#[test]
fn one_thing_wrong() {
    let mut rng = Rng::new(4_001);
    let (mut images, mut damaged) = (0, 0);
    for _ in 0..amount(80, 10_000) {
        let node = generate::node(&mut rng);
        for _ in 0..6 {
            let bytes = changed(&mut rng, &node);
            *(if judge(&mut rng, node.key(), &bytes) { &mut images } else { &mut damaged }) += 1;
        }
    }
    assert!(images > 30 && damaged > 250, "{images} {damaged}");
}

/// A node holds no key, so that it is a node under another one too, as long as its IDs rise from above 0-0.
#[test]
fn under_another_key() {
    let mut rng = Rng::new(4_003);
    for _ in 0..amount(40, 2_000) {
        let node = generate::node(&mut rng);
        let bytes = node.to_bytes();
        assert!(judge(&mut rng, node.key(), &bytes));
        assert!(judge(&mut rng, node.key().following().expect("a small key"), &bytes));
        assert!(!judge(&mut rng, Id::LEAST, &bytes));
        assert_eq!(judge(&mut rng, Id::GREATEST, &bytes), node.entries.len() == 1);
    }
}

/// A node 0-1, 0-2, .. of so many messages of one small integer, the first ones deleted.
pub fn small_node(live: u64, deleted: u64) -> Node {
    let short: Message = vec![(b"t".to_vec(), b"1".to_vec())];
    let mut node = Node::of_one(Id::new(0, 1), short.clone());
    (2..=live + deleted).for_each(|seq| node = node.with(Id::new(0, seq), &short));
    (1..=deleted).for_each(|seq| assert!(node.delete(Id::new(0, seq))));
    node
}

/// 4,095, 4,096 and 4,097 bytes with 127 and 128 deleted messages; 100 and 101 live ones.
#[test]
fn one_too_many() {
    let mut rng = Rng::new(4_002);
    let key = Id::new(0, 1);
    let live = [99, 100, 101].map(|live| judge(&mut rng, key, &small_node(live, 9).to_bytes()));
    assert_eq!(live, [true, true, false]);
    for (deleted, expected) in [(127, [true, false, false]), (128, [true, true, false])] {
        let (node, id) = (small_node(2, deleted), Id::new(0, 999));
        let sizes =
            [4_095, 4_096, 4_097].map(|size| node.with(id, &filling(Some(&node), id, size)).to_bytes());
        assert_eq!(sizes.map(|bytes| judge(&mut rng, key, &bytes)), expected);
    }
}
