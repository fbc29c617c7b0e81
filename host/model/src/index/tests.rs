use super::*;
use crate::rng::Rng;

fn index_of(keys: &[&[u8]]) -> Index {
    let mut index = Index::new();
    for (value, key) in keys.iter().enumerate() {
        index.put(key, value as u32).unwrap();
    }
    index
}

fn node_count(keys: &[&[u8]]) -> usize {
    index_of(keys).shape().node_count()
}

#[test]
fn node_counts() {
    assert_eq!(node_count(&[]), 1);
    assert_eq!(node_count(&[b"foo"]), 2);
    assert_eq!(node_count(&[b"foo", b"foobar"]), 3);
    let mut index = index_of(&[b"foobar", b"footer"]);
    assert_eq!(index.shape().node_count(), 6);
    assert_eq!(index.remove(b"foobar"), Ok(1));
    assert_eq!(index.shape().node_count(), 2);
}

#[test]
fn shapes() {
    let leaf = |is_key| Shape { is_key, children: Children::Leaf };
    let run = |is_key, bytes: &[u8], child| Shape {
        is_key,
        children: Children::Run(bytes.to_vec(), Box::new(child)),
    };
    let branch = |is_key, children| Shape { is_key, children: Children::Branch(children) };
    assert_eq!(index_of(&[]).shape(), leaf(false));
    assert_eq!(index_of(&[b"f"]).shape(), branch(false, vec![(b'f', leaf(true))]));
    assert_eq!(index_of(&[b"fo"]).shape(), run(false, b"fo", leaf(true)));
    assert_eq!(index_of(&[b"foo", b"foobar"]).shape(), run(false, b"foo", run(true, b"bar", leaf(true))));
    let after_foo =
        branch(false, vec![(b'b', run(false, b"ar", leaf(true))), (b't', run(false, b"er", leaf(true)))]);
    assert_eq!(index_of(&[b"footer", b"foobar"]).shape(), run(false, b"foo", after_foo));
    let after_a = branch(true, vec![(b'b', leaf(true)), (b'c', leaf(true))]);
    assert_eq!(index_of(&[b"a", b"ac", b"ab"]).shape(), branch(false, vec![(b'a', after_a)]));
}

#[test]
fn path_lengths() {
    let path = |keys: &[&[u8]], key: &[u8]| index_of(keys).shape().path_length(key);
    assert_eq!(path(&[], b"foo"), 1);
    assert_eq!(path(&[b"foo"], b"foo"), 2);
    assert_eq!(path(&[b"foo"], b"fox"), 1);
    assert_eq!(path(&[b"foo"], b"foobar"), 2);
    assert_eq!(path(&[b"foobar", b"footer"], b"foobar"), 4);
    assert_eq!(path(&[b"foobar", b"footer"], b"foox"), 2);
    assert_eq!(path(&[b"foobar", b"footer"], b"foob"), 3);
    let prefixes: Vec<Vec<u8>> = (1..=16).map(|length| vec![b'a'; length]).collect();
    let prefixes: Vec<&[u8]> = prefixes.iter().map(Vec::as_slice).collect();
    assert_eq!(path(&prefixes, &[b'a'; 16]), 17);
}

#[test]
fn operations() {
    let mut index = index_of(&[b"b", b"ba", b"d"]);
    assert_eq!(index.find(b"ba"), Ok(Some(1)));
    assert_eq!(index.find(b"c"), Ok(None));
    assert_eq!(index.put(b"ba", 9), Ok(()));
    assert_eq!(index.find(b"ba"), Ok(Some(9)));
    assert_eq!(index.first_at_or_above(b"b"), Ok(Some((b"b".to_vec(), 0))));
    assert_eq!(index.first_at_or_above(b"b\0"), Ok(Some((b"ba".to_vec(), 9))));
    assert_eq!(index.first_at_or_above(b"e"), Ok(None));
    assert_eq!(index.last_at_or_below(b"a"), Ok(None));
    assert_eq!(index.last_at_or_below(b"c"), Ok(Some((b"ba".to_vec(), 9))));
    assert_eq!(index.last_at_or_below(b"d"), Ok(Some((b"d".to_vec(), 2))));
    assert_eq!(index.remove(b"b"), Ok(1));
    assert_eq!(index.remove(b"b"), Ok(0));
    assert!(index.entries().eq([(&b"ba"[..], 9), (&b"d"[..], 2)]));
    assert_eq!((index.len(), index.is_empty()), (2, false));
}

#[test]
fn refusals() {
    let mut index = Index::new();
    for key in [&[][..], &[0; 17]] {
        assert_eq!(index.put(key, 0), Err(3));
        assert_eq!(index.remove(key), Err(3));
        assert_eq!(index.find(key), Err(3));
        assert_eq!(index.first_at_or_above(key), Err(3));
        assert_eq!(index.last_at_or_below(key), Err(3));
    }
    for key in 0..64 {
        assert_eq!(index.put(&[key], 0), Ok(()));
    }
    assert_eq!(index.put(&[64], 0), Err(18));
    assert_eq!(index.put(&[], 0), Err(3));
    assert_eq!(index.put(&[63], 5), Ok(()));
    assert_eq!(index.len(), 64);
}

/// Random keys over few bytes share prefixes often.
fn random_index(rng: &mut Rng) -> Index {
    let (keys, letters) = (1 + rng.size_below(64), 1 + rng.size_below(3));
    let mut index = Index::new();
    for value in 0..keys {
        let length = 1 + rng.size_below(16);
        let key: Vec<u8> = (0..length).map(|_| b"abc"[rng.size_below(letters)]).collect();
        index.put(&key, value as u32).unwrap();
    }
    index
}

/// The keys of a shape, in order.
fn keys_of(shape: &Shape, path: &[u8]) -> Vec<Vec<u8>> {
    let own = shape.is_key.then(|| path.to_vec());
    let below = match &shape.children {
        Children::Leaf => vec![],
        Children::Run(run, child) => keys_of(child, &[path, run].concat()),
        Children::Branch(children) => {
            let keys = |(byte, child): &(u8, Shape)| keys_of(child, &[path, &[*byte]].concat());
            children.iter().flat_map(keys).collect()
        }
    };
    own.into_iter().chain(below).collect()
}

#[test]
fn a_shape_has_its_keys_and_at_most_4k_minus_2_nodes() {
    let mut rng = Rng::new(5);
    for _ in 0..500 {
        let index = random_index(&mut rng);
        let shape = index.shape();
        assert!(keys_of(&shape, &[]).iter().map(Vec::as_slice).eq(index.entries().map(|e| e.0)));
        assert!(shape.node_count() <= 4 * index.len() - 2);
        assert!(index.entries().all(|(key, _)| (2..=17).contains(&shape.path_length(key))));
    }
}

#[test]
fn sixteen_keys_can_have_62_nodes() {
    // Each split in two, with a run before each branch, costs four nodes for one key more.
    let mut keys = vec![b"xx".to_vec()];
    for _ in 0..4 {
        let split = |key: &Vec<u8>| [b"ayy", b"byy"].map(|end| [&key[..], &end[..]].concat());
        keys = keys.iter().flat_map(split).collect();
    }
    let keys: Vec<&[u8]> = keys.iter().map(Vec::as_slice).collect();
    assert_eq!((keys.len(), node_count(&keys)), (16, 4 * 16 - 2));
}
