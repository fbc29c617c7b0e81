//! Prints, from the model, the byte examples of document 01 that are not marked with *.

use wallathi_model::id::Id;
use wallathi_model::listpack;
use wallathi_model::node::Node;

/// Upper-case hex bytes with one space between two.
fn hex(bytes: &[u8]) -> String {
    let bytes: Vec<String> = bytes.iter().map(|byte| format!("{byte:02X}")).collect();
    bytes.join(" ")
}

fn element(string: &[u8]) -> Vec<u8> {
    listpack::element(string).expect("a string of at most 4,095 bytes")
}

/// What follows encoding (2 bytes) and content of the element of a text of 64 bytes or more.
fn back_length_of_text(length: usize) -> Vec<u8> {
    element(&vec![b'x'; length]).split_off(2 + length)
}

/// 5-0 with a=1, then 6-0 with b empty.
fn node() -> Node {
    Node::of_one(Id::new(5, 0), vec![(b"a".to_vec(), b"1".to_vec())])
        .after_add(Id::new(6, 0), &[(b"b".to_vec(), vec![])])
        .expect("two short messages fit")
}

fn main() {
    for integer in ["127", "4095", "32768", "8388608"] {
        println!("{integer}: {}", hex(&element(integer.as_bytes())));
    }
    for length in [125, 126] {
        println!("text of {length} bytes, back length: {}", hex(&back_length_of_text(length)));
    }
    let bytes = node().to_bytes();
    println!("node 5-0 a=1, 6-0 b empty: {}", hex(&bytes));
    println!("node bytes: {}", bytes.len());
    println!("node elements: {}", node().elements().len());
}

#[cfg(test)]
mod tests {
    use super::*;

    #[test]
    fn examples_of_document_01() {
        assert_eq!(hex(&element(b"127")), "7F 01");
        assert_eq!(hex(&element(b"4095")), "CF FF 02");
        assert_eq!(hex(&element(b"32768")), "F2 00 80 00 04");
        assert_eq!(hex(&element(b"8388608")), "F3 00 00 80 00 05");
        assert_eq!(hex(&back_length_of_text(125)), "7F");
        assert_eq!(hex(&back_length_of_text(126)), "01 80");
        assert_eq!((node().to_bytes().len(), node().elements().len()), (43, 17));
    }
}
