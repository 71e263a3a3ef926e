//! The proved capabilities reader against the oracle's: the same answer, place and nodes, and every entry of every
//! buffer.
mod common;
use common::rounds;
use ddcci::{Capabilities, Node, Nodes, Refusal, RefusedAt};
use oracle::capabilities as slow;
use oracle::line::Random;

const ENTRIES: usize = 520;

struct Lent {
    starts: Vec<u16>,
    lengths: Vec<u16>,
    parents: Vec<u16>,
    groups: Vec<u8>,
}

impl Lent {
    fn new(rooms: [usize; 4]) -> Lent {
        Lent {
            starts: vec![0xAAAA; rooms[0]],
            lengths: vec![0xBBBB; rooms[1]],
            parents: vec![0xCCCC; rooms[2]],
            groups: vec![0xDD; rooms[3]],
        }
    }
}

fn read_alike(text: &[u8], rooms: [usize; 4]) {
    let (mut a, mut b) = (Lent::new(rooms), Lent::new(rooms));
    let ours = ddcci::read_capabilities_into(text, &mut a.starts, &mut a.lengths, &mut a.parents, &mut a.groups)
        .map_err(|r| (r.refusal.number(), r.position));
    let theirs = slow::read(text, &mut b.starts, &mut b.lengths, &mut b.parents, &mut b.groups);
    let shown = text.escape_ascii();
    assert_eq!(ours, theirs, "{shown}");
    assert!(
        a.starts == b.starts && a.lengths == b.lengths && a.parents == b.parents && a.groups == b.groups,
        "the buffers of {shown}"
    );
}

/// Every text over a small alphabet, to length 8.
#[test]
fn every_short_text() {
    const ALPHABET: [u8; 5] = *b"(a) \0";
    for length in 0..=8usize {
        let mut digits = [0usize; 8];
        loop {
            let text: Vec<u8> = digits[..length].iter().map(|d| ALPHABET[*d]).collect();
            read_alike(&text, [3, 4, 3, 5]);
            let Some(i) = digits[..length].iter().rposition(|d| *d < ALPHABET.len() - 1) else { break };
            digits[i] += 1;
            digits[i + 1..length].fill(0);
        }
    }
}

/// Texts of the grammar, long and deep, and what becomes of them when some bytes change.
fn some_text(r: &mut Random, length: usize) -> Vec<u8> {
    let mut text = vec![b'('];
    let mut open = 1;
    let mut group_may_follow = false;
    while text.len() + open < length {
        match r.below(10) {
            0..=4 => {
                text.push(b"abc0189_-"[r.below(9)]);
                group_may_follow = true;
            }
            5 | 6 => text.push(b' '),
            7 if group_may_follow => {
                text.push(b'(');
                open += 1;
                group_may_follow = false;
            }
            8 if open > 1 => {
                text.push(b')');
                open -= 1;
                group_may_follow = false;
            }
            _ => {
                text.push(b' ');
            }
        }
    }
    text.resize(text.len() + open, b')');
    text
}

/// The text with zero bytes behind it.
fn with_zeros(text: &[u8], zeros: usize) -> Vec<u8> {
    let mut text = text.to_vec();
    text.resize(text.len() + zeros, 0);
    text
}

/// Also with zeros behind, and with a byte among those changed.
#[test]
fn random_and_damaged_texts() {
    let mut r = Random::new(11);
    let (mut zeros_behind, mut other_byte_behind_zeros, mut made_too_long) = (0, 0, 0);
    for _ in 0..rounds(12_000) {
        let length = [10, 60, 300, 1200, 4100][r.below(5)];
        let length = 2 + r.below(length);
        let mut text = some_text(&mut r, length);
        for _ in 0..r.below(4) {
            let at = r.below(text.len());
            text[at] = [b'(', b')', b' ', b'a', 0, 0x7E, 0x7F, r.byte()][r.below(8)];
        }
        let before = text.len();
        if r.percent(50) {
            let zeros =
                if r.percent(90) { 1 + r.below(60) } else { 4090_usize.saturating_sub(before) + 1 + r.below(12) };
            text = with_zeros(&text, zeros);
            if r.percent(30) {
                let at = before + r.below(zeros);
                text[at] = [b'(', b')', b' ', b'a', 0x01, 0x7F, r.byte()][r.below(7)];
            }
        }
        let rooms = [0; 4].map(|_| if r.percent(70) { ENTRIES } else { r.below(ENTRIES) });
        read_alike(&text, rooms);
        match slow::judge(&text, ENTRIES) {
            Ok(_) if text.ends_with(b"\0") => zeros_behind += 1,
            Err((13, place)) if text[..place].ends_with(b"\0") => other_byte_behind_zeros += 1,
            Err((11, _)) if before <= 4096 => made_too_long += 1,
            _ => {}
        }
    }
    for met in [zeros_behind, other_byte_behind_zeros, made_too_long] {
        assert!(met > 20, "{zeros_behind} {other_byte_behind_zeros} {made_too_long}");
    }
}

#[test]
fn limits_of_depth_length_and_room() {
    for depth in [7, 8, 9, 10] {
        let mut text = b"(a".repeat(depth);
        text.extend(b")".repeat(depth));
        read_alike(&text, [ENTRIES; 4]);
    }
    for length in [4095, 4096, 4097, 4098] {
        for zeros in [0, 1, 2, 40] {
            let group = length - zeros;
            let mut text = vec![b' '; group];
            text[0] = b'(';
            text[group - 1] = b')';
            read_alike(&with_zeros(&text, zeros), [ENTRIES; 4]);
        }
    }
    for zeros in [4094, 4095] {
        read_alike(&with_zeros(b"()", zeros), [ENTRIES; 4]);
    }
    for words in [511, 512, 513] {
        let text = [b"(".to_vec(), b"a ".repeat(words), b")".to_vec()].concat();
        read_alike(&text, [ENTRIES; 4]);
        read_alike(&text, [words; 4]);
        read_alike(&text, [ENTRIES, words - 1, ENTRIES, ENTRIES]);
    }
}

/// Refusal 13 at this place.
fn wrong_grammar(position: usize) -> Result<usize, RefusedAt> {
    Err(RefusedAt { refusal: Refusal::WrongGrammar, position })
}

/// Document 02's sentences on zero bytes behind the outer group, in literal bytes.
#[test]
fn zeros_behind_the_outer_group() {
    let mut nodes = Nodes::default();
    let mut count = |text: &[u8]| Capabilities::read(text, &mut nodes).map(|read| read.len());
    for zeros in [1, 2, 40] {
        assert_eq!(count(&with_zeros(b"()", zeros)), Ok(0));
        assert_eq!(count(&with_zeros(b"(a(b))", zeros)), Ok(2));
    }
    // A 00 elsewhere.
    assert_eq!(count(b"\0()"), wrong_grammar(0));
    assert_eq!(count(b"(\0a)"), wrong_grammar(1));
    assert_eq!(count(b"(a\0b)"), wrong_grammar(2));
    assert_eq!(count(b"(a\0)"), wrong_grammar(2));
    assert_eq!(count(b"(a\0"), wrong_grammar(2));
    assert_eq!(count(b"(a(b\0))"), wrong_grammar(4));
    assert_eq!(count(b"() \0"), wrong_grammar(2));
    // Another byte behind a 00.
    assert_eq!(count(b"()\0a"), wrong_grammar(3));
    assert_eq!(count(b"()\0\0)"), wrong_grammar(4));
    assert_eq!(count(b"()\0("), wrong_grammar(3));
    assert_eq!(count(b"()\0 "), wrong_grammar(3));
    for byte in 1..=255 {
        assert_eq!(count(&[b'(', b')', byte]), wrong_grammar(2));
        assert_eq!(count(&[b'(', b')', 0, byte]), wrong_grammar(3));
    }
    // An earlier place.
    assert_eq!(count(b"(a(b)(c))\0"), wrong_grammar(5));
    let deep = [b"(a".repeat(9), b")".repeat(9), vec![0; 2]].concat();
    assert_eq!(count(&deep), Err(RefusedAt { refusal: Refusal::TooDeep, position: 16 }));
    // The limit of 4,096.
    assert_eq!(count(&with_zeros(b"()", 4094)), Ok(0));
    assert_eq!(count(&with_zeros(b"()", 4095)), Err(RefusedAt { refusal: Refusal::TextTooLong, position: 0 }));
}

/// Zeros make no node, take no room and are in no word.
#[test]
fn the_nodes_of_a_string_with_zeros_behind() {
    let mut nodes = Nodes::default();
    let read = Capabilities::read(b"(a(b))\0\0", &mut nodes).unwrap();
    let [a, b] = read.nodes().collect::<Vec<_>>()[..] else { panic!("two nodes: {read:?}") };
    assert_eq!(a, Node { index: 0, word: b"a", start: 1, parent: None, has_group: true });
    assert_eq!(b, Node { index: 1, word: b"b", start: 3, parent: Some(0), has_group: false });

    let mut lent = Lent::new([1; 4]);
    let mut read = |text: &[u8]| {
        ddcci::read_capabilities_into(text, &mut lent.starts, &mut lent.lengths, &mut lent.parents, &mut lent.groups)
    };
    assert_eq!(read(b"(a(b))\0"), Err(RefusedAt { refusal: Refusal::NoNodeRoom, position: 3 }));
    assert_eq!(read(b"(a)\0\0"), Ok(1));
    assert_eq!((&lent.starts[..], &lent.lengths[..]), (&[1][..], &[1][..]));
    assert_eq!((&lent.parents[..], &lent.groups[..]), (&[65_535][..], &[0][..]));
    assert_eq!(ddcci::read_capabilities_into(b"()\0", &mut [], &mut [], &mut [], &mut []), Ok(0));
}
