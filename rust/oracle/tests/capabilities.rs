//! The fast readers against the definition.

use oracle::capabilities::{self, NODE_LIMIT, TOP};
use oracle::capabilities_by_definition::{self as definition, Node};
use oracle::line::Random;

const MARK: u16 = 0x5A5A;

/// Buffers of a room each, and one entry more in three of them.
struct Buffers {
    starts: Vec<u16>,
    lengths: Vec<u16>,
    parents: Vec<u16>,
    groups: Vec<u8>,
}

impl Buffers {
    fn new(room: usize, shortest: usize) -> Self {
        let len = |index: usize| room + usize::from(index != shortest);
        Self {
            starts: vec![MARK; len(0)],
            lengths: vec![MARK; len(1)],
            parents: vec![MARK; len(2)],
            groups: vec![0x5A; len(3)],
        }
    }

    /// The entries hold these nodes, and the rest is as it was.
    fn assert_nodes(&self, nodes: &[Node]) {
        for (at, node) in nodes.iter().enumerate() {
            assert_eq!(usize::from(self.starts[at]), node.start);
            assert_eq!(usize::from(self.lengths[at]), node.length);
            let parent = node.parent.map_or(TOP, |parent| parent as u16);
            assert_eq!(self.parents[at], parent);
            assert_eq!(self.groups[at], u8::from(node.group));
        }
        let rest = |entries: &[u16]| entries[nodes.len()..].iter().all(|&entry| entry == MARK);
        assert!(rest(&self.starts) && rest(&self.lengths) && rest(&self.parents));
        assert!(self.groups[nodes.len()..].iter().all(|&entry| entry == 0x5A));
    }
}

fn compare<const DEPTH: usize>(text: &[u8], room: usize, shortest: usize, expected: &Result<Vec<Node>, (u8, usize)>) {
    let mut lent = Buffers::new(room, shortest);
    let found = capabilities::read_to_depth::<DEPTH>(
        text,
        &mut lent.starts,
        &mut lent.lengths,
        &mut lent.parents,
        &mut lent.groups,
    );
    match expected {
        Ok(nodes) => {
            assert_eq!(found, Ok(nodes.len()), "{text:?} room {room}");
            lent.assert_nodes(nodes);
        }
        Err(refusal) => {
            assert_eq!(found, Err(*refusal), "{text:?} room {room}");
            lent.assert_nodes(&[]);
        }
    }
    if DEPTH == 8 {
        let mut lent = Buffers::new(room, shortest);
        let one_pass =
            capabilities::read_one_pass(text, &mut lent.starts, &mut lent.lengths, &mut lent.parents, &mut lent.groups);
        assert_eq!(one_pass, found);
        if let Ok(nodes) = expected {
            lent.assert_nodes(nodes);
        }
        assert_eq!(capabilities::judge(text, room), found);
    }
}

/// How many texts were met and, of those accepted, how many of each length have no 00 and how many have some.
#[derive(Default)]
struct Met {
    all: usize,
    without_zeros: [usize; 8],
    with_zeros: [usize; 8],
}

/// All texts over the alphabet to length 7, by growing the viable prefixes; a
/// text's place of 13 is that of its first prefix that is not viable.
fn exhaust(text: &mut Vec<u8>, longest: usize, place: Option<usize>, met: &mut Met) {
    met.all += 1;
    let parsed = definition::parse(text);
    let grammar = place.or_else(|| parsed.is_err().then_some(text.len()));
    // The recursive descent stops at the place that the definition names.
    assert_eq!(parsed.as_ref().err(), grammar.as_ref(), "{text:?}");
    if parsed.is_ok() {
        let of_lengths = if text.contains(&0x00) { &mut met.with_zeros } else { &mut met.without_zeros };
        of_lengths[text.len()] += 1;
    }
    for room in 0..=4 {
        let shortest = (met.all + room) % 4;
        let expected = |depth| definition::judge_with(text, grammar, room, depth);
        compare::<8>(text, room, shortest, &expected(8));
        compare::<1>(text, room, shortest, &expected(1));
        compare::<2>(text, room, shortest, &expected(2));
        compare::<3>(text, room, shortest, &expected(3));
    }
    if text.len() == longest {
        return;
    }
    for byte in [b'(', b')', b'a', b' ', 0x7F, 0x00] {
        text.push(byte);
        let place = place.or_else(|| (!definition::is_viable(text)).then(|| text.len() - 1));
        exhaust(text, longest, place, met);
        text.pop();
    }
}

#[test]
fn every_small_text() {
    let mut met = Met::default();
    exhaust(&mut Vec::new(), 7, None, &mut met);
    assert_eq!(met.all, (0..=7).map(|length| 6_usize.pow(length)).sum());
    // Of n bytes between the brackets there are 2 to the n lists of letters and spaces, and from 3 bytes on 1, 7 and 31
    // lists with one group. Two groups need 6 bytes.
    assert_eq!(met.without_zeros, [0, 0, 1, 2, 4, 8 + 1, 16 + 7, 32 + 31]);
    // Each shorter text, filled up with zeros.
    assert_eq!(met.with_zeros, [0, 0, 0, 1, 1 + 2, 1 + 2 + 4, 1 + 2 + 4 + 9, 1 + 2 + 4 + 9 + 23]);
}

#[test]
fn the_plain_definition_on_its_own() {
    let texts: &[&[u8]] = &[
        b"",
        b"()",
        b"(a",
        b"(a) ",
        b"((05))",
        b"(a(b)(c))",
        b"(a(b)c)",
        b")",
        b"(a b(c d))",
        b"\0",
        b"(a(b))\0\0",
        b"()\0a",
        b"(a b\0)",
        b"(a) \0",
        b"(a(b\0",
    ];
    for text in texts {
        for room in 0..4 {
            for depth in 1..4 {
                assert_eq!(definition::read_small(text, room, depth), definition::read(text, room, depth));
            }
        }
    }
}

/// A text that is mostly right: words, spaces and groups at random, then perhaps a change, zeros behind and a byte among
/// or behind those.
fn random_text(random: &mut Random) -> Vec<u8> {
    let longest = match random.below(20) {
        0 => 4600,
        1..=4 => 700,
        _ => 60,
    };
    let longest = random.below(longest);
    let deep = random.between(1, 11);
    let mut text = b"(".to_vec();
    let mut depth = 1;
    let mut after_word = false;
    while text.len() < longest && depth > 0 {
        match random.below(8) {
            0..=2 => {
                let length = random.between(1, 4);
                for _ in 0..length {
                    let byte = 0x21 + random.below(0x5E) as u8;
                    text.push(if byte == b'(' || byte == b')' { b'w' } else { byte });
                }
                after_word = true;
            }
            3..=4 => text.push(b' '),
            5..=6 if after_word && depth < deep => {
                text.push(b'(');
                depth += 1;
                after_word = false;
            }
            7 if depth > 1 => {
                text.push(b')');
                depth -= 1;
                after_word = false;
            }
            _ => {}
        }
    }
    text.extend(vec![b')'; depth]);
    if random.percent(40) {
        let at = random.below(text.len());
        let byte = [b'(', b')', b' ', b'x', 0x00, 0x1F, 0x20, 0x7E, 0x7F, 0x80, 0xFF][random.below(11)];
        match random.below(3) {
            0 => text[at] = byte,
            1 => text.insert(at, byte),
            _ => text.truncate(at),
        }
    }
    if random.percent(40) {
        let before = text.len();
        text.resize(before + random.between(1, 40), 0x00);
        if random.percent(40) {
            let at = random.between(before, text.len());
            text.insert(at, [b'(', b')', b' ', b'x', 0x01, 0x7F, 0xFF][random.below(7)]);
        }
    }
    text
}

#[test]
fn random_long_and_deep_texts() {
    let mut random = Random::new(1);
    let mut answers = [0; 19];
    let (mut zeros_behind, mut other_byte_behind_zeros, mut zero_elsewhere) = (0, 0, 0);
    for _ in 0..30_000 {
        let text = random_text(&mut random);
        let room = match random.below(3) {
            0 => random.below(10),
            1 => random.below(100),
            _ => random.between(505, 520),
        };
        let expected = if text.len() > 1000 && random.percent(50) {
            // The brute places take quadratic time: less often on long texts.
            continue;
        } else {
            definition::read(&text, room.min(NODE_LIMIT), 8)
        };
        answers[usize::from(expected.as_ref().err().map_or(0, |refusal| refusal.0))] += 1;
        match expected {
            Ok(_) if text.ends_with(b"\0") => zeros_behind += 1,
            Err((13, place)) if text.get(place) == Some(&0x00) => zero_elsewhere += 1,
            Err((13, place)) if text[..place].ends_with(b"\0") => other_byte_behind_zeros += 1,
            _ => {}
        }
        compare::<8>(&text, room, random.below(4), &expected);
    }
    for number in [0, 11, 13, 14, 15] {
        assert!(answers[number] > 20, "answer {number}: {answers:?}");
    }
    for met in [zeros_behind, other_byte_behind_zeros, zero_elsewhere] {
        assert!(met > 20, "{zeros_behind} {other_byte_behind_zeros} {zero_elsewhere}");
    }
}

#[test]
fn every_byte_in_a_list() {
    for byte in 0..=255_u8 {
        let text = [b'(', byte, b')'];
        let expected = definition::read_small(&text, 3, 8);
        compare::<8>(&text, 3, 0, &expected);
        let is_word = (0x21..=0x7E).contains(&byte) && byte != b'(' && byte != b')';
        assert_eq!(expected.is_ok(), is_word || byte == b' ');
    }
}

/// These bytes with this many 00 bytes behind.
fn with_zeros(text: &[u8], zeros: usize) -> Vec<u8> {
    let mut text = text.to_vec();
    text.resize(text.len() + zeros, 0x00);
    text
}

/// All readers give what is written here, the definition's too.
fn assert_read(text: &[u8], room: usize, expected: Result<&[Node], (u8, usize)>) {
    let expected = expected.map(<[Node]>::to_vec);
    assert_eq!(definition::read(text, room, 8), expected, "{text:?} room {room}");
    if text.len() <= 10 {
        assert_eq!(definition::read_small(text, room, 8), expected, "{text:?} room {room}");
    }
    compare::<8>(text, room, 0, &expected);
}

#[test]
fn every_byte_behind_the_outer_group() {
    for byte in 0..=255_u8 {
        let is_zero = byte == 0x00;
        assert_read(&[b'(', b')', byte], 3, if is_zero { Ok(&[]) } else { Err((13, 2)) });
        assert_read(&[b'(', b')', 0x00, byte], 3, if is_zero { Ok(&[]) } else { Err((13, 3)) });
    }
}

/// "After the outer group any number of 00 bytes may follow, and nothing else. They make no node."
#[test]
fn zeros_behind_the_outer_group() {
    let a = Node { start: 1, length: 1, parent: None, group: false };
    let a_of_b = Node { group: true, ..a };
    let b = Node { start: 3, length: 1, parent: Some(0), group: false };
    for zeros in [1, 2, 40] {
        assert_read(&with_zeros(b"()", zeros), 0, Ok(&[]));
        assert_read(&with_zeros(b"()", zeros), 4, Ok(&[]));
        assert_read(&with_zeros(b"(a(b))", zeros), 2, Ok(&[a_of_b, b]));
        assert_read(&with_zeros(b"(a(b))", zeros), 4, Ok(&[a_of_b, b]));
    }
    assert_read(b"(a)\0\0", 1, Ok(&[a]));
    assert_read(b"(a)\0\0", 0, Err((14, 1)));
    assert_read(b"(a(b))\0\0", 1, Err((14, 3)));
}

/// "A 00 anywhere else is 13 at its place, and a byte other than 00 after the first of them is 13 at its place; an
/// earlier refused place still wins."
#[test]
fn zeros_elsewhere_and_other_bytes_behind_zeros() {
    let refused: &[(&[u8], usize)] = &[
        // Before the group.
        (b"\0", 0),
        (b"\0()", 0),
        // In it: alone, inside a word, between words, behind "(", before ")", around and inside a group.
        (b"(\0)", 1),
        (b"(a\0b)", 2),
        (b"(a \0 b)", 3),
        (b"(\0a)", 1),
        (b"(a\0)", 2),
        (b"(a\0(b))", 2),
        (b"(a(\0b))", 3),
        (b"(a(b\0))", 4),
        (b"(a(b)\0)", 5),
        // In place of the last bracket.
        (b"(\0", 1),
        (b"(a\0", 2),
        (b"(a(b)\0\0", 5),
        // Behind a space behind the group.
        (b"() \0", 2),
        (b"(a) \0", 3),
        // Other bytes behind zeros.
        (b"()\0a", 3),
        (b"()\0\0a", 4),
        (b"()\0)", 3),
        (b"()\0(", 3),
        (b"()\0()", 3),
        (b"()\0 ", 3),
        (b"()\0\x01", 3),
        (b"()\0a\0", 3),
        (b"(a)\0\0b\0)", 5),
        // Places before the zeros.
        (b"((\0", 1),
        (b"(a(b)(c))\0", 5),
        (b"())\0", 2),
        (b"()a\0", 2),
    ];
    for &(text, place) in refused {
        assert_read(text, 4, Err((13, place)));
    }
    // At one place 13 goes before 14, but a word with no node left may stand before the 00.
    assert_read(b"()\0a", 0, Err((13, 3)));
    assert_read(b"(a\0b)", 0, Err((14, 1)));
}

/// "The 4,096 limit counts them."
#[test]
fn zeros_and_the_limits() {
    assert_read(&with_zeros(b"()", 4094), 0, Ok(&[]));
    assert_read(&with_zeros(b"()", 4095), 0, Err((11, 0)));
    for zeros in [1, 2, 40] {
        let mut text = vec![b' '; 4096 - zeros];
        text[0] = b'(';
        text[4095 - zeros] = b')';
        assert_read(&with_zeros(&text, zeros), 0, Ok(&[]));
        assert_read(&with_zeros(&text, zeros + 1), 0, Err((11, 0)));
    }
    let mut text = with_zeros(b"()", 4094);
    text[4095] = b'a';
    assert_read(&text, 0, Err((13, 4095)));
    text.push(b'a');
    assert_read(&text, 0, Err((11, 0)));
    let deep = |depth| [b"(a".repeat(depth), b")".repeat(depth), vec![0x00; 3]].concat();
    let chain: Vec<Node> = (0..8)
        .map(|node| Node { start: 2 * node + 1, length: 1, parent: node.checked_sub(1), group: node < 7 })
        .collect();
    assert_read(&deep(8), 8, Ok(&chain));
    assert_read(&deep(9), 9, Err((15, 16)));
    let words = |count: usize| [&b"("[..], &b"a ".repeat(count), b")\0\0"].concat();
    let row: Vec<Node> =
        (0..512).map(|node| Node { start: 2 * node + 1, length: 1, parent: None, group: false }).collect();
    assert_read(&words(512), 512, Ok(&row));
    assert_read(&words(513), 512, Err((14, 1025)));
}

/// Zeros behind a text change nothing up to the limit: behind an accepted one they may stand, behind one that is refused
/// before its end they come too late, and of one cut short the first of them stands at its end.
#[test]
fn zeros_behind_any_text() {
    let mut random = Random::new(2);
    let (mut accepted, mut refused_before, mut cut_short, mut made_too_long) = (0, 0, 0, 0);
    for _ in 0..20_000 {
        let text = random_text(&mut random);
        let zeros =
            if random.percent(90) { random.below(50) } else { (4090 + random.below(12)).saturating_sub(text.len()) };
        let room = if random.percent(30) { random.below(10) } else { NODE_LIMIT };
        let longer = with_zeros(&text, zeros);
        let expected = if longer.len() > 4096 { Err((11, 0)) } else { definition::read(&text, room, 8) };
        match expected {
            Ok(_) => accepted += 1,
            Err((11, _)) => made_too_long += usize::from(text.len() <= 4096),
            Err((_, place)) if place == text.len() => cut_short += 1,
            Err(_) => refused_before += 1,
        }
        assert_eq!(definition::read(&longer, room, 8), expected);
        compare::<8>(&longer, room, random.below(4), &expected);
        if longer.len() <= 4096 {
            compare::<8>(&text, room, random.below(4), &expected);
        }
    }
    for met in [accepted, refused_before, cut_short, made_too_long] {
        assert!(met > 20, "{accepted} {refused_before} {cut_short} {made_too_long}");
    }
}
