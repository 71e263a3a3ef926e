//! Slow readers of capabilities strings, as near to the words of document 01 and
//! of document 02's K2 as can be.
//!
//! They allocate and repeat work freely: they are there to check the fast ones.

use crate::{answer, TEXT_LIMIT};

/// One node: "one node a word, in text order".
#[derive(Clone, Copy, Debug, PartialEq, Eq)]
pub struct Node {
    /// Where the word starts.
    pub start: usize,
    /// The word's length.
    pub length: usize,
    /// The node of the word that has the group around this one; none at the top.
    pub parent: Option<usize>,
    /// Whether the word has a group.
    pub group: bool,
}

/// "Bytes 21 to 7E other than the two brackets."
fn is_word_byte(byte: u8) -> bool {
    (0x21..=0x7E).contains(&byte) && byte != b'(' && byte != b')'
}

/// A group is "(", a list, ")". Gives the place after it, or the place where it cannot go on.
fn group(text: &[u8], at: usize, parent: Option<usize>, nodes: &mut Vec<Node>) -> Result<usize, usize> {
    if text.get(at) != Some(&b'(') {
        return Err(at);
    }
    let at = list(text, at + 1, parent, nodes)?;
    if text.get(at) != Some(&b')') {
        return Err(at);
    }
    Ok(at + 1)
}

/// A list is words and spaces; each word may be followed, after any spaces, by one group.
fn list(text: &[u8], mut at: usize, parent: Option<usize>, nodes: &mut Vec<Node>) -> Result<usize, usize> {
    loop {
        match text.get(at) {
            Some(b' ') => at += 1,
            Some(&byte) if is_word_byte(byte) => {
                let start = at;
                while text.get(at).copied().is_some_and(is_word_byte) {
                    at += 1;
                }
                let node = nodes.len();
                nodes.push(Node { start, length: at - start, parent, group: false });
                let mut after_spaces = at;
                while text.get(after_spaces) == Some(&b' ') {
                    after_spaces += 1;
                }
                if text.get(after_spaces) == Some(&b'(') {
                    nodes[node].group = true;
                    at = group(text, after_spaces, Some(node), nodes)?;
                }
            }
            _ => return Ok(at),
        }
    }
}

/// The one tree of a text by the grammar alone, "with depth, length and room
/// unlimited"; else the place where the descent stopped.
pub fn parse(text: &[u8]) -> Result<Vec<Node>, usize> {
    let mut nodes = Vec::new();
    let mut end = group(text, 0, None, &mut nodes)?;
    // "After the outer group any number of 00 bytes may follow, and nothing else. They make no node."
    while text.get(end) == Some(&0x00) {
        end += 1;
    }
    if end == text.len() {
        Ok(nodes)
    } else {
        Err(end)
    }
}

/// Whether a prefix of at least one byte has a continuation, the empty one
/// included, that the grammar accepts.
///
/// Searched among all continuations by the bytes `( ) a`, space and 00, up to a
/// length that closes as many groups as the prefix can have open (each needs a
/// bracket, and all but the first a word before it). 00 bytes need no greater
/// length: what is accepted with some at its end is accepted with fewer.
/// Other word bytes count as `a` in every rule, and the remaining bytes stand in
/// no rule.
pub fn is_viable(prefix: &[u8]) -> bool {
    let mut text = prefix.to_vec();
    search(&mut text, prefix.len() / 2 + 1)
}

fn search(text: &mut Vec<u8>, more: usize) -> bool {
    if parse(text).is_ok() {
        return true;
    }
    if more == 0 {
        return false;
    }
    for byte in [b')', b'(', b'a', b' ', 0x00] {
        text.push(byte);
        let found = search(text, more - 1);
        text.pop();
        if found {
            return true;
        }
    }
    false
}

/// The place of 13 by its definition: "where no continuation could be accepted
/// (the end if cut short)". Takes time exponential in the length.
pub fn grammar_place(text: &[u8]) -> Option<usize> {
    for end in 1..=text.len() {
        if !is_viable(&text[..end]) {
            return Some(end - 1);
        }
    }
    match parse(text) {
        Ok(_) => None,
        Err(_) => Some(text.len()),
    }
}

/// The place of 15: the first "(" with as many groups open as are allowed.
fn depth_place(text: &[u8], depth: usize) -> Option<usize> {
    let count = |part: &[u8], byte| part.iter().filter(|&&b| b == byte).count();
    (0..text.len()).find(|&at| {
        let before = &text[..at];
        text[at] == b'(' && count(before, b'(') >= depth + count(before, b')')
    })
}

/// The place of 14: the first byte of the first word past the room.
fn room_place(text: &[u8], room: usize) -> Option<usize> {
    (0..text.len()).filter(|&at| is_word_byte(text[at]) && (at == 0 || !is_word_byte(text[at - 1]))).nth(room)
}

/// The whole judgement, given the place of 13: "the first place wins", and at
/// one place 13 goes before 15 and 14.
pub fn judge_with(text: &[u8], grammar: Option<usize>, room: usize, depth: usize) -> Result<Vec<Node>, (u8, usize)> {
    // "The 4,096 limit counts them", the zeros.
    if text.len() > TEXT_LIMIT {
        return Err((answer::TOO_LONG, 0));
    }
    let places = [
        (grammar, answer::GRAMMAR),
        (depth_place(text, depth), answer::DEPTH),
        (room_place(text, room), answer::NODE_ROOM),
    ];
    let first =
        places.iter().filter_map(|&(place, number)| place.map(|place| (place, number))).min_by_key(|&(place, _)| place);
    match first {
        Some((place, number)) => Err((number, place)),
        None => parse(text).map_err(|place| (answer::GRAMMAR, place)),
    }
}

/// Reads a small text with 13 by its definition.
pub fn read_small(text: &[u8], room: usize, depth: usize) -> Result<Vec<Node>, (u8, usize)> {
    judge_with(text, grammar_place(text), room, depth)
}

/// Reads a text of any length with 13 by the recursive descent.
pub fn read(text: &[u8], room: usize, depth: usize) -> Result<Vec<Node>, (u8, usize)> {
    judge_with(text, parse(text).err(), room, depth)
}
