//! The reader of capabilities strings ("capability text").
//!
//! "A text is one group and nothing else. A group is "(", a list, ")". A list
//! is words and spaces; each word may be followed, after any spaces, by one
//! group. A word is a longest run of bytes 21 to 7E other than the two
//! brackets; a space is 20."
//!
//! Document 02's K2 mends the first sentence: "after the outer group any number
//! of 00 bytes may follow, and nothing else. They make no node."

use crate::{answer, TEXT_LIMIT};

/// "Groups nest at most 8 deep, the outer being 1."
pub const DEPTH_LIMIT: usize = 8;

/// "Node room is the shortest of the four lent buffers, at most 512."
pub const NODE_LIMIT: usize = 512;

/// The parent of a word of the outer group: "65,535 at the top".
pub const TOP: u16 = 65_535;

/// "Bytes 21 to 7E other than the two brackets."
const WORD_BYTES: [bool; 256] = {
    let mut bytes = [false; 256];
    let mut byte = 0x21;
    while byte <= 0x7E {
        bytes[byte] = true;
        byte += 1;
    }
    bytes[b'(' as usize] = false;
    bytes[b')' as usize] = false;
    bytes
};

#[inline]
fn is_word_byte(byte: u8) -> bool {
    WORD_BYTES[usize::from(byte)]
}

/// Where the nodes go that a scan finds.
trait Nodes {
    /// The next node: "start, length, parent's node".
    fn word(&mut self, node: usize, start: usize, length: usize, parent: u16);
    /// The node has a group.
    fn group(&mut self, node: usize);
}

/// Only judged, nothing kept.
struct Judged;

impl Nodes for Judged {
    #[inline]
    fn word(&mut self, _: usize, _: usize, _: usize, _: u16) {}
    #[inline]
    fn group(&mut self, _: usize) {}
}

/// The four lent buffers, each cut to the node room.
struct Lent<'a> {
    starts: &'a mut [u16],
    lengths: &'a mut [u16],
    parents: &'a mut [u16],
    groups: &'a mut [u8],
}

impl Nodes for Lent<'_> {
    #[inline]
    fn word(&mut self, node: usize, start: usize, length: usize, parent: u16) {
        self.starts[node] = start as u16;
        self.lengths[node] = length as u16;
        self.parents[node] = parent;
        self.groups[node] = 0;
    }
    #[inline]
    fn group(&mut self, node: usize) {
        self.groups[node] = 1;
    }
}

/// "After the outer group any number of 00 bytes may follow, and nothing else"; "a byte other than 00 after the first of
/// them is 13 at its place". Not in the pass itself, so that a string without zeros loses no time by it.
#[inline(never)]
fn only_zeros(text: &[u8], at: usize) -> Result<(), (u8, usize)> {
    match text[at..].iter().position(|&byte| byte != 0) {
        None => Ok(()),
        Some(zeros) => Err((answer::GRAMMAR, at + zeros)),
    }
}

/// One pass over the text. A byte is judged before anything after it, so the
/// first place wins; at one place the grammar is judged first.
#[inline(always)]
fn scan<const DEPTH: usize>(text: &[u8], room: usize, nodes: &mut impl Nodes) -> Result<usize, (u8, usize)> {
    // "The 4,096 limit counts them", the zeros.
    if text.len() > TEXT_LIMIT {
        return Err((answer::TOO_LONG, 0));
    }
    if text.first() != Some(&b'(') {
        return Err((answer::GRAMMAR, 0));
    }
    if DEPTH == 0 {
        return Err((answer::DEPTH, 0));
    }
    // The parent of the words of each open group, the innermost last.
    let mut parents = [TOP; DEPTH];
    let mut depth = 1;
    let mut count = 0;
    // A word without a group stands before, with only spaces between.
    let mut after_word = false;
    let mut at = 1;
    while let Some(&byte) = text.get(at) {
        if is_word_byte(byte) {
            if count >= room {
                return Err((answer::NODE_ROOM, at));
            }
            let start = at;
            at += 1;
            while at < text.len() && is_word_byte(text[at]) {
                at += 1;
            }
            nodes.word(count, start, at - start, parents[depth - 1]);
            count += 1;
            after_word = true;
        } else if byte == b' ' {
            at += 1;
        } else if byte == b'(' {
            if !after_word {
                return Err((answer::GRAMMAR, at));
            }
            if depth == DEPTH {
                return Err((answer::DEPTH, at));
            }
            nodes.group(count - 1);
            parents[depth] = (count - 1) as u16;
            depth += 1;
            after_word = false;
            at += 1;
        } else if byte == b')' {
            at += 1;
            depth -= 1;
            after_word = false;
            if depth == 0 {
                return if at == text.len() { Ok(count) } else { only_zeros(text, at).map(|()| count) };
            }
        } else {
            // "A 00 anywhere else is 13 at its place", as is every byte that stands in no rule.
            return Err((answer::GRAMMAR, at));
        }
    }
    // "The end if cut short."
    Err((answer::GRAMMAR, text.len()))
}

fn room_of(starts: &[u16], lengths: &[u16], parents: &[u16], groups: &[u8]) -> usize {
    starts.len().min(lengths.len()).min(parents.len()).min(groups.len()).min(NODE_LIMIT)
}

#[inline]
fn fill<const DEPTH: usize>(
    text: &[u8],
    starts: &mut [u16],
    lengths: &mut [u16],
    parents: &mut [u16],
    groups: &mut [u8],
) -> Result<usize, (u8, usize)> {
    let room = room_of(starts, lengths, parents, groups);
    let mut lent = Lent {
        starts: &mut starts[..room],
        lengths: &mut lengths[..room],
        parents: &mut parents[..room],
        groups: &mut groups[..room],
    };
    scan::<DEPTH>(text, room, &mut lent)
}

/// The reader with any depth limit; document 01's is 8. "Node buffers unchanged" on a refusal.
pub fn read_to_depth<const DEPTH: usize>(
    text: &[u8],
    starts: &mut [u16],
    lengths: &mut [u16],
    parents: &mut [u16],
    groups: &mut [u8],
) -> Result<usize, (u8, usize)> {
    let room = room_of(starts, lengths, parents, groups);
    // One pass into a scratch on the stack, copied once all is accepted.
    let mut words = [[0; NODE_LIMIT]; 3];
    let mut flags = [0; NODE_LIMIT];
    let [new_starts, new_lengths, new_parents] = &mut words;
    let mut scratch = Lent {
        starts: &mut new_starts[..room],
        lengths: &mut new_lengths[..room],
        parents: &mut new_parents[..room],
        groups: &mut flags[..room],
    };
    let count = scan::<DEPTH>(text, room, &mut scratch)?;
    starts[..count].copy_from_slice(&new_starts[..count]);
    lengths[..count].copy_from_slice(&new_lengths[..count]);
    parents[..count].copy_from_slice(&new_parents[..count]);
    groups[..count].copy_from_slice(&flags[..count]);
    Ok(count)
}

/// Reads a capabilities string: the number of nodes, or the refusal with its
/// place. The buffers are written on acceptance only, one entry a node;
/// "entries past the nodes stay".
pub fn read(
    text: &[u8],
    starts: &mut [u16],
    lengths: &mut [u16],
    parents: &mut [u16],
    groups: &mut [u8],
) -> Result<usize, (u8, usize)> {
    read_to_depth::<DEPTH_LIMIT>(text, starts, lengths, parents, groups)
}

/// The same answers in one pass; on a refusal the buffers may hold the nodes
/// found before its place. This is the baseline of speed.
pub fn read_one_pass(
    text: &[u8],
    starts: &mut [u16],
    lengths: &mut [u16],
    parents: &mut [u16],
    groups: &mut [u8],
) -> Result<usize, (u8, usize)> {
    fill::<DEPTH_LIMIT>(text, starts, lengths, parents, groups)
}

/// Judges a capabilities string for a node room, and keeps nothing.
pub fn judge(text: &[u8], room: usize) -> Result<usize, (u8, usize)> {
    scan::<DEPTH_LIMIT>(text, room.min(NODE_LIMIT), &mut Judged)
}
