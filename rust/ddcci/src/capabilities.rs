//! Capabilities strings and their trees.
use core::fmt;

use crate::raw;
use crate::refusal::RefusedAt;

/// The most nodes of a tree.
pub const MOST_NODES: usize = 512;

const NO_PARENT: u16 = 65_535;

/// Four buffers that a capabilities string is read into, one entry a node.
///
/// They can be used again for the next string.
pub struct Nodes {
    starts: [u16; MOST_NODES],
    lengths: [u16; MOST_NODES],
    parents: [u16; MOST_NODES],
    groups: [u8; MOST_NODES],
}

impl Default for Nodes {
    fn default() -> Self {
        Nodes { starts: [0; MOST_NODES], lengths: [0; MOST_NODES], parents: [0; MOST_NODES], groups: [0; MOST_NODES] }
    }
}

impl fmt::Debug for Nodes {
    fn fmt(&self, f: &mut fmt::Formatter<'_>) -> fmt::Result {
        f.debug_struct("Nodes").finish_non_exhaustive()
    }
}

/// A capabilities string with its tree, in text order.
///
/// ```
/// use ddcci::{Capabilities, Nodes};
///
/// let mut nodes = Nodes::default();
/// let capabilities = Capabilities::read(b"(vcp(10 14(05 08)))", &mut nodes)?;
/// let vcp = capabilities.nodes().next().unwrap();
/// let codes: Vec<_> = capabilities.children(Some(&vcp)).map(|node| node.word).collect();
/// assert_eq!((vcp.word, &codes[..]), (&b"vcp"[..], &[&b"10"[..], &b"14"[..]][..]));
/// # Ok::<(), ddcci::RefusedAt>(())
/// ```
#[derive(Clone, Copy)]
pub struct Capabilities<'a> {
    text: &'a [u8],
    nodes: &'a Nodes,
    count: usize,
}

/// A word of a capabilities string.
#[derive(Debug, Clone, Copy, PartialEq, Eq)]
pub struct Node<'a> {
    /// The node's number in text order.
    pub index: usize,
    /// The word's bytes.
    pub word: &'a [u8],
    /// Where the word starts in the string.
    pub start: usize,
    /// The node of the word whose group holds this one; `None` in the outer group.
    pub parent: Option<usize>,
    /// Whether the word is followed by a group.
    pub has_group: bool,
}

impl<'a> Capabilities<'a> {
    /// Reads a capabilities string. A refusal leaves the buffers as they were.
    ///
    /// Zero bytes may follow the outer group. They make no node, and they count to the 4,096 bytes that a string may
    /// have.
    ///
    /// ```
    /// # use ddcci::{Capabilities, Nodes};
    /// let mut nodes = Nodes::default();
    /// let capabilities = Capabilities::read(b"(vcp(10))\0\0", &mut nodes)?;
    /// assert_eq!(capabilities.len(), 2);
    /// # Ok::<(), ddcci::RefusedAt>(())
    /// ```
    pub fn read(text: &'a [u8], nodes: &'a mut Nodes) -> Result<Capabilities<'a>, RefusedAt> {
        let Nodes { starts, lengths, parents, groups } = &mut *nodes;
        let count = read_capabilities_into(text, starts, lengths, parents, groups)?;
        Ok(Capabilities { text, nodes, count })
    }

    /// Returns the number of nodes.
    pub fn len(&self) -> usize {
        self.count
    }

    /// Returns whether there is no node.
    pub fn is_empty(&self) -> bool {
        self.count == 0
    }

    /// Returns the node with this number.
    pub fn node(&self, index: usize) -> Option<Node<'a>> {
        if index >= self.count {
            return None;
        }
        let start = usize::from(self.nodes.starts[index]);
        let parent = self.nodes.parents[index];
        Some(Node {
            index,
            word: &self.text[start..start + usize::from(self.nodes.lengths[index])],
            start,
            parent: (parent != NO_PARENT).then_some(usize::from(parent)),
            has_group: self.nodes.groups[index] == 1,
        })
    }

    /// Returns all nodes, in text order.
    pub fn nodes(&self) -> impl Iterator<Item = Node<'a>> + 'a {
        let all = *self;
        (0..self.count).filter_map(move |i| all.node(i))
    }

    /// Returns the nodes of a word's group, or with `None` those of the outer group.
    pub fn children(&self, of: Option<&Node<'_>>) -> impl Iterator<Item = Node<'a>> + 'a {
        let parent = of.map(|node| node.index);
        self.nodes().filter(move |node| node.parent == parent)
    }

    /// Returns how many groups a node stands in, the outer one aside.
    pub fn depth(&self, node: &Node<'_>) -> usize {
        let mut depth = 0;
        let mut at = node.parent;
        while let Some(index) = at {
            depth += 1;
            at = self.node(index).and_then(|n| n.parent);
        }
        depth
    }
}

impl fmt::Debug for Capabilities<'_> {
    fn fmt(&self, f: &mut fmt::Formatter<'_>) -> fmt::Result {
        f.debug_list().entries(self.nodes()).finish()
    }
}

/// Reads a capabilities string into four buffers of the caller's, one entry a node, and returns the number of nodes.
///
/// This is the C function; [`Capabilities::read`] keeps the buffers for you. The room is the length of the shortest
/// of the buffers, at most [`MOST_NODES`]. A node's entries are the start and the length of its word, its parent
/// (65,535 in the outer group), and 1 where a group follows it, else 0. Entries past the nodes stay; a refusal leaves
/// all as it was.
///
/// Zero bytes may follow the outer group. They make no node, and they count to the 4,096 bytes that a string may have.
pub fn read_capabilities_into(
    text: &[u8],
    starts: &mut [u16],
    lengths: &mut [u16],
    parents: &mut [u16],
    groups: &mut [u8],
) -> Result<usize, RefusedAt> {
    // SAFETY: each pointer and its length are those of one slice; the four buffers are borrowed for writing and thus
    // overlap neither each other nor the text.
    let r = unsafe {
        raw::ddcci_read_capabilities(
            text.as_ptr(),
            text.len(),
            starts.as_mut_ptr(),
            starts.len(),
            lengths.as_mut_ptr(),
            lengths.len(),
            parents.as_mut_ptr(),
            parents.len(),
            groups.as_mut_ptr(),
            groups.len(),
        )
    };
    RefusedAt::check(r.answer, r.position).map(|()| r.nodes)
}
