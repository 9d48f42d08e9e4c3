//! One node of the node table.

/// Where a node stands, and the correction that it carries: four numbers of the table, in this order.
#[repr(C)]
#[derive(Clone, Copy, Debug, Default, PartialEq, Eq, Hash)]
pub struct Node {
    pub x: i32,
    pub y: i32,
    pub dx: i32,
    pub dy: i32,
}

// A node is four numbers of the table and nothing else.
const _: () = assert!(size_of::<Node>() == 4 * size_of::<i32>() && align_of::<Node>() == align_of::<i32>());

impl Node {
    /// A node that stands here and has no correction.
    pub const fn at(x: i32, y: i32) -> Node {
        Node { x, y, dx: 0, dy: 0 }
    }

    /// The same node with this correction.
    pub const fn carrying(self, dx: i32, dy: i32) -> Node {
        Node { dx, dy, ..self }
    }

    /// The node table that these nodes are, to be lent to a call.
    pub fn table(nodes: &mut [Node]) -> &mut [i32] {
        let length = 4 * nodes.len();
        // SAFETY: each node is four numbers without a gap, any numbers are a node, and the nodes are borrowed for as long as the numbers are.
        unsafe { std::slice::from_raw_parts_mut(nodes.as_mut_ptr().cast(), length) }
    }

    /// As `table`, to be read.
    pub fn numbers(nodes: &[Node]) -> &[i32] {
        // SAFETY: as above.
        unsafe { std::slice::from_raw_parts(nodes.as_ptr().cast(), 4 * nodes.len()) }
    }

    /// The nodes that a table holds; numbers behind the last whole node are left out.
    pub fn of(table: &[i32]) -> &[Node] {
        // SAFETY: as above.
        unsafe { std::slice::from_raw_parts(table.as_ptr().cast(), table.len() / 4) }
    }
}
