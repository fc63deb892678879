//! Documents: the lent numbers, refusal 8, the axes and the node tests.

use crate::term::{Axis, Test};

pub const MOST_NODES: usize = 512;

/// A row of a document. Kinds: 0 root, 1 element, 2 text, 3 comment, 4 processing instruction, 5 attribute.
pub struct Node {
    pub kind: u16,
    pub parent: usize,
    pub name: u16,
}

pub type Document = [Node];

/// The document that the lent numbers say, or the value of refusal 8.
pub fn document(numbers: &[u16]) -> Result<Vec<Node>, u64> {
    let rows = numbers.chunks(3);
    if rows.len() == 0 {
        return Err(0);
    }
    if rows.len() > MOST_NODES {
        return Err(MOST_NODES as u64);
    }
    let mut nodes = Vec::new();
    for row in rows {
        match *row {
            [kind, parent, name] if row_ok(&nodes, kind, parent as usize, name) => {
                nodes.push(Node { kind, parent: parent as usize, name })
            }
            _ => return Err(nodes.len() as u64),
        }
    }
    Ok(nodes)
}

/// Whether this row may follow the good rows before it.
fn row_ok(before: &Document, kind: u16, parent: usize, name: u16) -> bool {
    let n = before.len();
    if n == 0 {
        return (kind, parent, name) == (0, 0, 0);
    }
    let parent_ok = parent == n - 1 || is_ancestor(before, parent, n - 1);
    (1..=5).contains(&kind)
        && parent_ok
        && matches!(before[parent].kind, 0 | 1)
        && name_ok(kind, name)
        && (kind != 5 || attribute_ok(before, parent))
}

/// An element or an attribute has a name, an instruction a target or 0 for none recorded, any other node has no name.
fn name_ok(kind: u16, name: u16) -> bool {
    match kind {
        1 | 5 => name >= 1,
        4 => true,
        _ => name == 0,
    }
}

/// Whether an attribute of this parent may come next: the parent is an element, and only attributes of it stand between.
fn attribute_ok(before: &Document, parent: usize) -> bool {
    before[parent].kind == 1 && before[parent + 1..].iter().all(|node| node.kind == 5 && node.parent == parent)
}

/// Whether x is an ancestor of y: the climb from y to its parent, as far as the root.
pub fn is_ancestor(d: &Document, x: usize, mut y: usize) -> bool {
    while y != 0 {
        y = d[y].parent;
        if y == x {
            return true;
        }
    }
    false
}

fn is_child(d: &Document, x: usize, y: usize) -> bool {
    y != 0 && d[y].parent == x
}

fn are_siblings(d: &Document, x: usize, y: usize) -> bool {
    x != 0 && y != 0 && x != y && d[x].parent == d[y].parent
}

/// Whether y is on the axis from x: as in the tree of parents, and an attribute only where XPath 1.0 has it.
pub fn on_axis(d: &Document, axis: Axis, x: usize, y: usize) -> bool {
    let is_attribute = |node: usize| d[node].kind == 5;
    let allowed = match axis {
        Axis::SelfNode | Axis::Parent | Axis::Ancestor | Axis::AncestorOrSelf => true,
        Axis::DescendantOrSelf => x == y || !is_attribute(y),
        Axis::Child | Axis::Descendant | Axis::Following | Axis::Preceding => !is_attribute(y),
        Axis::FollowingSibling | Axis::PrecedingSibling => !is_attribute(x) && !is_attribute(y),
        Axis::Attribute => is_attribute(y),
    };
    allowed && in_tree(d, axis, x, y)
}

/// Whether y is on the axis from x, attributes taken as children of their elements.
fn in_tree(d: &Document, axis: Axis, x: usize, y: usize) -> bool {
    match axis {
        Axis::SelfNode => y == x,
        Axis::Child | Axis::Attribute => is_child(d, x, y),
        Axis::Parent => is_child(d, y, x),
        Axis::Descendant => is_ancestor(d, x, y),
        Axis::Ancestor => is_ancestor(d, y, x),
        Axis::DescendantOrSelf => y == x || is_ancestor(d, x, y),
        Axis::AncestorOrSelf => y == x || is_ancestor(d, y, x),
        Axis::FollowingSibling => are_siblings(d, x, y) && y > x,
        Axis::PrecedingSibling => are_siblings(d, x, y) && y < x,
        Axis::Following => y > x && !is_ancestor(d, x, y),
        Axis::Preceding => y < x && !is_ancestor(d, y, x),
    }
}

/// Whether the node passes the test on the axis.
pub fn passes(node: &Node, axis: Axis, test: Test) -> bool {
    let principal = if axis == Axis::Attribute { 5 } else { 1 };
    match test {
        Test::Name(name) => node.kind == principal && node.name == name,
        Test::AnyElement => node.kind == principal,
        Test::AnyNode => true,
        Test::Text => node.kind == 2,
        Test::Comment => node.kind == 3,
        Test::Instruction => node.kind == 4,
        Test::Target(target) => node.kind == 4 && node.name == target,
    }
}
