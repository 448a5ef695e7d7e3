//! Numbers for nodes. The Rust names a node by its path of child indices from the root; document 01 numbers the
//! nodes of an allocation as they are made.

use super::*;

/// The nodes of one allocation, in order of making.
pub struct Numbering {
    /// For each node: its parent, and which child of it the node is. The root has neither.
    pub place: Vec<Option<(usize, usize)>>,
    pub children: Vec<Vec<usize>>,
}

impl Numbering {
    pub fn root() -> Self {
        Numbering { place: vec![None], children: vec![Vec::new()] }
    }

    pub fn path(&self, node: usize) -> Path {
        let mut indices = Vec::new();
        let mut at = node;
        while let Some((parent, index)) = self.place[at] {
            indices.push(Int::from(index));
            at = parent;
        }
        indices.reverse();
        List::from_slice(&indices)
    }

    pub fn node(&self, path: Path) -> usize {
        path.iter().fold(0, |node, index| self.children[node][index.index()])
    }

    pub fn add(&mut self, parent: usize, index: usize) -> usize {
        assert!(index == self.children[parent].len(), "a child is the last of its parent");
        let node = self.place.len();
        self.place.push(Some((parent, index)));
        self.children.push(Vec::new());
        self.children[parent].push(node);
        node
    }

    pub fn remove_newest(&mut self) {
        self.children.pop();
        if let Some(Some((parent, _))) = self.place.pop() {
            self.children[parent].pop();
        }
    }
}
