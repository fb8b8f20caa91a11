//! Query records: a tree to build them from, and back from the words to the tree.

pub const TERM: u32 = 1;
pub const PHRASE: u32 = 2;
pub const BOOLEAN: u32 = 3;
pub const RANGE: u32 = 4;
pub const MATCH_ALL: u32 = 5;
pub const CONSTANT_SCORE: u32 = 6;
pub const BOOST: u32 = 7;
pub const MATCH_NONE: u32 = 8;
pub const PHRASE_TERM: u32 = 9;

pub const MUST: u32 = 1;
pub const SHOULD: u32 = 2;
pub const MUST_NOT: u32 = 3;
pub const FILTER: u32 = 4;

/// Words of one record.
pub const RECORD: usize = 9;

/// A record with the whole trees of its children.
#[derive(Clone, Debug, PartialEq, Eq)]
pub struct Node {
    pub kind: u32,
    pub occurrence: u32,
    pub values: [u32; 6],
    pub children: Vec<Node>,
}

fn node(kind: u32, values: &[u32], children: Vec<Node>) -> Node {
    let mut six = [0; 6];
    six[..values.len()].copy_from_slice(values);
    Node {
        kind,
        occurrence: 0,
        values: six,
        children,
    }
}

pub fn term(leaf: u32) -> Node {
    node(TERM, &[leaf], vec![])
}

/// A phrase of leaves, each with its offset.
pub fn phrase(field: u32, terms: &[(u32, u32)]) -> Node {
    let child = |&(leaf, offset)| node(PHRASE_TERM, &[leaf, offset], vec![]);
    node(PHRASE, &[field], terms.iter().map(child).collect())
}

/// A Boolean of clauses, which `must`, `should`, `must_not` and `filter` make.
pub fn boolean(msm: u32, clauses: impl Into<Vec<Node>>) -> Node {
    node(BOOLEAN, &[msm], clauses.into())
}

/// A range: lower kind + 3 × upper kind, and the ends' 64-bit patterns.
pub fn range(column: u32, kinds: u32, lower: u64, upper: u64) -> Node {
    let [low, high] = [lower, upper].map(|end| [end as u32, (end >> 32) as u32]);
    let values = [column, kinds, low[0], low[1], high[0], high[1]];
    node(RANGE, &values, vec![])
}

pub fn match_all() -> Node {
    node(MATCH_ALL, &[], vec![])
}

pub fn match_none() -> Node {
    node(MATCH_NONE, &[], vec![])
}

pub fn constant_score(child: Node) -> Node {
    node(CONSTANT_SCORE, &[], vec![child])
}

/// A boost by a factor given as f32 bits.
pub fn boost(bits: u32, child: Node) -> Node {
    node(BOOST, &[bits], vec![child])
}

/// Every match of `child` scores exactly the f32 with these bits (below a boost of 1).
pub fn weighted(bits: u32, child: Node) -> Node {
    boost(bits, constant_score(child))
}

impl Node {
    pub fn must(self) -> Node {
        self.occurring(MUST)
    }
    pub fn should(self) -> Node {
        self.occurring(SHOULD)
    }
    pub fn must_not(self) -> Node {
        self.occurring(MUST_NOT)
    }
    pub fn filter(self) -> Node {
        self.occurring(FILTER)
    }
    pub fn occurring(self, occurrence: u32) -> Node {
        Node { occurrence, ..self }
    }

    /// The records of the tree.
    pub fn words(&self) -> Vec<u32> {
        let mut words = vec![self.kind, self.occurrence, self.children.len() as u32];
        words.extend(self.values);
        words.extend(self.children.iter().flat_map(Node::words));
        words
    }

    /// The node and all below it, in record order.
    pub fn all(&self) -> Vec<&Node> {
        let below = self.children.iter().flat_map(Node::all);
        std::iter::once(self).chain(below).collect()
    }

    /// Levels of the tree; a lone record has 1.
    pub fn depth(&self) -> usize {
        1 + self.children.iter().map(Node::depth).max().unwrap_or(0)
    }

    /// The tree that the words hold, where they hold one and nothing else. Only child counts are
    /// looked at here: kinds and the rest are the business of `refusal`.
    pub fn decode(words: &[u32]) -> Option<Node> {
        match Node::first(words, 256)? {
            (tree, []) => Some(tree),
            _ => None,
        }
    }

    /// The first tree in the words, and the words after it. A tree is at most `depth` deep, so
    /// that no input exhausts the stack.
    fn first(words: &[u32], depth: u32) -> Option<(Node, &[u32])> {
        let (record, mut rest) = words.split_at_checked(RECORD)?;
        let mut children = Vec::new();
        for _ in 0..record[2] {
            let (child, after) = Node::first(rest, depth.checked_sub(1)?)?;
            children.push(child);
            rest = after;
        }
        let tree = Node {
            kind: record[0],
            occurrence: record[1],
            values: record[3..].try_into().unwrap(),
            children,
        };
        Some((tree, rest))
    }
}
