//! When words are a sound pool, read from document 01 and from nothing else: row by row from each root, where the
//! library goes child by child. Any words will do; every node is visited at most once.

/// A node of a tree. A leaf's items are its pairs. An inner node's items are its children, each with the smallest key
/// below it.
#[derive(Clone, Debug, PartialEq, Eq)]
pub struct Node {
    pub number: u32,
    pub items: Vec<(u32, u32)>,
}

/// A tree as its rows, the root's first and the leaves last, each from left to right. An empty tree has none.
#[derive(Clone, Debug, Default, PartialEq, Eq)]
pub struct Tree {
    pub rows: Vec<Vec<Node>>,
}

/// What sound words say.
#[derive(Clone, Debug, PartialEq, Eq)]
pub struct Pool {
    pub nodes: usize,
    pub trees: Vec<Tree>,
    /// The free nodes, the top of the stack last.
    pub free: Vec<u32>,
}

/// The rule of document 01 that words break: the first one met.
#[derive(Clone, Copy, Debug, PartialEq, Eq)]
pub enum Broken {
    Trees,
    Nodes,
    Length,
    FreeCount,
    Kind,
    Number,
    NotZero,
    Twice,
    Nowhere,
    Depth,
    Root,
    HalfFull,
    Order,
    Separator,
}

impl Broken {
    pub const ALL: [Broken; 14] = [
        Broken::Trees,
        Broken::Nodes,
        Broken::Length,
        Broken::FreeCount,
        Broken::Kind,
        Broken::Number,
        Broken::NotZero,
        Broken::Twice,
        Broken::Nowhere,
        Broken::Depth,
        Broken::Root,
        Broken::HalfFull,
        Broken::Order,
        Broken::Separator,
    ];

    /// The rule in words.
    pub fn text(self) -> &'static str {
        match self {
            Broken::Trees => "T is 1 to 32",
            Broken::Nodes => "N is 0 to 512",
            Broken::Length => "the length is T + 17N + 3",
            Broken::FreeCount => "F is at most N",
            Broken::Kind => "word 0 of a node is one of those named",
            Broken::Number => "roots, children and stack numbers name nodes",
            Broken::NotZero => "places not in use hold 0",
            Broken::Twice => "a node is in one place only",
            Broken::Nowhere => "a node is in a tree or in the stack",
            Broken::Depth => "all leaves are at one depth",
            Broken::Root => "an inner root has 2 children or more",
            Broken::HalfFull => "all but the last of a level are half full",
            Broken::Order => "keys rise strictly",
            Broken::Separator => "an inner key is the smallest below the child to its right",
        }
    }
}

/// What a node's 16 words are.
#[derive(Clone, Copy, PartialEq, Eq)]
enum Kind {
    Free,
    Inner,
    Leaf,
}

/// Fails with the rule unless it is kept.
fn keep(rule: Broken, kept: bool) -> Result<(), Broken> {
    if kept { Ok(()) } else { Err(rule) }
}

/// The 16 words of each node, and which nodes were met so far.
struct Nodes<'a> {
    words: &'a [u32],
    met: Vec<bool>,
}

impl Nodes<'_> {
    fn count(&self) -> usize {
        self.met.len()
    }

    /// The words of a node that is there.
    fn node(&self, number: u32) -> &[u32] {
        let from = 16 * (number as usize - 1);
        &self.words[from..from + 16]
    }

    /// Does the number name a node?
    fn names(&self, number: u32) -> bool {
        number >= 1 && number as usize <= self.count()
    }

    /// Notes that a node is in a place, which no other place may have.
    fn meet(&mut self, number: u32) -> Result<(), Broken> {
        keep(Broken::Number, self.names(number))?;
        let met = &mut self.met[number as usize - 1];
        keep(Broken::Twice, !*met)?;
        *met = true;
        Ok(())
    }

    /// Kind and count of keys (of entries in a leaf), from word 0.
    fn kind(&self, number: u32) -> Result<(Kind, usize), Broken> {
        match self.node(number)[0] {
            0 => Ok((Kind::Free, 0)),
            w @ 16..=23 => Ok((Kind::Inner, w as usize - 16)),
            w @ 33..=39 => Ok((Kind::Leaf, w as usize - 32)),
            _ => Err(Broken::Kind),
        }
    }

    /// Word 0, the children's numbers and the zeros of one node.
    fn layout(&self, number: u32) -> Result<(), Broken> {
        let (kind, s) = self.kind(number)?;
        let w = self.node(number);
        let below = match kind {
            Kind::Free => 0,
            Kind::Inner => s + 1,
            Kind::Leaf => s,
        };
        keep(Broken::NotZero, w[1 + s..8].iter().chain(&w[8 + below..]).all(|&w| w == 0))?;
        keep(Broken::Number, kind != Kind::Inner || w[8..8 + below].iter().all(|&c| self.names(c)))
    }
}

/// T and N of words that have the length for them.
fn sizes(words: &[u32]) -> Result<(usize, usize), Broken> {
    let trees = *words.first().ok_or(Broken::Length)? as usize;
    keep(Broken::Trees, (1..=32).contains(&trees))?;
    let nodes = *words.get(trees + 1).ok_or(Broken::Length)? as usize;
    keep(Broken::Nodes, nodes <= 512)?;
    keep(Broken::Length, words.len() == trees + 17 * nodes + 3)?;
    Ok((trees, nodes))
}

/// The free nodes, from F and the stack behind it.
fn stack(all: &mut Nodes, words: &[u32]) -> Result<Vec<u32>, Broken> {
    let count = words[0] as usize;
    keep(Broken::FreeCount, count <= all.count())?;
    let (used, rest) = words[1..].split_at(count);
    keep(Broken::NotZero, rest.iter().all(|&w| w == 0))?;
    for &number in used {
        all.meet(number)?;
        keep(Broken::NotZero, all.node(number).iter().all(|&w| w == 0))?;
    }
    Ok(used.to_vec())
}

/// The numbers of a tree's nodes, row by row, with what a row asks of word 0: one kind, and all but the last half full.
fn rows(all: &mut Nodes, root: u32) -> Result<Vec<Vec<u32>>, Broken> {
    let mut rows = vec![vec![root]];
    loop {
        let row = rows[rows.len() - 1].clone();
        let mut children = Vec::new();
        keep(Broken::Number, all.names(row[0]))?;
        let (kind, _) = all.kind(row[0])?;
        for (i, &number) in row.iter().enumerate() {
            all.meet(number)?;
            let (own, s) = all.kind(number)?;
            keep(Broken::Kind, own != Kind::Free)?;
            keep(Broken::Depth, own == kind)?;
            let last = i + 1 == row.len();
            match own {
                Kind::Leaf => keep(Broken::HalfFull, last || s >= 3)?,
                _ => keep(Broken::HalfFull, last || s + 1 >= 4)?,
            }
            if own == Kind::Inner {
                keep(Broken::Root, rows.len() > 1 || s + 1 >= 2)?;
                children.extend_from_slice(&all.node(number)[8..8 + s + 1]);
            }
        }
        if kind == Kind::Leaf {
            return Ok(rows);
        }
        rows.push(children);
    }
}

/// A tree from its row numbers, with what is asked of its keys. Leaves first: the smallest keys come from below.
fn tree(all: &Nodes, rows: &[Vec<u32>]) -> Result<Tree, Broken> {
    let mut done: Vec<Vec<Node>> = Vec::new();
    for row in rows.iter().rev() {
        let mut smallest = done.last().into_iter().flatten().map(|node| node.items[0].0);
        let mut nodes = Vec::new();
        for &number in row {
            let w = all.node(number);
            let mut items = Vec::new();
            if w[0] >= 32 {
                let s = w[0] as usize - 32;
                items.extend((0..s).map(|i| (w[1 + i], w[8 + i])));
            } else {
                for i in 0..=w[0] as usize - 16 {
                    let key = smallest.next().expect("each child has its node in the row below");
                    keep(Broken::Separator, i == 0 || w[i] == key)?;
                    items.push((key, w[8 + i]));
                }
            }
            nodes.push(Node { number, items });
        }
        if done.is_empty() {
            let keys: Vec<u32> =
                nodes.iter().flat_map(|leaf| leaf.items.iter().map(|pair| pair.0)).collect();
            keep(Broken::Order, keys.windows(2).all(|two| two[0] < two[1]))?;
        }
        drop(smallest);
        done.push(nodes);
    }
    done.reverse();
    Ok(Tree { rows: done })
}

/// Reads a sound pool, or says which rule the words break.
pub fn read(words: &[u32]) -> Result<Pool, Broken> {
    let (count, nodes) = sizes(words)?;
    let (head, rest) = words.split_at(count + 2);
    let (body, tail) = rest.split_at(16 * nodes);
    let mut all = Nodes { words: body, met: vec![false; nodes] };
    (1..=nodes as u32).try_for_each(|number| all.layout(number))?;
    let free = stack(&mut all, tail)?;
    let mut trees = Vec::new();
    for &root in &head[1..=count] {
        trees.push(match root {
            0 => Tree::default(),
            root => {
                let rows = rows(&mut all, root)?;
                tree(&all, &rows)?
            }
        });
    }
    keep(Broken::Nowhere, all.met.iter().all(|&met| met))?;
    Ok(Pool { nodes, trees, free })
}
