//! Document 01's sound pools, checked on the words.

use std::ops::Range;

/// Says what is wrong with the words, if anything is.
pub fn check(words: &[u32]) -> Result<(), String> {
    let pool = Pool::of(words)?;
    let mut seen = vec![0; pool.room + 1];
    for n in pool.stack() {
        want((1..=pool.room).contains(n), "a stack number names no node")?;
        want(pool.node(*n).iter().all(|w| *w == 0), "a free node is not zero")?;
        seen[*n] += 1;
    }
    want(pool.stack_rest().iter().all(|w| *w == 0), "the rest of the stack is not zero")?;
    for t in 0..pool.trees {
        let root = words[1 + t] as usize;
        if root != 0 {
            let mut walk = Walk { pool: &pool, seen: &mut seen, depth: None, last: None };
            walk.node(root, 0, true)?;
        }
    }
    want(seen[1..].iter().all(|n| *n == 1), "a node is nowhere, or twice somewhere")
}

/// An error unless a fact holds.
fn want(fact: bool, otherwise: &str) -> Result<(), String> {
    if fact { Ok(()) } else { Err(otherwise.to_string()) }
}

/// The sections of the words.
struct Pool<'a> {
    words: &'a [u32],
    trees: usize,
    room: usize,
    free: Vec<usize>,
}

impl<'a> Pool<'a> {
    /// Finds the sections, if counts and length fit.
    fn of(words: &'a [u32]) -> Result<Self, String> {
        let trees = words.first().map_or(0, |w| *w as usize);
        want((1..=32).contains(&trees), "T")?;
        let room = words.get(trees + 1).map_or(usize::MAX, |w| *w as usize);
        want(room <= 512 && words.len() == trees + 17 * room + 3, "N or the length")?;
        let count = words[trees + 2 + 16 * room] as usize;
        want(count <= room, "F is above N")?;
        let at = trees + 3 + 16 * room;
        let free = words[at..at + count].iter().map(|w| *w as usize).collect();
        Ok(Self { words, trees, room, free })
    }

    fn stack(&self) -> &[usize] {
        &self.free
    }

    fn stack_rest(&self) -> &[u32] {
        &self.words[self.trees + 3 + 16 * self.room + self.free.len()..]
    }

    fn node(&self, number: usize) -> &[u32] {
        let at = self.trees + 2 + 16 * (number - 1);
        &self.words[at..at + 16]
    }
}

/// A walk through one tree.
struct Walk<'a> {
    pool: &'a Pool<'a>,
    seen: &'a mut [u32],
    depth: Option<usize>,
    last: Option<u32>,
}

impl Walk<'_> {
    /// Walks a subtree and gives its smallest key; `last` says that it is the last of its level.
    fn node(&mut self, number: usize, level: usize, last: bool) -> Result<u32, String> {
        want((1..=self.pool.room).contains(&number), "a child or root names no node")?;
        self.seen[number] += 1;
        want(self.seen[number] == 1, "a node is met twice")?;
        let words: Vec<u32> = self.pool.node(number).to_vec();
        match words[0] {
            16..=23 => self.inner(&words, level, last),
            33..=39 => self.leaf(&words, level, last),
            _ => Err("word 0".to_string()),
        }
    }

    fn inner(&mut self, words: &[u32], level: usize, last: bool) -> Result<u32, String> {
        let size = words[0] as usize - 16;
        zeros(words, [1 + size..8, 9 + size..16])?;
        want(size >= 1 || level > 0, "an inner root has one child")?;
        want(size >= 3 || last, "an inner node is not half full")?;
        let mut least = 0;
        for i in 0..=size {
            let below = self.node(words[8 + i] as usize, level + 1, last && i == size)?;
            if i == 0 {
                least = below;
            } else {
                want(words[i] == below, "a separator is not the smallest key to its right")?;
            }
        }
        Ok(least)
    }

    fn leaf(&mut self, words: &[u32], level: usize, last: bool) -> Result<u32, String> {
        let size = words[0] as usize - 32;
        zeros(words, [1 + size..8, 8 + size..16])?;
        want(size >= 3 || last, "a leaf is not half full")?;
        want(*self.depth.get_or_insert(level) == level, "leaves at two depths")?;
        for key in &words[1..=size] {
            want(self.last.is_none_or(|k| k < *key), "keys do not rise")?;
            self.last = Some(*key);
        }
        Ok(words[1])
    }
}

/// Places not in use hold 0.
fn zeros(words: &[u32], places: [Range<usize>; 2]) -> Result<(), String> {
    let fine = places.into_iter().all(|r| words[r].iter().all(|w| *w == 0));
    want(fine, "a place not in use is not 0")
}
