//! The work that every side is given: the same keys in the same order.

/// Calls of one mix in one round.
pub const NOTES: usize = 4000;

/// Trees and pairs of a setting.
#[derive(Clone, Copy)]
pub struct Setting {
    pub trees: u32,
    pub pairs: u32,
}

/// The sizes: small and middle trees, and trees that fill a pool of 512 nodes. 32 trees of 100 pairs do not fit in one.
pub const SETTINGS: [Setting; 8] = [
    Setting { trees: 1, pairs: 10 },
    Setting { trees: 16, pairs: 10 },
    Setting { trees: 32, pairs: 10 },
    Setting { trees: 1, pairs: 100 },
    Setting { trees: 16, pairs: 100 },
    Setting { trees: 1, pairs: 1800 },
    Setting { trees: 16, pairs: 112 },
    Setting { trees: 32, pairs: 56 },
];

/// A pair and the tree it belongs to.
#[derive(Clone, Copy)]
pub struct Note {
    pub tree: u32,
    pub key: u32,
    pub value: u32,
}

/// One of the notes that puts and removes are mixed of.
#[derive(Clone, Copy)]
pub struct Change {
    pub put: bool,
    pub note: Note,
}

/// All that the mixes of one setting do.
pub struct Work {
    pub setting: Setting,
    /// The pairs of all trees, in the order in which trees are filled.
    pub fill: Vec<Note>,
    /// Orders in which trees are filled from nothing, and emptied again.
    pub rounds: Vec<(Vec<Note>, Vec<Note>)>,
    /// Pairs that are there, picked by chance.
    pub present: Vec<Note>,
    /// Keys that are not there.
    pub absent: Vec<Note>,
    /// Half puts, half removes.
    pub changes: Vec<Change>,
}

/// Numbers by chance, the same in every run (xorshift).
pub struct Chance(u64);

impl Chance {
    fn next(&mut self) -> u64 {
        self.0 ^= self.0 << 13;
        self.0 ^= self.0 >> 7;
        self.0 ^= self.0 << 17;
        self.0
    }

    /// A number below `n`.
    fn below(&mut self, n: usize) -> usize {
        (self.next() >> 11) as usize % n
    }

    fn shuffle<T>(&mut self, items: &mut [T]) {
        for i in (1..items.len()).rev() {
            items.swap(i, self.below(i + 1));
        }
    }
}

impl Setting {
    /// Pairs of all trees.
    pub fn total(self) -> usize {
        (self.trees * self.pairs) as usize
    }
}

/// The pairs of all trees: odd keys, so that the even ones are absent.
fn pairs(setting: Setting) -> Vec<Note> {
    let of_tree =
        |tree| (0..setting.pairs).map(move |i| Note { tree, key: 2 * i + 1, value: 7 * i + tree });
    (0..setting.trees).flat_map(of_tree).collect()
}

/// A put or a remove by chance, its key one of twice as many as a tree has pairs.
fn change(setting: Setting, chance: &mut Chance) -> Change {
    let tree = chance.below(setting.trees as usize) as u32;
    let key = chance.below(2 * setting.pairs as usize) as u32;
    let put = chance.below(2) == 0;
    Change { put, note: Note { tree, key, value: key + tree } }
}

impl Work {
    /// The work of a setting.
    pub fn new(setting: Setting) -> Self {
        let mut chance = Chance(0x9e37_79b9_7f4a_7c15);
        let mut fill = pairs(setting);
        chance.shuffle(&mut fill);
        let rounds = (0..NOTES.div_ceil(setting.total()))
            .map(|_| {
                let (mut up, mut down) = (fill.clone(), fill.clone());
                chance.shuffle(&mut up);
                chance.shuffle(&mut down);
                (up, down)
            })
            .collect();
        let present: Vec<Note> = (0..NOTES).map(|_| fill[chance.below(fill.len())]).collect();
        let absent = present.iter().map(|n| Note { key: n.key + 1, ..*n }).collect();
        let changes = (0..NOTES).map(|_| change(setting, &mut chance)).collect();
        Self { setting, fill, rounds, present, absent, changes }
    }
}
