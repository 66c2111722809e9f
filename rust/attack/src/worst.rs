//! Calls that are thought to take the most instructions, each made once and told in a line: under callgrind, which writes
//! the count of each call of the library, the lines and the counts go together in their order.

use crate::bend;
use crate::expect::cursor_in;
use crate::make::{self, Fill};
use crate::raw::{self, Call, Cursor};
use crate::sound::{Pool, read};
use crate::source::Source;
use std::arch::asm;

/// So many keys of each pool are tried, those first that take or free most.
const TRIED: usize = 4;

/// Sound pools of 512 nodes, each with a name. The first tree of each is the one that is called on; its levels begin the name.
fn pools() -> Vec<(String, Pool)> {
    let mut pools: Vec<(String, Pool)> = vec![
        ("full".into(), make::tall(1, Fill::Most, 3, 3)),
        ("all nodes in one tree, full".into(), make::packed(7, 8)),
        ("all nodes in one tree, half full".into(), make::packed(3, 4)),
        ("fresh, 1 tree".into(), Pool::fresh(1, 512)),
        ("fresh, 32 trees".into(), Pool::fresh(32, 512)),
    ];
    for (levels, full_from) in [(1, 0), (2, 0), (3, 0), (4, 0), (5, 1), (6, 3)] {
        pools.push(("least full".into(), make::tall(1, Fill::Least, levels, levels)));
        let name = format!("one path full from level {full_from} down");
        pools.push((name, make::tall(1, Fill::Least, levels, full_from)));
    }
    for seed in 1..=6 {
        pools.push((format!("one tree, drawn {seed}"), make::tall(100 * seed, Fill::Low, 6, 6)));
        pools.push((
            format!("many trees, drawn {seed}"),
            make::pool(&mut Source::drawn(seed, 1), 32, 512),
        ));
    }
    for (name, pool) in &mut pools {
        *name = format!("{} levels, {name}", pool.trees[0].rows.len());
    }
    pools
}

/// The keys of the highest rank, and some of the others.
fn highest(mut ranked: Vec<(usize, u32)>) -> Vec<u32> {
    ranked.sort_by(|one, other| other.cmp(one));
    let spread = ranked.len().div_ceil(TRIED).max(1);
    ranked.iter().take(TRIED).chain(ranked.iter().step_by(spread)).map(|ranked| ranked.1).collect()
}

/// Keys of the first tree, those first whose removal frees most; and keys beside them, those first whose put takes most.
fn keys(pool: &Pool) -> Vec<u32> {
    let tree = &pool.trees[0];
    let (mut held, mut absent) = (Vec::new(), Vec::new());
    for (leaf, node) in tree.leaves().iter().enumerate() {
        for (place, &(key, _)) in node.items.iter().enumerate() {
            held.push((pool.remove(0, leaf, place).free.len(), key));
            absent.push((tree.need(key.wrapping_add(1)), key.wrapping_add(1)));
        }
    }
    [highest(held), highest(absent)].concat()
}

/// Every call on a pool: by keys, and at both ends of leaves.
fn calls(pool: &Pool) -> Vec<Call> {
    let mut calls = vec![Call::Check, Call::First(Cursor::default())];
    let tree = &pool.trees[0];
    for key in keys(pool) {
        calls.extend([
            Call::Get(0, key),
            Call::Put(0, key, 5),
            Call::Remove(0, key),
            Call::Seek(Cursor::default(), key),
        ]);
        let spot = tree.spot(key);
        let ends = [
            spot.place,
            0,
            tree.leaves()[spot.leaf].items.len(),
            tree.leaves()[spot.leaf].items.len() - 1,
        ];
        for place in ends {
            let at = cursor_in(pool, 0, spot.leaf, place);
            calls.extend([
                Call::Settle(at),
                Call::Next(at),
                Call::Prev(at),
                Call::RemoveAt(at),
                Call::Stands(at),
            ]);
        }
    }
    let off = Cursor::default();
    calls.extend([Call::Prev(off), Call::Next(off), Call::Get(0, 1), Call::Put(0, 1, 1)]);
    calls
}

/// Has callgrind write what it counted since the last time; does nothing where it does not run.
fn write_count() {
    let request: [u64; 6] = [u64::from(u32::from_be_bytes(*b"CT\0\0")), 0, 0, 0, 0, 0];
    // SAFETY: valgrind's request: four turns that leave rdi as it was and an exchange of rbx with itself; rdx gets its answer.
    unsafe {
        asm!(
            "rol rdi, 3", "rol rdi, 13", "rol rdi, 61", "rol rdi, 51", "xchg rbx, rbx",
            in("rax") &raw const request, inout("rdx") 0u64 => _,
        );
    }
}

/// Makes a call once and tells it.
fn make(pool: &str, words: &[u32], call: &Call, core: bool) {
    let mut copy = words.to_vec();
    // SAFETY: the words are a vector's; cores are only made on sound words, with cursors made to stand in them.
    let moved = unsafe {
        if core {
            raw::core(call, copy.as_mut_ptr(), copy.len())
        } else {
            raw::public(call, copy.as_mut_ptr(), copy.len())
        }
    };
    write_count();
    let name = if core { "recorder_sound_" } else { "recorder_" };
    println!("{name}{}\t{pool}\t{}\t{}", call.name(), words.len(), moved.answer.number);
}

/// The check on words that are not sound: a sound pool bent, and one whose nodes are walked again and again.
fn broken(name: &str, pool: &Pool) {
    let mut source = Source::drawn(11, 0);
    let mut tried = 0;
    while tried < 2 * TRIED {
        let mut words = bend::words(&mut source, pool.clone());
        let mut how = "bent";
        if tried % 2 == 0 {
            words = pool.words();
            bend::tangle(&mut source, pool, &pool.trees[0], &mut words);
            how = "tangled";
        }
        if read(&words).is_err() {
            make(&format!("{name}, {how}"), &words, &Call::Check, false);
        }
        tried += 1;
    }
}

/// The check on pools of all sizes, sound and bent.
fn sizes() {
    for input in 0..400 {
        let mut source = Source::drawn(13, input);
        let (trees, nodes) = make::sizes(&mut source);
        let pool = make::pool(&mut source, trees, nodes);
        make("pools of any size", &pool.words(), &Call::Check, false);
        let words = bend::words(&mut source, pool);
        make("pools of any size, bent", &words, &Call::Check, false);
    }
}

/// Makes all the calls.
pub fn run() {
    sizes();
    for (name, pool) in pools() {
        let words = pool.words();
        assert!(read(&words).is_ok(), "{name} is sound");
        make(&name, &words, &Call::Format(words[0], 512), false);
        for call in calls(&pool) {
            if !matches!(call, Call::Stands(_)) {
                make(&name, &words, &call, false);
            }
            if !matches!(call, Call::Check) {
                make(&name, &words, &call, true);
            }
        }
        if !pool.trees[0].rows.is_empty() {
            broken(&name, &pool);
        }
    }
}
