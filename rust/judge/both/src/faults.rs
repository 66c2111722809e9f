//! Shows that differences are found: what a call on our side gives back is damaged, and the comparison
//! must tell of it, and in what.

use crate::ours::{Door, Mark};
use crate::sides::{Damage, Kind, Sides};
use crate::tally::Tally;
use judge::calls::{Answer, Call, Op};
use judge::lists::{List, puts};

/// A fault: its name, the nodes of the pool, the calls after 1 to 36 are put in tree 0 of two, the
/// damage to the last of them, and what the difference must be in.
struct Fault {
    name: &'static str,
    nodes: usize,
    calls: &'static [(Op, usize, u32)],
    damage: Damage,
    kind: Kind,
}

/// Calls that faults are laid on.
const GET: &[(Op, usize, u32)] = &[(Op::Get, 0, 9)];
const PUT: &[(Op, usize, u32)] = &[(Op::Put, 0, 37)];
const SEEK: &[(Op, usize, u32)] = &[(Op::Seek, 0, 9)];
const NEXT: &[(Op, usize, u32)] = &[(Op::Seek, 0, 8), (Op::Next, 0, 0)];
const NO_TREE: &[(Op, usize, u32)] = &[(Op::Put, 2, 9)];
const NO_ROOM: &[(Op, usize, u32)] = &[(Op::Put, 1, 9)];
const STALE: &[(Op, usize, u32)] = &[(Op::Seek, 0, 40), (Op::Remove, 0, 36), (Op::Next, 0, 0)];

/// Nodes of a pool with two left over, and of one that is full.
const ROOMY: usize = 14;
const FULL: usize = 12;

const FAULTS: [Fault; 18] = [
    fault("another value told", ROOMY, GET, |a, _, _| a.value ^= 1, Kind::Answer),
    fault("found no for yes", ROOMY, GET, |a, _, _| a.found = false, Kind::Answer),
    fault("a key told by get", ROOMY, GET, |a, _, _| a.key = 9, Kind::Answer),
    fault("another key told by next", ROOMY, NEXT, |a, _, _| a.key += 1, Kind::Answer),
    fault("lack of room told as done", FULL, NO_ROOM, |a, _, _| a.number = 0, Kind::Answer),
    fault("a value changed in a leaf", ROOMY, PUT, |_, _, w| w[LEAF + 8] ^= 1, Kind::Pairs),
    fault("a pair left out", ROOMY, PUT, |_, _, w| w[LEAF] -= 1, Kind::Pairs),
    fault("two children exchanged", ROOMY, PUT, swap_children, Kind::Pairs),
    fault("a separator changed", ROOMY, PUT, |_, _, w| w[parent(w) + 1] -= 1, Kind::Tree),
    fault("two nodes exchange numbers", ROOMY, PUT, swap_numbers, Kind::Words),
    fault("two free nodes exchanged", ROOMY, PUT, swap_free, Kind::Words),
    fault("a place not in use is not 0", ROOMY, PUT, |_, _, w| w[LEAF + 15] = 1, Kind::Words),
    fault("another tree's root changed", ROOMY, PUT, |_, _, w| w[2] = 1, Kind::Words),
    fault("a cursor place off by one", ROOMY, SEEK, |_, m, _| m.places[2] += 1, Kind::Cursor),
    fault("a cursor on another node", ROOMY, SEEK, |_, m, _| m.nodes[2] ^= 1, Kind::Cursor),
    fault("old data in a cursor", ROOMY, SEEK, |_, m, _| m.places[5] = 1, Kind::Cursor),
    fault("a refusal changes a word", ROOMY, NO_TREE, |_, _, w| w[LEAF + 8] ^= 1, Kind::Words),
    fault("a refused cursor is cleared", ROOMY, STALE, |_, m, _| *m = Mark::off(0), Kind::Cursor),
];

/// Where node 1 begins in a pool of two trees; it is the first leaf.
const LEAF: usize = 4;

const fn fault(
    name: &'static str,
    nodes: usize,
    calls: &'static [(Op, usize, u32)],
    damage: Damage,
    kind: Kind,
) -> Fault {
    Fault { name, nodes, calls, damage, kind }
}

/// Where a node begins.
fn at(number: u32) -> usize {
    LEAF + 16 * (number as usize - 1)
}

/// Where the parent of the first leaves begins: the root's first child.
fn parent(words: &[u32]) -> usize {
    at(words[at(words[1]) + 8])
}

/// Exchanges two children of one node.
fn swap_children(_: &mut Answer, _: &mut Mark, words: &mut [u32]) {
    let place = parent(words) + 8;
    words.swap(place, place + 1);
}

/// Exchanges the numbers of two leaves, and what stands in them: the tree is the same but for names.
fn swap_numbers(answer: &mut Answer, mark: &mut Mark, words: &mut [u32]) {
    let place = parent(words) + 8;
    let (a, b) = (at(words[place]), at(words[place + 1]));
    (0..16).for_each(|i| words.swap(a + i, b + i));
    swap_children(answer, mark, words);
}

/// Exchanges the two lowest words of the stack.
fn swap_free(_: &mut Answer, _: &mut Mark, words: &mut [u32]) {
    let stack = at(ROOMY as u32 + 1) + 1;
    words.swap(stack, stack + 1);
}

/// Lays each fault on, at each door that its last call goes through; an error if one is not found, or is
/// taken for something else.
pub fn all() -> Result<(), String> {
    for fault in &FAULTS {
        for door in [Door::Public, Door::Core] {
            let called = door == Door::Public || fault.calls != STALE;
            let due = called.then_some(fault.kind);
            let told = lay(fault, door)?;
            if told != due {
                let name = fault.name;
                return Err(format!("fault: {name}, {door:?} call: {told:?} for {due:?}"));
            }
        }
        println!("fault found in {:?}: {}", fault.kind, fault.name);
    }
    Ok(())
}

/// Makes the calls with the damage at the last of them, and tells what the difference was in.
fn lay(fault: &Fault, door: Door) -> Result<Option<Kind>, String> {
    let calls = fault.calls.iter().map(|c| Call::new(c.0, c.1, c.2, 5));
    let calls: Vec<Call> = puts(0, 1..=36).into_iter().chain(calls).collect();
    let name = fault.name.to_string();
    let list = List { name, trees: 2, nodes: fault.nodes, start: None, recorded: false, calls };
    let mut sides = Sides::of(&list).map_err(|d| d.to_string())?;
    let last = list.calls.len() - 1;
    sides.damage = Some((last, door, fault.damage));
    for (i, call) in list.calls.iter().enumerate() {
        match sides.call(call, &mut Tally::default()) {
            Err(d) if i == last => return Ok(Some(d.kind)),
            Err(d) => return Err(format!("fault: {}, before it: {call}: {d}", fault.name)),
            Ok(_) => {}
        }
    }
    Ok(None)
}
