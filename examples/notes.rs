// Build and run, from the repository's root (the Rattle kit's rt makes the library):
// rust/library && cargo run -q --offline --manifest-path rust/recorder/Cargo.toml --target-dir target/recorder --example notes
use recorder::{words_for, Found, Pool, Refusal};

fn main() -> Result<(), Refusal> {
    let mut words = [0; words_for(2, 4)];
    let mut pool = Pool::format(&mut words, 2, 4)?;

    // File release notes in tree 0: the note's number, and the tank it is for. Note 9 comes twice.
    for (note, tank) in [(12, 3), (9, 1), (40, 2), (9, 1)] {
        let before = match pool.put(0, note, tank)? {
            Found::Value(_) => "again",
            Found::Nothing => "new",
        };
        println!("put {note}: {before}");
    }

    // Ask for one that is there, one that is not, and a tree that is not.
    for note in [9, 10] {
        match pool.get(0, note)? {
            Found::Value(tank) => println!("get {note}: tank {tank}"),
            Found::Nothing => println!("get {note}: not found"),
        }
    }
    if let Err(refusal) = pool.get(2, 9) {
        println!("get in tree 2: refused with {}", refusal.number());
    }

    // Walk the tree from its least note on.
    for (note, tank) in pool.iter(0)? {
        println!("note {note}: tank {tank}");
    }
    Ok(())
}
