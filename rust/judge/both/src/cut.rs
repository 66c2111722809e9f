//! Makes a list that shows a difference shorter, and writes it to a file that can be run again.

use crate::play::{EACH_CALL, Found, play};
use crate::tally::Tally;
use judge::calls::Call;
use judge::lists::List;
use judge::text;
use std::path::Path;
use std::time::{Duration, Instant};

/// Cutting ends after this time, with what there is then.
const TIME: Duration = Duration::from_secs(20);

/// The calls up to a difference.
pub fn until(list: &List, at: usize) -> List {
    with(list, list.calls[..=at.min(list.calls.len() - 1)].to_vec())
}

/// The same list with other calls.
fn with(list: &List, calls: Vec<Call>) -> List {
    List { name: list.name.clone(), start: list.start.clone(), calls, ..*list }
}

/// The list up to its first difference, if it shows one.
fn shows(list: &List) -> Option<List> {
    let found: Option<Found> = play(list, EACH_CALL, &mut Tally::default(), |_, _| {}).err();
    found.map(|f| until(list, f.at))
}

/// Drops calls, first many at once and then single ones, as long as a difference is left.
pub fn cut(list: &List) -> List {
    let start = Instant::now();
    let Some(mut best) = shows(list) else { return until(list, list.calls.len()) };
    let mut part = best.calls.len() / 2;
    while part > 0 {
        let mut from = 0;
        while from < best.calls.len() && start.elapsed() < TIME {
            let to = (from + part).min(best.calls.len());
            let rest = [&best.calls[..from], &best.calls[to..]].concat();
            match Some(with(&best, rest)).filter(|l| !l.calls.is_empty()).and_then(|l| shows(&l)) {
                Some(shorter) => best = shorter,
                None => from = to,
            }
        }
        part /= 2;
    }
    best
}

/// Writes a list below a folder.
pub fn write(folder: &Path, name: &str, list: &List) -> String {
    let path = folder.join(name);
    match std::fs::write(&path, text::list(list)) {
        Ok(()) => format!("{} ({} calls)", path.display(), list.calls.len()),
        Err(e) => format!("not written to {}: {e}", path.display()),
    }
}
