//! How many rounds the published loops took. `state.rs` traces one line at the end of each round of
//! `live_set` and of `caps` but the last, which adds nothing; the stand-in for `tracing` sends those lines
//! here. Document 02 (#111) counts rounds "as the Rust's loops have it", and nothing else shows them.
use std::cell::Cell;

#[derive(Clone, Copy, Debug, Default, PartialEq, Eq)]
pub struct Rounds {
    pub live: usize,
    pub caps: usize,
}

thread_local! {
    static TRACED: Cell<Rounds> = const { Cell::new(Rounds { live: 0, caps: 0 }) };
}

/// One traced line. Called by what `trace!` expands to.
pub(crate) fn traced(message: &str) {
    let mut traced = TRACED.get();
    match message {
        "live fixpoint round" => traced.live += 1,
        "cap ascent round" => traced.caps += 1,
        _ => panic!("state.rs traces a line that is not known here: {message}"),
    }
    TRACED.set(traced);
}

/// The rounds of the one evaluation that `f` causes on this thread.
pub fn counted<T>(f: impl FnOnce() -> T) -> (T, Rounds) {
    TRACED.set(Rounds::default());
    let answer = f();
    let Rounds { live, caps } = TRACED.get();
    let rounds = Rounds { live: live + 1, caps: caps + 1 };
    (answer, rounds)
}
