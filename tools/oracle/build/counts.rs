//! Counts and trace of the sites, one set in each counted copy.
use std::cell::RefCell;
use std::sync::atomic::{AtomicU64, Ordering::Relaxed};

static COUNTS: [[AtomicU64; 2]; SITES.len()] =
    [const { [AtomicU64::new(0), AtomicU64::new(0)] }; SITES.len()];

/// A decision: site, side, and the last score or projected value computed before it.
pub type Step = (u32, bool, f64);

thread_local! {
    static TRACE: RefCell<Option<Vec<Step>>> = const { RefCell::new(None) };
    static LAST: RefCell<f64> = const { RefCell::new(0.) };
}

fn note(id: usize, taken: bool) {
    COUNTS[id][usize::from(taken)].fetch_add(1, Relaxed);
    TRACE.with_borrow_mut(|trace| {
        if let Some(steps) = trace {
            steps.push((id as u32, taken, LAST.with_borrow(|x| *x)));
        }
    });
}

pub fn hit(id: usize) {
    note(id, true);
}

pub fn side(id: usize, taken: bool) -> bool {
    note(id, taken);
    taken
}

pub fn some<T>(id: usize, option: Option<T>) -> Option<T> {
    note(id, option.is_some());
    option
}

pub fn okay<T, E>(id: usize, result: Result<T, E>) -> Result<T, E> {
    note(id, result.is_ok());
    result
}

pub fn none<T>(id: usize) -> Option<T> {
    note(id, true);
    None
}

/// Remember a score for the trace.
pub fn value(x: f64) -> f64 {
    LAST.with_borrow_mut(|last| *last = x);
    x
}

/// Not taken and taken, for each site, since the program started.
pub fn counts() -> Vec<[u64; 2]> {
    COUNTS.iter().map(|c| [c[0].load(Relaxed), c[1].load(Relaxed)]).collect()
}

/// Start a trace; the next `end_trace` gives the steps.
pub fn start_trace() {
    TRACE.with_borrow_mut(|trace| *trace = Some(Vec::new()));
}

pub fn end_trace() -> Vec<Step> {
    TRACE.with_borrow_mut(Option::take).unwrap_or_default()
}
