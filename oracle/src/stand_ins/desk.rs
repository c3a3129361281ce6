//! The desk between the driver and the stand-ins: what a frame lends, and what was noted while it ran.

use crate::TrackedObject;
use std::cell::{Cell, RefCell};
use std::rc::Rc;

/// Makes a ReID matrix, candidates by old ones, row by row, from the global IDs of both (old ones first).
pub type ReidMaker = Box<dyn FnMut(&[i32], &[i32]) -> Vec<f64>>;

/// The ReID call of a frame: who was in it, the entries, and the records as they then were.
pub struct ReidCall {
    pub candidates: Vec<i32>,
    pub old: Vec<i32>,
    pub entries: Vec<f64>,
    pub records: Vec<TrackedObject>,
}

/// One frame's desk.
#[derive(Default)]
pub struct Desk {
    pub distances: Rc<Vec<f64>>,
    pub columns: usize,
    /// The hits in order: global ID and detection number.
    pub hits: Vec<(i32, usize)>,
    pub maker: Option<ReidMaker>,
    pub call: Option<ReidCall>,
    /// Whether the ReID call keeps clones of its records; the pace does without.
    pub keep_records: bool,
}

thread_local! {
    static DESK: RefCell<Desk> = RefCell::new(Desk::default());
    static ASKED: Cell<usize> = const { Cell::new(usize::MAX) };
}

pub fn with<T>(act: impl FnOnce(&mut Desk) -> T) -> T {
    DESK.with(|desk| act(&mut desk.borrow_mut()))
}

/// Notes which detection was asked about last.
pub fn ask(number: usize) {
    ASKED.with(|asked| asked.set(number));
}

pub fn asked() -> usize {
    ASKED.with(|asked| asked.get())
}
