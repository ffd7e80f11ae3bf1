//! Beside the published slot assignment: how many searches it made, and which child took a slot in each of them (`--cfg uncounted`, for measuring,
//! notes nothing).
use std::cell::RefCell;

#[derive(Clone, Default)]
pub struct Noted {
    pub searches: usize,
    pub seated: Vec<usize>,
}

thread_local! {
    static NOTED: RefCell<Noted> = RefCell::default();
}

#[inline(always)]
pub fn search() {
    #[cfg(not(uncounted))]
    NOTED.with_borrow_mut(|n| n.searches += 1);
}

#[inline(always)]
pub fn seat(child: usize) {
    let _ = child;
    #[cfg(not(uncounted))]
    NOTED.with_borrow_mut(|n| n.seated.push(child));
}

/// What was noted since it was last asked for.
pub fn take() -> Noted {
    NOTED.take()
}
