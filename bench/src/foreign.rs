//! The proved library, Boost's tree, and the clock, as C declares them.

use crate::rows::{Point, Row};

/// How a call of the proved library went.
#[repr(C)]
pub struct Outcome {
    pub refusal: u8,
    pub count: usize,
}

type Nearest =
    unsafe extern "C" fn(*const u8, usize, *const Point, usize, usize, *mut Row, usize) -> Outcome;

unsafe extern "C" {
    fn book_picks(file: *const u8, length: usize) -> Outcome;
    fn nearest_euclidean(
        file: *const u8, length: usize, points: *const Point, count: usize, each: usize, rows: *mut Row, room: usize,
    ) -> Outcome;
    fn nearest_manhattan(
        file: *const u8, length: usize, points: *const Point, count: usize, each: usize, rows: *mut Row, room: usize,
    ) -> Outcome;
    fn nearest_chessboard(
        file: *const u8, length: usize, points: *const Point, count: usize, each: usize, rows: *mut Row, room: usize,
    ) -> Outcome;

    fn boost_tree(file: *const u8, length: usize) -> *mut std::ffi::c_void;
    fn boost_free(tree: *mut std::ffi::c_void);
    fn boost_rows(
        tree: *const std::ffi::c_void, queries: *const Point, count: usize, each: usize, ties: bool, rows: *mut Row,
        ends: *mut usize,
    ) -> usize;

    fn clock_gettime(clock: i32, now: *mut [i64; 2]) -> i32;
}

/// Nanoseconds that this thread has had a processor, which other work on the machine does not lengthen.
pub fn nanoseconds() -> f64 {
    let mut now = [0i64; 2];
    // SAFETY: a timespec is two numbers of 64 bits on x86-64 Linux; 3 is CLOCK_THREAD_CPUTIME_ID.
    unsafe { clock_gettime(3, &mut now) };
    now[0] as f64 * 1e9 + now[1] as f64
}

/// The number of picks, or of a refusal.
pub fn proved_picks(file: &[u8]) -> Result<usize, u8> {
    // SAFETY: pointer and length of a slice.
    let outcome = unsafe { book_picks(file.as_ptr(), file.len()) };
    if outcome.refusal == 0 { Ok(outcome.count) } else { Err(outcome.refusal) }
}

/// How many rows were written; 0 on refusal.
pub fn proved_rows(file: &[u8], measure: usize, queries: &[Point], each: usize, rows: &mut [Row]) -> usize {
    let nearest: Nearest = [nearest_euclidean as Nearest, nearest_manhattan, nearest_chessboard][measure];
    // SAFETY: pointers and lengths of slices; a Point and a Row are laid out as C lays them out on both sides.
    let outcome = unsafe {
        nearest(
            file.as_ptr(), file.len(), queries.as_ptr(), queries.len(), each, rows.as_mut_ptr(), rows.len(),
        )
    };
    outcome.count
}

pub struct Boost(*mut std::ffi::c_void);

impl Boost {
    pub fn new(file: &[u8]) -> Boost {
        // SAFETY: the file was decoded before.
        Boost(unsafe { boost_tree(file.as_ptr(), file.len()) })
    }

    pub fn rows(&self, queries: &[Point], each: usize, rows: &mut [Row]) -> usize {
        // SAFETY: the caller gives room for as many rows as all queries can have.
        unsafe {
            boost_rows(self.0, queries.as_ptr(), queries.len(), each, false, rows.as_mut_ptr(), std::ptr::null_mut())
        }
    }

    /// The first rows of each query, and those as far as the last of them; and where each query's rows end.
    pub fn rows_with_ties(&self, queries: &[Point], each: usize, rows: &mut [Row]) -> Vec<usize> {
        let mut ends = vec![0; queries.len()];
        // SAFETY: as above, and an end for each query.
        unsafe {
            boost_rows(self.0, queries.as_ptr(), queries.len(), each, true, rows.as_mut_ptr(), ends.as_mut_ptr())
        };
        ends
    }
}

impl Drop for Boost {
    fn drop(&mut self) {
        // SAFETY: made by boost_tree, and freed once.
        unsafe { boost_free(self.0) }
    }
}
