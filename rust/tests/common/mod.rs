//! What the tests share: the bench sheet as the document prints it.

/// The bench sheet's text.
pub const SHEET: &str = "design\t7\t7\t2\t200\npin\tR\t0\t10\npin\tB\npin\tK\npin\tK\npin\tI\t5\t20\npin\tD\npin\tD\narc\t0\t1\t40\t60\narc\t1\t2\t10\t15\n\
arc\t1\t3\t20\t30\narc\t2\t5\t100\t130\narc\t3\t5\t90\t120\narc\t4\t6\t30\t50\narc\t5\t6\t10\t20\ntest\t3\t6\t25\t12\ntest\t2\t5\t20\t10\nask\tsetup\t3\n";

/// The table that the document's layout gives for it: 61 numbers (P8).
pub const TABLE: [u32; 61] = [
    7, 7, 2, 200, // P, A, T, period
    0, 0, 10, 1, 0, 0, 2, 0, 0, 2, 0, 0, 3, 5, 20, 4, 0, 0, 4, 0, 0, // pins
    0, 1, 40, 60, 1, 2, 10, 15, 1, 3, 20, 30, 2, 5, 100, 130, 3, 5, 90, 120, 4, 6, 30, 50, 5, 6, 10, 20, // arcs
    3, 6, 25, 12, 2, 5, 20, 10, // tests
];

/// A room filled with a number that no row has.
#[allow(dead_code)]
pub fn room(length: usize) -> Vec<i64> {
    vec![-777; length]
}

/// A work area that was used for something else.
#[allow(dead_code)]
pub fn work(length: usize) -> Vec<u64> {
    vec![u64::MAX; length]
}
