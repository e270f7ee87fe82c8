//! The proved leaves, out of liblook.a.

extern "C" {
    fn look_plain(row: *const i32, row_length: usize, v: *const i64, v_length: usize) -> usize;
    fn look_kept(
        row: *const i32,
        row_length: usize,
        v: *const i64,
        v_length: usize,
        i: usize,
        kept: *mut u32,
        kept_length: usize,
        limits: *mut i64,
        limits_length: usize,
    ) -> usize;
    fn look_forget(limits: *mut i64, limits_length: usize);
}

/// The column of the lowest, by the leaf that reads the row.
pub fn plain(row: &[i32], v: &[i64]) -> usize {
    assert!(!row.is_empty() && v.len() == row.len());
    unsafe { look_plain(row.as_ptr(), row.len(), v.as_ptr(), v.len()) }
}

/// What is kept of n rows of n columns.
pub struct Room {
    n: usize,
    kept: Vec<u32>,
    limits: Vec<i64>,
}

impl Room {
    pub fn new(n: usize) -> Self {
        let mut room = Room { n, kept: vec![0; 3 * n], limits: vec![0; n] };
        unsafe { look_forget(room.limits.as_mut_ptr(), n) };
        room
    }

    /// The column of the lowest of row i. Since the room was made no price may have risen.
    pub fn look(&mut self, row: &[i32], v: &[i64], i: usize) -> usize {
        assert!(row.len() == self.n && v.len() == self.n && i < self.n);
        let (kept, limits) = (&mut self.kept, &mut self.limits);
        unsafe {
            look_kept(
                row.as_ptr(),
                row.len(),
                v.as_ptr(),
                v.len(),
                i,
                kept.as_mut_ptr(),
                kept.len(),
                limits.as_mut_ptr(),
                limits.len(),
            )
        }
    }
}
