// OpenJPEG's own 5-3 row functions, through bench/rows.c, where bench/openjpeg could build them.

// They work in a row, in place, and add in 32 bits: a sum past that is not theirs to take.
pub struct Rows<T> {
    // A sample with room above it for the sums of every level.
    pub narrow: fn(T) -> T,
    // The row becomes the deepest approximations and the details, deepest first; and back.
    pub forward: fn(row: &mut [T], work: &mut [T], levels: usize),
    pub inverse: fn(row: &mut [T], work: &mut [T], levels: usize),
}

#[cfg(not(openjpeg))]
pub const ROWS: Option<Rows<i32>> = None;

#[cfg(openjpeg)]
pub const ROWS: Option<Rows<i32>> = Some(Rows {
    narrow: |sample| sample >> 8,
    forward: |row, work, levels| over(rows_forward, row, work, levels),
    inverse: |row, work, levels| over(rows_inverse, row, work, levels),
});

#[cfg(openjpeg)]
type Call = unsafe extern "C" fn(row: *mut i32, work: *mut i32, length: u32, levels: u32);

#[cfg(openjpeg)]
unsafe extern "C" {
    fn rows_forward(row: *mut i32, work: *mut i32, length: u32, levels: u32);
    fn rows_inverse(row: *mut i32, work: *mut i32, length: u32, levels: u32);
}

#[cfg(openjpeg)]
fn over(call: Call, row: &mut [i32], work: &mut [i32], levels: usize) {
    assert!(work.len() >= row.len());
    unsafe {
        call(
            row.as_mut_ptr(),
            work.as_mut_ptr(),
            row.len() as u32,
            levels as u32,
        )
    }
}
