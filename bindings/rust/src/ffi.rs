//! The exported calls as spoutbeetle.h declares them; it says what they ask of their pointers.
extern "C" {
    pub fn spoutbeetle_check(nodes: *mut i32, nodes_len: usize, rows: *mut u32, rows_len: usize, scratch: *mut u32, scratch_len: usize, n: usize, t: usize, culprit: *mut usize) -> u32;
    pub fn spoutbeetle_refine(nodes: *mut i32, nodes_len: usize, rows: *mut u32, rows_len: usize, scratch: *mut u32, scratch_len: usize, marks: *const u8, marks_len: usize, n0: usize, n: *mut usize, t: *mut usize, culprit: *mut usize) -> u32;
    pub fn spoutbeetle_quarter(nodes: *mut i32, nodes_len: usize, rows: *mut u32, rows_len: usize, scratch: *mut u32, scratch_len: usize, marks: *const u8, marks_len: usize, n0: usize, n: *mut usize, t: *mut usize, culprit: *mut usize) -> u32;
    pub fn spoutbeetle_refine_red(nodes: *mut i32, nodes_len: usize, rows: *mut u32, rows_len: usize, scratch: *mut u32, scratch_len: usize, marks: *const u8, marks_len: usize, n0: usize, n: *mut usize, t: *mut usize, red: *mut u32, culprit: *mut usize) -> u32;
    pub fn spoutbeetle_coarsen(nodes: *mut i32, nodes_len: usize, rows: *mut u32, rows_len: usize, scratch: *mut u32, scratch_len: usize, marks: *const u8, marks_len: usize, n0: usize, n: *mut usize, t: *mut usize, culprit: *mut usize) -> u32;
    pub fn spoutbeetle_set_correction(nodes: *mut i32, nodes_len: usize, rows: *mut u32, rows_len: usize, scratch: *mut u32, scratch_len: usize, n0: usize, n: usize, t: usize, node: usize, dx: i32, dy: i32, culprit: *mut usize) -> u32;
    pub fn spoutbeetle_correction_at(nodes: *const i32, nodes_len: usize, rows: *const u32, rows_len: usize, scratch: *mut u32, scratch_len: usize, n0: usize, n: usize, t: usize, x: i32, y: i32, dx: *mut i32, dy: *mut i32, culprit: *mut usize) -> u32;
    pub fn spoutbeetle_restore(nodes: *mut i32, nodes_len: usize, rows: *mut u32, rows_len: usize, scratch: *mut u32, scratch_len: usize, n0: usize, n: *mut usize, t: *mut usize, passes: *mut usize, culprit: *mut usize) -> u32;
    pub fn spoutbeetle_begin(line: *mut u8, line_len: usize, nodes: *mut i32, nodes_len: usize, rows: *mut u32, rows_len: usize, scratch: *mut u32, scratch_len: usize, out: *mut u8, out_len: usize, used: *mut usize, ended: *mut bool, n: *mut usize, t: *mut usize, n0: *mut usize, accepted: *mut bool, written: *mut usize) -> u32;
    pub fn spoutbeetle_take(piece: *const u8, piece_len: usize, line: *mut u8, line_len: usize, nodes: *mut i32, nodes_len: usize, rows: *mut u32, rows_len: usize, scratch: *mut u32, scratch_len: usize, out: *mut u8, out_len: usize, used: *mut usize, ended: *mut bool, n: *mut usize, t: *mut usize, n0: *mut usize, accepted: *mut bool, taken: *mut usize, written: *mut usize) -> u32;
    pub fn spoutbeetle_end(line: *mut u8, line_len: usize, nodes: *const i32, nodes_len: usize, rows: *const u32, rows_len: usize, scratch: *const u32, scratch_len: usize, out: *mut u8, out_len: usize, used: *mut usize, ended: *mut bool, n: *mut usize, t: *mut usize, n0: *mut usize, accepted: *mut bool, written: *mut usize) -> u32;
}

/// A call that takes marks and has no field of its own.
pub type Marked = unsafe extern "C" fn(*mut i32, usize, *mut u32, usize, *mut u32, usize, *const u8, usize, usize, *mut usize, *mut usize, *mut usize) -> u32;
