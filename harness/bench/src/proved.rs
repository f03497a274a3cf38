//! The proved functions, as `libbench.a` exports them and as the crate `lochkave` hands them on. Nothing checks these
//! declarations against the Rattle source; the comparing runs do.

/// A line that was found: the place after it, the number of its fields, the largest of their states
/// (0 a number, 1 empty, 2 malformed) and the largest of their values. All 0 where there is none.
#[repr(C)]
#[derive(Clone, Copy, Debug, PartialEq, Eq)]
pub struct Found {
    pub next: u64,
    pub count: u64,
    pub worst: u64,
    pub largest: u64,
}

// A slice of Rattle is a pointer and a length in elements, two arguments one after the other.
unsafe extern "C" {
    fn bench_line_at(
        s: *const u8,
        s_len: usize,
        at: usize,
        letter: u8,
        out: *mut [u64; 2],
        out_len: usize,
    ) -> Found;
    fn bench_put_line(
        out: *mut u8,
        out_len: usize,
        at: usize,
        letter: u8,
        rows: *const [u64; 2],
        rows_len: usize,
    ) -> u64;
    fn bench_try_reorder(
        w: *const [u64; 2],
        w_len: usize,
        r: *const u64,
        r_len: usize,
        l: *const u64,
        l_len: usize,
        g: *const u64,
        g_len: usize,
        left: *mut u64,
        left_len: usize,
        right: *mut u64,
        right_len: usize,
    ) -> u64;
}

pub fn line_at(s: &[u8], at: usize, letter: u8, out: &mut [[u64; 2]]) -> Found {
    // Sound for any slices: the contract has no `requires`.
    unsafe { bench_line_at(s.as_ptr(), s.len(), at, letter, out.as_mut_ptr(), out.len()) }
}

/// The place after the line; 0, and nothing written, where there is no room for it.
pub fn put_line(out: &mut [u8], at: usize, letter: u8, rows: &[[u64; 2]]) -> u64 {
    // Sound for any slices: the contract has no `requires`.
    unsafe {
        bench_put_line(
            out.as_mut_ptr(),
            out.len(),
            at,
            letter,
            rows.as_ptr(),
            rows.len(),
        )
    }
}

/// The report (1 met, 2 moved, 3 impossible), and the moved keys in the room lent where it is 2.
pub fn try_reorder(
    w: &[[u64; 2]],
    r: &[u64],
    l: &[u64],
    g: &[u64],
    left: &mut [u64; 32],
    right: &mut [u64; 32],
) -> u64 {
    // Sound for any slices: the contract has no `requires`.
    unsafe {
        bench_try_reorder(
            w.as_ptr(),
            w.len(),
            r.as_ptr(),
            r.len(),
            l.as_ptr(),
            l.len(),
            g.as_ptr(),
            g.len(),
            left.as_mut_ptr(),
            32,
            right.as_mut_ptr(),
            32,
        )
    }
}

/// A refusal's number times 2^32 plus its line, or the count of bytes written.
pub fn decide(sheet: &[u8], out: &mut [u8]) -> u64 {
    match lochkave::decide_into(sheet, out) {
        Ok(length) => length as u64,
        Err(refusal) => plain::refused(refusal.number.into(), refusal.line as usize),
    }
}
