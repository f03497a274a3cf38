//! Lochkave decides, for one operator of a query plan (a sheet), in which order its keys go and where exchanges, merges and sorts go.
//!
//! A sheet is ASCII text; so is the answer. Any bytes may be handed over: each gets an answer or a numbered [`Refusal`].
//! `docs/DECISIONS.md` and `examples/README.md` of the repository describe sheets and answers.
//!
//! ```
//! let sheet = b"K,6,0,0,0,0,0,1\nR,0,2,1\nL\nG\nS\nW\nO\nA\nM\nC\n";
//! let answer = lochkave::decide(sheet).unwrap();
//! assert_eq!(answer, b"k,1,0\nP\nR,0,2,1\nL\nG\nS\nJ\nC,0,2,1\n");
//!
//! let refusal = lochkave::decide(b"K,6\n").unwrap_err();
//! assert_eq!((refusal.number, refusal.line), (2, 1));
//! ```
//!
//! The library is proved; this crate only hands slices over. It keeps no state, so calls from several threads don't meet.

use std::fmt;

/// So many bytes of output suffice for every answer.
pub const ANSWER_MOST: usize = 65536;

/// Why a sheet was not decided. The output lent is then as it was.
#[derive(Clone, Copy, Debug, PartialEq, Eq, Hash)]
pub struct Refusal {
    /// 1 to 12, as in document 01's table.
    pub number: u32,
    /// The sheet's first line is 1; 0 where no one line is to blame.
    pub line: u32,
}

impl Refusal {
    /// What the number stands for.
    pub fn meaning(&self) -> &'static str {
        match self.number {
            1 => "wrong, missing or extra line",
            2 => "malformed field, wrong field count, or a number over the field's largest",
            3 => "beyond a size: 65,536 bytes, 32 entries, 8 children, 256 operators",
            4 => "undefined code, mark, direction or expression",
            5 => "lists that don't fit each other, or an unused list with entries",
            6 => "child count unfit for the operator",
            7 => "target or batch out of range",
            8 => "fact rows or masks that don't fit the sheet",
            9 => "a fact row is needed and missing",
            10 => "a name isn't found after reordering",
            11 => "relationships between children can't be enforced",
            12 => "the answer is longer than the output lent",
            _ => "unknown refusal",
        }
    }
}

impl fmt::Display for Refusal {
    fn fmt(&self, f: &mut fmt::Formatter<'_>) -> fmt::Result {
        match self.line {
            0 => write!(f, "refusal {}: {}", self.number, self.meaning()),
            line => write!(
                f,
                "refusal {} on line {line}: {}",
                self.number,
                self.meaning()
            ),
        }
    }
}

impl std::error::Error for Refusal {}

type Entry = unsafe extern "C" fn(*const u8, usize, *mut u8, usize) -> u64;

unsafe extern "C" {
    fn lochkave_decide(sheet: *const u8, sheet_len: usize, out: *mut u8, out_len: usize) -> u64;
    fn lochkave_adjust_input_keys_ordering(
        sheet: *const u8,
        sheet_len: usize,
        out: *mut u8,
        out_len: usize,
    ) -> u64;
    fn lochkave_reorder_join_keys_to_inputs(
        sheet: *const u8,
        sheet_len: usize,
        out: *mut u8,
        out_len: usize,
    ) -> u64;
    fn lochkave_rewrite(sheet: *const u8, sheet_len: usize, out: *mut u8, out_len: usize) -> u64;
    fn lochkave_ensure_distribution(
        sheet: *const u8,
        sheet_len: usize,
        out: *mut u8,
        out_len: usize,
    ) -> u64;
    fn lochkave_decide_in(
        sheet: *const u8,
        sheet_len: usize,
        fields: *mut [u64; 2],
        fields_len: usize,
        lists: *mut [u64; 64],
        lists_len: usize,
        rows: *mut [u64; 11],
        rows_len: usize,
        xs: *mut [u64; 13],
        xs_len: usize,
        mid: *mut [u64; 11],
        mid_len: usize,
        dst: *mut [u64; 11],
        dst_len: usize,
        masks: *mut u64,
        masks_len: usize,
        index: *mut u64,
        index_len: usize,
        out: *mut u8,
        out_len: usize,
    ) -> u64;
}

/// A result's two halves.
#[inline]
fn told(result: u64) -> Result<usize, Refusal> {
    match (result >> 32) as u32 {
        0 => Ok(result as u32 as usize),
        number => Err(Refusal {
            number,
            line: result as u32,
        }),
    }
}

/// What is asked of a sheet: one of the library's functions.
#[derive(Clone, Copy, Debug, PartialEq, Eq)]
pub enum Question {
    /// Decide any sheet.
    Decide,
    /// Decide a K sheet; any other is refused by 1 on line 1.
    AdjustInputKeysOrdering,
    /// Decide an I sheet; any other is refused by 1 on line 1.
    ReorderJoinKeysToInputs,
    /// Decide a D sheet; any other is refused by 1 on line 1.
    EnsureDistribution,
    /// Write the sheet again from what was read of it: the same bytes.
    Rewrite,
}

impl Question {
    pub const ALL: [Question; 5] = [
        Question::Decide,
        Question::AdjustInputKeysOrdering,
        Question::ReorderJoinKeysToInputs,
        Question::EnsureDistribution,
        Question::Rewrite,
    ];

    fn entry(self) -> Entry {
        match self {
            Question::Decide => lochkave_decide,
            Question::AdjustInputKeysOrdering => lochkave_adjust_input_keys_ordering,
            Question::ReorderJoinKeysToInputs => lochkave_reorder_join_keys_to_inputs,
            Question::EnsureDistribution => lochkave_ensure_distribution,
            Question::Rewrite => lochkave_rewrite,
        }
    }
}

/// Asks a question of a sheet. The answer goes to the front of `out`; the result is its length. Bytes behind it, and all of `out` where
/// the sheet is refused, are as they were.
#[inline]
pub fn ask_into(question: Question, sheet: &[u8], out: &mut [u8]) -> Result<usize, Refusal> {
    let entry = question.entry();
    // Sound for any two slices: the proved contracts ask nothing, a slice's pointer is never null, and a `&mut` slice overlaps no other.
    told(unsafe { entry(sheet.as_ptr(), sheet.len(), out.as_mut_ptr(), out.len()) })
}

/// Decides a sheet into a buffer that the caller lends. Refusal 12 where the answer doesn't fit; [`ANSWER_MOST`] bytes always suffice.
#[inline]
pub fn decide_into(sheet: &[u8], out: &mut [u8]) -> Result<usize, Refusal> {
    ask_into(Question::Decide, sheet, out)
}

/// Decides a sheet.
pub fn decide(sheet: &[u8]) -> Result<Vec<u8>, Refusal> {
    let mut out = vec![0; ANSWER_MOST];
    let length = decide_into(sheet, &mut out)?;
    out.truncate(length);
    Ok(out)
}

/// The rooms' lengths, in the order in which the library takes them.
const LENGTHS: [usize; 8] = [256, 17, 256, 128, 258, 536, 256, 129];

/// The rooms of a decision.
struct Rooms {
    fields: [[u64; 2]; LENGTHS[0]],
    lists: [[u64; 64]; LENGTHS[1]],
    rows: [[u64; 11]; LENGTHS[2]],
    xs: [[u64; 13]; LENGTHS[3]],
    mid: [[u64; 11]; LENGTHS[4]],
    dst: [[u64; 11]; LENGTHS[5]],
    masks: [u64; LENGTHS[6]],
    index: [u64; LENGTHS[7]],
}

impl Rooms {
    /// The library's result, with so much lent of each room. Sound for any slices where no length is above its array's, as in `ask_into`:
    /// the rooms are arrays of their own, and any numbers may stand in them.
    #[inline]
    unsafe fn lend(&mut self, lengths: [usize; 8], sheet: &[u8], out: &mut [u8]) -> u64 {
        unsafe {
            lochkave_decide_in(
                sheet.as_ptr(),
                sheet.len(),
                self.fields.as_mut_ptr(),
                lengths[0],
                self.lists.as_mut_ptr(),
                lengths[1],
                self.rows.as_mut_ptr(),
                lengths[2],
                self.xs.as_mut_ptr(),
                lengths[3],
                self.mid.as_mut_ptr(),
                lengths[4],
                self.dst.as_mut_ptr(),
                lengths[5],
                self.masks.as_mut_ptr(),
                lengths[6],
                self.index.as_mut_ptr(),
                lengths[7],
                out.as_mut_ptr(),
                out.len(),
            )
        }
    }
}

/// Room for any decision, made once and lent to one after the other: [`decide_into`] clears its own on every call.
///
/// What a decision leaves in it has no part in the next one's answer. Threads that decide at once have a room each.
///
/// ```
/// let (mut room, mut out) = (lochkave::Room::new(), [0; lochkave::ANSWER_MOST]);
/// let sheet = b"K,6,0,0,0,0,0,1\nR,0,2,1\nL\nG\nS\nW\nO\nA\nM\nC\n";
/// for _ in 0..2 {
///     let length = room.decide_into(sheet, &mut out).unwrap();
///     assert_eq!(&out[..length], b"k,1,0\nP\nR,0,2,1\nL\nG\nS\nJ\nC,0,2,1\n");
/// }
/// ```
pub struct Room(Box<Rooms>);

impl Room {
    pub fn new() -> Room {
        Room::filled(0)
    }

    fn filled(number: u64) -> Room {
        Room(Box::new(Rooms {
            fields: [[number; 2]; LENGTHS[0]],
            lists: [[number; 64]; LENGTHS[1]],
            rows: [[number; 11]; LENGTHS[2]],
            xs: [[number; 13]; LENGTHS[3]],
            mid: [[number; 11]; LENGTHS[4]],
            dst: [[number; 11]; LENGTHS[5]],
            masks: [number; LENGTHS[6]],
            index: [number; LENGTHS[7]],
        }))
    }

    /// Decides a sheet as [`decide_into`] does, in this room.
    #[inline]
    pub fn decide_into(&mut self, sheet: &[u8], out: &mut [u8]) -> Result<usize, Refusal> {
        // Sound: these are the arrays' lengths.
        told(unsafe { self.0.lend(LENGTHS, sheet, out) })
    }
}

impl Default for Room {
    fn default() -> Room {
        Room::new()
    }
}

#[cfg(test)]
mod tests {
    use super::*;

    /// The sheets of examples/: of all three kinds, accepted and refused.
    fn sheets() -> Vec<Vec<u8>> {
        let examples = ::sheets::examples().into_iter();
        examples.map(|example| example.sheet).collect()
    }

    /// The same result, and every byte of the output the same, with much room for the answer and with little.
    fn same(room: &mut Room, sheet: &[u8]) -> Result<usize, Refusal> {
        for length in [20, ANSWER_MOST] {
            let (mut own, mut lent) = (vec![126; length], vec![126; length]);
            let result = decide_into(sheet, &mut own);
            assert_eq!(room.decide_into(sheet, &mut lent), result);
            assert!(own == lent, "{}", String::from_utf8_lossy(sheet));
        }
        decide_into(sheet, &mut vec![0; ANSWER_MOST])
    }

    #[test]
    fn one_room_for_every_sheet() {
        let mut room = Room::new();
        let mut seen = std::collections::BTreeSet::new();
        for sheet in sheets() {
            let decided = same(&mut room, &sheet).is_ok();
            seen.insert((sheet.first().copied(), decided));
        }
        for kind in *b"KID" {
            assert!(seen.contains(&(Some(kind), true)) && seen.contains(&(Some(kind), false)));
        }
    }

    #[test]
    fn what_the_room_holds_changes_nothing() {
        for sheet in sheets() {
            let _ = same(&mut Room::filled(u64::MAX), &sheet);
        }
    }

    /// Each room one short of what suffices, and none at all: the library then takes its own.
    #[test]
    fn rooms_that_are_too_short() {
        let one_less = |short: usize| {
            let mut lengths = LENGTHS;
            lengths[short] -= 1;
            lengths
        };
        let cases: Vec<_> = (0..LENGTHS.len()).map(one_less).chain([[0; LENGTHS.len()]]).collect();
        let mut room = Room::filled(7);
        for sheet in sheets() {
            let mut own = vec![126; ANSWER_MOST];
            let result = decide_into(&sheet, &mut own);
            for lengths in &cases {
                let mut lent = vec![126; ANSWER_MOST];
                // Sound: no length is above its array's.
                let told = told(unsafe { room.0.lend(*lengths, &sheet, &mut lent) });
                assert_eq!(told, result);
                assert!(own == lent, "{}", String::from_utf8_lossy(&sheet));
            }
        }
    }
}
