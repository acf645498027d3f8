//! The proved calls as safe functions over byte slices, with what the command `release` knows of records.

#[forbid(unsafe_code)]
pub mod diff;
#[forbid(unsafe_code)]
pub mod explain;
#[forbid(unsafe_code)]
pub mod premises;
#[forbid(unsafe_code)]
pub mod record;
#[forbid(unsafe_code)]
pub mod text;

/// A record: its command stream and its text pool.
#[derive(Clone, Copy, Debug)]
pub struct Record<'a> {
    pub stream: &'a [u8],
    pub pool: &'a [u8],
}

/// How a record is read.
#[derive(Clone, Copy, Debug, PartialEq, Eq)]
pub enum Side {
    Current,
    Released,
}

/// What a call answers: a number of document 01 or 02, the side and the place of a refusal, or the place of a broken pointer, and the length
/// of the text.
#[repr(C)]
#[derive(Clone, Copy, Debug, Default, PartialEq, Eq)]
pub struct Answer {
    pub number: u32,
    pub side: u32,
    pub place: usize,
    pub len: usize,
}

/// The owner of a name: its own name as a stretch of the pool, none, or the record's refusal.
#[derive(Clone, Copy, Debug, PartialEq, Eq)]
pub enum Owner {
    Named { start: usize, len: usize },
    Nobody,
    Refused { number: u32, place: usize },
}

/// What a call of a draft answers, with the number of layouts in which draft and copy differ.
#[repr(C)]
#[derive(Clone, Copy, Debug, Default, PartialEq, Eq)]
pub struct DraftAnswer {
    pub answer: Answer,
    pub changed: usize,
}

/// The names and places of up to eight held drafts. Row i has its name in the first `name_lens[i]` of the sixteen bytes of `names` from
/// 16 * i on, and its draft in `lens[i]` bytes of the held buffer from `starts[i]`; it is free where `name_lens[i]` is 0.
#[repr(C)]
#[derive(Clone, Copy, Debug, PartialEq, Eq)]
pub struct Shelf {
    pub names: [u8; 128],
    pub name_lens: [usize; 8],
    pub starts: [usize; 8],
    pub lens: [usize; 8],
}

/// What a call of a shelf answers, with the shelf afterwards and, coming back, the number of layouts in which draft and copy differ.
#[repr(C)]
#[derive(Clone, Copy, Debug, PartialEq, Eq)]
pub struct ShelfAnswer {
    pub answer: Answer,
    pub changed: usize,
    pub shelf: Shelf,
}

#[repr(C)]
struct OwnerAnswer {
    number: u32,
    place: usize,
    owned: u32,
    start: u32,
    len: u32,
}

unsafe extern "C" {
    fn menqachu_check(
        stream: *const u8,
        stream_len: usize,
        pool: *const u8,
        pool_len: usize,
        past: *const u8,
        past_len: usize,
        old: *const u8,
        old_len: usize,
        out: *mut u8,
        out_len: usize,
    ) -> Answer;
    fn menqachu_list(
        released: bool,
        stream: *const u8,
        stream_len: usize,
        pool: *const u8,
        pool_len: usize,
        out: *mut u8,
        out_len: usize,
    ) -> Answer;
    fn menqachu_owner(
        stream: *const u8,
        stream_len: usize,
        pool: *const u8,
        pool_len: usize,
        name: *const u8,
        name_len: usize,
    ) -> OwnerAnswer;
    fn menqachu_pointers(stream: *const u8, stream_len: usize, pool: *const u8, pool_len: usize) -> Answer;
    fn menqachu_load(outcome: u32, seed: u32, out: *mut u8, out_len: usize) -> Answer;
    fn menqachu_pairs_compared(a: *const u8, a_len: usize, b: *const u8, b_len: usize) -> usize;
    fn menqachu_draft_count(
        draft: *const u8,
        draft_len: usize,
        past: *const u8,
        past_len: usize,
        old: *const u8,
        old_len: usize,
    ) -> DraftAnswer;
    fn menqachu_draft_add(
        changed: usize,
        draft: *mut u8,
        draft_len: usize,
        more: *const u8,
        more_len: usize,
        texts: *const u8,
        texts_len: usize,
        past: *const u8,
        past_len: usize,
        old: *const u8,
        old_len: usize,
    ) -> DraftAnswer;
    fn menqachu_draft_remove(
        changed: usize,
        draft: *mut u8,
        draft_len: usize,
        name: *const u8,
        name_len: usize,
        past: *const u8,
        past_len: usize,
        old: *const u8,
        old_len: usize,
    ) -> DraftAnswer;
    fn menqachu_shelf_new() -> Shelf;
    fn menqachu_shelf_set(
        shelf: Shelf,
        name: *const u8,
        name_len: usize,
        draft: *const u8,
        draft_len: usize,
        held: *mut u8,
        held_len: usize,
    ) -> ShelfAnswer;
    fn menqachu_shelf_back(
        shelf: Shelf,
        name: *const u8,
        name_len: usize,
        draft: *mut u8,
        draft_len: usize,
        held: *const u8,
        held_len: usize,
        past: *const u8,
        past_len: usize,
        old: *const u8,
        old_len: usize,
    ) -> ShelfAnswer;
}

/// Checks a current record against a released one; a verdict's message stands at the front of `out`.
pub fn check(current: Record, released: Record, out: &mut [u8]) -> Answer {
    // SAFETY: each pointer comes with the length of its slice, and only `out` is written to.
    unsafe {
        menqachu_check(
            current.stream.as_ptr(),
            current.stream.len(),
            current.pool.as_ptr(),
            current.pool.len(),
            released.stream.as_ptr(),
            released.stream.len(),
            released.pool.as_ptr(),
            released.pool.len(),
            out.as_mut_ptr(),
            out.len(),
        )
    }
}

/// The layouts of a record, one line a field, at the front of `out`.
pub fn list(record: Record, side: Side, out: &mut [u8]) -> Answer {
    let (stream, pool) = (record.stream, record.pool);
    // SAFETY: each pointer comes with the length of its slice, and only `out` is written to.
    unsafe {
        menqachu_list(
            side == Side::Released,
            stream.as_ptr(),
            stream.len(),
            pool.as_ptr(),
            pool.len(),
            out.as_mut_ptr(),
            out.len(),
        )
    }
}

/// The owner of a name in a current record.
pub fn owner(record: Record, name: &[u8]) -> Owner {
    let (stream, pool) = (record.stream, record.pool);
    // SAFETY: each pointer comes with the length of its slice, and nothing is written to.
    let answer = unsafe {
        menqachu_owner(stream.as_ptr(), stream.len(), pool.as_ptr(), pool.len(), name.as_ptr(), name.len())
    };
    if answer.number != 0 {
        return Owner::Refused { number: answer.number, place: answer.place };
    }
    if answer.owned == 0 {
        return Owner::Nobody;
    }
    Owner::Named { start: answer.start as usize, len: answer.len as usize }
}

/// Whether the pointers of a current record name what they must: 0, the record's refusal, or 59 or 60 with the place of the first field that
/// breaks this.
pub fn pointers(record: Record) -> Answer {
    let (stream, pool) = (record.stream, record.pool);
    // SAFETY: each pointer comes with the length of its slice, and nothing is written to.
    unsafe { menqachu_pointers(stream.as_ptr(), stream.len(), pool.as_ptr(), pool.len()) }
}

/// A pair of records whose check gives the wanted outcome, at the front of `out` as the check program's four parts;
/// 61 for an outcome other than those of `record::pair::OUTCOMES`, or a seed above 2147483647.
pub fn load(outcome: u32, seed: u32, out: &mut [u8]) -> Answer {
    // SAFETY: the pointer comes with the length of its slice.
    unsafe { menqachu_load(outcome, seed, out.as_mut_ptr(), out.len()) }
}

/// How many pairs of bytes the comparison of two names looks at: none at unequal lengths, else from the last pair on, up to and with the first
/// unequal one, or all.
pub fn pairs_compared(a: &[u8], b: &[u8]) -> usize {
    // SAFETY: each pointer comes with the length of its slice, and nothing is written to.
    unsafe { menqachu_pairs_compared(a.as_ptr(), a.len(), b.as_ptr(), b.len()) }
}

/// The number of layouts in which a draft and a released record differ. The draft is a record in two parts.
pub fn draft_count(draft: &[u8], released: Record) -> DraftAnswer {
    let (past, old) = (released.stream, released.pool);
    // SAFETY: each pointer comes with the length of its slice, and nothing is written to.
    unsafe {
        menqachu_draft_count(draft.as_ptr(), draft.len(), past.as_ptr(), past.len(), old.as_ptr(), old.len())
    }
}

/// Adds the one structure or family of `addition` to a draft; `changed` is the number that the last call gave.
pub fn draft_add(changed: usize, draft: &mut [u8], addition: Record, released: Record) -> DraftAnswer {
    let (past, old) = (released.stream, released.pool);
    // SAFETY: each pointer comes with the length of its slice, and only `draft` is written to.
    unsafe {
        menqachu_draft_add(
            changed,
            draft.as_mut_ptr(),
            draft.len(),
            addition.stream.as_ptr(),
            addition.stream.len(),
            addition.pool.as_ptr(),
            addition.pool.len(),
            past.as_ptr(),
            past.len(),
            old.as_ptr(),
            old.len(),
        )
    }
}

/// Takes the first structure or family of a name out of a draft, with all its parts.
pub fn draft_remove(changed: usize, draft: &mut [u8], name: &[u8], released: Record) -> DraftAnswer {
    let (past, old) = (released.stream, released.pool);
    // SAFETY: each pointer comes with the length of its slice, and only `draft` is written to.
    unsafe {
        menqachu_draft_remove(
            changed,
            draft.as_mut_ptr(),
            draft.len(),
            name.as_ptr(),
            name.len(),
            past.as_ptr(),
            past.len(),
            old.as_ptr(),
            old.len(),
        )
    }
}

/// A shelf on which no name is held.
pub fn shelf_new() -> Shelf {
    // SAFETY: the call takes nothing.
    unsafe { menqachu_shelf_new() }
}

/// Holds a draft under a name, in place of the one held under it before. Only the calls of a shelf write to `held`, and each gets the shelf
/// that the last one gave.
pub fn shelf_set(shelf: Shelf, name: &[u8], draft: &[u8], held: &mut [u8]) -> ShelfAnswer {
    // SAFETY: each pointer comes with the length of its slice, and only `held` is written to.
    unsafe {
        menqachu_shelf_set(
            shelf,
            name.as_ptr(),
            name.len(),
            draft.as_ptr(),
            draft.len(),
            held.as_mut_ptr(),
            held.len(),
        )
    }
}

/// Puts the draft held under a name at the front of `draft`, and counts the layouts in which it and a released record differ.
pub fn shelf_back(shelf: Shelf, name: &[u8], draft: &mut [u8], held: &[u8], released: Record) -> ShelfAnswer {
    let (past, old) = (released.stream, released.pool);
    // SAFETY: each pointer comes with the length of its slice, and only `draft` is written to.
    unsafe {
        menqachu_shelf_back(
            shelf,
            name.as_ptr(),
            name.len(),
            draft.as_mut_ptr(),
            draft.len(),
            held.as_ptr(),
            held.len(),
            past.as_ptr(),
            past.len(),
            old.as_ptr(),
            old.len(),
        )
    }
}
