//! The piece book from Rust: safe calls over `include/piecebook.h`. Link with libpiecebook.a.
//!
//! The slices give the C interface all that it asks for: a length with each pointer, and lent buffers that do not overlap. What is left to the caller is 1 MiB of stack.

/// The numbers of a matrix.
pub const MATRIX: usize = 65536;

/// What the calls work in: six matrices, on the heap. What it holds does not matter to a call, and is free after it; it serves any number of calls, one at a time.
pub struct Workspace {
    numbers: Vec<u64>,
    gap: usize,
}

impl Workspace {
    pub fn new() -> Workspace {
        Workspace::with_gaps(0)
    }

    /// The same with so many numbers before each matrix and behind the last, which no call reads or writes.
    pub fn with_gaps(gap: usize) -> Workspace {
        // never an array on the stack
        Workspace { numbers: vec![0; 6 * (gap + MATRIX) + gap], gap }
    }

    /// All its numbers: six times a gap and a matrix, and a gap.
    pub fn numbers(&mut self) -> &mut [u64] {
        &mut self.numbers
    }

    /// The six matrices; each leads to `MATRIX` numbers, and no two overlap.
    fn matrices(&mut self) -> [*mut u64; 6] {
        let mut rest = self.numbers.chunks_exact_mut(self.gap + MATRIX);
        [(); 6].map(|()| rest.next().expect("six of them")[self.gap..].as_mut_ptr())
    }
}

impl Default for Workspace {
    fn default() -> Workspace {
        Workspace::new()
    }
}

/// What a call returns. `number` is 0 for an accepted book, or the number of the refusal, whose record or claim is `place`; the counts are 0
/// for a refusal. Pieces that lie in each other through a circle of records have one node.
#[repr(C)]
#[derive(Clone, Copy, Debug, PartialEq, Eq)]
pub struct Outcome {
    pub number: usize,
    pub place: usize,
    pub pieces: usize,
    pub nodes: usize,
    pub shadows: usize,
}

/// What a conversion returns. `number` is 0 where a new book of `length` bytes was written, or the number of the refusal, whose record is `place`; number 8, for a
/// container whose number is not below its part's, is given by no other call.
#[repr(C)]
#[derive(Clone, Copy, Debug, PartialEq, Eq)]
pub struct Converted {
    pub number: usize,
    pub place: usize,
    pub length: usize,
}

/// The least lengths of the four parts of an index; shorter ones are refused by number 1.
pub const PARENTHESES: usize = 2560;
pub const MARKS: usize = 1280;
pub const SHADOWS: usize = 8192;
pub const PLACES: usize = 2048;

/// The answer bytes.
pub const FOLLOWS: u8 = 1;
pub const DENIED: u8 = 2;
pub const OPEN: u8 = 3;

/// The four parts of an index, as the caller lends them. Pieces in a circle have the same place.
pub struct Parts<'a> {
    pub parentheses: &'a mut [u8],
    pub marks: &'a mut [u8],
    pub shadows: &'a mut [u16],
    pub places: &'a mut [u16],
}

/// Answers the claims, one byte each at the front of `answers`, and writes the index.
pub fn answer(workspace: &mut Workspace, book: &[u8], claims: &[u8], index: &mut Parts, answers: &mut [u8]) -> Outcome {
    let [e, d, t, u, p, q] = workspace.matrices();
    // SAFETY: each pointer comes with the length of its slice, exclusive slices do not overlap, and the matrices are the workspace's own.
    unsafe {
        piecebook_answer_with(
            book.as_ptr(),
            book.len(),
            claims.as_ptr(),
            claims.len(),
            index.parentheses.as_mut_ptr(),
            index.parentheses.len(),
            index.marks.as_mut_ptr(),
            index.marks.len(),
            index.shadows.as_mut_ptr(),
            index.shadows.len(),
            index.places.as_mut_ptr(),
            index.places.len(),
            answers.as_mut_ptr(),
            answers.len(),
            e,
            d,
            t,
            u,
            p,
            q,
        )
    }
}

/// Writes the index alone.
pub fn index(workspace: &mut Workspace, book: &[u8], index: &mut Parts) -> Outcome {
    let [e, d, t, u, p, q] = workspace.matrices();
    // SAFETY: as above.
    unsafe {
        piecebook_index_with(
            book.as_ptr(),
            book.len(),
            index.parentheses.as_mut_ptr(),
            index.parentheses.len(),
            index.marks.as_mut_ptr(),
            index.marks.len(),
            index.shadows.as_mut_ptr(),
            index.shadows.len(),
            index.places.as_mut_ptr(),
            index.places.len(),
            e,
            d,
            t,
            u,
            p,
            q,
        )
    }
}

/// Writes a book of the former edition without its TRAY records to the front of `out`.
pub fn convert(workspace: &mut Workspace, book: &[u8], out: &mut [u8]) -> Converted {
    let [e, d, t, ..] = workspace.matrices();
    // SAFETY: as above.
    unsafe { piecebook_convert_with(book.as_ptr(), book.len(), out.as_mut_ptr(), out.len(), e, d, t) }
}

/// Four grids of bits, one for each kind of claim; `number` and `place` as for an index, or 16 for more than 64 pieces.
#[repr(C)]
#[derive(Clone, Copy, Debug, PartialEq, Eq)]
pub struct Grids {
    pub number: usize,
    pub place: usize,
    pub part: [u64; 64],
    pub apart: [u64; 64],
    pub meets: [u64; 64],
    pub notpart: [u64; 64],
}

/// The grids of a book of at most 64 pieces.
pub fn grid(workspace: &mut Workspace, book: &[u8]) -> Grids {
    let [e, d, t, ..] = workspace.matrices();
    // SAFETY: as above.
    unsafe { piecebook_grid_with(book.as_ptr(), book.len(), e, d, t) }
}

/// The least length of a working book's record area.
pub const AREA: usize = 49152;

/// The counts of a working book.
#[repr(C)]
#[derive(Clone, Copy, Debug, PartialEq, Eq)]
pub struct Working {
    pub records: usize,
    pub pieces: usize,
}

/// What a call on a working book returns; `answer` is 0 but for an answered claim.
#[repr(C)]
#[derive(Clone, Copy, Debug, PartialEq, Eq)]
pub struct WorkingOutcome {
    pub number: usize,
    pub place: usize,
    pub answer: usize,
}

impl Working {
    /// Begins with no records.
    pub fn start(&mut self, workspace: &mut Workspace, area: &mut [u8]) -> WorkingOutcome {
        let [e, d, t, ..] = workspace.matrices();
        // SAFETY: as above.
        unsafe { piecebook_start_with(self, area.as_mut_ptr(), area.len(), e, d, t) }
    }

    /// Adds a record.
    pub fn add(&mut self, workspace: &mut Workspace, area: &mut [u8], record: &[u8]) -> WorkingOutcome {
        let [e, d, t, ..] = workspace.matrices();
        // SAFETY: as above.
        unsafe { piecebook_add_with(self, area.as_mut_ptr(), area.len(), record.as_ptr(), record.len(), e, d, t) }
    }

    /// Withdraws a record by its number.
    pub fn withdraw(&mut self, workspace: &mut Workspace, area: &mut [u8], number: usize) -> WorkingOutcome {
        let [e, d, t, ..] = workspace.matrices();
        // SAFETY: as above.
        unsafe { piecebook_withdraw_with(self, area.as_mut_ptr(), area.len(), number, e, d, t) }
    }

    /// Answers one claim.
    pub fn ask(&mut self, workspace: &mut Workspace, area: &[u8], claim: &[u8]) -> WorkingOutcome {
        let [e, d, t, u, p, q] = workspace.matrices();
        // SAFETY: as above.
        unsafe { piecebook_ask_with(self, area.as_ptr(), area.len(), claim.as_ptr(), claim.len(), e, d, t, u, p, q) }
    }
}

/// The least lengths of a list of pieces and of an area of pairs; shorter ones are refused by number 17.
pub const LIST: usize = 2048;
pub const PAIRS: usize = 16384;

/// What a catalog returns. `listed` counts pieces, `meets`, `apart` and `notpart` count pairs.
#[repr(C)]
#[derive(Clone, Copy, Debug, Default, PartialEq, Eq)]
pub struct Cataloged {
    pub number: usize,
    pub place: usize,
    pub pieces: usize,
    pub nodes: usize,
    pub shadows: usize,
    pub listed: usize,
    pub meets: usize,
    pub apart: usize,
    pub notpart: usize,
}

/// A list of pieces, and the areas of stored facts as pairs of places, row then column, as the caller lends them.
pub struct Areas<'a> {
    pub list: &'a mut [u16],
    pub meets: &'a mut [u16],
    pub apart: &'a mut [u16],
    pub notpart: &'a mut [u16],
}

/// A range of places, ends included; empty where `from` is above `to`.
#[repr(C)]
#[derive(Clone, Copy, Debug, PartialEq, Eq)]
pub struct Range {
    pub from: usize,
    pub to: usize,
}

/// Lists the pieces that certainly are PART of a piece (kind 1), APART from it (2) or MEET it (3), and writes the index and the areas.
pub fn catalog(workspace: &mut Workspace, book: &[u8], kind: usize, piece: usize, index: &mut Parts, areas: &mut Areas) -> Cataloged {
    let [e, d, t, ..] = workspace.matrices();
    // SAFETY: as above.
    unsafe {
        piecebook_catalog_with(
            book.as_ptr(),
            book.len(),
            kind,
            piece,
            index.parentheses.as_mut_ptr(),
            index.parentheses.len(),
            index.marks.as_mut_ptr(),
            index.marks.len(),
            index.shadows.as_mut_ptr(),
            index.shadows.len(),
            index.places.as_mut_ptr(),
            index.places.len(),
            areas.list.as_mut_ptr(),
            areas.list.len(),
            areas.meets.as_mut_ptr(),
            areas.meets.len(),
            areas.apart.as_mut_ptr(),
            areas.apart.len(),
            areas.notpart.as_mut_ptr(),
            areas.notpart.len(),
            e,
            d,
            t,
        )
    }
}

/// Whether an area of so many pairs has one in these rows and columns; of an unordered kind in either order.
pub fn fact_between(area: &[u16], count: usize, unordered: bool, rows: Range, columns: Range) -> bool {
    // SAFETY: as above.
    let answer = unsafe {
        piecebook_fact_between(area.as_ptr(), area.len(), count, usize::from(unordered), rows.from, rows.to, columns.from, columns.to)
    };
    assert!(answer <= 1);
    answer == 1
}

/// The places of a piece's node and of what hangs below it.
pub fn subtree(parentheses: &[u8], places: &[u16], piece: usize) -> Range {
    // SAFETY: as above.
    unsafe { piecebook_subtree(parentheses.as_ptr(), parentheses.len(), places.as_ptr(), places.len(), piece) }
}

/// The up to 31 entries before a part of the measurement log, oldest first; `count` is 0 at first.
#[repr(C)]
#[derive(Clone, Copy, Debug, PartialEq, Eq)]
pub struct Window {
    pub pieces: [u16; 31],
    pub count: usize,
}

/// What a part of the log comes to, and the window to hand to the next.
#[repr(C)]
#[derive(Clone, Copy, Debug, PartialEq, Eq)]
pub struct Replicated {
    pub number: usize,
    pub place: usize,
    pub window: Window,
}

/// Writes two bytes for each entry of a part of the log: how many of the up to 31 before it are certainly APART from it, and whether every two are.
pub fn replicates(workspace: &mut Workspace, book: &[u8], window: Window, log: &[u8], out: &mut [u8]) -> Replicated {
    let [e, d, t, u, ..] = workspace.matrices();
    // SAFETY: as above.
    unsafe {
        piecebook_replicates_with(book.as_ptr(), book.len(), window, log.as_ptr(), log.len(), out.as_mut_ptr(), out.len(), e, d, t, u)
    }
}

/// What two books come to: `book` is 1 or 2 for a refusal of theirs, and `together` 1 where their records can be laid in ice together.
#[repr(C)]
#[derive(Clone, Copy, Debug, PartialEq, Eq)]
pub struct Compared {
    pub number: usize,
    pub place: usize,
    pub book: usize,
    pub together: usize,
}

/// Writes three bytes for each claim: both answers, then 1 SAME, 2 ONE OPEN or 3 OPPOSED.
pub fn compare(workspace: &mut Workspace, first: &[u8], second: &[u8], claims: &[u8], out: &mut [u8]) -> Compared {
    let [e, d, t, u, p, q] = workspace.matrices();
    // SAFETY: as above.
    unsafe {
        piecebook_compare_with(
            first.as_ptr(),
            first.len(),
            second.as_ptr(),
            second.len(),
            claims.as_ptr(),
            claims.len(),
            out.as_mut_ptr(),
            out.len(),
            e,
            d,
            t,
            u,
            p,
            q,
        )
    }
}

/// The forms of text, and the least lengths of what each is read into.
pub const RECORDS: usize = 0;
pub const CLAIMS: usize = 1;
pub const LOG: usize = 2;
pub const FORM_BYTES: [usize; 3] = [49158, 24582, 65538];

/// What a reading returns. `number` is 0 for a text that was read into `length` bytes, or the reason why it cannot be, whose line is `line`; 6 is for a short output, 7 for a form that is none.
#[repr(C)]
#[derive(Clone, Copy, Debug, PartialEq, Eq)]
pub struct Reading {
    pub number: usize,
    pub line: usize,
    pub length: usize,
}

/// Reads a text into the front of `out`.
pub fn read_text(form: usize, text: &[u8], out: &mut [u8]) -> Reading {
    // SAFETY: each pointer comes with the length of its slice, and an exclusive slice overlaps none.
    unsafe { piecebook_read_text(form, text.as_ptr(), text.len(), out.as_mut_ptr(), out.len()) }
}

/// The line that an entry was read from, counted from 1, or 0.
pub fn text_line(text: &[u8], entry: usize) -> usize {
    // SAFETY: as above.
    unsafe { piecebook_text_line(text.as_ptr(), text.len(), entry) }
}

/// So many bytes for each record always are enough for a page.
pub const SHOWN_BYTES: usize = 28;

/// What a shown page returns. `number` is 0 for a text of `length` bytes, or 1 for a page that is too short.
#[repr(C)]
#[derive(Clone, Copy, Debug, PartialEq, Eq)]
pub struct Shown {
    pub number: usize,
    pub length: usize,
}

/// Writes a book as text to the front of a page.
pub fn show(book: &[u8], page: &mut [u8]) -> Shown {
    // SAFETY: as above.
    unsafe { piecebook_show(book.as_ptr(), book.len(), page.as_mut_ptr(), page.len()) }
}

/// The same of claims.
pub fn show_claims(claims: &[u8], page: &mut [u8]) -> Shown {
    // SAFETY: as above.
    unsafe { piecebook_show_claims(claims.as_ptr(), claims.len(), page.as_mut_ptr(), page.len()) }
}

extern "C" {
    fn piecebook_compare_with(
        first: *const u8,
        first_length: usize,
        second: *const u8,
        second_length: usize,
        claims: *const u8,
        claims_length: usize,
        out: *mut u8,
        out_length: usize,
        e: *mut u64,
        d: *mut u64,
        t: *mut u64,
        u: *mut u64,
        p: *mut u64,
        q: *mut u64,
    ) -> Compared;
}

/// What the writer of chains comes to: the answer, and how many steps it wrote.
#[repr(C)]
#[derive(Clone, Copy, Debug, PartialEq, Eq)]
pub struct Chained {
    pub number: usize,
    pub place: usize,
    pub answer: usize,
    pub steps: usize,
}

/// Writes the chain behind the answer to one claim, ten bytes a step.
pub fn chain(workspace: &mut Workspace, book: &[u8], claim: &[u8], steps: &mut [u8]) -> Chained {
    let [e, d, t, ..] = workspace.matrices();
    // SAFETY: as above.
    unsafe { piecebook_chain_with(book.as_ptr(), book.len(), claim.as_ptr(), claim.len(), steps.as_mut_ptr(), steps.len(), e, d, t) }
}

/// 1 where the steps are a chain behind the answer to the claim, else 0.
pub fn chain_check(workspace: &mut Workspace, book: &[u8], claim: &[u8], steps: &[u8]) -> usize {
    let [e, d, t, ..] = workspace.matrices();
    // SAFETY: as above.
    unsafe { piecebook_chain_check_with(book.as_ptr(), book.len(), claim.as_ptr(), claim.len(), steps.as_ptr(), steps.len(), e, d, t) }
}

/// What the writer of the chain behind a contradiction comes to: `number` is 14 where it wrote steps.
#[repr(C)]
#[derive(Clone, Copy, Debug, PartialEq, Eq)]
pub struct Clashed {
    pub number: usize,
    pub place: usize,
    pub steps: usize,
}

/// Writes the chain to the opposite of the record at which the book becomes contradictory, ten bytes a step.
pub fn clash(workspace: &mut Workspace, book: &[u8], steps: &mut [u8]) -> Clashed {
    let [e, d, t, ..] = workspace.matrices();
    // SAFETY: as above.
    unsafe { piecebook_clash_with(book.as_ptr(), book.len(), steps.as_mut_ptr(), steps.len(), e, d, t) }
}

/// 1 where the steps are such a chain, else 0.
pub fn clash_check(workspace: &mut Workspace, book: &[u8], steps: &[u8]) -> usize {
    let [e, d, t, ..] = workspace.matrices();
    // SAFETY: as above.
    unsafe { piecebook_clash_check_with(book.as_ptr(), book.len(), steps.as_ptr(), steps.len(), e, d, t) }
}

extern "C" {
    fn piecebook_clash_with(
        book: *const u8,
        book_length: usize,
        steps: *mut u8,
        steps_length: usize,
        e: *mut u64,
        d: *mut u64,
        t: *mut u64,
    ) -> Clashed;

    fn piecebook_clash_check_with(
        book: *const u8,
        book_length: usize,
        steps: *const u8,
        steps_length: usize,
        e: *mut u64,
        d: *mut u64,
        t: *mut u64,
    ) -> usize;

    fn piecebook_chain_with(
        book: *const u8,
        book_length: usize,
        claim: *const u8,
        claim_length: usize,
        steps: *mut u8,
        steps_length: usize,
        e: *mut u64,
        d: *mut u64,
        t: *mut u64,
    ) -> Chained;

    fn piecebook_chain_check_with(
        book: *const u8,
        book_length: usize,
        claim: *const u8,
        claim_length: usize,
        steps: *const u8,
        steps_length: usize,
        e: *mut u64,
        d: *mut u64,
        t: *mut u64,
    ) -> usize;

    fn piecebook_catalog_with(
        book: *const u8,
        book_length: usize,
        kind: usize,
        piece: usize,
        parentheses: *mut u8,
        parentheses_length: usize,
        marks: *mut u8,
        marks_length: usize,
        shadows: *mut u16,
        shadows_length: usize,
        places: *mut u16,
        places_length: usize,
        list: *mut u16,
        list_length: usize,
        meets: *mut u16,
        meets_length: usize,
        apart: *mut u16,
        apart_length: usize,
        notpart: *mut u16,
        notpart_length: usize,
        e: *mut u64,
        d: *mut u64,
        t: *mut u64,
    ) -> Cataloged;

    fn piecebook_fact_between(
        area: *const u16,
        area_length: usize,
        count: usize,
        unordered: usize,
        row_from: usize,
        row_to: usize,
        column_from: usize,
        column_to: usize,
    ) -> usize;

    fn piecebook_subtree(
        parentheses: *const u8,
        parentheses_length: usize,
        places: *const u16,
        places_length: usize,
        piece: usize,
    ) -> Range;

    fn piecebook_replicates_with(
        book: *const u8,
        book_length: usize,
        window: Window,
        log: *const u8,
        log_length: usize,
        out: *mut u8,
        out_length: usize,
        e: *mut u64,
        d: *mut u64,
        t: *mut u64,
        u: *mut u64,
    ) -> Replicated;

    fn piecebook_start_with(
        state: *mut Working,
        area: *mut u8,
        area_length: usize,
        e: *mut u64,
        d: *mut u64,
        t: *mut u64,
    ) -> WorkingOutcome;

    fn piecebook_add_with(
        state: *mut Working,
        area: *mut u8,
        area_length: usize,
        record: *const u8,
        record_length: usize,
        e: *mut u64,
        d: *mut u64,
        t: *mut u64,
    ) -> WorkingOutcome;

    fn piecebook_withdraw_with(
        state: *mut Working,
        area: *mut u8,
        area_length: usize,
        record_number: usize,
        e: *mut u64,
        d: *mut u64,
        t: *mut u64,
    ) -> WorkingOutcome;

    fn piecebook_ask_with(
        state: *mut Working,
        area: *const u8,
        area_length: usize,
        claim: *const u8,
        claim_length: usize,
        e: *mut u64,
        d: *mut u64,
        t: *mut u64,
        u: *mut u64,
        p: *mut u64,
        q: *mut u64,
    ) -> WorkingOutcome;

    fn piecebook_grid_with(
        book: *const u8,
        book_length: usize,
        e: *mut u64,
        d: *mut u64,
        t: *mut u64,
    ) -> Grids;

    fn piecebook_convert_with(
        book: *const u8,
        book_length: usize,
        out: *mut u8,
        out_length: usize,
        e: *mut u64,
        d: *mut u64,
        t: *mut u64,
    ) -> Converted;

    fn piecebook_answer_with(
        book: *const u8,
        book_length: usize,
        claims: *const u8,
        claims_length: usize,
        parentheses: *mut u8,
        parentheses_length: usize,
        marks: *mut u8,
        marks_length: usize,
        shadows: *mut u16,
        shadows_length: usize,
        places: *mut u16,
        places_length: usize,
        answers: *mut u8,
        answers_length: usize,
        e: *mut u64,
        d: *mut u64,
        t: *mut u64,
        u: *mut u64,
        p: *mut u64,
        q: *mut u64,
    ) -> Outcome;

    fn piecebook_index_with(
        book: *const u8,
        book_length: usize,
        parentheses: *mut u8,
        parentheses_length: usize,
        marks: *mut u8,
        marks_length: usize,
        shadows: *mut u16,
        shadows_length: usize,
        places: *mut u16,
        places_length: usize,
        e: *mut u64,
        d: *mut u64,
        t: *mut u64,
        u: *mut u64,
        p: *mut u64,
        q: *mut u64,
    ) -> Outcome;

    fn piecebook_read_text(form: usize, text: *const u8, text_length: usize, out: *mut u8, out_length: usize) -> Reading;

    fn piecebook_text_line(text: *const u8, text_length: usize, entry: usize) -> usize;

    fn piecebook_show(book: *const u8, book_length: usize, page: *mut u8, page_length: usize) -> Shown;

    fn piecebook_show_claims(claims: *const u8, claims_length: usize, page: *mut u8, page_length: usize) -> Shown;
}
