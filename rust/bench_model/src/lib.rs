//! The model's query behind a C function, so that the benchmarks can time it beside the finder.

use std::slice;

use model::Rect;

/// Answers a query by the model's own walk, on a table that is known to be sound.
///
/// # Safety
/// The pointers are valid for their lengths, and `hits` for one number.
#[no_mangle]
pub unsafe extern "C" fn model_query(
    table: *const u32,
    table_len: usize,
    x1: u32,
    y1: u32,
    x2: u32,
    y2: u32,
    clauses: *const u64,
    clause_count: usize,
    answer: *mut u16,
    answer_len: usize,
    hits: *mut u32,
) -> u32 {
    let table = slice::from_raw_parts(table, table_len);
    let clauses = slice::from_raw_parts(clauses, clause_count);
    let answer = slice::from_raw_parts_mut(answer, answer_len);
    let reference = Rect { x1, y1, x2, y2 };
    let (refusal, found, _) = model::queries::query_sound(table, reference, clauses, answer);
    *hits = found;
    refusal
}
