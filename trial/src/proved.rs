//! The same calls of the proved archives.
use locker_column::archive::*;
use reference::cases::{Call, CallCase};

/// Makes the call; the slices are then as it leaves them.
pub fn play(case: &mut CallCase) -> usize {
    let [n, m, x, y] = case.numbers;
    let (a, a_len) = (case.a.as_ptr(), case.a.len());
    let (b, b_len) = (case.b.as_mut_ptr(), case.b.len());
    let (v, v_len) = (case.v.as_mut_ptr(), case.v.len());
    let (w, w_len) = (case.w.as_mut_ptr(), case.w.len());
    // What each call asks of its slices holds of vectors: they are readable and writable for their length, and no two overlap.
    let refusal = unsafe {
        match case.call {
            Call::ColumnRounds => return column_rounds(y, n),
            Call::ColumnValues => return column_values(y, n, m, x),
            Call::ColumnFresh => column_fresh(n, m, x, a, a_len, b, b_len),
            Call::PostingFresh => posting_fresh(n, m, x, y, a, a_len, b, b_len),
            Call::ColumnSpeak => column_speak(b, b_len, v, v_len),
            Call::ColumnListen => column_listen(b, b_len, v, v_len),
            Call::ColumnOutcome => column_outcome(a, a_len, b, b_len),
            Call::ColumnWall => column_wall(a, a_len, b, b_len),
            Call::PostingWall => posting_wall(y, a, a_len, b, b_len),
            Call::ColumnDecode => column_decode(n, v, v_len, w, w_len),
        }
    };
    refusal.into()
}
