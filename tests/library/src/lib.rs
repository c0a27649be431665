// Safe calls of the proved static library. Each answers what the library wrote, or the number of its refusal.
// Lent buffers may have any length: the library judges it.
pub mod both; // both.rs: operations of the library and of the independent implementation, compared
mod certify;
mod check;
mod convert;
mod degree;
mod hand_over;
mod judge;
mod rank;
mod read;
mod rearrange;
mod write;

pub use certify::certify;
pub use check::check;
pub use convert::convert;
pub use degree::degree;
pub use hand_over::hand_over;
pub use judge::{ADDITIONS_AT, judge};
pub use rank::rank;
pub use read::read;
pub use rearrange::rearrange;
pub use write::write;

// What a call answered: the written answer for status 0, else the status; a refusal must leave the answer as it was.
fn outcome<T: PartialEq + std::fmt::Debug>(status: u8, before: T, after: T) -> Result<T, u8> {
    if status == 0 {
        return Ok(after);
    }
    assert_eq!(before, after, "refusal {status} wrote an answer");
    Err(status)
}
