// No contenders in C, for want of a compiler.
use crate::contenders::{Certify, Check, Judge, LargestWeight, Rank, Rearrange};

pub const RANK: Option<Rank> = None;
pub const JUDGE: Option<Judge> = None;
pub const CERTIFY: Option<Certify> = None;
pub const CHECK: Option<Check> = None;
pub const LARGEST_WEIGHT: Option<LargestWeight> = None;
pub const LARGEST_COUNT: Option<LargestWeight> = None;
pub const REARRANGE: Option<Rearrange> = None;
