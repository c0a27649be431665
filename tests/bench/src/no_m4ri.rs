// No ranks by M4RI, which is not installed.
use crate::contenders::RankSum;

pub const RANK_SUM: Option<RankSum> = None;
