//! A second implementation of Reidhintsje's loading software, written from the papers alone.
//! It shares no line and no definition with the proved one, so that a misreading in either shows as a difference.

pub mod aplx;
pub mod bytes;
pub mod check;
pub mod check_kinds;
pub mod compare;
pub mod compare_check;
pub mod compare_difference;
pub mod compare_flood;
pub mod compare_read_back;
pub mod compare_series;
pub mod compare_share;
pub mod compare_supplied;
pub mod difference_kinds;
pub mod flood_fill;
pub mod generate;
pub mod guarded;
pub mod interface;
pub mod map;
pub mod outcome;
pub mod pack;
pub mod plan;
pub mod plan_difference;
pub mod random;
pub mod read_back;
pub mod receiver;
pub mod scp;
pub mod series;
pub mod share;
pub mod share_kinds;
pub mod srom;
pub mod tally;
pub mod text;

#[cfg(test)]
mod tests;
