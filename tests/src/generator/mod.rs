//! Makes cases for both decoders from a seed: single pictures, reels and raw slices, legal and damaged.

mod blocks;
mod cases;
pub mod codes;
mod damage;
mod file;
mod limits;
mod misfits;
mod picture;
mod reels;
mod room_slices;
mod row_blocks;
mod rows;
mod slice_damage;
mod slice_edges;
mod slices;
mod strip;

pub use blocks::{all_stages, stage_cases, Fault, Next, Pairs, Scaled, Stage};
pub use cases::{case, small_cases, Case};
pub use file::{File, HEADER_END};
pub use limits::{all_limit_kinds, limit_cases, LimitKind};
pub use misfits::{all_arrangements, misfit_cases, Arrangement, Fit};
pub use reels::{reel, Reel};
pub use room_slices::{
    reach, record_ends, room_slices, RoomCase, RoomSlice, RoomTrial, ROOM, TRIALS,
};
pub use row_blocks::{all_row_masks, row_mask_blocks, Row, RowMask, Shape};
pub use rows::{all_row_kinds, row_cases, End, RowKind};
pub use slice_damage::damaged_bytes;
pub use slice_edges::edge_slices;
pub use slices::{long_slice_cases, slice_case, small_slice_cases, SliceCase};

use crate::decoder::file::PictureType;
use crate::decoder::size::Size;
use crate::random::Random;

pub const TYPES: [PictureType; 3] = [PictureType::I, PictureType::P, PictureType::B];

/// A size of at most 40 macroblocks.
fn small_size(random: &mut Random) -> Size {
    Size {
        width: 1 + random.below(8),
        height: 1 + random.below(5),
    }
}
