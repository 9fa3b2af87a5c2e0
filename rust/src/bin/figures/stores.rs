//! The same bulk events over the smallest and the largest unit: what they cost does not grow with it (document 02, A5).

use crate::scene::{reading, waiting, wrapper, writing, Input, Scene, State};
use ordinary::device::MAX_BLOCKS;
use ordinary::scsi::code;
use ordinary::unit::Unit;

/// A unit's number of blocks, and the block that is read or written.
pub const STORES: [(u32, u32); 3] = [(1, 0), (MAX_BLOCKS, 0), (MAX_BLOCKS, MAX_BLOCKS - 1)];

/// The events of a Read and of a Write of one block.
pub fn scenes((blocks, block): (u32, u32)) -> Vec<Scene> {
    let units = &[Unit::new(0, blocks)];
    let (read, write) = (wrapper(units, code::READ, block, 1), wrapper(units, code::WRITE, block, 1));
    let reading = |asks| reading(units, &read, asks);
    let writing = |packets| writing(units, &write, packets);
    let scene = |key, name: &str, before: State, input| Scene { key, name: name.into(), before, input };
    vec![
        scene("wrapper", "command wrapper, Read(10)", waiting(units), Input::Wrapper(read)),
        scene("data-in", "bulk-in data, a packet of the block", reading(3), Input::Ask),
        scene("gather", "bulk-out data, packet within the block", writing(3), Input::Data(1)),
        scene("store", "bulk-out data, packet that stores the block", writing(7), Input::Data(1)),
        scene("status", "status wrapper", reading(8), Input::Ask),
    ]
}
