//! The table of units (document 02, A7) that the device is lent with every event: the C interface's, of one unit or several.

/// `collector_unit`: the first block of its part of the medium, its number of blocks, and the device's own: its sense and its switch.
#[repr(C)]
#[derive(Clone, Copy)]
pub struct Unit {
    first: u32,
    blocks: u32,
    own: [u32; 3],
}

const _: () = assert!(size_of::<Unit>() == 20 && align_of::<Unit>() == 4);

/// Units of these sizes, the part of each behind the one before it. What stands in place of sense and switch does not matter:
/// making puts it right, and a switch left as it stands here would be refused.
pub fn table(sizes: &[u32]) -> Vec<Unit> {
    let mut next = 0;
    let unit = |blocks: &u32| {
        let first = next;
        next += blocks;
        Unit { first, blocks: *blocks, own: [u32::MAX; 3] }
    };
    sizes.iter().map(unit).collect()
}
