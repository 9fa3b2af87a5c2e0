//! The faults' names.

use std::sync::OnceLock;

#[derive(Clone, Copy, PartialEq, Eq)]
pub enum Fault {
    None,
    /// The serial number's digits without their zeros in front.
    Digits,
    /// Read Capacity gives the count and not the last block.
    Capacity,
    /// Mode Sense says that the medium is write protected.
    Protected,
    /// The status wrapper's tag is not the command's.
    Tag,
    /// Request Sense has forgotten why the command failed.
    Sense,
    /// Address plus count summed in 32 bits, in Verify.
    Sum,
    /// A range failure names its address also where that is in the unit (document 02, A8).
    InformationAddress,
    /// A range failure's number comes with 70, without the bit that makes it one.
    InformationValid,
    /// A range failure's number in little endian.
    InformationOrder,
    /// Where the sense is cleared, the number stays until Request Sense has told it.
    InformationKept,
    /// LINK and NACA in the control byte are ignored (document 02, A12).
    Control,
    /// Inquiry's allocation length is byte 4 alone, as it was before document 02, A1.
    InquiryLength,
    /// Page 80 has the collector number's digits without their zeros in front (document 02, A2).
    PageDigits,
    /// Page 83 has the vendor's seven letters without the space that makes a field of eight.
    PageVendor,
    /// A page that is cut tells the length of what is left of it.
    PageCut,
    /// A page that there is not is taken for no page: standard Inquiry data.
    PageRefusal,
    /// No halt after data that is shorter than announced: the status wrapper runs into the data.
    NoHalt,
    /// A bus reset does not end the lock of a phase error.
    LockStays,
    /// Writes are acknowledged and forgotten.
    NeverStores,
    /// A block is stored in the next one's place.
    NextBlock,
    /// Writes are read back, but never reach the medium: gone with the plug.
    Volatile,
    /// Residue 0 after a short read.
    Residue,
    /// Clear Feature frees a locked device.
    ClearFrees,
    /// A part block is stored at a reset.
    PartStored,
    /// A stall where nothing is due yet, in place of nak.
    Impatient,
    /// Making refuses a unit of more than 4,096 blocks, as it did before document 02, A5.
    Limit,
    /// The vendor's and the product's number in the wrong byte order.
    ByteOrder,
    /// Blocks are read and written at their address modulo 4,096: it is kept in 12 bits.
    Wrap4096,
    /// Blocks are read and written at their address modulo 65,536: it is kept in 16 bits.
    Wrap65536,
    /// Mode Sense does not know of the switch: its third byte is always 00 (document 02, A4).
    SwitchUnseen,
    /// The switch is checked before the range.
    SwitchFirst,
    /// A bus reset opens the switch.
    SwitchBusReset,
    /// A Mass Storage Reset opens the switch.
    SwitchStorageReset,
    /// A Write under way fails where the switch is closed in its middle.
    SwitchCuts,
    /// Mode Sense shows where the switch is when its bytes are sent.
    SwitchAtAsk,
    /// Units 1 and 2 are taken for each other (document 02, A7).
    UnitsExchanged,
    /// A unit's first block is ignored: every unit's blocks begin with the medium's.
    UnitFirst,
    /// A Write is stored in unit 0 as well as in its own.
    UnitBoth,
    /// A Read, Write or Verify may go on behind its unit's end, to the medium's.
    UnitRange,
    /// A place in the medium is kept in 30 bits: behind a GiB it begins anew.
    UnitWrap,
    /// Making refuses more than 1,048,576 blocks in all, and not in a unit.
    UnitSum,
    /// A unit beyond the table is taken for the last one.
    UnitBeyond,
    /// A wrapper's unit is bits 0 and 1 of its byte.
    UnitBits,
    /// Get Max LUN answers the number of units, and not the highest.
    UnitCount,
    /// One sense for all units.
    SenseShared,
    /// What clears a unit's sense clears every unit's.
    SenseCleared,
    /// A Mass Storage Reset clears the sense of the last command's unit alone.
    SenseDropped,
    /// The switch of unit 0 counts for all units.
    SwitchOfUnit0,
    /// A turn turns the switches of all units.
    SwitchOfAll,
    /// Residue 0 after a Write of fewer blocks than announced (document 02, A13).
    ResidueOut,
    /// Residue 0 after a Write whose wrapper is a phase error: no data moved, so that nothing is thought to be left over.
    ResiduePhase,
    /// The same Write's status has the tag of the command before.
    TagPhase,
    /// A Mass Storage Reset does not drop a status that is due.
    StatusKept,
    /// A Read's packet is shown one byte further on (document 02, A11).
    ShownFurther,
    /// A packet that is shown is not counted as sent: the state is left behind, and the next one shown is the same.
    ShownStays,
    /// Nothing is ever shown: all is copied.
    ShownNever,
}

const NAMES: [(&str, Fault); 57] = [
    ("none", Fault::None),
    ("digits", Fault::Digits),
    ("capacity", Fault::Capacity),
    ("protected", Fault::Protected),
    ("tag", Fault::Tag),
    ("sense", Fault::Sense),
    ("sum", Fault::Sum),
    ("information-address", Fault::InformationAddress),
    ("information-valid", Fault::InformationValid),
    ("information-order", Fault::InformationOrder),
    ("information-kept", Fault::InformationKept),
    ("control", Fault::Control),
    ("inquiry-length", Fault::InquiryLength),
    ("page-digits", Fault::PageDigits),
    ("page-vendor", Fault::PageVendor),
    ("page-cut", Fault::PageCut),
    ("page-refusal", Fault::PageRefusal),
    ("no-halt", Fault::NoHalt),
    ("lock-stays", Fault::LockStays),
    ("never-stores", Fault::NeverStores),
    ("next-block", Fault::NextBlock),
    ("volatile", Fault::Volatile),
    ("residue", Fault::Residue),
    ("clear-frees", Fault::ClearFrees),
    ("part-stored", Fault::PartStored),
    ("impatient", Fault::Impatient),
    ("limit", Fault::Limit),
    ("byte-order", Fault::ByteOrder),
    ("wrap-4096", Fault::Wrap4096),
    ("wrap-65536", Fault::Wrap65536),
    ("switch-unseen", Fault::SwitchUnseen),
    ("switch-first", Fault::SwitchFirst),
    ("switch-bus-reset", Fault::SwitchBusReset),
    ("switch-storage-reset", Fault::SwitchStorageReset),
    ("switch-cuts", Fault::SwitchCuts),
    ("switch-at-ask", Fault::SwitchAtAsk),
    ("units-exchanged", Fault::UnitsExchanged),
    ("unit-first", Fault::UnitFirst),
    ("unit-both", Fault::UnitBoth),
    ("unit-range", Fault::UnitRange),
    ("unit-wrap", Fault::UnitWrap),
    ("unit-sum", Fault::UnitSum),
    ("unit-beyond", Fault::UnitBeyond),
    ("unit-bits", Fault::UnitBits),
    ("unit-count", Fault::UnitCount),
    ("sense-shared", Fault::SenseShared),
    ("sense-cleared", Fault::SenseCleared),
    ("sense-dropped", Fault::SenseDropped),
    ("switch-of-unit-0", Fault::SwitchOfUnit0),
    ("switch-of-all", Fault::SwitchOfAll),
    ("residue-out", Fault::ResidueOut),
    ("residue-phase", Fault::ResiduePhase),
    ("tag-phase", Fault::TagPhase),
    ("status-kept", Fault::StatusKept),
    ("shown-further", Fault::ShownFurther),
    ("shown-stays", Fault::ShownStays),
    ("shown-never", Fault::ShownNever),
];

/// The fault that the environment names.
pub fn chosen() -> Fault {
    static CHOSEN: OnceLock<Fault> = OnceLock::new();
    *CHOSEN.get_or_init(|| {
        let name = std::env::var("DEPOT_WRONG").unwrap_or_else(|_| "none".into());
        let found = NAMES.iter().find(|(known, _)| *known == name);
        found.unwrap_or_else(|| panic!("DEPOT_WRONG={name}: no such fault")).1
    })
}
