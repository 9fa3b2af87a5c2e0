//! Faults of packets that are shown where they stand (document 02, A11).

use super::{chosen, Fault};
use crate::capi::CShown;
use crate::record::Record;

/// A packet of a Read is about to be shown, in a medium of so many bytes. At the medium's end there is no place further on.
pub fn show(before: &Record, record: &mut Record, medium: usize, shown: CShown) -> CShown {
    match chosen() {
        Fault::ShownFurther => CShown { start: (shown.start + 1).min(medium - shown.count), ..shown },
        Fault::ShownStays => {
            *record = *before;
            shown
        }
        Fault::ShownNever => {
            *record = *before;
            CShown::NONE
        }
        _ => shown,
    }
}
