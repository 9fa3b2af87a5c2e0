//! The ordinary device: the collector's drive (docs: document 01) written as plain Rust firmware, and the C
//! interface of the proved device, so that the two can be compared and measured. Beside both stands the auditors'
//! ledger, which knows neither.
//!
//! It was written from document 01 and document 02's landed requests alone, without the proved device's code, so that
//! a misreading by one of the two shows as a difference. "§" in the comments names a heading of document 01; a request
//! of document 02 is named as such.

mod bulk;
pub mod capi;
pub mod cases;
mod control;
mod data_in;
pub mod device;
pub mod ledger;
pub mod pages;
pub mod record;
pub mod scsi;
pub mod show;
pub mod switch;
mod tally;
pub mod unit;
pub mod usb;
pub mod wrapper;
