//! Wrong devices: the ordinary device of ../../rust behind the C interface, with one fault.
//!
//! The fault is named by the environment's DEPOT_WRONG; without it the device is right. A run of the depot that a fault does
//! not fail does not look at what the fault breaks.
//!
//! The ordinary device's own package links the proved device, so its files are taken here one by one.

#![allow(dead_code)]

#[path = "../../../rust/src/bulk.rs"]
mod bulk;
#[path = "../../../rust/src/cases.rs"]
mod cases;
#[path = "../../../rust/src/control.rs"]
mod control;
#[path = "../../../rust/src/data_in.rs"]
mod data_in;
#[path = "../../../rust/src/device.rs"]
mod device;
#[path = "../../../rust/src/pages.rs"]
mod pages;
#[path = "../../../rust/src/record.rs"]
mod record;
#[path = "../../../rust/src/scsi.rs"]
mod scsi;
#[path = "../../../rust/src/switch.rs"]
mod switch;
#[path = "../../../rust/src/unit.rs"]
mod unit;
#[path = "../../../rust/src/usb.rs"]
mod usb;
#[path = "../../../rust/src/wrapper.rs"]
mod wrapper;

mod capi;
mod fault;
