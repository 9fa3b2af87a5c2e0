//! Linux's usbfs: control and bulk transfers of a device, with a time limit, straight from a program.
//! (The kernel's Documentation/driver-api/usb/usb.rst and include/uapi/linux/usbdevice_fs.h.)

use std::fs::File;
use std::io::{Error, Result};
use std::os::fd::AsRawFd;

const CONTROL: u64 = 0xC018_5500;
const BULK: u64 = 0xC018_5502;
const SUBMITURB: u64 = 0x8038_550A;
const REAPURB: u64 = 0x4008_550C;
const CLAIMINTERFACE: u64 = 0x8004_550F;
const RELEASEINTERFACE: u64 = 0x8004_5510;
const RESET: u64 = 0x5514;
const CLEAR_HALT: u64 = 0x8004_5515;
const URB_TYPE_BULK: u8 = 3;

pub const EPIPE: i32 = 32;
pub const ETIMEDOUT: i32 = 110;
/// Milliseconds in which a device that has an answer gives it, also on a busy emulator.
const LONG: u32 = 3000;

#[repr(C)]
struct ControlTransfer {
    kind: u8,
    request: u8,
    value: u16,
    index: u16,
    length: u16,
    timeout: u32,
    data: *mut u8,
}

#[repr(C)]
struct BulkTransfer {
    endpoint: u32,
    length: u32,
    timeout: u32,
    data: *mut u8,
}

#[repr(C)]
struct Urb {
    kind: u8,
    endpoint: u8,
    status: i32,
    flags: u32,
    buffer: *mut u8,
    buffer_length: i32,
    actual_length: i32,
    start_frame: i32,
    number_of_packets: i32,
    error_count: i32,
    signr: u32,
    usercontext: *mut u8,
}

const _: () =
    assert!(size_of::<ControlTransfer>() == 24 && size_of::<BulkTransfer>() == 24 && size_of::<Urb>() == 56);

extern "C" {
    fn ioctl(file: i32, request: u64, argument: *mut u8) -> i32;
}

pub struct Device(File);

/// An ask that was made and is not answered yet.
pub struct Ask {
    urb: Box<Urb>,
    buffer: Vec<u8>,
}

impl Device {
    pub fn open(path: &str) -> Result<Device> {
        let device = Device(File::options().read(true).write(true).open(path)?);
        device.call(CLAIMINTERFACE, &mut 0u32)?;
        Ok(device)
    }

    fn call<T>(&self, request: u64, argument: &mut T) -> Result<usize> {
        // SAFETY: each request is called with the type that the kernel's header gives it, whose pointers are valid for their lengths.
        match unsafe { ioctl(self.0.as_raw_fd(), request, (argument as *mut T).cast()) } {
            count if count >= 0 => Ok(count as usize),
            _ => Err(Error::last_os_error()),
        }
    }

    /// A request; `length` bytes may come back.
    pub fn control(&self, kind: u8, request: u8, value: u16, index: u16, length: u16) -> Result<Vec<u8>> {
        let mut data = vec![0; length as usize];
        let mut transfer =
            ControlTransfer { kind, request, value, index, length, timeout: LONG, data: data.as_mut_ptr() };
        let count = self.call(CONTROL, &mut transfer)?;
        data.truncate(count);
        Ok(data)
    }

    pub fn bulk_out(&self, bytes: &[u8], timeout: Option<u32>) -> Result<usize> {
        let mut data = bytes.to_vec();
        let length = data.len() as u32;
        self.call(
            BULK,
            &mut BulkTransfer {
                endpoint: 0x02,
                length,
                timeout: timeout.unwrap_or(LONG),
                data: data.as_mut_ptr(),
            },
        )
    }

    pub fn bulk_in(&self, length: u32, timeout: Option<u32>) -> Result<Vec<u8>> {
        let mut data = vec![0; length as usize];
        let count = self.call(
            BULK,
            &mut BulkTransfer {
                endpoint: 0x81,
                length,
                timeout: timeout.unwrap_or(LONG),
                data: data.as_mut_ptr(),
            },
        )?;
        data.truncate(count);
        Ok(data)
    }

    pub fn clear_halt(&self, endpoint: u32) -> Result<()> {
        self.call(CLEAR_HALT, &mut { endpoint }).map(|_| ())
    }

    /// A reset of the port.
    pub fn reset(&self) -> Result<()> {
        self.call(RESET, &mut 0u8).map(|_| ())
    }

    /// The same while nobody has the interface: only one that was taken is given to its driver afterwards.
    pub fn reset_without_driver(&self) -> Result<()> {
        self.call(RELEASEINTERFACE, &mut 0u32)?;
        self.reset()?;
        self.call(CLAIMINTERFACE, &mut 0u32).map(|_| ())
    }

    /// Asks without waiting.
    pub fn ask(&self, length: usize) -> Result<Ask> {
        let mut buffer = vec![0; length];
        let mut urb = Box::new(Urb {
            kind: URB_TYPE_BULK,
            endpoint: 0x81,
            status: 0,
            flags: 0,
            buffer: buffer.as_mut_ptr(),
            buffer_length: length as i32,
            actual_length: 0,
            start_frame: 0,
            number_of_packets: 0,
            error_count: 0,
            signr: 0,
            usercontext: std::ptr::null_mut(),
        });
        self.call(SUBMITURB, &mut *urb)?;
        Ok(Ask { urb, buffer })
    }

    /// Waits for the one ask that is under way.
    pub fn answer(&self, mut ask: Ask) -> Result<Vec<u8>> {
        let mut done: *mut Urb = std::ptr::null_mut();
        self.call(REAPURB, &mut done)?;
        // SAFETY: the kernel has written to the block since it was submitted, so that it is read anew.
        let urb = unsafe { std::ptr::read_volatile(&*ask.urb) };
        if urb.status != 0 {
            return Err(Error::from_raw_os_error(-urb.status));
        }
        ask.buffer.truncate(urb.actual_length as usize);
        Ok(ask.buffer)
    }
}
