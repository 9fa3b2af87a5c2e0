//! What Linux's own driver never sends, sent to the collector from inside the guest: `probe transport|units DEVICE BEFORE DATA`.
//!
//! DEVICE is the device's file under /dev/bus/usb, BEFORE its medium, DATA the bytes to write. Of a collector of one unit block 5
//! is to get the first 512 of them, blocks 20 and 21 the next 1,024, and no other block may change; units.rs says what of a
//! collector of four. Prints a line for each check: its name, `ok` or `FAILED`, and what was seen.

mod bot;
mod information;
mod ledger;
mod pages;
mod switch;
mod units;
mod usbfs;

use bot::{
    cbw, clear_halts, csw, mass_storage_reset, read_10, read_block, recover, test_unit_ready, write_10,
    BLOCK, TEST_UNIT_READY,
};
use std::io::Result;
use usbfs::{Device, EPIPE, ETIMEDOUT};

/// Milliseconds after which an ask that waits is taken back.
const SHORT: Option<u32> = Some(300);

const INQUIRY: &[u8] = b"\x00\x80\x05\x02\x1F\x00\x00\x00COLLECT METER EXPORT    0100";

type Outcome = std::result::Result<String, String>;
type Check = fn(&Probe) -> Outcome;

/// The transfer must end with this error.
fn ends_with<T>(what: &str, errno: i32, result: Result<T>) -> std::result::Result<(), String> {
    match result {
        Err(fault) if fault.raw_os_error() == Some(errno) => Ok(()),
        Err(fault) => Err(format!("{what}: {fault}")),
        Ok(_) => Err(format!("{what}: it was answered")),
    }
}

fn passes<T>(what: &str, result: Result<T>) -> std::result::Result<T, String> {
    result.map_err(|fault| format!("{what}: {fault}"))
}

fn equal(what: &str, got: &[u8], expected: &[u8]) -> std::result::Result<(), String> {
    let shown = |bytes: &[u8]| match bytes.len() {
        0..=18 => format!("{bytes:02X?}"),
        length => format!("{length} bytes"),
    };
    if got == expected {
        return Ok(());
    }
    Err(format!("{what}: {}, not the expected {}", shown(got), shown(expected)))
}

struct Probe {
    device: Device,
    before: Vec<u8>,
    data: Vec<u8>,
}

impl Probe {
    fn block(&self, number: usize) -> &[u8] {
        &self.before[number * BLOCK..(number + 1) * BLOCK]
    }

    fn early_ask(&self) -> Outcome {
        ends_with("an ask with nothing due", ETIMEDOUT, self.device.bulk_in(13, SHORT))?;
        passes("Test Unit Ready after it", test_unit_ready(&self.device, 0x101))?;
        Ok("nak until it was taken back, the next command passes".into())
    }

    fn waiting_ask(&self) -> Outcome {
        let ask = passes("an ask", self.device.ask(13))?;
        passes("a wrapper", self.device.bulk_out(&cbw(0x102, 0, false, 0, &TEST_UNIT_READY), None))?;
        equal("status", &passes("the ask", self.device.answer(ask))?, &csw(0x102, 0, 0))?;
        Ok("an ask made before the command gets its status".into())
    }

    fn early_wrapper(&self) -> Outcome {
        passes("a wrapper", self.device.bulk_out(&cbw(0x103, BLOCK as u32, true, 0, &read_10(3, 1)), None))?;
        ends_with(
            "a second wrapper",
            ETIMEDOUT,
            self.device.bulk_out(&cbw(0x104, 0, false, 0, &TEST_UNIT_READY), SHORT),
        )?;
        equal("data", &passes("data", self.device.bulk_in(BLOCK as u32, None))?, self.block(3))?;
        equal("status", &passes("status", self.device.bulk_in(13, None))?, &csw(0x103, 0, 0))?;
        Ok("nak while data is due, and the data is unharmed".into())
    }

    /// A command that announces more than the device has for it, which are the bytes `expected`.
    fn short_data(&self, tag: u32, announced: u32, block: &[u8], expected: &[u8]) -> Outcome {
        let residue = announced - expected.len() as u32;
        passes("a wrapper", self.device.bulk_out(&cbw(tag, announced, true, 0, block), None))?;
        if !expected.is_empty() {
            equal("data", &passes("data", self.device.bulk_in(announced, None))?, expected)?;
        }
        ends_with("the pipe after it", EPIPE, self.device.bulk_in(13, None))?;
        passes("Clear Feature", self.device.clear_halt(0x81))?;
        equal("status", &passes("status", self.device.bulk_in(13, None))?, &csw(tag, residue, 0))?;
        Ok(format!("{} bytes, a stall, status 0, residue {residue}", expected.len()))
    }

    /// The bench sheet's row: Inquiry, byte 4 = 36, announced 64.
    fn short_reply(&self) -> Outcome {
        self.short_data(0x112, 64, &[0x12, 0, 0, 0, 36, 0], INQUIRY)
    }

    /// Document 02, A1: announced 256 with bytes 3 and 4 at 01 00.
    fn long_inquiry(&self) -> Outcome {
        self.short_data(0x113, 256, &[0x12, 0, 0, 0x01, 0x00, 0], INQUIRY)
    }

    /// Neither pipe moves, Clear Feature or not, until Mass Storage Reset.
    fn locked(&self, broken: &[u8]) -> Outcome {
        ends_with("the broken wrapper", EPIPE, self.device.bulk_out(broken, None))?;
        for _ in 0..2 {
            ends_with("bulk-in", EPIPE, self.device.bulk_in(13, None))?;
            ends_with(
                "bulk-out",
                EPIPE,
                self.device.bulk_out(&cbw(0x105, 0, false, 0, &TEST_UNIT_READY), None),
            )?;
            passes("Clear Feature", clear_halts(&self.device))?;
        }
        equal("halt of 81", &passes("Get Status", self.device.control(0x82, 0, 0, 0x81, 2))?, &[1, 0])?;
        equal("halt of 02", &passes("Get Status", self.device.control(0x82, 0, 0, 0x02, 2))?, &[1, 0])?;
        passes("reset recovery", recover(&self.device))?;
        passes("Test Unit Ready after it", test_unit_ready(&self.device, 0x106))?;
        Ok("shut after Clear Feature, open after reset recovery".into())
    }

    fn short_wrapper(&self) -> Outcome {
        self.locked(&cbw(0x107, 0, false, 0, &TEST_UNIT_READY)[..30])
    }

    fn other_unit(&self) -> Outcome {
        self.locked(&cbw(0x108, 0, false, 1, &TEST_UNIT_READY))
    }

    fn reset_in_read(&self) -> Outcome {
        passes(
            "a wrapper",
            self.device.bulk_out(&cbw(0x109, 2 * BLOCK as u32, true, 0, &read_10(8, 2)), None),
        )?;
        equal("the first block", &passes("data", self.device.bulk_in(BLOCK as u32, None))?, self.block(8))?;
        passes("Mass Storage Reset", mass_storage_reset(&self.device))?;
        equal("block 9", &passes("a read", read_block(&self.device, 0, 0x10A, 9))?, self.block(9))?;
        Ok("the command is dropped, the next one passes".into())
    }

    fn reset_in_write(&self) -> Outcome {
        passes(
            "a wrapper",
            self.device.bulk_out(&cbw(0x10B, BLOCK as u32, false, 0, &write_10(10, 1)), None),
        )?;
        passes("half a block", self.device.bulk_out(&self.data[..BLOCK / 2], None))?;
        passes("Mass Storage Reset", mass_storage_reset(&self.device))?;
        equal("block 10", &passes("a read", read_block(&self.device, 0, 0x10C, 10))?, self.block(10))?;
        Ok("half a block that arrived is not stored".into())
    }

    /// The bench sheet's row: writing 2 blocks, 9 packets, then a packet of 10.
    fn short_packet(&self) -> Outcome {
        passes(
            "a wrapper",
            self.device.bulk_out(&cbw(0x10F, 2 * BLOCK as u32, false, 0, &write_10(5, 2)), None),
        )?;
        passes("9 packets and 10 bytes", self.device.bulk_out(&self.data[..9 * 64 + 10], None))?;
        equal("status", &passes("status", self.device.bulk_in(13, None))?, &csw(0x10F, BLOCK as u32, 2))?;
        passes("reset recovery", recover(&self.device))?;
        equal("block 5", &passes("a read", read_block(&self.device, 0, 0x110, 5))?, &self.data[..BLOCK])?;
        equal("block 6", &passes("a read", read_block(&self.device, 0, 0x111, 6))?, self.block(6))?;
        Ok("one block stored, residue 512, phase error".into())
    }

    /// The last check: at a reset of the port the kernel gives the interface back to its driver. The depot looks at block 11 afterwards.
    fn port_reset_in_write(&self) -> Outcome {
        passes(
            "a wrapper",
            self.device.bulk_out(&cbw(0x10D, BLOCK as u32, false, 0, &write_10(11, 1)), None),
        )?;
        passes("half a block", self.device.bulk_out(&self.data[..BLOCK / 2], None))?;
        passes("port reset", self.device.reset())?;
        Ok("the port is reset after half a block".into())
    }
}

/// What is sent to a collector of one unit, of 128 blocks.
const TRANSPORT: [(&str, Check); 27] = [
    ("early-ask", Probe::early_ask),
    ("waiting-ask", Probe::waiting_ask),
    ("early-wrapper", Probe::early_wrapper),
    ("short-reply", Probe::short_reply),
    ("long-inquiry", Probe::long_inquiry),
    ("page-residue", Probe::page_residue),
    ("page-of-0", Probe::page_of_0),
    ("page-phase-error", Probe::page_phase_error),
    ("page-codes", Probe::page_codes),
    ("information-bytes", Probe::information_bytes),
    ("information-other-senses", Probe::information_other_senses),
    ("information-after-passed", Probe::information_after_passed),
    ("information-cut", Probe::information_cut),
    ("information-stays", Probe::information_stays),
    ("information-after-drops", Probe::information_after_drops),
    ("short-wrapper-locks", Probe::short_wrapper),
    ("other-unit-locks", Probe::other_unit),
    ("reset-in-read", Probe::reset_in_read),
    ("reset-in-write", Probe::reset_in_write),
    ("no-status-after-drops", Probe::no_status_after_drops),
    ("short-packet-in-write", Probe::short_packet),
    ("switch-in-mode-sense", Probe::switch_in_mode_sense),
    ("switch-in-refused-write", Probe::switch_in_refused_write),
    ("switch-in-write", Probe::switch_in_write),
    ("switch-drops-nothing", Probe::switch_drops_nothing),
    ("switch-and-resets", Probe::switch_and_resets),
    ("port-reset-in-write", Probe::port_reset_in_write),
];

fn run(checks: &[(&str, Check)], path: &str, before: &str, data: &str) -> Result<()> {
    let probe =
        Probe { device: Device::open(path)?, before: std::fs::read(before)?, data: std::fs::read(data)? };
    for (name, check) in checks {
        match check(&probe) {
            Ok(seen) => println!("{name} ok {seen}"),
            Err(seen) => {
                println!("{name} FAILED {seen}");
                // The next check is to find a device that is ready.
                let _ = recover(&probe.device);
            }
        }
    }
    Ok(())
}

fn main() {
    let words: Vec<String> = std::env::args().skip(1).collect();
    let words: Vec<&str> = words.iter().map(String::as_str).collect();
    let (checks, device, before, data): (&[(&str, Check)], _, _, _) = match words[..] {
        ["transport", device, before, data] => (&TRANSPORT, device, before, data),
        ["units", device, before, data] => (&units::CHECKS, device, before, data),
        _ => {
            eprintln!("probe transport|units DEVICE BEFORE DATA");
            std::process::exit(2);
        }
    };
    if let Err(fault) = run(checks, device, before, data) {
        println!("probe FAILED {fault}");
        std::process::exit(1);
    }
}
