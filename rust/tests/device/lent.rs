//! Records and tables lent by C, which may be ones that no event leaves: whether they are refused, and what is asked of
//! them.

use ordinary::device::{Answer, Device, Refusal, BLOCK};
use ordinary::record::Record;
use ordinary::unit::{table, Unit};

/// The blocks of the one unit that is lent where a test does not say which.
pub const BLOCKS: u32 = 4;

/// Whether the seven calls answer 10 with a fresh unit of four blocks.
pub fn refused(record: &Record) -> bool {
    refused_with(record, &table(&[BLOCKS]))
}

/// Whether the seven calls answer 10 with this table, each on a device of its own, and then change nothing: all do or
/// none does. The showing call is lent the record's reply, where one is given. A record that does not decode is number 10 too.
pub fn refused_with(record: &Record, units: &[Unit]) -> bool {
    let Some(device) = Device::from_record(record) else { return true };
    let mut each = [(); 7].map(|()| (device.clone(), units.to_vec()));
    let [reset, control, out, asked, switched, shown, replied] = &mut each;
    let mut medium = vec![0; length(units)];
    let mut buffer = [0; 64];
    let reply = replied.0.reply(&replied.1, &mut buffer);
    let answers = [
        reset.0.bus_reset(&mut reset.1),
        control.0.control(&mut control.1, &[0x80, 0x08, 0, 0, 0, 0, 1, 0], &mut [0; 64]),
        out.0.bulk_out(&mut out.1, &mut medium, &[0; 31]),
        asked.0.bulk_in(&asked.1, &medium, &mut [0; 64]),
        switched.0.set_switch(&mut switched.1, 0, 0),
        shown.0.show(&shown.1, &medium, &buffer[..reply.count() as usize]).answer,
        reply,
    ];
    let refusals = answers.iter().filter(|answer| **answer == Answer::Refused(Refusal::Record)).count();
    assert!([0, 7].contains(&refusals), "{answers:?}");
    let kept = |after: &(Device, Vec<Unit>)| (&after.0, &after.1[..]) == (&device, units);
    assert!(refusals == 0 || each.iter().all(kept), "{record:?}");
    refusals == 7
}

/// The bytes that an ask gives with a fresh unit of four blocks, and the record that it leaves.
pub fn ask(record: &Record) -> (Vec<u8>, Record) {
    ask_with(record, &table(&[BLOCKS]))
}

/// The bytes that an ask gives with this table, and the record that it leaves. The medium is zeros.
pub fn ask_with(record: &Record, units: &[Unit]) -> (Vec<u8>, Record) {
    let mut device = Device::from_record(record).unwrap();
    let mut buffer = [0xEE; 64];
    let medium = vec![0; length(units)];
    let Answer::Data(count) = device.bulk_in(units, &medium, &mut buffer) else { panic!("{record:?}") };
    assert!(buffer[count as usize..].iter().all(|byte| *byte == 0xEE));
    (buffer[..count as usize].to_vec(), device.to_record())
}

/// The bytes of a medium for a table that fits; of another one a medium is never looked at.
fn length(units: &[Unit]) -> usize {
    let fits = units.len() <= 4 && units.iter().all(|unit| unit.blocks <= 1_048_576);
    let blocks = if fits { units.iter().map(|unit| unit.blocks as usize).sum() } else { 1 };
    blocks * BLOCK
}
