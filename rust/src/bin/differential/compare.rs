//! Comparison of what the two devices leave, and how a difference is told.

use ordinary::record::Record;
use ordinary::unit::Unit;
use std::fmt::Display;

pub fn compare_bytes(what: impl Display, ordinary: &[u8], proved: &[u8]) -> Result<(), String> {
    if ordinary == proved {
        return Ok(());
    }
    let at = ordinary.iter().zip(proved).take_while(|(a, b)| a == b).count();
    Err(format!("{what}: at byte {at} ordinary {:02X}, proved {:02X}", ordinary[at], proved[at]))
}

/// Compares all but the reserved bytes.
pub fn compare_records(ordinary: &Record, proved: &Record) -> Result<(), String> {
    if ordinary == proved {
        return Ok(());
    }
    let both = fields(ordinary).into_iter().zip(fields(proved));
    let differing: Vec<String> = both
        .filter(|(a, b)| a != b)
        .map(|((name, a), (_, b))| format!("{name} ordinary {a:X}, proved {b:X}"))
        .collect();
    if !differing.is_empty() {
        return Err(format!("record: {}", differing.join("; ")));
    }
    compare_bytes("record's part block", &ordinary.part, &proved.part)
}

/// Compares all but the reserved bytes.
pub fn compare_tables(ordinary: &[Unit], proved: &[Unit]) -> Result<(), String> {
    match ordinary.iter().zip(proved).position(|(a, b)| a != b) {
        None => Ok(()),
        Some(unit) => {
            let [a, b] = [ordinary[unit], proved[unit]].map(|unit| show_unit(&unit));
            Err(format!("unit {unit} of the table: ordinary {a}, proved {b}"))
        }
    }
}

/// Compares the reserved bytes too.
pub fn same_bytes(a: &[Unit], b: &[Unit]) -> bool {
    let bytes = |unit: &Unit| *{ *unit }.as_bytes_mut();
    a.iter().map(bytes).eq(b.iter().map(bytes))
}

pub fn show_table(units: &[Unit]) -> String {
    let units: Vec<String> = units.iter().map(show_unit).collect();
    format!("{} units: {}", units.len(), units.join(", "))
}

fn show_unit(unit: &Unit) -> String {
    let Unit { first, blocks, sense_key, sense_asc, sense_ascq, sense_information, write_switch, .. } = unit;
    format!(
        "{blocks} blocks from {first} (sense {sense_key:02X}/{sense_asc:02X}/{sense_ascq:02X}, number \
         {sense_information:X}, switch {write_switch})"
    )
}

/// A record's fields that are not 0, in hex.
pub fn show(record: &Record) -> String {
    let set = fields(record).into_iter().filter(|(_, value)| *value != 0);
    let text: Vec<String> = set.map(|(name, value)| format!("{name} {value:X}")).collect();
    let held = record.part.iter().filter(|byte| **byte != 0).count();
    format!("{}; {held} bytes of the part block not 0", text.join(", "))
}

fn fields(record: &Record) -> [(&'static str, u64); 15] {
    [
        ("number", record.number),
        ("vendor", record.vendor.into()),
        ("product", record.product.into()),
        ("release", record.release.into()),
        ("residue", record.residue.into()),
        ("place", record.place.into()),
        ("left", record.left.into()),
        ("value", record.value.into()),
        ("extra", record.extra.into()),
        ("tag", record.tag.into()),
        ("announced", record.announced.into()),
        ("stage", record.stage.into()),
        ("flags", record.flags.into()),
        ("address", record.address.into()),
        ("unit", record.unit.into()),
    ]
}
