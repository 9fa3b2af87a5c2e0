//! The control pipe's data: descriptors, statuses and the small answers.

use crate::bench::Bench;
use ordinary::device::Answer;

fn descriptor(bench: &mut Bench, value: u16, index: u16, length: u16) -> Result<Vec<u8>, Answer> {
    let [v, i, l] = [value, index, length].map(u16::to_le_bytes);
    bench.control([0x80, 0x06, v[0], v[1], i[0], i[1], l[0], l[1]])
}

fn string(text: &str) -> Vec<u8> {
    let mut bytes = vec![2 + 2 * text.len() as u8, 3];
    bytes.extend(text.encode_utf16().flat_map(u16::to_le_bytes));
    bytes
}

#[test]
fn descriptors_are_those_of_the_specification() {
    let mut bench = Bench::new(1);
    let device = *b"\x12\x01\x00\x02\x00\x00\x00\x40\x34\x12\x78\x56\x00\x01\x01\x02\x03\x01";
    let configuration = [
        &[0x09, 0x02, 0x20, 0x00, 0x01, 0x01, 0x00, 0xC0, 0x00][..],
        &[0x09, 0x04, 0x00, 0x00, 0x02, 0x08, 0x06, 0x50, 0x00],
        &[0x07, 0x05, 0x81, 0x02, 0x40, 0x00, 0x00],
        &[0x07, 0x05, 0x02, 0x02, 0x40, 0x00, 0x00],
    ]
    .concat();
    assert_eq!(descriptor(&mut bench, 0x0100, 0, 255), Ok(device.to_vec()));
    assert_eq!(descriptor(&mut bench, 0x0100, 0, 8), Ok(device[..8].to_vec()));
    assert_eq!(descriptor(&mut bench, 0x0200, 0, 9), Ok(configuration[..9].to_vec()));
    assert_eq!(descriptor(&mut bench, 0x0200, 0, 0xFFFF), Ok(configuration));
    assert_eq!(descriptor(&mut bench, 0x0300, 0, 4), Ok(vec![4, 3, 9, 4]));
    assert_eq!(descriptor(&mut bench, 0x0301, 0x0409, 255), Ok(string("COLLECT")));
    assert_eq!(descriptor(&mut bench, 0x0302, 0x0409, 255), Ok(string("METER EXPORT")));
    assert_eq!(descriptor(&mut bench, 0x0303, 0x0409, 255), Ok(string("000000000042")));
    for (value, index) in [(0x0100, 1), (0x0300, 0x0409), (0x0301, 0), (0x0304, 0x0409), (0x0600, 0)] {
        assert_eq!(descriptor(&mut bench, value, index, 255), Err(Answer::Stall));
    }
}

#[test]
fn small_answers() {
    let mut bench = Bench::new(1);
    assert_eq!(bench.control([0x80, 0x08, 0, 0, 0, 0, 1, 0]), Ok(vec![1]));
    assert_eq!(bench.control([0x80, 0x00, 0, 0, 0, 0, 2, 0]), Ok(vec![1, 0]));
    assert_eq!(bench.control([0x81, 0x00, 0, 0, 0, 0, 2, 0]), Ok(vec![0, 0]));
    assert_eq!(bench.control([0xA1, 0xFE, 0, 0, 0, 0, 1, 0]), Ok(vec![0]));
    assert_eq!(bench.control([0x02, 0x03, 0, 0, 0x81, 0, 0, 0]), Ok(vec![]));
    assert_eq!(bench.control([0x82, 0x00, 0, 0, 0x81, 0, 2, 0]), Ok(vec![1, 0]));
    assert_eq!(bench.control([0x82, 0x00, 0, 0, 0x80, 0, 2, 0]), Ok(vec![0, 0]));
    assert_eq!(bench.control([0x02, 0x03, 0, 0, 0x00, 0, 0, 0]), Err(Answer::Stall));
    assert_eq!(bench.control([0x00, 0x05, 9, 0, 0, 0, 0, 0]), Err(Answer::Stall));
}
