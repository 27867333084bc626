//! The rules' echo case, played by the example program.

#[allow(dead_code)]
#[path = "../examples/echo.rs"]
mod program;
mod support;

use program::echo;
use support::bytes;

/// The case of the rules, frame by frame.
const INPUT: [&str; 4] = [
    "00000011 5b 00000002 00000007 00000005 00000003",
    "00000011 5e 00000002 00000008 6162636465666768",
    "00000005 60 00000002",
    "00000009 5d 00000002 00000003",
];
const OUTPUT: [&str; 4] = [
    "0000000c 5e 00000007 00000003 616263",
    "0000000b 5e 00000007 00000002 6465",
    "0000000c 5e 00000007 00000003 666768",
    "00000005 60 00000007",
];

#[test]
fn the_case() {
    assert_eq!(echo(&bytes(&INPUT.concat())).unwrap(), bytes(&OUTPUT.concat()));
}

#[test]
fn the_stored_case() {
    assert_eq!(bytes(&INPUT.concat()), include_bytes!("../../crates/echo/stdin"));
    assert_eq!(bytes(&OUTPUT.concat()), include_bytes!("../../crates/echo/stdout"));
}

#[test]
fn it_stops_at_a_frame_cut_short() {
    let mut input = bytes(&INPUT.concat());
    input.pop();
    assert_eq!(echo(&input).unwrap(), bytes(&OUTPUT[..2].concat()));
    assert_eq!(echo(&input[..3]).unwrap(), []);
    assert_eq!(echo(&[]).unwrap(), []);
}

#[test]
fn it_skips_refused_messages() {
    let refused = ["00000000", "00000001 ff", "00000005 60 00000009", "00000006 60 00000002 00", "00000005 60 00000003"];
    for message in refused {
        let input: Vec<u8> = INPUT.iter().flat_map(|frame| [bytes(message), bytes(frame)].concat()).collect();
        assert_eq!(echo(&input).unwrap(), bytes(&OUTPUT.concat()), "{message}");
    }
}

#[test]
fn it_charges_data_and_keeps_its_kind() {
    let confirmed = "00000011 5b 00000003 00000008 00000100 00000100";
    let data = format!("0000002e 5f 00000003 00000001 00000021 {}", "78".repeat(33));
    let staged = "00000009 5d 00000008 00000021";
    assert_eq!(echo(&bytes(&[confirmed, &data].concat())).unwrap(), bytes(&[staged, &data.replacen("00000003", "00000008", 1)].concat()));
}

#[test]
fn it_reads_no_more_than_16384_bytes() {
    let length = 16_384 - 4 - bytes(&INPUT.concat()).len();
    let mut input = [&(length as u32).to_be_bytes()[..], &vec![0; length], &bytes(&INPUT.concat())].concat();
    assert_eq!(input.len(), 16_384);
    assert_eq!(echo(&input).unwrap(), bytes(&OUTPUT.concat()));
    input[3] += 1;
    input.insert(4, 0);
    assert_eq!(echo(&input).unwrap(), bytes(&OUTPUT[..2].concat()));
}
