//! Reading and writing single frames.

use reference::frames::{answer_line, read_order, write_order, Order};
use reference::machine::Outcome;

const PAIRS: [(&str, Order); 10] = [
    ("0000", Order::Setup(0)),
    ("0003", Order::Setup(3)),
    ("00FF", Order::Setup(255)),
    ("010000000302000007", Order::Insert(0x0000_0003_0200_0007)),
    ("01FEDCBA9876543210", Order::Insert(0xFEDC_BA98_7654_3210)),
    ("01FFFFFFFFFFFFFFFF", Order::Insert(u64::MAX)),
    ("02", Order::Take),
    ("03", Order::Look),
    ("04", Order::Held),
    ("05", Order::Audit),
];

#[test]
fn frames_are_read_and_written() {
    for (frame, order) in PAIRS {
        assert_eq!(read_order(frame.as_bytes()), Some(order), "{frame}");
        assert_eq!(write_order(order), frame);
    }
}

/// "On reading, everything else, the empty line too, is 10."
#[test]
fn everything_else_is_no_frame() {
    let others = [
        "",
        "0",
        "00",
        "000",
        "00010",
        "000100",
        "00fF",
        "01",
        "01000000030200000",
        "0100000003020000",
        "0100000003020000070",
        "01000000030200000700",
        "01fedcba9876543210",
        "01FEDCBA987654321a",
        "01FEDCBA987654321G",
        "2",
        "0200",
        " 02",
        "02 ",
        "0 2",
        "02\r",
        "02\0",
        "+2",
        "0x02",
        "06",
        "0A",
        "FF",
        "1000",
        "\u{660}\u{662}",
    ];
    for other in others {
        assert_eq!(read_order(other.as_bytes()), None, "{other:?}");
    }
    assert_eq!(read_order(b"\xFF\xFE"), None);
    assert_eq!(read_order(b"0\xB2"), None);
}

/// No byte but the sixteen digits is a digit, in either place of a pair.
#[test]
fn sixteen_digits_only() {
    for byte in 0..=255u8 {
        let good = b"0123456789ABCDEF".contains(&byte);
        assert_eq!(
            read_order(&[b'0', b'0', byte, b'1']).is_some(),
            good,
            "{byte}"
        );
        assert_eq!(
            read_order(&[b'0', b'0', b'1', byte]).is_some(),
            good,
            "{byte}"
        );
    }
}

#[test]
fn answer_lines() {
    let outcome = Outcome {
        answer: 0,
        word: 0xFEDC_BA98_7654_3210,
        steps: 0xABC,
        ..Outcome::default()
    };
    assert_eq!(answer_line(&outcome), "00FEDCBA987654321000000ABC");
    let refused = answer_line(&Outcome::refused(10));
    assert_eq!(refused, "0A000000000000000000000000");
}
