//! Lateness around the turning clock, rows, refusals, and what a day of lines gives.

use reference::lateness::{
    read_lines, read_pair, report, report_of, text, write_pair, Pair, Refusal, Report, Row,
};

const HALF: u32 = 1 << 31;
const EARLIEST: i64 = -2_147_483_648;
const LATEST: i64 = 2_147_483_647;

fn pair(due: u32, acting: u32, door: u8) -> Pair {
    Pair { due, acting, door }
}

fn lateness(due: u32, acting: u32) -> i64 {
    pair(due, acting, 0).lateness()
}

/// Pairs of one door, due at one tick, with these distances around the clock.
fn pairs(door: u8, distances: &[i64]) -> Vec<Pair> {
    let due = 5;
    let acting = |&distance: &i64| (due + distance).rem_euclid(1 << 32) as u32;
    let ticks = distances.iter().map(acting);
    ticks.map(|acting| pair(due as u32, acting, door)).collect()
}

fn row(distances: &[i64]) -> Row {
    report(&pairs(1, distances)).unwrap()[1]
}

/// The same distances from every kind of due tick: the ends of the clock, half of it.
#[test]
fn around_the_clock() {
    for due in [0, 1, 5, HALF - 1, HALF, HALF + 1, u32::MAX - 1, u32::MAX] {
        for (distance, wanted) in [
            (0, 0),
            (1, 1),
            (u32::MAX, -1),
            (HALF - 2, LATEST - 1),
            (HALF - 1, LATEST),
            (HALF, EARLIEST),
            (HALF + 1, EARLIEST + 1),
        ] {
            let acting = ((u64::from(due) + u64::from(distance)) % (1 << 32)) as u32;
            assert_eq!(lateness(due, acting), wanted, "{due} {acting}");
        }
    }
}

/// By hand: "tick 5 can come after tick 4,294,967,290".
#[test]
fn over_the_turn() {
    assert_eq!(lateness(4_294_967_290, 5), 11);
    assert_eq!(lateness(5, 4_294_967_290), -11);
    assert_eq!(lateness(0, HALF), EARLIEST);
    assert_eq!(lateness(HALF, 0), EARLIEST);
    assert_eq!(lateness(0, HALF - 1), LATEST);
    assert_eq!(lateness(HALF + 1, 0), LATEST);
    assert_eq!(lateness(u32::MAX, 0), 1);
    assert_eq!(lateness(0, u32::MAX), -1);
}

#[test]
fn a_row_of_each_number() {
    let wanted = Row {
        count: 5,
        earliest: -12,
        latest: 40,
        sum: 35,
        exact: 2,
        median: 0,
    };
    assert_eq!(row(&[40, 0, -12, 7, 0]), wanted);
    assert_eq!(wanted.numbers(), [5, -12, 40, 35, 2, 0]);
    // Neither end is at zero unless a pair is.
    assert_eq!(row(&[3, 9]).earliest, 3);
    assert_eq!(row(&[-9, -3]).latest, -3);
}

/// Of n in order, number (n + 1) / 2 rounded down.
#[test]
fn lower_median() {
    for (distances, median) in [
        (&[8][..], 8),
        (&[9, 8], 8),
        (&[9, -8, 8], 8),
        (&[9, 8, 7, 6], 7),
        (&[5, 9, 6, 8, 7], 7),
        (&[1, 1, 2, 2], 1),
        (&[LATEST, EARLIEST], EARLIEST),
        (&[1, -1, 0, -2], -1),
    ] {
        assert_eq!(row(distances).median, median, "{distances:?}");
    }
}

#[test]
fn both_ends_together() {
    let wanted = Row {
        count: 3,
        earliest: EARLIEST,
        latest: LATEST,
        sum: -1,
        exact: 1,
        median: 0,
    };
    assert_eq!(row(&[EARLIEST, 0, LATEST]), wanted);
}

/// "both" does not add to left and right; a door without pairs has zeros.
#[test]
fn doors_apart() {
    for door in 0..=2 {
        let mut wanted = Report::default();
        wanted[usize::from(door)] = row(&[-7, -7, 9]);
        assert_eq!(report(&pairs(door, &[9, -7, -7])), Ok(wanted));
    }
    let all = [pairs(2, &[4]), pairs(0, &[-1, 0]), pairs(1, &[6])].concat();
    assert_eq!(report(&all), Ok([row(&[-1, 0]), row(&[6]), row(&[4])]));
    assert_eq!(report(&[]), Ok(Report::default()));
}

/// As far from zero as a sum can be.
#[test]
fn the_most_pairs() {
    let sum = |distance| row(&vec![distance; 4_096]).sum;
    assert_eq!(sum(EARLIEST), -8_796_093_022_208);
    assert_eq!(sum(LATEST), 8_796_093_018_112);
    assert_eq!(report(&pairs(1, &[0; 4_097])), Err(15));
}

/// "15 for more pairs, 7 for a door above 2, 15 first."
#[test]
fn order_of_refusals() {
    for door in [3, 4, 255] {
        let mut all = pairs(2, &[0; 4_095]);
        all.push(pair(0, 0, door));
        assert_eq!(report(&all), Err(7));
        all.push(pair(0, 0, 0));
        assert_eq!(report(&all), Err(15));
    }
}

#[test]
fn pairs_read_and_written() {
    let read = pair(0x0000_00FE, 0xFEDC_BA98, 0x02);
    assert_eq!(read_pair(b"000000FEFEDCBA9802"), Some(read));
    assert_eq!(write_pair(&read), "000000FEFEDCBA9802");
    // A door above 2 is read, and refused later.
    assert_eq!(read_pair(b"0000000100000002FF"), Some(pair(1, 2, 255)));
    for bad in [
        &b""[..],
        b"0000000100000002",
        b"00000001000000020",
        b"0000000100000002000",
        b"00000001000000020000",
        b"000000FEfEDCBA9802",
        b"0000000100000002 1",
        b"000000010000000201\r",
        b"000000010000000201\0",
        b" 00000001000000021",
        b"+00000010000000201",
        b"0x0000010000000201",
        b"\xFF00000100000002\xFF1",
    ] {
        assert_eq!(read_pair(bad), None, "{bad:?}");
    }
}

fn lines(bytes: &[u8]) -> Vec<Vec<u8>> {
    read_lines(bytes).unwrap()
}

#[test]
fn lines_cut() {
    for (bytes, wanted) in [
        (&b""[..], &[][..]),
        (b"\n", &[&b""[..]]),
        (b"a", &[b"a"]),
        (b"a\n", &[b"a"]),
        (b"a\n\nb", &[b"a", b"", b"b"]),
        (b"a\r\n\n", &[b"a\r", b""]),
    ] {
        assert_eq!(lines(bytes), wanted, "{bytes:?}");
    }
}

const ZEROS: &str = "count 0  earliest 0  latest 0  sum 0  exact 0  median 0  mean 0/0";

fn told(bytes: &[u8]) -> Result<String, String> {
    let report = report_of(&lines(bytes)).map_err(|refusal| refusal.to_string())?;
    Ok(text(&report))
}

#[test]
fn text_of_a_report() {
    let wanted = format!("both   {ZEROS}\nleft   {ZEROS}\nright  {ZEROS}\n");
    assert_eq!(told(b""), Ok(wanted));
    // Early by 12, late by 7 and by 40; one early by half the clock.
    let day = b"000000640000005801\n000000640000006B01\n000000640000008C01\n000000648000006402";
    let left = "count 3  earliest -12  latest 40  sum 35  exact 0  median 7  mean 35/3";
    let right = "count 1  earliest -2147483648  latest -2147483648  sum -2147483648  exact 0  median -2147483648  mean -2147483648/1";
    let wanted = format!("both   {ZEROS}\nleft   {left}\nright  {right}\n");
    assert_eq!(told(day), Ok(wanted));
}

#[test]
fn refusals_of_lines() {
    let (good, bad, door) = ("000000010000000200\n", "0\n", "000000010000000203\n");
    let day = |before: &str, times: usize| [before, &good.repeat(times)].concat();
    let no_pair = |line| Err(Refusal::NoPair(line));
    for (day, wanted) in [
        (day(bad, 4_096), Err(Refusal::MoreLines)),
        (day(door, 4_096), Err(Refusal::MoreLines)),
        (day("\n", 4_096), Err(Refusal::MoreLines)),
        (day(&[door, bad].concat(), 4_094), no_pair(2)),
        (day(&[bad, bad].concat(), 4), no_pair(1)),
        (day(door, 3) + "\n", no_pair(5)),
        (day(door, 3) + door, Err(Refusal::DoorAbove2(1))),
        (day(good, 3) + door + door, Err(Refusal::DoorAbove2(5))),
    ] {
        assert_eq!(report_of(&lines(day.as_bytes())), wanted);
    }
    assert!(report_of(&lines(day("", 4_096).as_bytes())).is_ok());
    for (refusal, line) in [
        (Refusal::MoreLines, "refused 15: more than 4096 lines"),
        (Refusal::NoPair(7), "refused 10: line 7 is no pair"),
        (
            Refusal::DoorAbove2(3),
            "refused 7: line 3 has a door above 2",
        ),
    ] {
        assert_eq!(refusal.to_string(), line);
    }
}
