//! The program itself: any bytes on standard input, and its options.

use reference::generate::session;
use reference::lateness::generate::day;
use reference::options::{read_options, Options};
use std::io::Write;
use std::process::{Command, Output, Stdio};

fn run(arguments: &[&str], input: &[u8]) -> Output {
    let mut child = Command::new(env!("CARGO_BIN_EXE_reference"))
        .args(arguments)
        .stdin(Stdio::piped())
        .stdout(Stdio::piped())
        .stderr(Stdio::piped())
        .spawn()
        .unwrap();
    let mut stdin = child.stdin.take().unwrap();
    let bytes = input.to_vec();
    // Written aside, or a long session would wait for its own answers.
    let writer = std::thread::spawn(move || stdin.write_all(&bytes));
    let output = child.wait_with_output().unwrap();
    // A program that reads no input may have ended before it was written.
    drop(writer.join().unwrap());
    output
}

fn answers(arguments: &[&str], input: &[u8]) -> String {
    let output = run(arguments, input);
    assert!(output.status.success());
    String::from_utf8(output.stdout).unwrap()
}

const NOT_A_FRAME: &str = "0A000000000000000000000000\n";
const DONE: &str = "00000000000000000000000000\n";
const NONE_HELD: &str = "06000000000000000000000000\n";

#[test]
fn no_input_no_output() {
    assert_eq!(answers(&[], b""), "");
}

#[test]
fn line_ends() {
    assert_eq!(answers(&[], b"\n"), NOT_A_FRAME);
    assert_eq!(answers(&[], b"0001"), DONE);
    assert_eq!(answers(&[], b"0001\n02"), [DONE, NONE_HELD].concat());
    assert_eq!(
        answers(&[], b"0001\n\n02\n"),
        [DONE, NOT_A_FRAME, NONE_HELD].concat()
    );
    // 0D is a byte like others, and no line end.
    assert_eq!(answers(&[], b"0001\r\n"), NOT_A_FRAME);
    assert_eq!(answers(&[], b"0001\r02\n"), NOT_A_FRAME);
}

#[test]
fn any_bytes() {
    let mut input = vec![b'0'; 1 << 20];
    input.extend_from_slice(b"\n\xFF\xFE\x00\n0001\n");
    input.extend(vec![0xC3; 1 << 20]);
    let expected = [NOT_A_FRAME, NOT_A_FRAME, DONE, NOT_A_FRAME].concat();
    assert_eq!(answers(&[], &input), expected);
}

#[test]
fn memory_options() {
    assert_eq!(answers(&[], b"0004\n"), "02000000000000000000000000\n");
    assert_eq!(answers(&["--array", "28436"], b"0004\n"), DONE);
    let insert = b"0001\n010000000000000000\n";
    let short = "03000000000000000000000000\n";
    assert_eq!(answers(&["--work", "15"], insert), [DONE, short].concat());
    assert_eq!(answers(&["--work", "16"], insert), [DONE, DONE].concat());
}

#[test]
fn counts() {
    let mut input = b"02\n0002\n".to_vec();
    for _ in 0..9 {
        input.extend_from_slice(b"010000000000000000\n");
    }
    let output = answers(&["--counts"], &input);
    let lines: Vec<&str> = output.lines().collect();
    assert_eq!(lines.len(), 22);
    assert_eq!(lines[0], "04000000000000000000000000");
    assert_eq!(lines[1], "  -");
    assert_eq!(lines[3], "  L=2 c=1,1 I=0 1:0,0,0,0 2:0,0,0,0,0,0,0,0");
    assert_eq!(lines[21], "  L=2 c=2,1 I=1 1:0,0,8,0 2:0,0,0,0,0,0,0,0");
}

#[test]
fn generated_session_goes_through() {
    let arguments = [
        "--generate",
        "--seed",
        "9",
        "--lines",
        "4000",
        "--links",
        "2",
    ];
    let output = run(&arguments, b"");
    let options = Options {
        seed: 9,
        lines: 4000,
        links: Some(2),
        ..Options::default()
    };
    assert!(output.stdout == session(&options));
    assert_eq!(answers(&[], &output.stdout).lines().count(), 4000);
}

/// Standard output and standard error of a day of lines.
fn late(input: &[u8]) -> (String, String) {
    let output = run(&["--late"], input);
    let [told, said] = [output.stdout, output.stderr].map(|text| String::from_utf8(text).unwrap());
    assert!(output.status.success());
    (told, said)
}

#[test]
fn lateness_reported_or_refused() {
    let (told, said) = late(b"FFFFFFFF0000000601\n000000060000000601");
    assert!(told
        .contains("\nleft   count 2  earliest 0  latest 7  sum 7  exact 1  median 0  mean 7/2\n"));
    assert_eq!((told.lines().count(), said.as_str()), (3, ""));
    for (input, line) in [
        ("\n".repeat(4097), "refused 15: more than 4096 lines\n"),
        ("0".repeat(1 << 20), "refused 10: line 1 is no pair\n"),
        (
            "00".repeat(8) + "03",
            "refused 7: line 1 has a door above 2\n",
        ),
    ] {
        assert_eq!(late(input.as_bytes()), (String::new(), line.to_string()));
    }
}

#[test]
fn lateness_that_cannot_be_read_or_written() {
    let program = env!("CARGO_BIN_EXE_reference");
    let folder = std::fs::File::open(".").unwrap();
    let full = std::fs::OpenOptions::new().write(true).open("/dev/full");
    let mut late = Command::new(program);
    let output = late.arg("--late").stdin(folder).output().unwrap();
    assert!(output.stdout.is_empty() && output.stderr.starts_with(b"read: "));
    late.stdin(Stdio::null()).stdout(full.unwrap());
    let output = late.stderr(Stdio::piped()).spawn().unwrap();
    let output = output.wait_with_output().unwrap();
    assert!(output.stderr.starts_with(b"write: "));
}

#[test]
fn generated_day_goes_through() {
    let output = run(&["--generate", "--late", "--seed", "9"], b"");
    assert!(output.stdout == day(9));
}

#[test]
fn help_and_bad_options() {
    for option in ["--generate", "--limits", "--late"] {
        assert!(answers(&["--help"], b"").contains(option));
    }
    for bad in [
        &["--nothing"][..],
        &["--array"],
        &["--array", "many"],
        &["--array", "-1"],
        &["--links", "5"],
        &["--links", "0"],
    ] {
        let output = run(bad, b"0001\n");
        assert_eq!(output.status.code(), Some(2), "{bad:?}");
        assert!(output.stdout.is_empty());
        assert!(!output.stderr.is_empty());
    }
}

#[test]
fn options_as_read() {
    let words = |text: &str| -> Vec<String> { text.split(' ').map(str::to_string).collect() };
    let options = read_options(&words("--generate --plain --seed 3 --lines 300 --links 2"));
    let expected = Options {
        generate: true,
        plain: true,
        seed: 3,
        lines: 300,
        links: Some(2),
        ..Options::default()
    };
    assert_eq!(options, Ok(expected));
    let limits = Options {
        limits: true,
        ..Options::default()
    };
    assert_eq!(read_options(&words("--limits")), Ok(limits));
    let late = Options {
        late: true,
        ..Options::default()
    };
    assert!(late.only_late() && !Options::default().only_late());
    assert_eq!(read_options(&words("--late")), Ok(late));
    let generated = read_options(&words("--generate --late --seed 4")).unwrap();
    assert!(generated.generate && generated.late && !generated.only_late());
    assert_eq!(read_options(&[]), Ok(Options::default()));
    let memory = (Options::default().array, Options::default().work);
    assert_eq!(memory, (2628, 960));
}
