//! The comparison against the stand-in: without a fault nothing differs, and each
//! fault is seen by the commands named with it.

use std::process::{Command, Output};

fn compare(arguments: &[&str], fault: &str) -> Output {
    Command::new(env!("CARGO_BIN_EXE_compare"))
        .args(arguments)
        .env("GORGALHUT_FAULT", fault)
        .output()
        .unwrap()
}

fn text(output: &Output) -> String {
    String::from_utf8(output.stdout.clone()).unwrap()
}

/// Runs a command with a fault that must be seen; gives the report.
fn seen(group: &str, fault: &str) -> String {
    let output = compare(&[group, "--arrays", "4000", "--seed", "3"], fault);
    let text = text(&output);
    assert_eq!(output.status.code(), Some(1), "{group} {fault}: {text}");
    let report = text.split("difference, seed 3, ").nth(1);
    report
        .unwrap_or_else(|| panic!("{group} {fault}: {text}"))
        .to_string()
}

#[test]
fn no_fault_no_difference() {
    for group in ["book", "takes", "calls", "insert"] {
        for seed in ["3", "4"] {
            let output = compare(&[group, "--arrays", "4000", "--seed", seed], "");
            let text = text(&output);
            assert_eq!(output.status.code(), Some(0), "{text}");
            assert!(text.starts_with(&format!("seed {seed}\narrays 4000\n")));
            assert!(text.ends_with("no difference\n"), "{text}");
        }
    }
}

#[test]
fn faults_of_the_verdict() {
    for rule in [
        "LinkNumber",
        "Inside",
        "Insertion",
        "Counter",
        "Unused",
        "LinkTotal",
        "Held",
        "Mark",
    ] {
        let report = seen("book", &format!("rule-{rule}"));
        assert!(report.contains("expected verdict false, got true"));
    }
    assert!(seen("book", "book-writes").contains("word 256 was"));
    seen("book", "book-of-255");
}

#[test]
fn faults_of_the_results() {
    for (group, fault, told) in [
        ("takes", "steps", "Take"),
        ("calls", "steps", "Take"),
        ("insert", "steps", "Insert"),
        ("takes", "refusal-word", "Take"),
        ("calls", "refusal-word", "Take"),
        ("takes", "word-unwritten", "word: bad0bad0bad0bad0"),
        ("calls", "word-unwritten", "word: bad0bad0bad0bad0"),
        ("insert", "word-unwritten", "word: bad0bad0bad0bad0"),
        ("takes", "held-without-i", "Held"),
        ("calls", "held-without-i", "Held"),
        ("calls", "audit-without-i", "Audit"),
        ("takes", "length-last", "Take"),
        ("calls", "length-last", "Take"),
        ("insert", "packed", "Insert"),
        ("insert", "door-first", "Insert"),
        ("insert", "work-last", "Insert"),
        ("insert", "full-first", "Insert"),
    ] {
        let report = seen(group, fault);
        assert!(report.starts_with("array "), "{fault}: {report}");
        assert!(report.contains("expected Got"), "{fault}: {report}");
        assert!(report.contains(told), "{fault}: {report}");
    }
}

/// A limit is told before the results are compared.
#[test]
fn steps_above_the_limit() {
    for (group, told) in [("takes", "Take"), ("calls", "Take"), ("insert", "Insert(")] {
        let report = seen(group, "above-limit");
        assert!(report.contains(&format!(": {told}")), "{report}");
        assert!(report.contains(" steps, and the limit is "), "{report}");
    }
    seen_in_calls("abuse", "above-limit", " steps, and the limit is ");
}

/// Everything that is compared of a call is compared of each.
#[test]
fn faults_of_one_call_alone() {
    for (groups, call, told) in [
        (&["takes", "calls"][..], "take", "Take"),
        (&["takes", "calls"], "look", "Look"),
        (&["takes", "calls"], "held", "Held"),
        (&["calls"], "setup", "Setup("),
        (&["calls"], "audit", "Audit"),
        (&["insert"], "insert", "Insert("),
    ] {
        // Those that may change the array have a queue to be found after them.
        let changing = !["held", "audit"].contains(&call);
        // An answer 4 is none of setup's, and nothing is held after it.
        let setup = call == "setup";
        for (what, report, fits) in [
            ("answer", "expected Got", !setup),
            ("word", "expected Got", true),
            ("steps", "expected Got", true),
            ("unused", "word 200 was", true),
            ("counters", "expected queue", changing),
            ("entries", "expected queue", changing && !setup),
        ] {
            for group in groups.iter().filter(|_| fits) {
                let found = seen(group, &format!("{call}-{what}"));
                assert!(
                    found.contains(&format!(": {told}")),
                    "{call}-{what}: {found}"
                );
                assert!(found.contains(report), "{call}-{what}: {found}");
            }
        }
    }
}

#[test]
fn faults_of_the_movements() {
    for (group, fault) in [
        ("takes", "take-ties"),
        ("calls", "take-ties"),
        ("takes", "look-removes"),
        ("calls", "look-removes"),
        ("takes", "look-unchanged"),
        ("calls", "look-unchanged"),
        ("insert", "before-equal"),
        ("insert", "second-sweep"),
        ("insert", "counters"),
        ("insert", "poured"),
    ] {
        let report = seen(group, fault);
        assert!(report.contains("expected queue"), "{fault}: {report}");
    }
    for (fault, rule) in [("stale-mark", "Mark"), ("start-outside", "Inside")] {
        for group in ["takes", "calls", "insert"] {
            let report = seen(group, fault);
            let broken = format!("book rules broken: [{rule}]");
            assert!(report.contains(&broken), "{fault}: {report}");
        }
    }
}

#[test]
fn writes_where_none_are_allowed() {
    for (group, fault, report) in [
        ("takes", "refusal-writes", "word "),
        ("calls", "refusal-writes", "word "),
        ("insert", "refusal-writes", "word "),
        ("takes", "held-writes", "word 300 was"),
        ("calls", "held-writes", "word 300 was"),
        ("takes", "before", "written 1 words before the array"),
        ("calls", "before", "written 1 words before the array"),
        ("insert", "before", "written 1 words before the array"),
        ("takes", "behind", "written 1 words behind the array"),
        ("calls", "behind", "written 1 words behind the array"),
        ("insert", "behind", "written 1 words behind the array"),
        ("takes", "past-length", "word that stays"),
        ("calls", "past-length", "word that stays"),
        ("insert", "past-length", "word that stays"),
        ("calls", "setup-clears", "word that stays"),
        ("takes", "unused-words", "unused book word 200"),
        ("calls", "unused-words", "unused book word 200"),
        ("insert", "unused-words", "unused book word 200"),
        (
            "insert",
            "work-behind",
            "written 1 words behind the work area",
        ),
        (
            "insert",
            "work-refusal",
            "a refusal wrote into the work area",
        ),
    ] {
        let found = seen(group, fault);
        assert!(found.contains(report), "{fault}: {found}");
    }
}

/// A fault that shows only after many calls on one array.
#[test]
fn faults_that_need_a_session() {
    let report = seen("calls", "late");
    assert!(report.starts_with("emptying session"), "{report}");
    // No setup stands between calls on arrays of their own, so there are sessions alone.
    for (group, told) in [
        ("takes", ", emptying session of "),
        ("insert", ", session of "),
    ] {
        let arguments = [group, "--arrays", "0", "--session-calls", "4000"];
        let output = compare(&arguments, "late");
        assert_eq!(output.status.code(), Some(1));
        assert!(text(&output).contains(told), "{}", text(&output));
    }
}

/// The same seed gives the same arrays, wherever the comparison begins.
#[test]
fn a_difference_is_found_again() {
    let whole = seen("calls", "take-ties");
    let number = whole
        .trim_start_matches("array ")
        .split(',')
        .next()
        .unwrap();
    let arguments = ["calls", "--arrays", "4000", "--seed", "3", "--from", number];
    let output = compare(&arguments, "take-ties");
    let text = text(&output);
    assert!(text.contains("arrays 0\n"), "{text}");
    assert!(text.ends_with(&whole), "{text}");
    let later = (number.parse::<usize>().unwrap() + 1).to_string();
    let arguments = ["calls", "--arrays", &later, "--seed", "3", "--from", &later];
    let output = compare(
        &[&arguments[..], &["--session-calls", "0"]].concat(),
        "take-ties",
    );
    assert_eq!(output.status.code(), Some(0));
}

const LONGEST: &str = "
links 1: take 16 of 16, insert 16 of 16
links 2: take 216 of 224, insert 352 of 352
links 3: take 2358 of 2396, insert 5712 of 5712
links 4: take 23262 of 23500, insert 138176 of 138176
no difference
";

/// Few arrays are enough for the longest calls; the same seed gives the same report.
#[test]
fn longest_calls() {
    for arrays in ["40", "400"] {
        let arguments = ["longest", "--arrays", arrays, "--seed", "3"];
        let [one, again] = [(); 2].map(|()| text(&compare(&arguments, "")));
        assert!(one.starts_with(&format!("seed 3\narrays {arrays}\n")));
        assert!(one.ends_with(LONGEST), "{one}");
        assert_eq!(one, again);
    }
}

#[test]
fn faults_of_long_calls() {
    for (fault, told, report) in [
        ("steps", "Take", "expected Got"),
        ("above-limit", "Take", " steps, and the limit is "),
        ("take-word", "Take", "expected Got"),
        ("look-unchanged", "Look", "expected queue"),
        ("insert-steps", "Insert(", "expected Got"),
        ("insert-entries", "Insert(", "expected queue"),
        ("packed", "Insert(", "expected Got"),
        ("stale-mark", "Take", "book rules broken: [Mark]"),
        ("behind", "Take", "written 1 words behind the array"),
    ] {
        let found = seen("longest", fault);
        assert!(found.starts_with("array "), "{fault}: {found}");
        assert!(found.contains(&format!(", {told}")), "{fault}: {found}");
        assert!(found.contains(report), "{fault}: {found}");
    }
}

/// Runs a command that has calls instead of arrays; gives what it printed.
fn called(group: &str, fault: &str, status: i32) -> String {
    let output = compare(&[group, "--calls", "30000", "--seed", "3"], fault);
    let text = text(&output);
    assert_eq!(
        output.status.code(),
        Some(status),
        "{group} {fault}: {text}"
    );
    text
}

/// The same with a fault that must be seen, and told in these words.
fn seen_in_calls(group: &str, fault: &str, report: &str) {
    let text = called(group, fault, 1);
    assert!(text.contains("difference, seed 3, "), "{fault}: {text}");
    assert!(text.contains(report), "{fault}: {text}");
}

#[test]
fn no_fault_no_difference_in_calls() {
    for (group, told) in [
        ("abuse", "\ncalls 30000, "),
        ("frames", "\nlines, orders"),
        ("joins", "\nparts: "),
        ("lateness", "\ndays 30000\n"),
    ] {
        let text = called(group, "", 0);
        assert!(text.contains(told), "{text}");
        assert!(text.ends_with("no difference\n"), "{text}");
        // Without canaries there is nothing else that would differ.
        let arguments = [group, "--calls", "5000", "--exact"];
        assert_eq!(compare(&arguments, "").status.code(), Some(0));
    }
}

#[test]
fn abuse_and_frames() {
    for (group, fault, report) in [
        ("abuse", "before", "written 1 words before the array"),
        ("abuse", "behind", "written 1 words behind the array"),
        (
            "abuse",
            "work-behind",
            "written 1 words behind the work area",
        ),
        (
            "abuse",
            "work-refusal",
            "a refusal wrote into the work area",
        ),
        ("abuse", "refusal-writes", "word "),
        ("abuse", "word-behind", "beside: true"),
        ("abuse", "steps", "expected Got"),
        ("abuse", "poured", "expected queue"),
        ("abuse", "stale-mark", "book rules broken: [Mark]"),
        ("frames", "small-letters", "expected (a, (0, 0))"),
        ("frames", "links-cut", "write 0 "),
        ("frames", "line-behind", "expected Line"),
        ("frames", "line-ended", "expected ["),
        ("frames", "tally-wraps", "tally "),
        ("frames", "tally-adds-between", "tally "),
        ("frames", "tally-knows-between", "tally "),
    ] {
        seen_in_calls(group, fault, report);
    }
}

#[test]
fn joins_and_parts() {
    for (fault, report) in [
        ("join-block-by-last", "join, "),
        ("part-block-by-last", "part, "),
        ("join-second-at-equal", "join, "),
        ("part-second-at-equal", "part, "),
        ("join-rest-of-the-other", " of rest: expected"),
        ("join-rest-cut", "word 0 of rest: expected"),
        ("join-rest-behind", " of rest: expected"),
        ("join-laid-behind", " of out: expected"),
        ("join-out-behind", "written 1 words behind out"),
        ("part-out-behind", "written 1 words behind out"),
        ("join-refusal-writes", "word 0 of out: expected"),
        ("part-refusal-writes", "word 0 of out: expected"),
        ("join-writes-run", "word 0 of first run: expected"),
        ("part-writes-run", "word 0 of first run: expected"),
        ("part-stops", " of out: expected"),
        ("part-first-off-by-one", "expected JoinGot"),
    ] {
        seen_in_calls("joins", fault, report);
    }
}

#[test]
fn lateness() {
    for (fault, report) in [
        ("half-late", " of the report: expected -2147483648, got "),
        ("plain", " of the report: expected"),
        ("unsigned", " of the report: expected -"),
        ("both-added", " of the report: expected"),
        ("upper-median", " of the report: expected"),
        ("median-unsorted", " of the report: expected"),
        ("earliest-from-zero", "got 0"),
        ("latest-from-zero", "got 0"),
        ("exact-within-1", " of the report: expected"),
        ("sum-of-32-bits", " of the report: expected"),
        ("empty-row", "expected 0, got 9223372036854775807"),
        ("door-first", "expected answer 15, got 7"),
        ("lending-last", "expected answer 10, got "),
        ("door-3", "expected answer 7, got 0"),
        ("most-4095", "expected answer 0, got 15"),
        ("most-4097", "expected answer 15, got 0"),
        ("due-unchecked", "expected answer 10, got 0"),
        ("acting-unchecked", "expected answer 10, got 0"),
        ("doors-unchecked", "expected answer 10, got 0"),
        ("report-17", "expected answer 10, got 0"),
        ("rows-with-7", " of the report: expected 0, got "),
        ("written-with-10", "number 0 of the report: expected "),
        (
            "unwritten-with-7",
            "number 0 of the report: expected 0, got ",
        ),
        (
            "unwritten-with-15",
            "number 0 of the report: expected 0, got ",
        ),
        ("written-behind", "number 18 of the report: expected "),
        ("report-behind", "written 1 numbers behind the report"),
        ("writes-due", "number 0 of due ticks: expected "),
        ("writes-acting", " of acting ticks: expected "),
        ("writes-doors", "number 0 of doors: expected "),
    ] {
        let fault = format!("lateness-{fault}");
        seen_in_calls("lateness", &fault, report);
    }
}

/// Few days are enough to meet all that they are there for; fewer are a fault.
#[test]
fn lateness_of_every_kind() {
    for seed in ["1", "2"] {
        let arguments = ["lateness", "--calls", "400", "--seed", seed];
        assert!(text(&compare(&arguments, "")).ends_with("\nno difference\n"));
    }
    for calls in ["0", "40"] {
        let output = compare(&["lateness", "--calls", calls], "");
        assert_eq!(output.status.code(), Some(1));
        let told = "\nno difference, but never met: answered ";
        assert!(text(&output).contains(told), "{}", text(&output));
    }
}

#[test]
fn bad_command_lines() {
    for arguments in [
        &[][..],
        &["all"],
        &["book", "--arrays"],
        &["book", "--arrays", "x"],
        &["book", "--array", "5"],
    ] {
        let output = compare(arguments, "");
        assert_eq!(output.status.code(), Some(2), "{arguments:?}");
        assert!(output.stdout.is_empty() && !output.stderr.is_empty());
    }
}
