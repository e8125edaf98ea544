//! Every kind of problem, with its line and its words; and the command.

use std::io::Write;
use std::process::{Command, Stdio};

use rostertext::parse;

/// A text and the problem that it meets.
const CASES: [(&str, &str); 40] = [
    (
        "surveyors 1: 1",
        "line 1: a line starts with 'surveyor' or 'stand', not with 'surveyors'",
    ),
    (
        "# fine\n\n: 1",
        "line 3: a line starts with 'surveyor' or 'stand', not with ':'",
    ),
    (
        "surveyor",
        "line 1: a number is missing behind the line's first word",
    ),
    (
        "surveyor one: 1",
        "line 1: 'one' is no number, behind the line's first word",
    ),
    (
        "stand : 1",
        "line 1: ':' is no number, behind the line's first word",
    ),
    (
        "surveyor 2: 1",
        "line 1: surveyor 2 comes where surveyor 1 is next",
    ),
    (
        "stand 1:\nstand 1:",
        "line 2: stand 1 comes where stand 2 is next",
    ),
    ("stand 0:", "line 1: stand 0 comes where stand 1 is next"),
    (
        "surveyor 1 quota: 1",
        "line 1: ':' is no number, behind 'quota'",
    ),
    (
        "surveyor 1 quota",
        "line 1: a number is missing behind 'quota'",
    ),
    ("surveyor 1 quota 9: 1", "line 1: quota 9 is above 8"),
    ("surveyor 1 quota 300: 1", "line 1: quota 300 is above 8"),
    (
        "surveyor 1 quota -1: 1",
        "line 1: '-1' is no number, behind 'quota'",
    ),
    ("surveyor 1", "line 1: a colon is missing before the list"),
    (
        "surveyor 1 quota 2",
        "line 1: a colon is missing before the list",
    ),
    (
        "surveyor 1 2: 1",
        "line 1: '2' stands where a quota or a colon belongs",
    ),
    ("surveyor 1: 1 x", "line 1: 'x' is no number, in the list"),
    (
        "surveyor 1: +1\nstand 1: 1",
        "line 1: '+1' is no number, in the list",
    ),
    ("surveyor 1: [1]", "line 1: a surveyor's list has no tie"),
    ("stand 1: 2 [1 3", "line 1: the tie's bracket is not closed"),
    ("stand 1: 2 []", "line 1: the tie is empty"),
    (
        "stand 1: [2] 1",
        "line 1: '1' stands behind the tie, which comes last",
    ),
    ("stand 1: 1 ]", "line 1: ']' is no number, in the list"),
    (
        "surveyor 1: 1",
        "line 1: stand 1 is listed, but the text has no stand",
    ),
    (
        "surveyor 1: 1\nstand 1: 1 0",
        "line 2: surveyor 0 is listed, but the surveyors are numbered from 1 to 1",
    ),
    (
        "surveyor 1: 1 1\nstand 1: 1",
        "line 1: stand 1 stands twice in the list",
    ),
    (
        "surveyor 1: 1\nstand 1: 1 [1]",
        "line 2: surveyor 1 stands twice in the list",
    ),
    (
        "surveyor 1: 1 1/1\nstand 1: 1",
        "line 1: stand 1 stands twice in the list",
    ),
    (
        "surveyor 1: 1/2 1 1/2\nstand 1: 1",
        "line 1: stand 1 in shift 2 stands twice in the list",
    ),
    (
        "surveyor 1: 1/3\nstand 1: 1/3 [1/3]",
        "line 2: surveyor 1 in shift 3 stands twice in the list",
    ),
    (
        "surveyor 1: 1/0",
        "line 1: shift 0 is listed, but the shifts are numbered from 1 to 3",
    ),
    (
        "surveyor 1: 1/4",
        "line 1: shift 4 is listed, but the shifts are numbered from 1 to 3",
    ),
    (
        "stand 1: [1/300]",
        "line 1: shift 300 is listed, but the shifts are numbered from 1 to 3",
    ),
    (
        "surveyor 1: 1/",
        "line 1: a number is missing behind the stroke, for the shift",
    ),
    (
        "surveyor 1: 1/x",
        "line 1: 'x' is no number, behind the stroke, for the shift",
    ),
    (
        "surveyor 1: 1/2/3",
        "line 1: '2/3' is no number, behind the stroke, for the shift",
    ),
    ("surveyor 1: /2", "line 1: a number is missing in the list"),
    (
        "surveyor 1: 1/3\nstand 1: 1",
        "line 1: surveyor 1 lists stand 1 in shift 3, but stand 1 does not list surveyor 1 in shift 3",
    ),
    (
        "surveyor 1: 1/3\nstand 1: 1/3 [1]",
        "line 2: stand 1 lists surveyor 1, but surveyor 1 does not list stand 1",
    ),
    (
        "surveyor 1: 1\nsurveyor 2: 1\nstand 1: 1",
        "line 2: surveyor 2 lists stand 1, but stand 1 does not list surveyor 2",
    ),
];

#[test]
fn each_problem_has_its_line_and_words() {
    for (text, words) in CASES {
        let problem = parse(text).expect_err(text);
        assert_eq!(problem.to_string(), words, "{text:?}");
    }
}

#[test]
fn problems_of_whole_sides() {
    let nodes = |word: &str, count: usize, quota: u8| -> String {
        let lines = (1..=count).map(|number| format!("{word} {number} quota {quota}:\n"));
        lines.collect()
    };
    assert!(parse(&nodes("stand", 32, 2)).is_ok());
    assert!(parse(&nodes("surveyor", 8, 8)).is_ok());
    for (text, words) in [
        (
            nodes("stand", 33, 0),
            "line 33: there are more than 32 stands",
        ),
        (
            nodes("surveyor", 33, 1),
            "line 33: there are more than 32 surveyors",
        ),
        (
            nodes("surveyor", 9, 8),
            "line 9: with this one the surveyors' quotas sum to more than 64",
        ),
        (
            nodes("surveyor", 8, 8) + &nodes("stand", 22, 3),
            "line 30: with this one the stands' quotas sum to more than 64",
        ),
        (
            "surveyor 1:\nstand 1: 1".to_owned(),
            "line 2: stand 1 lists surveyor 1, but surveyor 1 does not list stand 1",
        ),
    ] {
        assert_eq!(parse(&text).expect_err(words).to_string(), words);
    }
}

/// Runs the command on an input: whether it succeeds, its output, its errors.
fn run(arguments: &[&str], input: &[u8]) -> (bool, Vec<u8>, String) {
    let mut child = Command::new(env!("CARGO_BIN_EXE_rostertext"))
        .args(arguments)
        .stdin(Stdio::piped())
        .stdout(Stdio::piped())
        .stderr(Stdio::piped())
        .spawn()
        .expect("the command starts");
    let mut stdin = child.stdin.take().expect("a pipe");
    // a command that reads nothing may be gone already
    let _ = stdin.write_all(input);
    drop(stdin);
    let output = child.wait_with_output().expect("the command ends");
    let errors = String::from_utf8(output.stderr).expect("plain text");
    (output.status.success(), output.stdout, errors)
}

#[test]
fn the_command_packs_and_unpacks() {
    let text = "surveyor 1 quota 1: 1\nsurveyor 2 quota 1: 1\nstand 1 quota 1: 1 2\n";
    let bytes = [
        2, 1, 1, 1, 1, 2, 0, 1, 1, 1, 1, 1, 1, 2, 0, 2, 0, 1, 1, 2, 1,
    ];
    packs_and_unpacks(text, &bytes);
    let text = "surveyor 1 quota 2: 1/3 1\nstand 1 quota 2: 1 [1/3]\n";
    let bytes = [1, 2, 1, 2, 2, 0, 2, 1, 3, 1, 1, 2, 0, 1, 1, 1, 1, 1, 3];
    packs_and_unpacks(text, &bytes);
}

fn packs_and_unpacks(text: &str, bytes: &[u8]) {
    let packed = run(&["pack"], text.as_bytes());
    assert_eq!(packed, (true, bytes.to_vec(), String::new()));
    assert_eq!(run(&["unpack"], bytes), (true, text.into(), String::new()));
}

#[test]
fn shift_1_may_be_written() {
    let roster = |text| parse(text).expect("accepted");
    let plain = roster("surveyor 1: 1 1/3\nstand 1: 1/3 [1]");
    let written = roster("surveyor 1: 1/1 1/3\nstand 1: 1/3 [1/1]");
    assert_eq!(plain, written);
}

#[test]
fn lists_of_32_entries() {
    // eleven stands in three shifts, but the last in fewer
    let text = |entries: usize| {
        let entry = |place: usize| format!(" {}/{}", place / 3 + 1, place % 3 + 1);
        let list: String = (0..entries).map(entry).collect();
        let stand = |number: usize| {
            let own = (0..entries).filter(|place| place / 3 + 1 == number);
            let list: String = own.map(|place| format!(" 1/{}", place % 3 + 1)).collect();
            format!("stand {number}:{list}\n")
        };
        let stands: String = (1..=11).map(stand).collect();
        format!("surveyor 1:{list}\n{stands}")
    };
    assert!(parse(&text(32)).is_ok());
    let problem = parse(&text(33)).expect_err("too long");
    assert_eq!(
        problem.to_string(),
        "line 1: the list has 33 entries, more than 32"
    );
}

#[test]
fn the_command_tells_what_is_wrong() {
    let usage = "usage: rostertext pack < text > bytes, rostertext unpack < bytes > text,
       rostertext pack-ranges ROSTER < text > bytes, rostertext unpack-ranges ROSTER < bytes > text\n";
    let cases: [(&[&str], &[u8], &str); 8] = [
        (&[], b"", usage),
        (&["fold"], b"", usage),
        (&["pack", "unpack"], b"", usage),
        (
            &["pack"],
            b"stand 1: 1",
            "line 1: surveyor 1 is listed, but the text has no surveyor\n",
        ),
        (&["pack"], &[0xff], "the input is no text\n"),
        (
            &["unpack"],
            &[1, 9],
            "the input is no roster: refused 3 content, a quota is above 8, or the quotas of one side are above 64 together\n",
        ),
        (
            &["unpack"],
            &[1, 1, 1, 1, 1, 0, 1, 1, 4],
            "the input is no roster: refused 18 content, a list entry's shift is not 1, 2 or 3\n",
        ),
        // two surveyors and a stand as files were before the shifts
        (
            &["unpack"],
            &[2, 1, 1, 1, 1, 2, 0, 1, 1, 1, 1, 2, 0, 2, 0, 1, 2],
            "the input is no roster: refused 4 content, a list entry is 0 or above the other side's count; \
             it is one of a season before the shifts, which `seasons to-new` turns\n",
        ),
    ];
    for (arguments, input, words) in cases {
        assert_eq!(run(arguments, input), (false, Vec::new(), words.to_owned()));
    }
}
