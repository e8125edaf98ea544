//! The program run on files: what it prints for the samples, for random rosters
//! up to the limits, for damaged ones and for inputs that are too long.

mod common;

use std::fs::{self, File};
use std::io::Write;
use std::process::{Command, Stdio};
use std::thread;
use std::time::Duration;

use common::{damage, program, root};
use reference::finder::find_large;
use reference::limits::MAX_INPUT_BYTES;
use reference::plan;
use reference::program::run_with;
use reference::random::{self, Random};
use reference::roster::{self, Roster};
use reference::votes::plan_vote;

/// Runs the program on an input that comes in pieces of this size.
fn run_pieces(input: &[u8], size: usize, pause: Duration) -> Vec<u8> {
    let mut child = Command::new(program())
        .stdin(Stdio::piped())
        .stdout(Stdio::piped())
        .spawn()
        .expect("the program starts");
    let mut stdin = child.stdin.take().expect("a pipe");
    for piece in input.chunks(size) {
        // the program stops reading behind the longest roster
        let _ = stdin.write_all(piece);
        thread::sleep(pause);
    }
    drop(stdin);
    let output = child.wait_with_output().expect("the program ends");
    assert!(output.status.success(), "{input:?}");
    output.stdout
}

/// Runs the program on an input.
fn run(input: &[u8]) -> Vec<u8> {
    run_pieces(input, input.len().max(1), Duration::ZERO)
}

/// Runs the program between these, and gives what it says on standard output
/// and on standard error.
fn run_between(input: File, output: Stdio) -> (Vec<u8>, String) {
    let child = Command::new(program())
        .stdin(input)
        .stdout(output)
        .stderr(Stdio::piped())
        .spawn();
    let child = child.expect("the program starts");
    let output = child.wait_with_output().expect("the program ends");
    let error = String::from_utf8(output.stderr).expect("plain text");
    (output.stdout, error)
}

#[test]
fn samples() {
    let mut samples = 0;
    for entry in fs::read_dir(root().join("samples")).expect("the samples") {
        let path = entry.expect("a sample").path();
        if path.extension().is_none_or(|end| end != "roster") {
            continue;
        }
        let printed = run(&fs::read(&path).expect("its bytes"));
        let out = fs::read(path.with_extension("out")).expect("its output");
        assert_eq!(printed, out, "{path:?}");
        samples += 1;
    }
    assert!(samples >= 20);
}

/// The lines before the rival, and the rival's pairs.
fn split_rival(printed: &[u8]) -> (Vec<String>, Vec<String>) {
    let text = String::from_utf8(printed.to_vec()).expect("plain text");
    let mut front: Vec<String> = text.lines().map(str::to_owned).collect();
    let place = front.iter().position(|line| line.starts_with("rival "));
    let rival = place.map_or(Vec::new(), |place| front.split_off(place));
    (front, rival)
}

/// The plan that lines say: a heading with the count, then the pairs.
fn plan_of(roster: &Roster, lines: &[String]) -> plan::Plan {
    let number = |word: &str| word.parse::<u8>().expect("a number");
    let count = lines[0].split(' ').nth(1).expect("a count");
    let pairs = lines[1..]
        .iter()
        .flat_map(|line| line.split(' ').map(number));
    let file: Vec<u8> = std::iter::once(number(count)).chain(pairs).collect();
    plan::read(roster, &file).expect("a plan within the quotas")
}

/// Holds what is printed against the reference: the same text, but for which
/// rival is named and the vote against it.
fn check(input: &[u8]) -> &'static str {
    let printed = run(input);
    let expected = run_with(input, find_large);
    assert_eq!(printed.last(), Some(&10), "{input:?}");
    let (front, rival) = split_rival(&printed);
    let (expected_front, expected_rival) = split_rival(&expected);
    if expected_rival.is_empty() {
        assert_eq!(printed, expected, "{input:?}");
        return "settled";
    }
    let roster = roster::read(input).expect("accepted");
    let vote_at = |lines: &[String]| {
        let place = lines
            .iter()
            .position(|line| line.starts_with("none rivalled "));
        place.expect("rivalled")
    };
    let at = vote_at(&expected_front);
    assert_eq!(vote_at(&front), at, "{input:?}");
    assert_eq!(front[..at], expected_front[..at], "{input:?}");
    assert_eq!(front[at + 1..], expected_front[at + 1..], "{input:?}");
    let vote = |lines: &[String]| {
        lines[at]["none rivalled ".len()..]
            .parse::<i16>()
            .expect("a vote")
    };
    assert_eq!(
        vote(&front).signum(),
        vote(&expected_front).signum(),
        "{input:?}"
    );
    let [candidate, rival] = [&front[at + 1..], &rival].map(|lines| plan_of(&roster, lines));
    assert_ne!(rival, candidate, "{input:?}");
    assert_eq!(
        plan_vote(&roster, &candidate, &rival),
        vote(&front),
        "{input:?}"
    );
    "rivalled"
}

#[test]
fn random_rosters() {
    let mut random = Random::new(95);
    let mut rivalled = 0;
    for turn in 0..1_500 {
        let mut shape = random::small_shape(&mut random);
        if turn % 50 == 0 {
            shape.counts = [6..=12, 6..=12];
        }
        let mut file = roster::write(&random::roster(&mut random, &shape));
        if turn % 3 == 0 {
            damage(&mut random, &mut file);
        }
        rivalled += usize::from(check(&file) == "rivalled");
    }
    println!("{rivalled} of 1500 were rivalled");
    assert!(rivalled > 100);
}

#[test]
fn inputs_that_are_too_long() {
    let longest = fs::read(root().join("samples/longest.roster")).expect("a sample");
    let mut long = longest.clone();
    long.resize(MAX_INPUT_BYTES + 5_000, 1);
    assert_eq!(run(&long), b"refused 9 form\n");
    long[0] = 33;
    assert_eq!(run(&long), b"refused 2 form\n");
    assert_eq!(run(&[]), b"refused 1 form\n");
}

#[test]
fn input_in_pieces() {
    let sample = root().join("samples/two-for-one");
    let roster = fs::read(sample.with_extension("roster")).expect("its bytes");
    let out = fs::read(sample.with_extension("out")).expect("its output");
    for size in [1, 2, 5] {
        assert_eq!(run_pieces(&roster, size, Duration::from_millis(5)), out);
    }
}

#[test]
fn a_million_bytes() {
    let roster = fs::read(root().join("samples/two-for-one.roster")).expect("its bytes");
    let mut input = roster;
    input.resize(1_000_000, 7);
    assert_eq!(run(&input), b"refused 9 form\n");
    assert_eq!(run(&vec![33; 1_000_000]), b"refused 2 form\n");
}

#[test]
fn a_read_that_fails() {
    // a folder can be opened, and no byte of it be read
    let folder = File::open(root()).expect("the folder");
    let (output, error) = run_between(folder, Stdio::piped());
    assert_eq!(output, b"");
    assert_eq!(error, "crew: the roster cannot be read\n");
}

#[test]
fn a_write_that_fails() {
    let roster = File::open(root().join("samples/two-for-one.roster")).expect("its bytes");
    let full = File::options().write(true).open("/dev/full");
    let (_, error) = run_between(roster, full.expect("the full device").into());
    assert_eq!(error, "crew: the answer cannot be written\n");
}
