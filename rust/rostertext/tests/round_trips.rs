//! Random rosters up to the limits, from bytes to text and back, and from
//! texts as a person may write them to bytes and back.

use reference::random::{self, Random};
use reference::roster::{self, Roster};
use rostertext::{parse, print};

fn any_roster(random: &mut Random) -> Roster {
    let shape = random::any_shape(random);
    random::roster(random, &shape)
}

#[test]
fn bytes_to_text_and_back() {
    let mut random = Random::new(61);
    let mut longest = 0;
    for _ in 0..10_000 {
        let roster = any_roster(&mut random);
        let bytes = roster::write(&roster);
        let read = roster::read(&bytes).expect("within the limits");
        let parsed = parse(&print(&read)).expect("what is printed can be read");
        assert_eq!(roster::write(&parsed), bytes);
        longest = longest.max(bytes.len());
    }
    println!("the longest roster had {longest} bytes");
    assert!(longest > 3_000);
}

#[test]
fn the_longest_rosters() {
    let mut random = Random::new(62);
    for ties in [0, 50, 100] {
        let roster = random::roster(&mut random, &random::longest_shape(ties, 50));
        let bytes = roster::write(&roster);
        assert_eq!(bytes.len(), 4_262);
        let parsed = parse(&print(&roster)).expect("what is printed can be read");
        assert_eq!(roster::write(&parsed), bytes);
    }
}

/// The text of a roster in another layout: the two sides mixed, comments,
/// empty lines, spaces, quotas of 1 left out, shift 1 told, ties in any order.
fn by_hand(random: &mut Random, roster: &Roster) -> String {
    let printed = print(roster);
    let (mut surveyors, mut stands): (Vec<&str>, Vec<&str>) = printed
        .lines()
        .partition(|line| line.starts_with("surveyor"));
    surveyors.reverse();
    stands.reverse();
    let mut text = String::new();
    while !surveyors.is_empty() || !stands.is_empty() {
        let next = if random.chance(50) {
            surveyors.pop()
        } else {
            stands.pop()
        };
        let Some(line) = next else { continue };
        let mut line = line.to_owned();
        if random.chance(50) {
            line = line.replace(" quota 1:", ":");
        }
        if random.chance(30) {
            line = tell_shifts(&line);
        }
        line = shuffle_tie(random, &line);
        if random.chance(30) {
            line = line
                .replace(' ', " \t ")
                .replace(':', " :")
                .replace('[', "  [ ");
        }
        if random.chance(30) {
            line.push_str("# stand 7: [");
        }
        if random.chance(20) {
            text.push_str("\n  # a comment\n");
        }
        text.push_str(&line);
        text.push_str(if random.chance(20) { "\r\n" } else { "\n" });
    }
    text
}

/// The line with shift 1 told at each entry that tells none.
fn tell_shifts(line: &str) -> String {
    let (front, list) = line.split_once(':').expect("a list");
    let told = |word: &str| {
        let entry = word.trim_end_matches(']');
        let bracket = &word[entry.len()..];
        let shift = if entry.contains('/') { "" } else { "/1" };
        format!(" {entry}{shift}{bracket}")
    };
    let list: String = list.split_whitespace().map(told).collect();
    format!("{front}:{list}")
}

fn shuffle_tie(random: &mut Random, line: &str) -> String {
    let Some((front, tie)) = line.split_once('[') else {
        return line.to_owned();
    };
    let mut tied: Vec<&str> = tie.trim_end_matches(']').split(' ').collect();
    random.shuffle(&mut tied);
    format!("{front}[{}]", tied.join(" "))
}

#[test]
fn text_to_bytes_and_back() {
    let mut random = Random::new(63);
    for _ in 0..10_000 {
        let roster = any_roster(&mut random);
        let text = by_hand(&mut random, &roster);
        let parsed = parse(&text).unwrap_or_else(|problem| panic!("{problem}\n{text}"));
        let bytes = roster::write(&parsed);
        assert_eq!(bytes, roster::write(&roster));
        let read = roster::read(&bytes).expect("what is packed is accepted");
        assert_eq!(print(&read), print(&roster));
    }
}
