//! The program: a roster's bytes in, the text of the finder's answer out.

use std::fmt::Display;

use crate::finder::{find, Answer, Why};
use crate::limits::MAX_INPUT_BYTES;
use crate::reduction::{Fate, Step};
use crate::refusal::Refusal;
use crate::roster::{read, Roster};

/// The output for an input, of which only the first bytes count.
pub fn run(input: &[u8]) -> Vec<u8> {
    run_with(input, find)
}

/// The output with any finder.
pub fn run_with(input: &[u8], find: fn(&Roster) -> Answer) -> Vec<u8> {
    let input = &input[..input.len().min(MAX_INPUT_BYTES)];
    let mut text = Text::default();
    match read(input) {
        Ok(roster) => text.answer(&roster, &find(&roster)),
        Err(refusal) => text.refusal(refusal),
    }
    text.lines.into_bytes()
}

/// The lines written so far, each closed by byte 10.
#[derive(Default)]
struct Text {
    lines: String,
}

impl Text {
    fn line(&mut self, words: &[&dyn Display]) {
        let words: Vec<String> = words.iter().map(ToString::to_string).collect();
        self.lines.push_str(&words.join(" "));
        self.lines.push('\n');
    }

    fn refusal(&mut self, refusal: Refusal) {
        self.line(&[&"refused", &refusal.number(), &refusal.group()]);
    }

    fn answer(&mut self, roster: &Roster, answer: &Answer) {
        let (Answer::Plan { diary, .. } | Answer::None { diary, .. }) = answer;
        for step in diary {
            self.step(roster, step);
        }
        match answer {
            Answer::Plan { plan, .. } => self.pairs(roster, "plan", plan.indices()),
            Answer::None { why, .. } => self.none(roster, why),
        }
    }

    fn step(&mut self, roster: &Roster, step: &Step) {
        let fate = match step.fate {
            Fate::Fix => "fix",
            Fate::Strike => "strike",
        };
        let pair = roster.pairs()[step.pair];
        self.line(&[&fate, &pair.surveyor, &pair.stand, &pair.shift, &step.rule]);
    }

    fn none(&mut self, roster: &Roster, why: &Why) {
        match why {
            Why::Left(left) => self.pairs(roster, "none left", left),
            Why::Rivalled {
                candidate,
                rival,
                vote,
            } => {
                self.line(&[&"none rivalled", vote]);
                self.pairs(roster, "candidate", candidate.indices());
                self.pairs(roster, "rival", rival.indices());
            }
        }
    }

    /// A heading with the number of pairs, then one line for each.
    fn pairs(&mut self, roster: &Roster, heading: &str, indices: &[usize]) {
        self.line(&[&heading, &indices.len()]);
        for &index in indices {
            let pair = roster.pairs()[index];
            self.line(&[&pair.surveyor, &pair.stand, &pair.shift]);
        }
    }
}
