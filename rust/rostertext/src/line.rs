//! One line of a text roster: a node with its quota and its list. And one line of
//! ranges: a node, and entries of its list with their ranks.

use reference::limits::{MAX_QUOTA, MAX_SHIFT};
use reference::ranges::Range;
use reference::roster::Side;

use crate::problem::What;
use crate::ranges;

/// An entry of a list as it is written: a number of the other side, which may
/// not be there, and one of the shifts.
#[derive(Clone, Copy, Debug, PartialEq, Eq)]
pub struct Listed {
    pub number: usize,
    pub shift: u8,
}

/// A node as its line states it; whether the entries are there is not known
/// yet.
#[derive(Clone, Debug, PartialEq, Eq)]
pub struct Line {
    pub side: Side,
    pub number: usize,
    pub quota: u8,
    pub strict: Vec<Listed>,
    pub tied: Vec<Listed>,
}

/// The quota of a node whose line states none, and the shift of an entry that
/// states none.
const PLAIN_QUOTA: u8 = 1;
pub const PLAIN_SHIFT: u8 = 1;

/// The words of a line; colons and brackets are words of their own. A line
/// that is empty or only a comment has none.
pub fn words(line: &str) -> Vec<String> {
    let mut spaced = String::new();
    for letter in line.split('#').next().unwrap_or("").chars() {
        match letter {
            ':' | '[' | ']' => spaced.extend([' ', letter, ' ']),
            _ => spaced.push(letter),
        }
    }
    spaced.split_whitespace().map(str::to_owned).collect()
}

/// Reads a line's words.
pub fn read(words: &[String]) -> Result<Line, What> {
    let mut words = words.iter().map(String::as_str).peekable();
    let (side, number) = node(&mut words)?;
    let quota = match words.next_if(|&word| word == "quota") {
        Some(_) => quota(words.next())?,
        None => PLAIN_QUOTA,
    };
    match words.next().unwrap_or("") {
        ":" => {}
        other => return Err(What::NoColon(other.to_owned())),
    }
    let mut strict = Vec::new();
    while let Some(word) = words.next_if(|&word| word != "[") {
        strict.push(entry(word)?);
    }
    let tied = tie(side, words)?;
    Ok(Line {
        side,
        number,
        quota,
        strict,
        tied,
    })
}

/// The node with which a line begins.
fn node<'a>(words: &mut impl Iterator<Item = &'a str>) -> Result<(Side, usize), What> {
    let side = match words.next().unwrap_or("") {
        "surveyor" => Side::Surveyors,
        "stand" => Side::Stands,
        other => return Err(What::UnknownStart(other.to_owned())),
    };
    let number = number(words.next(), "behind the line's first word")?;
    Ok((side, number))
}

/// A node, and entries of its list with the ranks that they may have; whether the
/// list has them is not known yet.
pub struct RangesLine {
    pub side: Side,
    pub number: usize,
    pub ranges: Vec<(Listed, Range)>,
}

/// Reads the words of a line of ranges.
pub fn read_ranges(words: &[String]) -> Result<RangesLine, What> {
    let mut words = words.iter().map(String::as_str);
    let (side, number) = node(&mut words)?;
    match words.next().unwrap_or("") {
        ":" => {}
        other => return Err(What::NoColon(other.to_owned())),
    }
    let ranged = |word: &str| {
        let (front, behind) = word
            .split_once('=')
            .ok_or_else(|| What::NoEquals(word.to_owned()))?;
        Ok((entry(front)?, ranges::range(behind)?))
    };
    let ranges = words.map(ranged).collect::<Result<_, What>>()?;
    Ok(RangesLine {
        side,
        number,
        ranges,
    })
}

/// The tie at the end of a list, if there is one.
fn tie<'a>(side: Side, mut words: impl Iterator<Item = &'a str>) -> Result<Vec<Listed>, What> {
    let mut tied = Vec::new();
    if words.next().is_none() {
        return Ok(tied);
    }
    if side == Side::Surveyors {
        return Err(What::TieOfSurveyor);
    }
    loop {
        match words.next() {
            Some("]") => break,
            Some(word) => tied.push(entry(word)?),
            None => return Err(What::TieNotClosed),
        }
    }
    if tied.is_empty() {
        return Err(What::TieEmpty);
    }
    match words.next() {
        Some(word) => Err(What::EntryBehindTie(word.to_owned())),
        None => Ok(tied),
    }
}

fn quota(word: Option<&str>) -> Result<u8, What> {
    let quota = number(word, "behind 'quota'")?;
    match u8::try_from(quota) {
        Ok(fits) if fits <= MAX_QUOTA => Ok(fits),
        _ => Err(What::QuotaTooLarge(quota)),
    }
}

/// An entry: a number, and behind a stroke the shift.
fn entry(word: &str) -> Result<Listed, What> {
    let (front, behind) = match word.split_once('/') {
        Some((front, behind)) => (front, Some(behind)),
        None => (word, None),
    };
    Ok(Listed {
        number: number(Some(front), "in the list")?,
        shift: behind.map_or(Ok(PLAIN_SHIFT), shift)?,
    })
}

fn shift(word: &str) -> Result<u8, What> {
    let shift = number(Some(word), "behind the stroke, for the shift")?;
    match u8::try_from(shift) {
        Ok(fits) if (1..=MAX_SHIFT).contains(&fits) => Ok(fits),
        _ => Err(What::ShiftOutOfRange(shift)),
    }
}

/// A number in digits. More digits than a roster can need are no number.
pub fn number(word: Option<&str>, place: &'static str) -> Result<usize, What> {
    let found = word.unwrap_or("");
    let digits = found.bytes().all(|letter| letter.is_ascii_digit());
    match found.parse() {
        Ok(number) if digits => Ok(number),
        _ => Err(What::NoNumber {
            place,
            found: found.to_owned(),
        }),
    }
}
