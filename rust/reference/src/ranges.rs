//! Rankings not yet settled (W-211): a range of ranks for each list entry, the
//! vote under a choice of ranks within the ranges, and the least vote that any
//! choice allows. Which choice that reaches it is written is open: here it is high
//! for the pairs that the first plan alone has and low for all others.

use crate::fast;
use crate::limits::{EMPTY_RANK, MAX_RANK, RANGE_FIELD};
use crate::plan::{self, Plan};
use crate::reader::Reader;
use crate::refusal::Refusal;
use crate::roster::{self, Pair, Roster, Side, SIDES};
use crate::votes::{for_each_pairing, rank, rank_vote, Place};

/// "A rank is known only from a low to a high number."
#[derive(Clone, Copy, Debug, PartialEq, Eq)]
pub struct Range {
    pub low: u8,
    pub high: u8,
}

impl Range {
    /// The range of a rank that is known.
    pub fn settled(rank: u8) -> Range {
        Range {
            low: rank,
            high: rank,
        }
    }

    /// The range's field in a file.
    pub fn bytes(self) -> [u8; RANGE_FIELD] {
        [self.low, self.high]
    }
}

/// The list entries in the roster's order, the surveyors' lists and then the
/// stands', each from its first entry on: the side whose list it is, and the pair.
pub fn entries(roster: &Roster) -> Vec<(Side, Pair)> {
    let mut entries = Vec::new();
    for side in SIDES {
        for (number, node) in (1..).zip(roster.nodes(side)) {
            entries.extend(node.list.entries().map(|entry| {
                let [surveyor, stand] = match side {
                    Side::Surveyors => [number, entry.number],
                    Side::Stands => [entry.number, number],
                };
                let pair = Pair {
                    surveyor,
                    stand,
                    shift: entry.shift,
                };
                (side, pair)
            }));
        }
    }
    entries
}

/// Reads a file of ranges: two bytes for each list entry, and nothing after them.
pub fn read(roster: &Roster, file: &[u8]) -> Result<Vec<Range>, Refusal> {
    let mut reader = Reader::new(file);
    let mut ranges = Vec::new();
    for _ in entries(roster) {
        let [low, high] = reader.field::<RANGE_FIELD>()?;
        if low == 0 || low > high || high > MAX_RANK {
            return Err(Refusal::RangeOutOfLimits);
        }
        ranges.push(Range { low, high });
    }
    reader.end()?;
    Ok(ranges)
}

/// The bytes of ranges, as a file.
pub fn write(ranges: &[Range]) -> Vec<u8> {
    ranges.iter().flat_map(|range| range.bytes()).collect()
}

/// The ranks in the roster, in its order.
pub fn roster_ranks(roster: &Roster) -> Vec<u8> {
    let rank_of = |(side, pair): (Side, Pair)| {
        let list = &roster.node(side, pair.end(side)).list;
        rank(list, Some(pair.entry(side)))
    };
    entries(roster).into_iter().map(rank_of).collect()
}

/// The ranges of a roster whose ranks are all known.
pub fn settled(roster: &Roster) -> Vec<Range> {
    let ranks = roster_ranks(roster);
    ranks.into_iter().map(Range::settled).collect()
}

/// Whether these are ranks within the ranges, one for each.
pub fn is_choice(ranges: &[Range], ranks: &[u8]) -> bool {
    ranks.len() == ranges.len()
        && ranges
            .iter()
            .zip(ranks)
            .all(|(range, rank)| (range.low..=range.high).contains(rank))
}

/// The vote of `plan` against `rival` with a rank for each list entry, by trying
/// all pairings at each node.
pub fn vote_under(roster: &Roster, ranks: &[u8], plan: &Plan, rival: &Plan) -> i16 {
    let entries = entries(roster);
    let mut total = 0;
    for side in SIDES {
        for (number, node) in (1..).zip(roster.nodes(side)) {
            let rank_of = |place: Place| {
                let Some(entry) = place else {
                    return EMPTY_RANK;
                };
                let here = |&(own, pair): &(Side, Pair)| {
                    own == side && pair.end(side) == number && pair.entry(side) == entry
                };
                ranks[entries.iter().position(here).expect("a listed entry")]
            };
            let mine = plan.entries(roster, side, number);
            let theirs = rival.entries(roster, side, number);
            let mut least = i16::MAX;
            for_each_pairing(node, &mine, &theirs, |mine, theirs| {
                let facing = mine.iter().zip(theirs);
                let votes = facing.map(|(&own, &other)| rank_vote(rank_of(own), rank_of(other)));
                least = least.min(votes.sum());
            });
            total += least;
        }
    }
    total
}

/// Calls `visit` with every choice of ranks within the ranges.
pub fn for_each_choice(ranges: &[Range], visit: &mut impl FnMut(&[u8])) {
    fn extend(ranges: &[Range], ranks: &mut Vec<u8>, visit: &mut impl FnMut(&[u8])) {
        let Some(range) = ranges.get(ranks.len()) else {
            return visit(ranks);
        };
        for rank in range.low..=range.high {
            ranks.push(rank);
            extend(ranges, ranks, visit);
            ranks.pop();
        }
    }
    extend(ranges, &mut Vec::new(), visit);
}

/// High for both entries of a pair that `plan` has and `rival` lacks, low for all
/// others.
pub fn worst_choice(roster: &Roster, ranges: &[Range], plan: &Plan, rival: &Plan) -> Vec<u8> {
    let entries = entries(roster);
    let chosen = |(&(_, pair), range): (&(Side, Pair), &Range)| {
        let index = roster.index_of(pair).expect("a pair of the roster");
        if plan.holds(index) && !rival.holds(index) {
            range.high
        } else {
            range.low
        }
    };
    entries.iter().zip(ranges).map(chosen).collect()
}

/// The least vote of the plan of one file against that of another, and the ranks
/// that reach it: first one plan is read, then the other, then the ranges. The
/// vote is the fast reading's, so that every roster is answered at once.
pub fn least(
    roster: &Roster,
    first: &[u8],
    second: &[u8],
    ranges: &[u8],
) -> Result<(i16, Vec<u8>), Refusal> {
    let plan = plan::read(roster, first)?;
    let rival = plan::read(roster, second)?;
    let read = read(roster, ranges)?;
    let instance = fast::roster::read(&roster::write(roster)).expect("accepted");
    let [mine, theirs] =
        [first, second].map(|file| fast::plan::read(&instance, file).expect("accepted"));
    let mut ranks = vec![0; read.len()];
    let vote = fast::ranges::least(&instance, &mine, &theirs, ranges, &mut ranks);
    assert_eq!(ranks, worst_choice(roster, &read, &plan, &rival));
    Ok((vote, ranks))
}
