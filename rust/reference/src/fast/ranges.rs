//! The least vote over ranges of ranks for speed: the places of a pair's two
//! entries come from the sizes of the lists before them, the ranks of the pairs,
//! and for a tied pair from the tied pairs before it.

use super::plan::Chosen;
use super::roster::Instance;
use super::vote;
use crate::limits::{MAX_ENTRIES, MAX_NODES, MAX_RANK, RANGE_FIELD};

/// The refusal of a file of ranges, 0 if it is accepted.
pub fn check(instance: &Instance, ranges: &[u8]) -> u8 {
    let count = 2 * instance.pairs;
    let fields = ranges.chunks_exact(RANGE_FIELD).take(count);
    for field in fields {
        let [low, high] = [field[0], field[1]];
        if low == 0 || low > high || high > MAX_RANK {
            return 21;
        }
    }
    match ranges.len().cmp(&(RANGE_FIELD * count)) {
        std::cmp::Ordering::Less => 1,
        std::cmp::Ordering::Equal => 0,
        std::cmp::Ordering::Greater => 9,
    }
}

/// Where the entries of a stand's list begin, and how many tied pairs of its stand
/// there are before each pair.
struct Stands {
    start: [u16; MAX_NODES],
    before: [u8; MAX_ENTRIES],
}

impl Stands {
    fn of(instance: &Instance) -> Stands {
        let mut sizes = [0; MAX_NODES];
        let mut ties = [0; MAX_NODES];
        let mut before = [0; MAX_ENTRIES];
        for (pair, before) in before[..instance.pairs].iter_mut().enumerate() {
            let stand = usize::from(instance.stand[pair]);
            sizes[stand] += 1;
            if instance.tied[pair] {
                *before = ties[stand];
                ties[stand] += 1;
            }
        }
        let mut start = [0; MAX_NODES];
        let mut sum = instance.pairs as u16;
        for (start, size) in start.iter_mut().zip(sizes) {
            *start = sum;
            sum += size;
        }
        Stands { start, before }
    }
}

/// The least vote of one plan against another over accepted ranges. A rank for
/// each range that reaches it is written to the front of `out`.
pub fn least(
    instance: &Instance,
    mine: &Chosen,
    theirs: &Chosen,
    ranges: &[u8],
    out: &mut [u8],
) -> i16 {
    for (rank, field) in out.iter_mut().zip(ranges.chunks_exact(RANGE_FIELD)) {
        *rank = field[0];
    }
    let stands = Stands::of(instance);
    let marks = vote::marks(mine, theirs);
    let mut ranks = [instance.rank_s, instance.rank_t];
    for &pair in mine.as_slice().iter().chain(theirs.as_slice()) {
        let pair = usize::from(pair);
        let first = instance.first[usize::from(instance.surveyor[pair])];
        let start = stands.start[usize::from(instance.stand[pair])];
        let places = [
            usize::from(first) + usize::from(instance.rank_s[pair]) - 1,
            usize::from(start) + usize::from(instance.rank_t[pair]) - 1
                + usize::from(stands.before[pair]),
        ];
        // the first plan's own pairs have their high ranks
        let byte = usize::from(marks[pair] == 1);
        for (ranks, place) in ranks.iter_mut().zip(places) {
            ranks[pair] = ranges[RANGE_FIELD * place + byte];
            out[place] = ranks[pair];
        }
    }
    let [rank_s, rank_t] = &ranks;
    vote::vote_by(instance, mine, theirs, rank_s, rank_t)
}
