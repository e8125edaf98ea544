//! Rosters for speed: one pass over the bytes, for each list a bit mask of the
//! other side's nodes in each shift.

use crate::limits::{
    MAX_ENTRIES, MAX_LIST, MAX_NODES, MAX_QUOTA, MAX_QUOTA_SUM, MAX_SHIFT, OLD_SHIFT,
};

/// The shifts of a day, and all entries that a list can have.
const SHIFTS: usize = MAX_SHIFT as usize;
const SLOTS: usize = MAX_NODES * SHIFTS;

/// A set of slots, one bit each.
type Slots = u128;

/// The slot of a node in a shift, both counted from 0. Slots ascend by node,
/// then by shift.
pub fn slot(node: usize, shift: usize) -> usize {
    SHIFTS * node + shift
}

/// A roster as arrays: its pairs ascending, and the stated quotas. Nodes are
/// counted from 0.
#[derive(Clone, Debug)]
pub struct Instance {
    pub pairs: usize,
    pub surveyors: usize,
    pub stands: usize,
    pub surveyor: [u8; MAX_ENTRIES],
    pub stand: [u8; MAX_ENTRIES],
    /// The shift, from 1.
    pub shift: [u8; MAX_ENTRIES],
    /// Ranks from 1 at the surveyor and at the stand.
    pub rank_s: [u8; MAX_ENTRIES],
    pub rank_t: [u8; MAX_ENTRIES],
    pub tied: [bool; MAX_ENTRIES],
    pub quota_s: [u8; MAX_NODES],
    pub quota_t: [u8; MAX_NODES],
    /// The slots that each surveyor lists, and the surveyor's first pair.
    pub listed: [Slots; MAX_NODES],
    pub first: [u16; MAX_NODES],
}

impl Instance {
    /// The numbers of a pair's surveyor and stand, from 1, and its shift.
    pub fn numbers(&self, pair: u16) -> (u8, u8, u8) {
        let pair = usize::from(pair);
        (
            self.surveyor[pair] + 1,
            self.stand[pair] + 1,
            self.shift[pair],
        )
    }
}

/// The lists of one side: for each node the slots of its entries, and each
/// entry's rank.
struct Lists {
    listed: [Slots; MAX_NODES],
    rank: [[u8; SLOTS]; MAX_NODES],
    tied: [Slots; MAX_NODES],
}

struct Cursor<'a> {
    file: &'a [u8],
    at: usize,
}

impl Cursor<'_> {
    #[inline]
    fn byte(&mut self) -> Result<u8, u8> {
        let byte = *self.file.get(self.at).ok_or(1)?;
        self.at += 1;
        Ok(byte)
    }

    #[inline]
    fn two(&mut self) -> Result<[u8; 2], u8> {
        let bytes = self.file[self.at..].first_chunk().ok_or(1)?;
        self.at += 2;
        Ok(*bytes)
    }

    fn wide(&mut self) -> Result<usize, u8> {
        let [low, high] = self.two()?;
        Ok(usize::from(low) + 256 * usize::from(high))
    }
}

/// The sections of an accepted file.
struct Sections {
    surveyors: usize,
    stands: usize,
    quota_s: [u8; MAX_NODES],
    quota_t: [u8; MAX_NODES],
    by_surveyor: Lists,
    by_stand: Lists,
}

/// The sections of a new file, or of an old one, which has no shifts.
fn sections<const SHIFTED: bool>(file: &[u8]) -> Result<Sections, u8> {
    let mut cursor = Cursor { file, at: 0 };
    let (surveyors, quota_s) = quotas(&mut cursor)?;
    let (stands, quota_t) = quotas(&mut cursor)?;
    let by_surveyor = lists::<SHIFTED>(&mut cursor, surveyors, stands, false)?;
    let by_stand = lists::<SHIFTED>(&mut cursor, stands, surveyors, true)?;
    if cursor.at < file.len() {
        return Err(9);
    }
    if !mirrored(&by_surveyor.listed, &by_stand.listed) {
        return Err(8);
    }
    Ok(Sections {
        surveyors,
        stands,
        quota_s,
        quota_t,
        by_surveyor,
        by_stand,
    })
}

/// The refusal of a file, 0 if it is accepted: the checks alone.
pub fn check(file: &[u8]) -> u8 {
    sections::<true>(file).err().unwrap_or(0)
}

/// The refusal of an old file, 0 if it is accepted.
pub fn check_old(file: &[u8]) -> u8 {
    sections::<false>(file).err().unwrap_or(0)
}

/// Whether a new file has only the shift of old ones, or its refusal.
pub fn only_old_shift(file: &[u8]) -> Result<bool, u8> {
    let old = (0..MAX_NODES).map(|node| 1 << slot(node, usize::from(OLD_SHIFT) - 1));
    let old: Slots = old.sum();
    let lists = sections::<true>(file)?.by_surveyor.listed;
    Ok(lists.iter().all(|listed| listed & !old == 0))
}

/// Reads a roster, or gives the number of its refusal.
pub fn read(file: &[u8]) -> Result<Instance, u8> {
    let sections = sections::<true>(file)?;
    let mut instance = Instance {
        pairs: 0,
        surveyors: sections.surveyors,
        stands: sections.stands,
        surveyor: [0; MAX_ENTRIES],
        stand: [0; MAX_ENTRIES],
        shift: [0; MAX_ENTRIES],
        rank_s: [0; MAX_ENTRIES],
        rank_t: [0; MAX_ENTRIES],
        tied: [false; MAX_ENTRIES],
        quota_s: sections.quota_s,
        quota_t: sections.quota_t,
        listed: sections.by_surveyor.listed,
        first: [0; MAX_NODES],
    };
    fill(&mut instance, &sections.by_surveyor, &sections.by_stand);
    Ok(instance)
}

fn quotas(cursor: &mut Cursor) -> Result<(usize, [u8; MAX_NODES]), u8> {
    let count = usize::from(cursor.byte()?);
    if count > MAX_NODES {
        return Err(2);
    }
    let mut quotas = [0; MAX_NODES];
    let mut sum = 0;
    for quota in &mut quotas[..count] {
        *quota = cursor.byte()?;
        sum += usize::from(*quota);
        if *quota > MAX_QUOTA || sum > MAX_QUOTA_SUM {
            return Err(3);
        }
    }
    Ok((count, quotas))
}

fn lists<const SHIFTED: bool>(
    cursor: &mut Cursor,
    nodes: usize,
    others: usize,
    ties: bool,
) -> Result<Lists, u8> {
    let stated = cursor.wide()?;
    if stated > MAX_ENTRIES {
        return Err(2);
    }
    let mut lists = Lists {
        listed: [0; MAX_NODES],
        rank: [[0; SLOTS]; MAX_NODES],
        tied: [0; MAX_NODES],
    };
    let mut total = 0;
    for node in 0..nodes {
        let strict = usize::from(cursor.byte()?);
        let tied = if ties { usize::from(cursor.byte()?) } else { 0 };
        if strict + tied > if SHIFTED { MAX_LIST } else { others } {
            return Err(2);
        }
        total += strict + tied;
        list::<SHIFTED>(cursor, &mut lists, node, others, strict, tied)?;
    }
    if total == stated {
        Ok(lists)
    } else {
        Err(7)
    }
}

fn list<const SHIFTED: bool>(
    cursor: &mut Cursor,
    lists: &mut Lists,
    node: usize,
    others: usize,
    strict: usize,
    tied: usize,
) -> Result<(), u8> {
    let mut seen = 0;
    // what the next tied slot must reach
    let mut least = 0;
    for place in 0..strict + tied {
        let [number, shift] = if SHIFTED {
            cursor.two()?
        } else {
            [cursor.byte()?, OLD_SHIFT]
        };
        if number == 0 || usize::from(number) > others {
            return Err(4);
        }
        if shift == 0 || shift > MAX_SHIFT {
            return Err(18);
        }
        let slot = slot(usize::from(number) - 1, usize::from(shift) - 1);
        let bit = 1 << slot;
        if seen & bit != 0 {
            return Err(5);
        }
        if place >= strict {
            if slot < least {
                return Err(6);
            }
            least = slot + 1;
            lists.tied[node] |= bit;
        }
        seen |= bit;
        lists.rank[node][slot] = place.min(strict) as u8 + 1;
    }
    lists.listed[node] = seen;
    Ok(())
}

/// Whether the two sides list the same pairs.
fn mirrored(by_surveyor: &[Slots; MAX_NODES], by_stand: &[Slots; MAX_NODES]) -> bool {
    let mut turned = [0; MAX_NODES];
    for (stand, &listed) in by_stand.iter().enumerate() {
        let mut rest = listed;
        while rest != 0 {
            let back = rest.trailing_zeros() as usize;
            turned[back / SHIFTS] |= 1 << slot(stand, back % SHIFTS);
            rest &= rest - 1;
        }
    }
    turned == *by_surveyor
}

fn fill(instance: &mut Instance, by_surveyor: &Lists, by_stand: &Lists) {
    let mut pair = 0;
    for surveyor in 0..instance.surveyors {
        instance.first[surveyor] = pair as u16;
        let mut rest = by_surveyor.listed[surveyor];
        while rest != 0 {
            let there = rest.trailing_zeros() as usize;
            let (stand, shift) = (there / SHIFTS, there % SHIFTS);
            let back = slot(surveyor, shift);
            instance.surveyor[pair] = surveyor as u8;
            instance.stand[pair] = stand as u8;
            instance.shift[pair] = shift as u8 + 1;
            instance.rank_s[pair] = by_surveyor.rank[surveyor][there];
            instance.rank_t[pair] = by_stand.rank[stand][back];
            instance.tied[pair] = by_stand.tied[stand] >> back & 1 == 1;
            pair += 1;
            rest &= rest - 1;
        }
    }
    instance.pairs = pair;
}
