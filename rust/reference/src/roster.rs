//! Rosters: what they hold, and reading and writing their bytes.

use crate::layout::Layout;
use crate::limits::{
    ENTRY_FIELD, MAX_ENTRIES, MAX_NODES, MAX_QUOTA, MAX_QUOTA_SUM, MAX_SHIFT, PAIR_FIELD,
};
use crate::reader::{within, Reader};
use crate::refusal::Refusal;

/// The two sides of a roster.
#[derive(Clone, Copy, Debug, PartialEq, Eq)]
pub enum Side {
    Surveyors,
    Stands,
}

/// Both sides, in the order of the roster's sections; arrays of two are
/// indexed by a side in this order.
pub const SIDES: [Side; 2] = [Side::Surveyors, Side::Stands];

impl Side {
    pub fn other(self) -> Side {
        match self {
            Side::Surveyors => Side::Stands,
            Side::Stands => Side::Surveyors,
        }
    }
}

/// An entry of a list: the number of a node of the other side, and a shift. The
/// derived order is that of a tie: by number, then by shift.
#[derive(Clone, Copy, Debug, PartialEq, Eq, PartialOrd, Ord, Hash)]
pub struct Entry {
    pub number: u8,
    pub shift: u8,
}

impl Entry {
    /// The entry's field in a file.
    pub fn bytes(self) -> [u8; ENTRY_FIELD] {
        [self.number, self.shift]
    }
}

/// A node's list. The strict entries come best first; the tied ones share the
/// place behind them. A surveyor's list has no tie.
#[derive(Clone, Debug, Default, PartialEq, Eq)]
pub struct List {
    pub strict: Vec<Entry>,
    pub tied: Vec<Entry>,
}

impl List {
    /// All entries in the order of the file.
    pub fn entries(&self) -> impl Iterator<Item = Entry> + '_ {
        self.strict.iter().chain(&self.tied).copied()
    }

    pub fn length(&self) -> usize {
        self.strict.len() + self.tied.len()
    }

    pub fn holds(&self, entry: Entry) -> bool {
        self.entries().any(|own| own == entry)
    }
}

/// A surveyor or a stand.
#[derive(Clone, Debug, PartialEq, Eq)]
pub struct Node {
    pub quota: u8,
    pub list: List,
}

/// A surveyor and a stand, by their numbers, in one shift; in another shift they
/// are another pair. The derived order is the order of plans: by surveyor, then
/// by stand, then by shift.
#[derive(Clone, Copy, Debug, PartialEq, Eq, PartialOrd, Ord)]
pub struct Pair {
    pub surveyor: u8,
    pub stand: u8,
    pub shift: u8,
}

impl Pair {
    /// The number of the node at which the pair ends on that side.
    pub fn end(self, side: Side) -> u8 {
        match side {
            Side::Surveyors => self.surveyor,
            Side::Stands => self.stand,
        }
    }

    /// The pair as it stands in the list of its node on that side.
    pub fn entry(self, side: Side) -> Entry {
        Entry {
            number: self.end(side.other()),
            shift: self.shift,
        }
    }

    /// The pair's field in a file.
    pub fn bytes(self) -> [u8; PAIR_FIELD] {
        [self.surveyor, self.stand, self.shift]
    }
}

/// An accepted roster: every pair stands in both lists.
#[derive(Clone, Debug, PartialEq, Eq)]
pub struct Roster {
    surveyors: Vec<Node>,
    stands: Vec<Node>,
    pairs: Vec<Pair>,
}

impl Roster {
    /// A roster of these nodes, or the refusal of a pair that only one side
    /// lists. The other rules of document 01 are the caller's to keep.
    pub fn new(surveyors: Vec<Node>, stands: Vec<Node>) -> Result<Roster, Refusal> {
        let pairs = pairs_of(&surveyors, |surveyor, entry| Pair {
            surveyor,
            stand: entry.number,
            shift: entry.shift,
        });
        let mirrored = pairs_of(&stands, |stand, entry| Pair {
            surveyor: entry.number,
            stand,
            shift: entry.shift,
        });
        if pairs != mirrored {
            return Err(Refusal::PairOnOneSideOnly);
        }
        Ok(Roster {
            surveyors,
            stands,
            pairs,
        })
    }

    /// The nodes of one side; number n is at index n - 1.
    pub fn nodes(&self, side: Side) -> &[Node] {
        match side {
            Side::Surveyors => &self.surveyors,
            Side::Stands => &self.stands,
        }
    }

    /// The node with that number, counted from 1.
    pub fn node(&self, side: Side, number: u8) -> &Node {
        &self.nodes(side)[usize::from(number) - 1]
    }

    /// All pairs, ascending. Elsewhere a pair is named by its index here.
    pub fn pairs(&self) -> &[Pair] {
        &self.pairs
    }

    /// Whether some surveyor and some stand are a pair in more than one shift.
    pub fn has_parallel_pairs(&self) -> bool {
        let ends = |pair: &Pair| (pair.surveyor, pair.stand);
        let mut neighbours = self.pairs.windows(2);
        neighbours.any(|two| ends(&two[0]) == ends(&two[1]))
    }

    /// The index of a pair, if the roster has it.
    pub fn index_of(&self, pair: Pair) -> Option<usize> {
        self.pairs.binary_search(&pair).ok()
    }
}

/// The pairs that the lists of one side name, ascending.
fn pairs_of(nodes: &[Node], pair: impl Fn(u8, Entry) -> Pair) -> Vec<Pair> {
    let mut pairs = Vec::new();
    for (number, node) in (1..).zip(nodes) {
        pairs.extend(node.list.entries().map(|entry| pair(number, entry)));
    }
    pairs.sort_unstable();
    pairs
}

/// Reads a new roster.
pub fn read(file: &[u8]) -> Result<Roster, Refusal> {
    read_by(Layout::New, file)
}

/// Reads a roster, field by field from left to right; the first field that
/// breaks a rule decides the refusal.
pub fn read_by(layout: Layout, file: &[u8]) -> Result<Roster, Refusal> {
    let mut reader = Reader::new(file);
    let surveyor_quotas = read_quotas(&mut reader)?;
    let stand_quotas = read_quotas(&mut reader)?;
    let (surveyors, stands) = (surveyor_quotas.len(), stand_quotas.len());
    let surveyor_lists = read_lists(&mut reader, layout, Side::Surveyors, surveyors, stands)?;
    let stand_lists = read_lists(&mut reader, layout, Side::Stands, stands, surveyors)?;
    reader.end()?;
    Roster::new(
        join(surveyor_quotas, surveyor_lists),
        join(stand_quotas, stand_lists),
    )
}

fn join(quotas: Vec<u8>, lists: Vec<List>) -> Vec<Node> {
    let nodes = quotas.into_iter().zip(lists);
    nodes.map(|(quota, list)| Node { quota, list }).collect()
}

/// A section of quotas: the count of nodes, then one quota each.
fn read_quotas(reader: &mut Reader) -> Result<Vec<u8>, Refusal> {
    let count = reader.narrow_count(MAX_NODES)?;
    let mut quotas = Vec::with_capacity(count);
    let mut sum = 0;
    for _ in 0..count {
        let quota = reader.narrow()?;
        sum += usize::from(quota);
        if quota > MAX_QUOTA || sum > MAX_QUOTA_SUM {
            return Err(Refusal::QuotaAboveLimit);
        }
        quotas.push(quota);
    }
    Ok(quotas)
}

/// A section of lists. Its count is only compared, after the section: the
/// length bytes alone say how far reading goes.
fn read_lists(
    reader: &mut Reader,
    layout: Layout,
    side: Side,
    nodes: usize,
    others: usize,
) -> Result<Vec<List>, Refusal> {
    let stated = reader.wide_count(MAX_ENTRIES)?;
    let mut lists = Vec::with_capacity(nodes);
    for _ in 0..nodes {
        lists.push(read_list(reader, layout, side, others)?);
    }
    if lists.iter().map(List::length).sum::<usize>() != stated {
        return Err(Refusal::SectionCountWrong);
    }
    Ok(lists)
}

/// One list: its lengths, then its entries, whose numbers are at most `others`.
/// A stand's two lengths are both read before their sum is held against the
/// limit.
pub fn read_list(
    reader: &mut Reader,
    layout: Layout,
    side: Side,
    others: usize,
) -> Result<List, Refusal> {
    let strict = usize::from(reader.narrow()?);
    let tied = match side {
        Side::Surveyors => 0,
        Side::Stands => usize::from(reader.narrow()?),
    };
    within(strict + tied, layout.longest_list(others))?;
    let mut list = List::default();
    for _ in 0..strict {
        let entry = read_entry(reader, layout, others, &list)?;
        list.strict.push(entry);
    }
    for _ in 0..tied {
        let entry = read_entry(reader, layout, others, &list)?;
        if list.tied.last().is_some_and(|&last| last >= entry) {
            return Err(Refusal::TieNotAscending);
        }
        list.tied.push(entry);
    }
    Ok(list)
}

/// The next entry behind those already in the list. Number and shift are one
/// field.
fn read_entry(
    reader: &mut Reader,
    layout: Layout,
    others: usize,
    list: &List,
) -> Result<Entry, Refusal> {
    let entry = layout.entry(reader)?;
    if entry.number == 0 || usize::from(entry.number) > others {
        return Err(Refusal::EntryOutOfRange);
    }
    if entry.shift == 0 || entry.shift > MAX_SHIFT {
        return Err(Refusal::ShiftOutOfRange);
    }
    if list.holds(entry) {
        return Err(Refusal::EntryTwice);
    }
    Ok(entry)
}

/// The bytes of a roster, as a new file.
pub fn write(roster: &Roster) -> Vec<u8> {
    write_by(Layout::New, roster)
}

/// The bytes of a roster. An old file does not tell other shifts from shift 1.
pub fn write_by(layout: Layout, roster: &Roster) -> Vec<u8> {
    let mut file = Vec::new();
    for side in SIDES {
        let nodes = roster.nodes(side);
        file.push(narrow(nodes.len()));
        file.extend(nodes.iter().map(|node| node.quota));
    }
    for side in SIDES {
        write_lists(&mut file, layout, side, roster.nodes(side));
    }
    file
}

fn write_lists(file: &mut Vec<u8>, layout: Layout, side: Side, nodes: &[Node]) {
    let entries: usize = nodes.iter().map(|node| node.list.length()).sum();
    let count = u16::try_from(entries).expect("a section count fits into two bytes");
    file.extend(count.to_le_bytes());
    for Node { list, .. } in nodes {
        file.push(narrow(list.strict.len()));
        if side == Side::Stands {
            file.push(narrow(list.tied.len()));
        }
        for entry in list.entries() {
            layout.put(file, entry.bytes());
        }
    }
}

/// A count as one byte; all narrow counts of a roster or plan are small.
pub fn narrow(count: usize) -> u8 {
    u8::try_from(count).expect("a narrow count fits into one byte")
}
