//! The votes of all plans of a small roster against each other, by tables of
//! node votes. The tables are filled from the definition, by trying all
//! pairings, once for each kind of list, and serve many rosters.

use std::collections::HashMap;
use std::rc::Rc;

use crate::plan::Plan;
use crate::plans::{for_each_plan, judge, Verdict};
use crate::roster::{narrow, Entry, List, Node, Roster, SIDES};
use crate::votes::node_vote;

/// The longest list that a table is made for.
const MAX_LENGTH: usize = 6;

/// A set of positions in a node's list, one bit each.
type Positions = u8;

/// All votes of nodes with the same quota and the same lengths of list: they
/// depend on the positions that the two plans fill, and on nothing else.
struct Table {
    length: usize,
    votes: Vec<i8>,
}

impl Table {
    fn new(quota: u8, strict: usize, tied: usize) -> Table {
        let length = strict + tied;
        assert!(length <= MAX_LENGTH, "tables are for short lists");
        let list = List {
            strict: (0..strict).map(entry_at).collect(),
            tied: (strict..length).map(entry_at).collect(),
        };
        let node = Node { quota, list };
        let sets = 1 << length;
        let fits = |set: usize| set.count_ones() <= u32::from(quota);
        // Sets above the quota belong to no plan; their entries are never read.
        let mut votes = vec![i8::MIN; sets * sets];
        for mine in (0..sets).filter(|&set| fits(set)) {
            for theirs in (0..sets).filter(|&set| fits(set)) {
                let vote = node_vote(&node, &members(mine), &members(theirs));
                votes[mine << length | theirs] = i8::try_from(vote).expect("a small vote");
            }
        }
        Table { length, votes }
    }

    fn vote(&self, mine: Positions, theirs: Positions) -> i16 {
        i16::from(self.votes[usize::from(mine) << self.length | usize::from(theirs)])
    }
}

/// The entry that stands at a position of a table's list.
fn entry_at(position: usize) -> Entry {
    Entry {
        number: narrow(position + 1),
        shift: 1,
    }
}

/// The entries of the bits of a set.
fn members(set: usize) -> Vec<Entry> {
    let bits = (0..MAX_LENGTH).filter(|bit| set >> bit & 1 == 1);
    bits.map(entry_at).collect()
}

/// The tables made so far, by quota, strict length and tie length.
#[derive(Default)]
pub struct Tables {
    tables: HashMap<(u8, usize, usize), Rc<Table>>,
}

impl Tables {
    fn table(&mut self, node: &Node) -> Rc<Table> {
        let (strict, tied) = (node.list.strict.len(), node.list.tied.len());
        let made = self.tables.entry((node.quota, strict, tied));
        made.or_insert_with(|| Rc::new(Table::new(node.quota, strict, tied)))
            .clone()
    }

    /// All plans of a roster, ready to be voted on.
    pub fn contest(&mut self, roster: &Roster) -> Contest {
        let nodes = || SIDES.iter().flat_map(|&side| roster.nodes(side));
        let tables: Vec<Rc<Table>> = nodes().map(|node| self.table(node)).collect();
        let spots: Vec<[Spot; 2]> = (0..roster.pairs().len())
            .map(|pair| spots(roster, pair))
            .collect();
        let mut plans = Vec::new();
        let mut filled = Vec::new();
        for_each_plan(roster, &mut |indices| {
            plans.push(indices.iter().copied().collect());
            let start = filled.len();
            filled.resize(start + tables.len(), 0);
            for &(node, bit) in indices.iter().flat_map(|&pair| &spots[pair]) {
                filled[start + node] |= bit;
            }
        });
        Contest {
            tables,
            plans,
            filled,
        }
    }
}

/// Where a pair is found at one of its ends: the node, surveyors before stands,
/// and the bit of its position in that node's list.
type Spot = (usize, Positions);

fn spots(roster: &Roster, pair: usize) -> [Spot; 2] {
    let pair = roster.pairs()[pair];
    let offsets = [0, roster.nodes(SIDES[0]).len()];
    SIDES.map(|side| {
        let number = pair.end(side);
        let mut entries = roster.node(side, number).list.entries();
        let position = entries.position(|entry| entry == pair.entry(side));
        let node = offsets[side as usize] + usize::from(number) - 1;
        (node, 1 << position.expect("a pair stands in both lists"))
    })
}

/// All plans within the quotas of one roster. Plans are named by their index.
pub struct Contest {
    tables: Vec<Rc<Table>>,
    plans: Vec<Plan>,
    /// For each plan, the positions that it fills at each node.
    filled: Vec<Positions>,
}

impl Contest {
    pub fn plans(&self) -> &[Plan] {
        &self.plans
    }

    /// The vote of one plan against another.
    pub fn vote(&self, plan: usize, rival: usize) -> i16 {
        let filled = self.filled(plan).iter().zip(self.filled(rival));
        let votes = self.tables.iter().zip(filled);
        votes
            .map(|(table, (&mine, &theirs))| table.vote(mine, theirs))
            .sum()
    }

    fn filled(&self, plan: usize) -> &[Positions] {
        &self.filled[plan * self.tables.len()..][..self.tables.len()]
    }

    /// The verdict on a plan by its votes against all other plans.
    pub fn verdict(&self, plan: usize) -> Verdict<usize> {
        let others = (0..self.plans.len()).filter(|&other| other != plan);
        judge(others, |&rival| self.vote(plan, rival))
    }

    /// The strongly popular plans. A rival that brought one plan down is tried
    /// first against the next, because it often brings down that one as well;
    /// a plan counts only after all other plans were tried.
    pub fn strongly_popular(&self) -> Vec<usize> {
        let mut last_rival = 0;
        let mut strong = Vec::new();
        for plan in 0..self.plans.len() {
            let brings_down = |&rival: &usize| rival != plan && self.vote(plan, rival) <= 0;
            let mut rivals = std::iter::once(last_rival).chain(0..self.plans.len());
            match rivals.find(brings_down) {
                Some(rival) => last_rival = rival,
                None => strong.push(plan),
            }
        }
        strong
    }
}
