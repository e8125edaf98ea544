//! The reduction: cutting quotas, drawing arrows, and the steps that fix and
//! strike pairs until no rule names one. The rules are in `rules`.

use crate::plan::Plan;
use crate::roster::{Roster, Side, SIDES};
use crate::rules::RULES;
use crate::votes::rank;

/// What a step does with its pair.
#[derive(Clone, Copy, Debug, PartialEq, Eq)]
pub enum Fate {
    Fix,
    Strike,
}

/// One record of the diary; the pair is named by its index in the roster.
#[derive(Clone, Copy, Debug, PartialEq, Eq)]
pub struct Step {
    pub fate: Fate,
    pub pair: usize,
    pub rule: u8,
}

/// The roster as the steps so far have left it.
#[derive(Clone, Debug)]
pub struct State<'r> {
    roster: &'r Roster,
    /// The remaining pairs, ascending.
    remaining: Vec<usize>,
    /// The quotas of each side, less what was fixed and cut.
    quotas: [Vec<usize>; 2],
    fixed: Vec<usize>,
}

impl<'r> State<'r> {
    /// The state before the first step.
    pub fn new(roster: &'r Roster) -> Self {
        let quotas = |side| {
            let nodes = roster.nodes(side).iter();
            nodes.map(|node| usize::from(node.quota)).collect()
        };
        State {
            roster,
            remaining: (0..roster.pairs().len()).collect(),
            quotas: SIDES.map(quotas),
            fixed: Vec::new(),
        }
    }

    pub fn remaining(&self) -> &[usize] {
        &self.remaining
    }

    pub fn fixed(&self) -> Plan {
        self.fixed.iter().copied().collect()
    }

    /// Cuts every quota above a node's remaining pairs to their number.
    fn cut(&mut self) {
        for side in SIDES {
            for node in 0..self.quotas[side as usize].len() {
                let pairs = self.pairs_at(side, node).count();
                let quota = &mut self.quotas[side as usize][node];
                *quota = pairs.min(*quota);
            }
        }
    }

    /// What is left of a node's quota.
    pub fn quota(&self, side: Side, node: usize) -> usize {
        self.quotas[side as usize][node]
    }

    /// The remaining pairs of a node, ascending.
    pub fn pairs_at(&self, side: Side, node: usize) -> impl Iterator<Item = usize> + '_ {
        let remaining = self.remaining.iter().copied();
        remaining.filter(move |&pair| self.node_of(side, pair) == node)
    }

    /// The node, counted from 0, at which a pair ends on that side.
    pub fn node_of(&self, side: Side, pair: usize) -> usize {
        usize::from(self.roster.pairs()[pair].end(side)) - 1
    }

    /// Carries out a step: fixing takes one from both quotas, and both fates
    /// remove the pair.
    pub fn apply(&mut self, step: Step) {
        self.remaining.retain(|&pair| pair != step.pair);
        if step.fate == Fate::Fix {
            for side in SIDES {
                let node = self.node_of(side, step.pair);
                self.quotas[side as usize][node] -= 1;
            }
            self.fixed.push(step.pair);
        }
    }

    /// Cuts the quotas and gives the next step, if any rule names a pair: the
    /// first rule that does, and the lowest of its pairs.
    pub fn next_step(&mut self) -> Option<Step> {
        let picture = self.picture();
        RULES.iter().find_map(|rule| {
            let pair = picture.first_named(rule.names)?;
            Some(Step {
                fate: rule.fate,
                pair,
                rule: rule.number,
            })
        })
    }

    /// Cuts the quotas and draws the arrows.
    pub fn picture(&mut self) -> Picture<'_, 'r> {
        self.cut();
        let mut arrows = SIDES.map(|_| vec![false; self.roster.pairs().len()]);
        for side in SIDES {
            for (node, &quota) in self.quotas[side as usize].iter().enumerate() {
                for pair in self.strict_pairs(side, node).into_iter().take(quota) {
                    arrows[side as usize][pair] = true;
                }
            }
        }
        Picture {
            state: self,
            arrows,
        }
    }

    /// The strict remaining pairs of a node, best first. A pair that was
    /// written as tied stays tied, even as the last one of its tie.
    pub fn strict_pairs(&self, side: Side, node: usize) -> Vec<usize> {
        let list = &self.roster.nodes(side)[node].list;
        let strict = |&pair: &usize| list.strict.contains(&self.roster.pairs()[pair].entry(side));
        let mut pairs: Vec<usize> = self.pairs_at(side, node).filter(strict).collect();
        pairs.sort_by_key(|&pair| self.rank(side, pair));
        pairs
    }

    /// The rank of a pair at its end on that side.
    pub fn rank(&self, side: Side, pair: usize) -> u8 {
        let pair = self.roster.pairs()[pair];
        let node = self.roster.node(side, pair.end(side));
        rank(&node.list, Some(pair.entry(side)))
    }
}

/// A state with its quotas cut and its arrows drawn: what the rules look at.
pub struct Picture<'s, 'r> {
    pub state: &'s State<'r>,
    /// For each side, whether the pair's node on that side sends an arrow
    /// along it.
    arrows: [Vec<bool>; 2],
}

impl Picture<'_, '_> {
    /// The lowest remaining pair that a rule names.
    pub fn first_named(&self, names: fn(&Self, usize) -> bool) -> Option<usize> {
        let mut remaining = self.state.remaining.iter().copied();
        remaining.find(|&pair| names(self, pair))
    }

    /// Whether the pair's node on that side sends an arrow along it.
    pub fn has_arrow_from(&self, side: Side, pair: usize) -> bool {
        self.arrows[side as usize][pair]
    }

    /// The number of arrows that a node sends.
    pub fn arrows_out(&self, side: Side, node: usize) -> usize {
        let sent = |&pair: &usize| self.has_arrow_from(side, pair);
        self.state.pairs_at(side, node).filter(sent).count()
    }

    /// The pairs along which a node receives arrows.
    pub fn arrows_in(&self, side: Side, node: usize) -> impl Iterator<Item = usize> + '_ {
        let received = move |&pair: &usize| self.has_arrow_from(side.other(), pair);
        self.state.pairs_at(side, node).filter(received)
    }

    /// A stand is loose if it sends fewer arrows than its quota and receives
    /// none; else it is firm.
    pub fn is_loose(&self, stand: usize) -> bool {
        self.arrows_out(Side::Stands, stand) < self.state.quota(Side::Stands, stand)
            && self.arrows_in(Side::Stands, stand).next().is_none()
    }

    /// N(s): the surveyor's pairs with an arrow from a firm stand, together
    /// with its pairs to loose stands.
    pub fn n(&self, surveyor: usize) -> Vec<usize> {
        let counts = |&pair: &usize| {
            self.has_arrow_from(Side::Stands, pair)
                || self.is_loose(self.state.node_of(Side::Stands, pair))
        };
        let pairs = self.state.pairs_at(Side::Surveyors, surveyor);
        pairs.filter(counts).collect()
    }
}

/// What all steps together leave behind.
#[derive(Clone, Debug, PartialEq, Eq)]
pub struct Outcome {
    /// All steps, in order.
    pub diary: Vec<Step>,
    /// The pairs that remain when no rule acts, ascending.
    pub left: Vec<usize>,
    pub fixed: Plan,
}

/// Takes steps until no rule names a pair.
pub fn reduce(roster: &Roster) -> Outcome {
    let mut state = State::new(roster);
    let mut diary = Vec::new();
    while let Some(step) = state.next_step() {
        state.apply(step);
        diary.push(step);
    }
    Outcome {
        diary,
        left: state.remaining().to_vec(),
        fixed: state.fixed(),
    }
}
