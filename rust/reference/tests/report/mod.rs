//! The report's own words for a roster without fixed pairs: its digraph is the
//! arrows, its T2 the loose stands.

// Every test file compiles this module for itself and uses its part of it.
#![allow(dead_code)]

use reference::reduction::{Picture, State, Step};
use reference::roster::{Roster, Side, SIDES};
use reference::rules::{Rule, RULES};

static ALL: [Rule; 7] = RULES;

/// The rules that are claims of the report; rule 7 is not.
pub fn claims() -> &'static [Rule] {
    &ALL[..6]
}

/// Takes steps by these rules until none of them names a pair.
pub fn reduce_by(state: &mut State, rules: &[Rule]) {
    while let Some(step) = next_step(state, rules) {
        state.apply(step);
    }
}

/// The first of these rules that names a pair, and the lowest of its pairs.
pub fn next_step(state: &mut State, rules: &[Rule]) -> Option<Step> {
    let picture = state.picture();
    rules.iter().find_map(|rule| {
        let pair = picture.first_named(rule.names)?;
        Some(Step {
            fate: rule.fate,
            pair,
            rule: rule.number,
        })
    })
}

/// Whether a roster, as it stands, has each of the report's six properties. No
/// node is isolated and no quota is above a node's pairs, as the report asks of
/// every instance.
pub fn properties(roster: &Roster) -> [bool; 6] {
    let stated = State::new(roster);
    let mut state = State::new(roster);
    let picture = state.picture();
    for side in SIDES {
        for node in 0..roster.nodes(side).len() {
            let quota = picture.state.quota(side, node);
            assert!(quota > 0 && quota == stated.quota(side, node));
        }
    }
    let surveyors = 0..roster.nodes(Side::Surveyors).len();
    let stands = 0..roster.nodes(Side::Stands).len();
    let quota = |surveyor| picture.state.quota(Side::Surveyors, surveyor);
    [
        picture.state.remaining().iter().all(|&pair| {
            let arrow = |&side: &Side| picture.has_arrow_from(side, pair);
            !SIDES.iter().all(arrow)
        }),
        surveyors.clone().all(|surveyor| {
            picture.arrows_in(Side::Surveyors, surveyor).count() <= quota(surveyor)
        }) && stands.clone().all(|stand| few_or_tied(&picture, stand)),
        stands.clone().all(|stand| none_or_many(&picture, stand)),
        surveyors.clone().all(|s| picture.n(s).len() <= quota(s)),
        picture.state.remaining().iter().all(|&pair| {
            let arrow = |&side: &Side| picture.has_arrow_from(side, pair);
            SIDES.iter().any(arrow) || picture.is_loose(picture.state.node_of(Side::Stands, pair))
        }),
        surveyors.clone().all(|s| picture.n(s).len() == quota(s)),
    ]
}

/// Property 2 at a stand: if more arrows come in than the quota, the stand is
/// indifferent between two of them.
fn few_or_tied(picture: &Picture, stand: usize) -> bool {
    let ranks: Vec<u8> = picture
        .arrows_in(Side::Stands, stand)
        .map(|pair| picture.state.rank(Side::Stands, pair))
        .collect();
    let twice = |rank: &u8| ranks.iter().filter(|&other| other == rank).count() > 1;
    ranks.len() <= picture.state.quota(Side::Stands, stand) || ranks.iter().any(twice)
}

/// Property 3 at a stand: if an arrow comes in, there are more arrows than the
/// quota, those in and those out together.
fn none_or_many(picture: &Picture, stand: usize) -> bool {
    let arrows_in = picture.arrows_in(Side::Stands, stand).count();
    let arrows_out = picture.arrows_out(Side::Stands, stand);
    arrows_in == 0 || arrows_in + arrows_out > picture.state.quota(Side::Stands, stand)
}
