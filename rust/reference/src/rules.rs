//! The seven rules of the reduction. Each tells whether it names a remaining
//! pair; which of the named pairs a step takes is not theirs to say.

use crate::reduction::{Fate, Picture};
use crate::roster::{Side, SIDES};

/// A rule: its number, what it does, and which pairs it names.
pub struct Rule {
    pub number: u8,
    pub fate: Fate,
    pub names: fn(&Picture, usize) -> bool,
}

/// The rules in the order in which they are tried.
pub const RULES: [Rule; 7] = [
    rule(1, Fate::Fix, arrows_both_ways),
    rule(2, Fate::Strike, better_pairs_fill_an_end),
    rule(3, Fate::Fix, stand_has_room_for_all_arrows),
    rule(4, Fate::Strike, worst_of_too_large_n),
    rule(5, Fate::Strike, no_arrow_at_firm_stand),
    rule(6, Fate::Fix, best_with_too_small_n),
    rule(7, Fate::Fix, best_strict_at_stand_with_room),
];

const fn rule(number: u8, fate: Fate, names: fn(&Picture, usize) -> bool) -> Rule {
    Rule {
        number,
        fate,
        names,
    }
}

/// Rule 1: arrows go both ways.
pub fn arrows_both_ways(picture: &Picture, pair: usize) -> bool {
    SIDES.iter().all(|&side| picture.has_arrow_from(side, pair))
}

/// Rule 2: at either end, arrows come in along at least as many strictly
/// better pairs as the quota. With quota 0 this holds of every pair.
pub fn better_pairs_fill_an_end(picture: &Picture, pair: usize) -> bool {
    SIDES.iter().any(|&side| {
        let node = picture.state.node_of(side, pair);
        let own = picture.state.rank(side, pair);
        let better = |&other: &usize| picture.state.rank(side, other) < own;
        picture.arrows_in(side, node).filter(better).count() >= picture.state.quota(side, node)
    })
}

/// Rule 3: the surveyor's arrow goes into a stand with at most quota arrows,
/// those in and those out together.
pub fn stand_has_room_for_all_arrows(picture: &Picture, pair: usize) -> bool {
    let stand = picture.state.node_of(Side::Stands, pair);
    let arrows_in = picture.arrows_in(Side::Stands, stand).count();
    let arrows_out = picture.arrows_out(Side::Stands, stand);
    picture.has_arrow_from(Side::Surveyors, pair)
        && arrows_in + arrows_out <= picture.state.quota(Side::Stands, stand)
}

/// Rule 4: N(s) is larger than the surveyor's quota, and the pair is the worst
/// of N(s).
pub fn worst_of_too_large_n(picture: &Picture, pair: usize) -> bool {
    let surveyor = picture.state.node_of(Side::Surveyors, pair);
    let n = picture.n(surveyor);
    let rank = |&other: &usize| picture.state.rank(Side::Surveyors, other);
    n.len() > picture.state.quota(Side::Surveyors, surveyor)
        && n.iter().copied().max_by_key(rank) == Some(pair)
}

/// Rule 5: the stand is firm and no arrow goes along the pair.
pub fn no_arrow_at_firm_stand(picture: &Picture, pair: usize) -> bool {
    !picture.is_loose(picture.state.node_of(Side::Stands, pair))
        && !SIDES.iter().any(|&side| picture.has_arrow_from(side, pair))
}

/// Rule 6: N(s) is smaller than the surveyor's quota, and the pair is the
/// surveyor's best.
pub fn best_with_too_small_n(picture: &Picture, pair: usize) -> bool {
    let surveyor = picture.state.node_of(Side::Surveyors, pair);
    picture.n(surveyor).len() < picture.state.quota(Side::Surveyors, surveyor)
        && picture
            .state
            .strict_pairs(Side::Surveyors, surveyor)
            .first()
            == Some(&pair)
}

/// Rule 7: the stand receives fewer arrows than its quota, and the pair is its
/// best strict one.
pub fn best_strict_at_stand_with_room(picture: &Picture, pair: usize) -> bool {
    let stand = picture.state.node_of(Side::Stands, pair);
    picture.arrows_in(Side::Stands, stand).count() < picture.state.quota(Side::Stands, stand)
        && picture.state.strict_pairs(Side::Stands, stand).first() == Some(&pair)
}
