//! Rosters of the longest kind on which the finder is measured.

use reference::random::{self, Random};
use reference::roster::Roster;

/// Their shapes, in words, each with a roster.
pub fn longest(random: &mut Random) -> [(&'static str, Roster); 4] {
    [
        ("all agree", random::agreed(random, 0).0),
        ("all agree, all tied", random::agreed(random, 16).0),
        ("long walks", random::chained(random).0),
        (
            "typical",
            random::roster(random, &random::longest_shape(50, 20)),
        ),
    ]
}
