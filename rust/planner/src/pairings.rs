//! Who faced whom: the pairings of a vote, node by node.

use crate::layout::{Desk, ROSTER_BYTES};
use crate::refusal::Refusal;

/// Bytes of a place in a pairing: its own rank and the rank that it faces.
const PLACE_BYTES: usize = 2;
/// The rank of an empty place.
const EMPTY_RANK: u8 = 33;

/// A surveyor or a stand, by its number.
#[derive(Clone, Copy, Debug, PartialEq, Eq, PartialOrd, Ord)]
pub enum Node {
    Surveyor(u8),
    Stand(u8),
}

/// A place of the plan whose vote it is, and the place of the other plan that it
/// faces: the rank of each in the node's list, or none where it is empty.
#[derive(Clone, Copy, Debug, PartialEq, Eq)]
pub struct Facing {
    pub own: Option<u8>,
    pub other: Option<u8>,
}

/// The pairing that a node's vote comes with: as many places as its quota, by
/// their own rank, then by the other, empty places last. It reaches the node's
/// vote, and no valid pairing that does has a smaller list.
#[derive(Clone, Debug, PartialEq, Eq)]
pub struct Pairing {
    pub node: Node,
    pub places: Vec<Facing>,
}

impl Desk {
    /// The pairings that [`Desk::compare`], [`Desk::judge`] or [`Desk::propose`]
    /// wrote to a buffer while this desk's roster was held: of each surveyor, then
    /// of each stand. It is refused where no roster is held.
    ///
    /// # Panics
    ///
    /// Where the buffer is shorter than the pairings.
    pub fn pairings(&self, written: &[u8]) -> Result<Vec<Pairing>, Refusal> {
        let mut roster = [0; ROSTER_BYTES];
        let length = self.write_roster(&mut roster)?;
        let (surveyors, rest) = quotas(&roster[..length]);
        let (stands, _) = quotas(rest);
        let surveyors = (1..).map(Node::Surveyor).zip(surveyors);
        let stands = (1..).map(Node::Stand).zip(stands);
        let mut rest = written;
        let mut pairing = |(node, &quota): (Node, &u8)| {
            let (own, behind) = rest.split_at(PLACE_BYTES * usize::from(quota));
            rest = behind;
            let places = own.chunks_exact(PLACE_BYTES).map(facing).collect();
            Pairing { node, places }
        };
        Ok(surveyors.chain(stands).map(&mut pairing).collect())
    }
}

/// The quotas at the front of some bytes, behind their count, and the rest.
fn quotas(bytes: &[u8]) -> (&[u8], &[u8]) {
    bytes[1..].split_at(usize::from(bytes[0]))
}

fn facing(place: &[u8]) -> Facing {
    let filled = |rank: u8| (rank != EMPTY_RANK).then_some(rank);
    Facing {
        own: filled(place[0]),
        other: filled(place[1]),
    }
}
