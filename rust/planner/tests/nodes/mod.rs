//! Rosters with one stand of any small shape, and plans of it.

// Every test file compiles this module for itself and uses its part of it.
#![allow(dead_code)]

use reference::roster::{Entry, List, Node, Roster};

/// The entry at a place of the one stand's list, from 1 on. With several shifts
/// each surveyor stands there so many times in a row.
pub fn at_place(place: u8, shifts: u8) -> Entry {
    Entry {
        number: (place - 1) / shifts + 1,
        shift: (place - 1) % shifts + 1,
    }
}

/// A roster with one stand, which ranks all entries in their order, the last
/// `tied` of them alike. Each surveyor has that stand alone, in the order of the
/// shifts, and room in all of them.
pub fn one_stand(quota: u8, entries: u8, tied: u8, shifts: u8) -> Roster {
    let here: Vec<Entry> = (1..=entries).map(|place| at_place(place, shifts)).collect();
    let surveyors = here.chunk_by(|one, next| one.number == next.number);
    let surveyors = surveyors.map(|own| {
        let own = own.iter().map(|entry| Entry {
            number: 1,
            ..*entry
        });
        Node {
            quota: shifts,
            list: List {
                strict: own.collect(),
                tied: Vec::new(),
            },
        }
    });
    let (strict, tied) = here.split_at(usize::from(entries - tied));
    let list = List {
        strict: strict.to_vec(),
        tied: tied.to_vec(),
    };
    let stand = Node { quota, list };
    Roster::new(surveyors.collect(), vec![stand]).expect("accepted")
}

/// The plan that gives the one stand these entries, as its file.
pub fn at_the_stand(entries: &[Entry]) -> Vec<u8> {
    let mut file = vec![entries.len() as u8];
    file.extend(
        entries
            .iter()
            .flat_map(|entry| [entry.number, 1, entry.shift]),
    );
    file
}

/// Entries at these places.
pub fn at_places(places: &[u8], shifts: u8) -> Vec<Entry> {
    places
        .iter()
        .map(|&place| at_place(place, shifts))
        .collect()
}

/// Every way to give each of some places to the first plan, the second or both,
/// with at most four for each plan: all orders of up to four pairs a side,
/// shared ones too.
pub fn for_each_shape(places: u8, visit: &mut impl FnMut(&[u8], &[u8])) {
    for code in 0..3usize.pow(u32::from(places)) {
        let label = |place: u8| code / 3usize.pow(u32::from(place) - 1) % 3;
        let with = |lacking: usize| -> Vec<u8> {
            let all = 1..=places;
            all.filter(|&place| label(place) != lacking).collect()
        };
        let (mine, theirs) = (with(1), with(2));
        if mine.len() <= 4 && theirs.len() <= 4 {
            visit(&mine, &theirs);
        }
    }
}
