//! The blocking pair of plans of the longest roster, from bytes to answer:
//! none, one of a late surveyor, one of the first.

use std::hint::black_box;

use reference::fast;
use reference::plan;
use reference::random::{self, Random};
use reference::roster::{self, Roster};

use crate::lent::loaded;
use crate::measure::Effort;
use crate::table::Table;

/// A roster file, a plan file and what is asked of them.
struct Case {
    name: &'static str,
    roster: Vec<u8>,
    plan: Vec<u8>,
}

fn cases() -> Vec<Case> {
    let mut random = Random::new(10);
    let case = |name, roster: &Roster, plan| Case {
        name,
        roster: roster::write(roster),
        plan,
    };
    let (agreed, best) = random::agreed(&mut random, 0);
    let other = random::roster(&mut random, &random::longest_shape(50, 20));
    let some = random::plan_of(&mut random, &other, 64);
    let last = {
        let mut file = plan::write(&agreed, &best);
        // the last surveyor's two pairs go
        file[0] -= 2;
        file.truncate(file.len() - 2 * planner::PAIR_BYTES);
        file
    };
    vec![
        case("64 pairs, none", &agreed, plan::write(&agreed, &best)),
        case("62 pairs, the last surveyor's", &agreed, last),
        case("64 pairs, random", &other, plan::write(&other, &some)),
        case("no pairs, the first surveyor's", &other, vec![0]),
    ]
}

/// The fast reading's answer, from bytes.
fn first(roster: &[u8], plan: &[u8]) -> Option<(u8, u8, u8)> {
    let instance = fast::roster::read(roster).expect("accepted");
    let chosen = fast::plan::read(&instance, plan).expect("accepted");
    fast::blocking::first(&instance, &chosen)
}

pub fn table(effort: Effort) -> Table {
    let mut table = Table::new("blocking");
    for Case { name, roster, plan } in cases() {
        let mut desk = loaded(&roster);
        desk.load_plan(&plan).expect("accepted");
        assert_eq!(desk.blocking(), Ok(first(&roster, &plan)), "{name}");
        let times = effort.both(
            200,
            || {
                let _ = black_box(black_box(&desk).blocking());
            },
            || {
                black_box(first(black_box(&roster), black_box(&plan)));
            },
        );
        table.put(
            format!("blocking pair of a plan of the longest roster: {name}"),
            times,
        );
    }
    table
}
