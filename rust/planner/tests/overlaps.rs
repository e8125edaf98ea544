//! Files that a call only reads may be the same, or overlap: the answer and every
//! byte written are those of copies.

mod common;

use common::root;
use planner::ROSTER_BYTES;

fn joined(first: &[u8], second: &[u8]) -> (Result<usize, u8>, Vec<u8>) {
    let mut out = vec![7; ROSTER_BYTES];
    let answer = planner::join_districts(first, second, &mut out);
    (answer.map_err(|refusal| refusal.number), out)
}

#[test]
fn files_that_are_read_may_overlap() {
    let mut accepted = 0;
    for name in ["north", "south", "walked", "days", "empty", "shifts"] {
        let file = std::fs::read(root().join(format!("samples/{name}.roster"))).expect("a sample");
        let both = [&file[..], &file[..]].concat();
        for from in 0..=file.len() {
            let [first, second] = [&both[..file.len()], &both[from..from + file.len()]];
            let [one, other] = [first, second].map(<[u8]>::to_vec);
            let copies = joined(&one, &other);
            accepted += usize::from(copies.0.is_ok());
            assert_eq!(joined(first, second), copies, "{name} from {from}");
        }
    }
    // each with itself, and with itself behind itself
    assert!(accepted >= 12, "{accepted}");
}
