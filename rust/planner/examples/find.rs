//! Finds the strongly popular plan of each roster file named, and prints what the
//! program crew prints.

use planner::{Desk, Found, Group, Step};

fn pairs(bytes: &[u8]) {
    for pair in bytes.chunks_exact(planner::PAIR_BYTES) {
        println!("{} {} {}", pair[0], pair[1], pair[2]);
    }
}

/// A plan's file: the number of its pairs, and the pairs.
fn plan(name: &str, file: &[u8]) {
    println!("{name} {}", file[0]);
    pairs(&file[1..]);
}

fn find(desk: &Desk) -> Result<(), planner::Refusal> {
    let mut diary = [Step::default(); planner::DIARY_RECORDS];
    let mut left = [0; planner::LEFT_BYTES];
    let [mut own, mut rival] = [[0; planner::PLAN_BYTES]; 2];
    let found = desk.find(&mut diary, &mut left, &mut own, &mut rival)?;
    let (Found::Plan { steps, .. } | Found::Left { steps, .. } | Found::Rivalled { steps, .. }) =
        found;
    for step in &diary[..steps] {
        let fate = if step.fate == 1 { "fix" } else { "strike" };
        let Step {
            surveyor,
            stand,
            shift,
            rule,
            ..
        } = step;
        println!("{fate} {surveyor} {stand} {shift} {rule}");
    }
    match found {
        Found::Plan { plan: length, .. } => plan("plan", &own[..length]),
        Found::Left { pairs: count, .. } => {
            println!("none left {count}");
            pairs(&left[..planner::PAIR_BYTES * count]);
        }
        Found::Rivalled {
            vote,
            plan: length,
            rival: other,
            ..
        } => {
            println!("none rivalled {vote}");
            plan("candidate", &own[..length]);
            plan("rival", &rival[..other]);
        }
    }
    Ok(())
}

fn main() -> std::io::Result<()> {
    for name in std::env::args().skip(1) {
        let mut desk = Desk::open();
        let loaded = desk.load_roster(&std::fs::read(name)?);
        if let Err(refusal) = loaded.and_then(|()| find(&desk)) {
            let group = match refusal.group {
                Group::Form => "form",
                Group::Content => "content",
                Group::Plan => "plan",
                Group::Desk => "desk",
            };
            println!("refused {} {group}", refusal.number);
        }
    }
    Ok(())
}
