//! What holds of every joining and leaving: whom a change touches and whom not,
//! what is left of a plan, and that both calls answer what the finder does on
//! the changed roster.

mod common;
mod lent;

use common::desk;
use lent::{Buffers, SIZES};
use reference::changes::{carried, join, leave};
use reference::desk::{Desk, Found, NoneKind};
use reference::limits::{MAX_LIST, MAX_SHIFT};
use reference::plan::Plan;
use reference::random::{self, stand_list, Random};
use reference::refusal::Refusal;
use reference::roster::{narrow, read, write, Entry, List, Node, Pair, Roster, Side};

/// How many nodes a side has.
fn count(roster: &Roster, side: Side) -> u8 {
    narrow(roster.nodes(side).len())
}

/// The stands before and after a change.
fn both_stands<'a>(
    before: &'a Roster,
    after: &'a Roster,
) -> impl Iterator<Item = (&'a Node, &'a Node)> {
    let [before, after] = [before, after].map(|roster| roster.nodes(Side::Stands));
    assert_eq!(before.len(), after.len());
    before.iter().zip(after)
}

/// A joiner changes the lists of the listed stands, at their ends, and nothing
/// else.
fn check_joined(before: &Roster, after: &Roster, quota: u8, entries: &[Entry]) {
    let (joiner, others) = after.nodes(Side::Surveyors).split_last().expect("a joiner");
    assert_eq!(others, before.nodes(Side::Surveyors));
    let list = List {
        strict: entries.to_vec(),
        tied: Vec::new(),
    };
    assert_eq!(*joiner, Node { quota, list });
    for (stand, (old, new)) in (1..).zip(both_stands(before, after)) {
        let mut expected = old.clone();
        for shift in 1..=MAX_SHIFT {
            let number = count(before, Side::Surveyors) + 1;
            let listed = entries.contains(&Entry {
                number: stand,
                shift,
            });
            expected
                .list
                .tied
                .extend(listed.then_some(Entry { number, shift }));
        }
        assert_eq!(*new, expected);
        assert!(new.list.length() <= MAX_LIST);
    }
}

/// A leaver has quota 0 and no list; the leaver's entries go, those behind them
/// move up, and all else stays.
fn check_left(before: &Roster, after: &Roster, number: u8) {
    let mut surveyors = before.nodes(Side::Surveyors).to_vec();
    surveyors[usize::from(number) - 1] = Node {
        quota: 0,
        list: List::default(),
    };
    assert_eq!(after.nodes(Side::Surveyors), surveyors);
    let others = |entries: &[Entry]| -> Vec<Entry> {
        let others = entries.iter().filter(|entry| entry.number != number);
        others.copied().collect()
    };
    for (old, new) in both_stands(before, after) {
        assert_eq!(new.quota, old.quota);
        assert_eq!(new.list.strict, others(&old.list.strict));
        assert_eq!(new.list.tied, others(&old.list.tied));
    }
}

/// The plan keeps its pairs but those of the leaver, number 0 for none.
fn check_carried(before: &Roster, after: &Roster, plan: &Plan, leaver: u8) {
    let kept = carried(before, after, plan);
    let mut pairs: Vec<Pair> = plan.pairs(before).collect();
    pairs.retain(|pair| pair.surveyor != leaver);
    assert!(kept.pairs(after).eq(pairs));
    assert!(kept.within_quotas(after));
}

/// The entries of a joiner's list.
fn entries_in(list: &[u8]) -> Vec<Entry> {
    let entry = |bytes: &[u8]| Entry {
        number: bytes[0],
        shift: bytes[1],
    };
    list[1..].chunks_exact(2).map(entry).collect()
}

#[test]
fn whom_a_change_touches() {
    let mut random = Random::new(22);
    let (mut joined, mut too_many, mut left) = (0, 0, 0);
    for _ in 0..4_000 {
        let shape = random::any_shape(&mut random);
        let before = random::roster(&mut random, &shape);
        let plan = random::plan(&mut random, &before, 60);
        let quota = random.within(&(0..=8));
        let list = stand_list(&mut random, count(&before, Side::Stands), 30);
        let after = join(&before, quota, &list);
        too_many += usize::from(after == Err(Refusal::CountAboveLimit));
        if let Ok(after) = after {
            joined += 1;
            assert_eq!(read(&write(&after)).as_ref(), Ok(&after));
            check_joined(&before, &after, quota, &entries_in(&list));
            check_carried(&before, &after, &plan, 0);
        }
        let number = random.within(&(0..=33));
        if let Ok(after) = leave(&before, number) {
            left += 1;
            assert_eq!(read(&write(&after)).as_ref(), Ok(&after));
            check_left(&before, &after, number);
            check_carried(&before, &after, &plan, number);
            assert_eq!(leave(&after, number).as_ref(), Ok(&after));
        }
    }
    println!("joined {joined}, a stand's list too long {too_many}, left {left}");
    assert!(joined > 500 && too_many > 100 && left > 500);
}

/// The changed roster held, and the finder's answer on it with every byte.
fn check_afresh(changed: Roster, held: Desk, answer: Found, written: &Buffers) {
    assert_eq!(held, Desk::Roster(changed));
    let mut fresh = Buffers::new(SIZES);
    let (_, found) = held.find(fresh.lend());
    assert_eq!((found, &fresh), (Ok(answer), written));
}

#[test]
fn answers_are_the_finders() {
    let mut random = Random::new(23);
    let (mut plan, mut left, mut rivalled) = (0, 0, 0);
    for _ in 0..4_000 {
        let shape = random::small_shape(&mut random);
        let before = random::roster(&mut random, &shape);
        let held = desk(&write(&before));
        let mut buffers = Buffers::new(SIZES);
        let (changed, (held, answer)) = if random.chance(50) {
            let quota = random.within(&(0..=3));
            let list = stand_list(&mut random, count(&before, Side::Stands), 30);
            let changed = join(&before, quota, &list);
            (changed, held.join(quota, &list, buffers.lend()))
        } else {
            let number = random.within(&(1..=count(&before, Side::Surveyors)));
            let changed = leave(&before, number);
            (changed, held.leave(number, buffers.lend()))
        };
        let answer = answer.expect("accepted");
        check_afresh(changed.expect("accepted"), held, answer, &buffers);
        match answer {
            Found::Plan { .. } => plan += 1,
            Found::None { kind, .. } => match kind {
                NoneKind::Left(_) => left += 1,
                NoneKind::Rivalled(_) => rivalled += 1,
            },
        }
    }
    println!("plan {plan}, left {left}, rivalled {rivalled}");
    assert!(plan > 100 && left > 100 && rivalled > 100);
}
