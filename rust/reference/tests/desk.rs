//! The desk: what each state turns back, what each call writes, and that of
//! these calls only loading changes what is held. Joining and leaving are tested
//! in `changes`.

mod common;
mod lent;

use common::{desk, desk_with_plan, P10, P3, P4, P6, SHIFTS, SHIFTS_CROSSED};
use lent::{record, Buffers, Pairings, JUNK, SIZES};
use reference::compare::File;
use reference::desk::{Desk, Found, Judged, NoneKind};
use reference::limits::{MAX_DAY_BYTES, MAX_PAIRING_BYTES, MAX_PLAN_BYTES, MAX_ROSTER_BYTES};
use reference::refusal::Refusal;
use reference::roster::Pair;

#[test]
fn nothing_loaded_is_13_everywhere() {
    let nothing = Desk::default();
    let refused = Some(Refusal::NoRosterLoaded);
    let mut small = [];
    assert_eq!(nothing.clone().load_plan(&[0]).1.err(), refused);
    assert_eq!(nothing.clone().load_plan(&[]).1.err(), refused);
    assert_eq!(nothing.clone().write_roster(&mut small).1.err(), refused);
    assert_eq!(nothing.clone().write_plan(&mut small).1.err(), refused);
    assert_eq!(nothing.clone().spread(&mut small).1.err(), refused);
    let mut buffers = Buffers::new([0; 4]);
    assert_eq!(nothing.clone().find(buffers.lend()).1.err(), refused);
    assert_eq!(nothing.clone().judge(&mut small, &mut []).1.err(), refused);
    let mut none = Pairings::new([0; 2]);
    let (nothing, compared) = nothing.compare(&[], &[], none.lend());
    assert_eq!(compared.outcome.err(), refused);
    let (nothing, proposed) = nothing.propose(&[], none.lend());
    assert_eq!(proposed.err(), refused);
    assert_eq!(nothing.clone().blocking().1.err(), refused);
}

#[test]
fn no_plan_is_14_before_15() {
    let refused = Some(Refusal::NoPlanHeld);
    let mut small = [];
    assert_eq!(desk(P3).write_plan(&mut small).1.err(), refused);
    assert_eq!(desk(P3).spread(&mut small).1.err(), refused);
    assert_eq!(desk(P3).judge(&mut small, &mut []).1.err(), refused);
    let mut none = Pairings::new([0; 2]);
    assert_eq!(desk(P3).propose(&[], none.lend()).1.err(), refused);
    assert_eq!(desk(P3).blocking().1.err(), refused);
}

#[test]
fn buffers_below_their_size_are_15() {
    let refused = Some(Refusal::BufferTooSmall);
    let held = desk_with_plan(P4, &[1, 1, 1, 1]);
    let mut short = [JUNK; MAX_ROSTER_BYTES - 1];
    assert_eq!(held.clone().write_roster(&mut short).1.err(), refused);
    let short_plan = &mut short[..MAX_PLAN_BYTES - 1];
    assert_eq!(held.clone().write_plan(short_plan).1.err(), refused);
    let pairing = &mut [JUNK; MAX_PAIRING_BYTES];
    assert_eq!(held.clone().judge(short_plan, pairing).1.err(), refused);
    let rival = &mut [JUNK; MAX_PLAN_BYTES];
    let short_pairing = &mut pairing[..MAX_PAIRING_BYTES - 1];
    assert_eq!(held.clone().judge(rival, short_pairing).1.err(), refused);
    assert!(rival.iter().chain(&*pairing).all(|&byte| byte == JUNK));
    let short_days = &mut short[..MAX_DAY_BYTES - 1];
    assert_eq!(held.clone().spread(short_days).1.err(), refused);
    assert!(short.iter().all(|&byte| byte == JUNK));
    for place in 0..SIZES.len() {
        let mut sizes = SIZES;
        sizes[place] -= 1;
        let mut buffers = Buffers::new(sizes);
        assert_eq!(held.clone().find(buffers.lend()).1.err(), refused);
        buffers.hold(&[], &[], &[], &[]);
    }
    // before a file is looked at
    for place in 0..2 {
        let mut sizes = [MAX_PAIRING_BYTES; 2];
        sizes[place] -= 1;
        let mut pairings = Pairings::new(sizes);
        let (desk, compared) = held.clone().compare(&[], &[], pairings.lend());
        assert_eq!(compared.outcome.err(), refused);
        assert_eq!(desk.propose(&[], pairings.lend()).1.err(), refused);
        pairings.hold(&[], &[]);
    }
}

#[test]
fn loading_a_roster_drops_the_plan() {
    let held = desk_with_plan(P3, &[1, 1, 1, 1]);
    let (held, answer) = held.load_roster(&[1, 9]);
    assert_eq!(answer, Err(Refusal::QuotaAboveLimit));
    assert_eq!(held, desk_with_plan(P3, &[1, 1, 1, 1]));
    let (held, answer) = held.load_roster(P3);
    assert_eq!((held, answer), (desk(P3), Ok(())));
}

#[test]
fn a_plan_is_judged_against_the_held_roster() {
    let (held, answer) = desk(P4).load_plan(&[1, 2, 1, 1]);
    assert_eq!(answer, Ok(()));
    let (held, answer) = held.load_plan(&[1, 1, 2, 1]);
    assert_eq!(answer, Err(Refusal::PairNotInRoster));
    let mut out = [JUNK; MAX_PLAN_BYTES];
    let (held, answer) = held.write_plan(&mut out);
    assert_eq!((answer, &out[..5]), (Ok(4), &[1, 2, 1, 1, JUNK][..]));
    let mut out = [JUNK; MAX_ROSTER_BYTES];
    let (_, answer) = held.write_roster(&mut out);
    assert_eq!(answer, Ok(P4.len()));
    assert_eq!(&out[..P4.len()], P4);
    assert!(out[P4.len()..].iter().all(|&byte| byte == JUNK));
}

#[test]
fn the_finder_writes_each_ending() {
    let mut buffers = Buffers::new(SIZES);
    let (held, found) = desk(P3).find(buffers.lend());
    assert_eq!((held, found), (desk(P3), Ok(Found::Plan { steps: 2 })));
    buffers.hold(
        &[record(1, 1, 1, 1, 1), record(2, 2, 1, 1, 2)],
        &[],
        &[1, 1, 1, 1],
        &[],
    );

    let mut buffers = Buffers::new(SIZES);
    let (_, found) = desk(P6).find(buffers.lend());
    let kind = NoneKind::Left(4);
    assert_eq!(found, Ok(Found::None { steps: 0, kind }));
    let left = [1, 1, 1, 1, 2, 1, 2, 1, 1, 2, 2, 1];
    buffers.hold(&[], &left, &[], &[]);

    let mut buffers = Buffers::new(SIZES.map(|size| size + 3));
    let (_, found) = desk(P4).find(buffers.lend());
    let kind = NoneKind::Rivalled(0);
    assert_eq!(found, Ok(Found::None { steps: 2, kind }));
    let steps = [record(1, 1, 1, 1, 6), record(2, 2, 1, 1, 2)];
    buffers.hold(&steps, &[], &[1, 1, 1, 1], &[1, 2, 1, 1]);
}

#[test]
fn verdicts_and_rivals() {
    let mut rival = [JUNK; MAX_PLAN_BYTES];
    let mut pairing = [JUNK; MAX_PAIRING_BYTES];
    let strong = desk_with_plan(P10, &[2, 1, 2, 1, 2, 1, 1]);
    let (_, judged) = strong.judge(&mut rival, &mut pairing);
    assert_eq!(judged, Ok(Judged::Strong));
    assert!(rival.iter().chain(&pairing).all(|&byte| byte == JUNK));
    let (_, judged) = desk_with_plan(P4, &[1, 1, 1, 1]).judge(&mut rival, &mut pairing);
    assert_eq!(
        (judged, &rival[..5]),
        (Ok(Judged::Popular(0)), &[1, 2, 1, 1, JUNK][..])
    );
    // a surveyor each loses and gains the stand, which ties them
    assert_eq!(pairing[..7], [1, 33, 33, 1, 1, 1, JUNK]);
    let (_, judged) = desk_with_plan(P3, &[0]).judge(&mut rival, &mut pairing);
    assert_eq!((judged, rival[0]), (Ok(Judged::Beaten(-2)), 1));
}

#[test]
fn comparison_and_blocking() {
    let mut pairings = Pairings::new([MAX_PAIRING_BYTES; 2]);
    let (held, compared) = desk(P3).compare(&[1, 2, 1, 1], &[1, 1, 1, 1], pairings.lend());
    pairings.hold(&[33, 1, 1, 33, 2, 1], &[1, 33, 33, 1, 1, 2]);
    let votes = compared.outcome.expect("accepted");
    assert_eq!(
        (votes.first_against_second, votes.second_against_first),
        (-1, 1)
    );
    assert_eq!(
        (compared.part.file, compared.part.range),
        (File::Second, 1..4)
    );
    assert_eq!(held, desk(P3));
    let (_, blocking) = desk_with_plan(P3, &[1, 2, 1, 1]).blocking();
    assert_eq!(
        blocking,
        Ok(Some(Pair {
            surveyor: 1,
            stand: 1,
            shift: 1
        }))
    );
    let (_, blocking) = desk_with_plan(P3, &[1, 1, 1, 1]).blocking();
    assert_eq!(blocking, Ok(None));
}

#[test]
fn the_open_proposal_is_written() {
    let mut out = [JUNK; MAX_PLAN_BYTES];
    let held = desk_with_plan(P4, &[1, 1, 1, 1]);
    let kept = [Desk::default().holds(), desk(P4).holds(), held.holds()];
    assert_eq!(kept, [0, 1, 2]);
    let refused = |desk: Desk, out: &mut [u8]| desk.write_proposal(out).1.err();
    let nothing = refused(Desk::default(), &mut []);
    assert_eq!(nothing, Some(Refusal::NoRosterLoaded));
    assert_eq!(refused(desk(P4), &mut []), Some(Refusal::NoPlanHeld));
    assert_eq!(
        refused(held.clone(), &mut []),
        Some(Refusal::NoProposalOpen)
    );
    let mut pairings = Pairings::new([MAX_PAIRING_BYTES; 2]);
    let (open, _) = held.propose(&[1, 2, 1, 1], pairings.lend());
    assert_eq!(open.holds(), 3);
    let short = refused(open.clone(), &mut out[..MAX_PLAN_BYTES - 1]);
    assert_eq!(short, Some(Refusal::BufferTooSmall));
    assert!(out.iter().all(|&byte| byte == JUNK));
    let (after, count) = open.clone().write_proposal(&mut out);
    assert_eq!((after, count), (open, Ok(4)));
    assert_eq!(out[..4], [1, 2, 1, 1]);
    assert!(out[4..].iter().all(|&byte| byte == JUNK));
}

#[test]
fn days_are_written() {
    let mut days = [JUNK; MAX_DAY_BYTES + 2];
    // the stand has both entries, so on two days; which comes first is open
    let held = desk_with_plan(P10, &[2, 1, 2, 1, 2, 2, 1]);
    let (after, count) = held.clone().spread(&mut days);
    assert_eq!((after, count), (held, Ok(2)));
    let (front, behind) = days.split_at_mut(2);
    front.sort_unstable();
    assert_eq!(front, [1, 2]);
    assert!(behind.iter().all(|&byte| byte == JUNK));
    // an empty plan has none
    let (_, count) = desk_with_plan(P10, &[0]).spread(&mut days);
    assert_eq!((count, &days[..2]), (Ok(0), &[1, 2][..]));
}

#[test]
fn shifts_are_written() {
    let mut buffers = Buffers::new(SIZES);
    let (_, found) = desk(SHIFTS).find(buffers.lend());
    assert_eq!(found, Ok(Found::Plan { steps: 2 }));
    let steps = [record(1, 1, 1, 1, 1), record(1, 1, 1, 3, 3)];
    buffers.hold(&steps, &[], &[2, 1, 1, 1, 1, 1, 3], &[]);

    let mut buffers = Buffers::new(SIZES);
    let (_, found) = desk(SHIFTS_CROSSED).find(buffers.lend());
    let kind = NoneKind::Left(2);
    assert_eq!(found, Ok(Found::None { steps: 0, kind }));
    buffers.hold(&[], &[1, 1, 1, 1, 1, 3], &[], &[]);

    let mut rival = [JUNK; MAX_PLAN_BYTES];
    let held = desk_with_plan(SHIFTS_CROSSED, &[1, 1, 1, 1]);
    let (held, judged) = held.judge(&mut rival, &mut [JUNK; MAX_PAIRING_BYTES]);
    assert_eq!(
        (judged, &rival[..5]),
        (Ok(Judged::Popular(0)), &[1, 1, 1, 3, JUNK][..])
    );
    let (_, blocking) = held.blocking();
    assert_eq!(blocking, Ok(None));
    let (_, blocking) = desk_with_plan(SHIFTS, &[1, 1, 1, 1]).blocking();
    let other = Pair {
        surveyor: 1,
        stand: 1,
        shift: 3,
    };
    assert_eq!(blocking, Ok(Some(other)));
}
