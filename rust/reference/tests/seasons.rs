//! Old season files: stated cases of the four conversions, the order of their
//! refusals, and their buffers.

mod common;
mod lent;
mod turned;

use common::{desk, desk_with_plan, Bytes, P3, SHIFTS};
use reference::desk::Desk;
use reference::refusal::{Group, Refusal};
use reference::seasons;
use turned::{plan_to_new, plan_to_old, roster_to_new, roster_to_old, written};

/// P3 as an old file.
const OLD_P3: Bytes = &[2, 1, 1, 1, 1, 2, 0, 1, 1, 1, 1, 2, 0, 2, 0, 1, 2];
/// One surveyor and one stand, of quota 1, in shift 2 alone.
const SHIFT_2: Bytes = &[1, 1, 1, 1, 1, 0, 1, 1, 2, 1, 0, 1, 0, 1, 2];

#[test]
fn a_roster_goes_there_and_back() {
    assert_eq!(roster_to_new(OLD_P3), Ok(P3.to_vec()));
    assert_eq!(roster_to_old(P3), Ok(OLD_P3.to_vec()));
    // nothing in it, the same either way
    let empty = vec![0; 6];
    assert_eq!(roster_to_new(&empty), Ok(empty.clone()));
    assert_eq!(roster_to_old(&empty), Ok(empty));
}

#[test]
fn rosters_that_are_not_turned() {
    let to_new: [(&str, Bytes, u8); 3] = [
        ("a new file", P3, 4),
        // the list limit since W-204 would let it pass, up to the doubled entry
        ("two of one stand", &[1, 1, 1, 1, 2, 0, 2, 1, 1], 2),
        ("a byte behind", &[0, 0, 0, 0, 0, 0, 1], 9),
    ];
    for (name, file, number) in to_new {
        assert_eq!(roster_to_new(file), Err(number), "{name}");
    }
    let to_old: [(&str, Bytes, u8); 3] = [
        ("an old file", OLD_P3, 4),
        ("shifts 1 and 3", SHIFTS, 19),
        ("shift 2", SHIFT_2, 19),
    ];
    for (name, file, number) in to_old {
        assert_eq!(roster_to_old(file), Err(number), "{name}");
    }
}

#[test]
fn rosters_are_checked_in_full_before_19() {
    // the surveyor of SHIFTS has shift 3; the stand's section comes behind it
    let (front, stand) = SHIFTS.split_at(11);
    let cases: [(&str, Bytes, u8); 10] = [
        ("nothing wrong", &[2, 0, 1, 1, 1, 1, 1, 3], 19),
        ("the last byte is missing", &[2, 0, 1, 1, 1, 1, 1], 1),
        ("a list of 33", &[2, 0, 17, 16, 1, 1, 1, 3], 2),
        ("an entry above", &[2, 0, 1, 1, 1, 1, 2, 3], 4),
        ("shift 4", &[2, 0, 1, 1, 1, 1, 1, 4], 18),
        ("an entry twice", &[2, 0, 1, 1, 1, 3, 1, 3], 5),
        ("a falling tie", &[2, 0, 0, 2, 1, 3, 1, 1], 6),
        ("a wrong count", &[3, 0, 1, 1, 1, 1, 1, 3], 7),
        ("one side only", &[2, 0, 1, 1, 1, 1, 1, 2], 8),
        ("a byte behind", &[2, 0, 1, 1, 1, 1, 1, 3, 0], 9),
    ];
    assert_eq!(stand, cases[0].1);
    for (name, stand, number) in cases {
        let file = [front, stand].concat();
        assert_eq!(roster_to_old(&file), Err(number), "{name}");
    }
}

#[test]
fn plans_go_there_and_back() {
    // the roster has shift 3 too; the plan need not
    let held = desk(SHIFTS);
    assert_eq!(plan_to_new(&held, &[1, 1, 1]), Ok(vec![1, 1, 1, 1]));
    assert_eq!(plan_to_old(&held, &[1, 1, 1, 1]), Ok(vec![1, 1, 1]));
    assert_eq!(plan_to_new(&held, &[0]), Ok(vec![0]));
    assert_eq!(plan_to_old(&held, &[0]), Ok(vec![0]));
}

#[test]
fn plans_that_are_not_turned() {
    let held = desk(SHIFTS);
    let to_new: [(&str, Bytes, u8); 7] = [
        ("no bytes", &[], 1),
        ("half a pair", &[1, 1], 1),
        ("65 pairs", &[65, 1, 1], 2),
        ("no pair of the roster", &[1, 1, 2], 10),
        ("a pair twice", &[2, 1, 1, 1, 1], 11),
        ("a byte behind", &[1, 1, 1, 0], 9),
        ("a new plan", &[1, 1, 1, 1], 9),
    ];
    for (name, file, number) in to_new {
        assert_eq!(plan_to_new(&held, file), Err(number), "{name}");
    }
    let to_old: [(&str, Bytes, u8); 9] = [
        ("shift 3", &[1, 1, 1, 3], 19),
        ("shifts 1 and 3", &[2, 1, 1, 1, 1, 1, 3], 19),
        ("an old plan", &[1, 1, 1], 1),
        (
            "two thirds of a pair behind shift 3",
            &[2, 1, 1, 3, 1, 1],
            1,
        ),
        ("65 pairs", &[65, 1, 1, 3], 2),
        ("a shift that the roster lacks", &[1, 1, 1, 2], 10),
        ("shift 4 behind shift 3", &[2, 1, 1, 3, 1, 1, 4], 10),
        ("a fall behind shift 3", &[2, 1, 1, 3, 1, 1, 1], 11),
        ("a byte behind shift 3", &[1, 1, 1, 3, 0], 9),
    ];
    for (name, file, number) in to_old {
        assert_eq!(plan_to_old(&held, file), Err(number), "{name}");
    }
}

#[test]
fn an_old_pair_is_in_shift_1() {
    let held = desk(SHIFT_2);
    assert_eq!(plan_to_new(&held, &[1, 1, 1]), Err(10));
    assert_eq!(plan_to_old(&held, &[1, 1, 1, 2]), Err(19));
}

#[test]
fn quotas_hold_for_old_plans_too() {
    let p3 = desk(P3);
    assert_eq!(plan_to_new(&p3, &[2, 1, 1, 2, 1]), Err(12));
    assert_eq!(plan_to_old(&p3, &[2, 1, 1, 1, 2, 1, 1]), Err(12));
    // before 19: the surveyor's quota is 1, and the second pair is in shift 3
    let mut file = SHIFTS.to_vec();
    file[1] = 1;
    assert_eq!(plan_to_old(&desk(&file), &[2, 1, 1, 1, 1, 1, 3]), Err(12));
}

#[test]
fn a_held_plan_stays() {
    let held = desk_with_plan(P3, &[1, 2, 1, 1]);
    assert_eq!(plan_to_new(&held, &[1, 1, 1]), Ok(vec![1, 1, 1, 1]));
    assert_eq!(plan_to_old(&held, &[1, 1, 1, 1]), Ok(vec![1, 1, 1]));
}

#[test]
fn a_buffer_below_its_size_is_15_before_the_file() {
    // also for the smaller file, and where as few bytes as it has would do
    for size in [0, 2_214, 4_261] {
        for file in [OLD_P3, P3, SHIFTS, &[]] {
            let to_new = written(size, |out| seasons::roster_to_new(file, out));
            let to_old = written(size, |out| seasons::roster_to_old(file, out));
            assert_eq!((to_new, to_old), (Err(15), Err(15)), "{size}");
        }
    }
    for size in [0, 129, 192] {
        for file in [&[1, 1, 1][..], &[1, 1, 1, 1], &[1, 1, 1, 3], &[]] {
            let to_new = written(size, |out| desk(SHIFTS).plan_to_new(file, out).1);
            let to_old = written(size, |out| desk(SHIFTS).plan_to_old(file, out).1);
            assert_eq!((to_new, to_old), (Err(15), Err(15)), "{size}");
        }
    }
    let larger = |size| written(size, |out| seasons::roster_to_new(OLD_P3, out));
    assert_eq!(larger(4_263), Ok(P3.to_vec()));
}

#[test]
fn no_roster_is_13_before_15() {
    for size in [0, 192, 193] {
        let to_new = written(size, |out| Desk::default().plan_to_new(&[], out).1);
        let to_old = written(size, |out| Desk::default().plan_to_old(&[], out).1);
        assert_eq!((to_new, to_old), (Err(13), Err(13)), "{size}");
    }
}

#[test]
fn number_19_is_content() {
    let refusal = Refusal::AnotherShift;
    assert_eq!((refusal.number(), refusal.group()), (19, Group::Content));
}
