//! The fast reading against the plain one, on rosters with one shift and with
//! several: files byte for byte, votes against trying all pairings.

mod common;

use common::NUMBERS;
use reference::blocking;
use reference::districts;
use reference::fast;
use reference::finder;
use reference::layout::Layout;
use reference::limits::{MAX_PLAN_BYTES, MAX_ROSTER_BYTES, MAX_STORED_BYTES};
use reference::offers;
use reference::plan::{self, Plan};
use reference::plans;
use reference::random::{self, Random, Shape};
use reference::reduction;
use reference::refusal::Refusal;
use reference::roster::{self, Pair, Roster, Side, SIDES};
use reference::routes;
use reference::seasons;
use reference::votes;

/// A shape with one shift or several, and about as many pairs either way.
fn shape(random: &mut Random, nodes: u8, quota: u8) -> Shape {
    let shifts = random.within(&(1..=3));
    Shape {
        counts: [1..=nodes, 1..=nodes],
        quotas: [0..=quota, 0..=quota],
        shifts,
        pairs: 70 / shifts,
        ties: 50,
        opposed: 30,
    }
}

fn some_roster(random: &mut Random, nodes: u8, quota: u8) -> Roster {
    let shape = shape(random, nodes, quota);
    random::roster(random, &shape)
}

/// The fast reading's refusal of a roster, 0 if it is accepted.
fn refusal(file: &[u8]) -> u8 {
    fast::roster::read(file).err().unwrap_or(0)
}

/// One damage: a byte changed, dropped, doubled, or two swapped.
fn damage(random: &mut Random, file: &mut Vec<u8>) {
    let at = random.below(file.len());
    match random.below(5) {
        0 => file[at] = random.below(80) as u8,
        1 => drop(file.remove(at)),
        2 => file.insert(at, file[at]),
        3 => file.truncate(at),
        _ => {
            let other = random.below(file.len());
            file.swap(at, other);
        }
    }
}

#[test]
fn rosters_are_read_alike() {
    let mut random = Random::new(41);
    let mut met = [0usize; NUMBERS];
    for _ in 0..200_000 {
        let mut file = roster::write(&some_roster(&mut random, 5, 8));
        if random.chance(85) {
            damage(&mut random, &mut file);
        }
        let plain = roster::read(&file).map_or_else(|refusal| refusal.number(), |_| 0);
        assert_eq!(refusal(&file), plain, "{file:?}");
        met[usize::from(plain)] += 1;
    }
    println!("accepted and refusals met: {met:?}");
    for number in (0..=9).chain([18]) {
        assert!(met[number] > 100, "{number}");
    }
}

fn numbers(pair: Pair) -> (u8, u8, u8) {
    (pair.surveyor, pair.stand, pair.shift)
}

#[test]
fn instances_show_the_pairs() {
    let mut random = Random::new(42);
    for _ in 0..20_000 {
        let roster = some_roster(&mut random, 6, 3);
        let instance = fast::roster::read(&roster::write(&roster)).expect("accepted");
        assert_eq!(instance.pairs, roster.pairs().len());
        for (place, pair) in roster.pairs().iter().enumerate() {
            assert_eq!(instance.numbers(place as u16), numbers(*pair));
            let [surveyor, stand] = SIDES.map(|side| &roster.node(side, pair.end(side)).list);
            let [at_surveyor, at_stand] = SIDES.map(|side| pair.entry(side));
            assert_eq!(
                instance.rank_s[place],
                votes::rank(surveyor, Some(at_surveyor))
            );
            assert_eq!(instance.rank_t[place], votes::rank(stand, Some(at_stand)));
            assert_eq!(instance.tied[place], stand.tied.contains(&at_stand));
        }
    }
}

#[test]
fn plans_are_read_and_written_alike() {
    let mut random = Random::new(43);
    let mut met = [0usize; 13];
    for _ in 0..200_000 {
        let roster = some_roster(&mut random, 5, 2);
        let instance = fast::roster::read(&roster::write(&roster)).expect("accepted");
        let mut file = plan::write(&roster, &random::plan(&mut random, &roster, 80));
        if random.chance(85) {
            damage(&mut random, &mut file);
        }
        match (
            plan::read(&roster, &file),
            fast::plan::read(&instance, &file),
        ) {
            (Ok(plan), Ok(chosen)) => {
                let pairs = chosen.as_slice().iter().map(|&pair| usize::from(pair));
                assert_eq!(pairs.collect::<Plan>(), plan);
                let mut out = [77; MAX_PLAN_BYTES];
                let length = fast::plan::write(&instance, &chosen, &mut out);
                assert_eq!(out[..length], file);
                met[0] += 1;
            }
            (Err(plain), Err(fast)) => {
                assert_eq!(plain.number(), fast, "{file:?}");
                met[usize::from(fast)] += 1;
            }
            (plain, fast) => panic!("{plain:?} {fast:?} {file:?}"),
        }
    }
    println!("accepted and refusals met: {met:?}");
    assert!([0, 1, 2, 9, 10, 11, 12].iter().all(|&n| met[n] > 100));
}

/// Holds a fast call that turns files against the plain one, both lent such a
/// buffer, which is now and then too small; and counts its number.
fn turned_alike(
    random: &mut Random,
    met: &mut [usize; NUMBERS],
    needed: usize,
    plain: impl FnOnce(&mut [u8]) -> Result<usize, Refusal>,
    fast: impl FnOnce(&mut [u8]) -> Result<usize, u8>,
) {
    let size = needed - usize::from(random.chance(5));
    let mut buffers = [vec![77; size], vec![77; size]];
    let [first, second] = &mut buffers;
    let answer = plain(first).map_err(Refusal::number);
    assert_eq!(fast(second), answer);
    assert_eq!(buffers[0], buffers[1]);
    met[usize::from(answer.err().unwrap_or(0))] += 1;
}

fn any_layout(random: &mut Random) -> Layout {
    [Layout::Old, Layout::New][random.below(2)]
}

#[test]
fn old_rosters_are_turned_alike() {
    let mut random = Random::new(49);
    let mut met = [[0usize; NUMBERS]; 2];
    for _ in 0..100_000 {
        let roster = some_roster(&mut random, 4, 3);
        let mut file = roster::write_by(any_layout(&mut random), &roster);
        if random.chance(50) {
            damage(&mut random, &mut file);
        }
        turned_alike(
            &mut random,
            &mut met[0],
            MAX_ROSTER_BYTES,
            |out| seasons::roster_to_new(&file, out),
            |out| fast::seasons::roster_to_new(&file, out),
        );
        turned_alike(
            &mut random,
            &mut met[1],
            MAX_ROSTER_BYTES,
            |out| seasons::roster_to_old(&file, out),
            |out| fast::seasons::roster_to_old(&file, out),
        );
    }
    println!("to new, to old: {met:?}");
    let numbers: Vec<usize> = (0..=9).chain([15]).collect();
    assert!(numbers.iter().all(|&n| met[0][n] > 50 && met[1][n] > 50));
    assert!(met[1][18] > 50 && met[1][19] > 50);
}

#[test]
fn districts_are_joined_alike() {
    let mut random = Random::new(51);
    let mut met = [0usize; NUMBERS];
    for _ in 0..40_000 {
        let [first, second] = [(); 2].map(|()| {
            let nodes = [4, 20][random.below(2)];
            let shape = Shape {
                pairs: 20,
                ..shape(&mut random, nodes, 3)
            };
            let mut file = roster::write(&random::roster(&mut random, &shape));
            if random.chance(25) {
                damage(&mut random, &mut file);
            }
            file
        });
        turned_alike(
            &mut random,
            &mut met,
            MAX_ROSTER_BYTES,
            |out| districts::join(&first, &second, out),
            |out| fast::districts::join(&first, &second, out),
        );
    }
    println!("accepted and refusals met: {met:?}");
    let mut numbers = (0..=9).chain([15, 18]);
    assert!(numbers.all(|number| met[number] > 50));
}

#[test]
fn routes_are_walked_alike() {
    let mut random = Random::new(52);
    let mut met = [[0usize; NUMBERS]; 2];
    for _ in 0..60_000 {
        let roster = some_roster(&mut random, 5, 8);
        let route = random::route(&mut random, roster.nodes(Side::Stands).len());
        let mut file = routes::write(&route, &roster);
        if random.chance(60) {
            damage(&mut random, &mut file);
        }
        turned_alike(
            &mut random,
            &mut met[0],
            MAX_STORED_BYTES,
            |out| routes::store(&file, out),
            |out| fast::routes::store(&file, out),
        );
        turned_alike(
            &mut random,
            &mut met[1],
            MAX_STORED_BYTES,
            |out| routes::unstore(&file, out),
            |out| fast::routes::unstore(&file, out),
        );
    }
    println!("stored, unstored: {met:?}");
    let mut numbers = (0..=9).chain([15, 18, 23]);
    assert!(numbers.all(|n| met.iter().all(|met| met[n] > 20)));
}

#[test]
fn old_plans_are_turned_alike() {
    let mut random = Random::new(50);
    let mut met = [[0usize; NUMBERS]; 2];
    for _ in 0..100_000 {
        let roster = some_roster(&mut random, 4, 3);
        let instance = fast::roster::read(&roster::write(&roster)).expect("accepted");
        let plan = random::plan(&mut random, &roster, 80);
        let mut file = plan::write_by(any_layout(&mut random), &roster, &plan);
        if random.chance(50) {
            damage(&mut random, &mut file);
        }
        turned_alike(
            &mut random,
            &mut met[0],
            MAX_PLAN_BYTES,
            |out| seasons::plan_to_new(&roster, &file, out),
            |out| fast::seasons::plan_to_new(&instance, &file, out),
        );
        turned_alike(
            &mut random,
            &mut met[1],
            MAX_PLAN_BYTES,
            |out| seasons::plan_to_old(&roster, &file, out),
            |out| fast::seasons::plan_to_old(&instance, &file, out),
        );
    }
    println!("to new, to old: {met:?}");
    let numbers = [0, 1, 2, 9, 10, 11, 12, 15];
    assert!(numbers.iter().all(|&n| met[0][n] > 50 && met[1][n] > 50));
    assert!(met[1][19] > 50);
}

fn chosen(roster: &Roster, plan: &Plan) -> fast::plan::Chosen {
    let instance = fast::roster::read(&roster::write(roster)).expect("accepted");
    fast::plan::read(&instance, &plan::write(roster, plan)).expect("accepted")
}

#[test]
fn votes_are_those_of_all_pairings() {
    let mut random = Random::new(44);
    let mut less = 0;
    for _ in 0..60_000 {
        let roster = some_roster(&mut random, 6, 5);
        let instance = fast::roster::read(&roster::write(&roster)).expect("accepted");
        let [mine, theirs] = [(); 2].map(|()| random::plan(&mut random, &roster, 90));
        let [fast_mine, fast_theirs] = [&mine, &theirs].map(|plan| chosen(&roster, plan));
        let forth = fast::vote::vote(&instance, &fast_mine, &fast_theirs);
        let back = fast::vote::vote(&instance, &fast_theirs, &fast_mine);
        assert_eq!(forth, votes::plan_vote(&roster, &mine, &theirs));
        assert!(forth + back <= 0);
        less += usize::from(forth + back < 0);
    }
    println!("the two votes added to less than zero {less} times");
    assert!(less > 1_000);
}

#[test]
fn blocking_pairs_are_the_first() {
    let mut random = Random::new(48);
    let mut met = [0usize; 2];
    for _ in 0..60_000 {
        let roster = some_roster(&mut random, 5, 3);
        let instance = fast::roster::read(&roster::write(&roster)).expect("accepted");
        let plan = random::plan(&mut random, &roster, 85);
        let fast = fast::blocking::first(&instance, &chosen(&roster, &plan));
        let plain = blocking::first_blocking_pair(&roster, &plan);
        assert_eq!(fast, plain.map(numbers), "{:?}", roster::write(&roster));
        met[usize::from(fast.is_some())] += 1;
    }
    println!("no pair blocks, one does: {met:?}");
    assert!(met.iter().all(|&count| count > 1_000));
}

#[test]
fn steps_are_those_of_the_rules() {
    let mut random = Random::new(45);
    let mut rules = [0usize; 8];
    for turn in 0..60_000 {
        let shifts = random.within(&(1..=3));
        let shape = Shape {
            counts: [3..=6, 2..=if turn % 3 == 0 { 7 } else { 4 }],
            quotas: [1..=2, 1..=3],
            shifts,
            pairs: 90 / shifts,
            ties: 70,
            opposed: 95,
        };
        let roster = random::roster(&mut random, &shape);
        let instance = fast::roster::read(&roster::write(&roster)).expect("accepted");
        let plain = reduction::reduce(&roster);
        let fast = fast::reduction::reduce(&instance);
        assert_eq!(fast.steps.len(), plain.diary.len());
        for (step, record) in fast.steps.iter().zip(&plain.diary) {
            assert_eq!(usize::from(step.pair), record.pair);
            assert_eq!(step.fixed, record.fate == reduction::Fate::Fix);
            assert_eq!(step.rule, record.rule);
            rules[usize::from(step.rule)] += 1;
        }
    }
    println!("how often each rule acted: {rules:?}");
    assert!(rules[1..].iter().all(|&count| count > 1_000));
}

/// Holds a fast verdict against the plain one: the same verdict, and a rival
/// that is another plan within the quotas with the vote that is told.
fn check_verdict(roster: &Roster, plan: &Plan, fast: &fast::verdict::Verdict, plain: i16) {
    use fast::verdict::Verdict;
    let (sign, rival) = match fast {
        Verdict::Strong => (1, None),
        Verdict::Popular(rival) => (0, Some(rival)),
        Verdict::Beaten(rival) => (-1, Some(rival)),
    };
    assert_eq!(sign, plain, "{:?} {plan:?}", roster::write(roster));
    let Some(rival) = rival else { return };
    let pairs = rival.plan.as_slice().iter();
    let other: Plan = pairs.map(|&pair| usize::from(pair)).collect();
    assert_eq!(other.indices().len(), rival.plan.count);
    assert_ne!(other, *plan);
    assert!(other.within_quotas(roster));
    assert_eq!(votes::plan_vote(roster, plan, &other), rival.vote);
    assert_eq!(rival.vote.signum(), sign);
}

#[test]
fn verdicts_are_those_of_all_votes() {
    let mut random = Random::new(46);
    let mut met = [0usize; 3];
    for turn in 0..30_000 {
        let quota = if turn % 2 == 0 { 1 } else { 3 };
        let mut shape = shape(&mut random, if turn % 2 == 0 { 5 } else { 4 }, quota);
        shape.pairs = 55 / shape.shifts;
        let roster = random::roster(&mut random, &shape);
        if roster.pairs().len() > 10 {
            continue;
        }
        let instance = fast::roster::read(&roster::write(&roster)).expect("accepted");
        for plan in plans::all_plans(&roster) {
            if random.chance(75) {
                continue;
            }
            let fast = fast::verdict::judge(&instance, &chosen(&roster, &plan));
            let plain = match plans::verdict(&roster, &plan) {
                plans::Verdict::Beaten(_) => -1,
                plans::Verdict::Popular(_) => 0,
                plans::Verdict::Strong => 1,
            };
            check_verdict(&roster, &plan, &fast, plain);
            met[(plain + 1) as usize] += 1;
        }
    }
    println!("beaten, popular, strong: {met:?}");
    assert!(met.iter().all(|&count| count > 300));
}

#[test]
fn verdicts_on_long_walks() {
    // Long lists at quota 1 make long alternating walks, with repeats to cut
    // out; the reference by all plans is too slow there, so only the rival is
    // held against the votes.
    let mut random = Random::new(47);
    let mut met = [0usize; 3];
    for _ in 0..20_000 {
        let shifts = random.within(&(1..=3));
        let roster = random::roster(
            &mut random,
            &Shape {
                counts: [6..=12, 6..=12],
                quotas: [1..=3, 1..=3],
                shifts,
                pairs: 60 / shifts,
                ties: 60,
                opposed: 60,
            },
        );
        let instance = fast::roster::read(&roster::write(&roster)).expect("accepted");
        let plan = match fast::finder::find(&instance).ending {
            fast::finder::Ending::Plan(plan) => plan,
            fast::finder::Ending::Rivalled { candidate, .. } => candidate,
            fast::finder::Ending::Left(_) => {
                chosen(&roster, &random::plan(&mut random, &roster, 100))
            }
        };
        let plan: Plan = plan
            .as_slice()
            .iter()
            .map(|&pair| usize::from(pair))
            .collect();
        let fast = fast::verdict::judge(&instance, &chosen(&roster, &plan));
        let sign = match &fast {
            fast::verdict::Verdict::Strong => 1,
            fast::verdict::Verdict::Popular(_) => 0,
            fast::verdict::Verdict::Beaten(_) => -1,
        };
        check_verdict(&roster, &plan, &fast, sign);
        met[(sign + 1) as usize] += 1;
    }
    println!("beaten, popular, strong: {met:?}");
    assert!(met.iter().all(|&count| count > 200));
}

#[test]
fn offers_are_made_alike() {
    let mut random = Random::new(48);
    let mut met = [0usize; NUMBERS];
    let mut strong = [0usize; 2];
    for _ in 0..40_000 {
        let shape = Shape {
            counts: [0..=5, 0..=5],
            quotas: [1..=1, 1..=1],
            shifts: 1,
            pairs: 80,
            ties: 0,
            opposed: 50,
        };
        let mut file = roster::write(&random::roster(&mut random, &shape));
        if random.chance(30) {
            damage(&mut random, &mut file);
        }
        let before = [7; MAX_PLAN_BYTES];
        let [mut own, mut other] = [before; 2];
        let plain = offers::profile_judged_by(&file, &mut own, finder::verdict_large);
        let fast = fast::offers::profile(&file, &mut other);
        assert_eq!(plain.map_err(Refusal::number), fast, "{file:?}");
        assert_eq!(own, other, "{file:?}");
        match fast {
            Ok((verdict, _)) => strong[usize::from(verdict)] += 1,
            Err(number) => met[usize::from(number)] += 1,
        }
    }
    println!("not strong, strong: {strong:?}; refusals met: {met:?}");
    assert!(strong.iter().all(|&count| count > 1_000));
    for number in [1, 2, 3, 4, 5, 7, 8, 9, 18, 22] {
        assert!(met[number] > 10, "{number}");
    }
    let small = fast::offers::profile(&[], &mut [0; MAX_PLAN_BYTES - 1]);
    assert_eq!(small, Err(15));
}
