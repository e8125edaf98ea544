//! A small deterministic generator, and random rosters of a given shape.

use std::cmp::Reverse;
use std::ops::RangeInclusive;

use crate::limits::{MAX_LIST, MAX_NODES, MAX_SHIFT, OLD_SHIFT};
use crate::plan::Plan;
use crate::roster::{narrow, Entry, List, Node, Pair, Roster, Side, SIDES};

/// The splitmix64 generator: the same seed gives the same numbers everywhere.
#[derive(Clone, Debug)]
pub struct Random {
    state: u64,
}

impl Random {
    pub fn new(seed: u64) -> Self {
        Random { state: seed }
    }

    pub fn next_u64(&mut self) -> u64 {
        self.state = self.state.wrapping_add(0x9e37_79b9_7f4a_7c15);
        let mut mixed = self.state;
        mixed = (mixed ^ (mixed >> 30)).wrapping_mul(0xbf58_476d_1ce4_e5b9);
        mixed = (mixed ^ (mixed >> 27)).wrapping_mul(0x94d0_49bb_1331_11eb);
        mixed ^ (mixed >> 31)
    }

    /// A number below `bound`. The bounds here are so small that the remainder
    /// is even enough.
    pub fn below(&mut self, bound: usize) -> usize {
        let bound = u64::try_from(bound).expect("a bound fits");
        usize::try_from(self.next_u64() % bound).expect("a remainder fits")
    }

    /// A number of the range, both ends included.
    pub fn within(&mut self, range: &RangeInclusive<u8>) -> u8 {
        let width = usize::from(range.end() - range.start()) + 1;
        range.start() + narrow(self.below(width))
    }

    /// True in `percent` of a hundred cases.
    pub fn chance(&mut self, percent: u8) -> bool {
        self.below(100) < usize::from(percent)
    }

    pub fn shuffle<T>(&mut self, items: &mut [T]) {
        for end in (1..items.len()).rev() {
            items.swap(end, self.below(end + 1));
        }
    }
}

/// What random rosters look like.
#[derive(Clone, Debug)]
pub struct Shape {
    /// How many nodes, for each side.
    pub counts: [RangeInclusive<u8>; 2],
    /// The quota of each node, for each side.
    pub quotas: [RangeInclusive<u8>; 2],
    /// In how many shifts, from 1 on, a surveyor and a stand may be a pair.
    pub shifts: u8,
    /// How likely, in percent, they are one, for each of these shifts.
    pub pairs: u8,
    /// How likely, in percent, a stand has a tie; its length is then random.
    pub ties: u8,
    /// How likely, in percent, a stand ranks first the surveyors who like it
    /// least. The simple rules act less on such rosters, the later ones more.
    pub opposed: u8,
}

/// Shapes of small rosters that bring every rule and every ending, with one
/// shift and with several. No list has more than six entries.
pub fn small_shapes() -> [Shape; 13] {
    let shape = |counts, quotas, shifts, [pairs, ties, opposed]: [u8; 3]| Shape {
        counts,
        quotas,
        shifts,
        pairs,
        ties,
        opposed,
    };
    [
        shape([1..=3, 1..=3], [0..=3, 0..=3], 1, [80, 60, 50]),
        shape([2..=4, 2..=3], [1..=2, 1..=3], 1, [75, 70, 90]),
        shape([2..=3, 2..=4], [1..=3, 1..=2], 1, [75, 70, 90]),
        shape([3..=4, 3..=4], [1..=2, 1..=2], 1, [60, 80, 90]),
        shape([3..=5, 2..=4], [1..=1, 1..=2], 1, [70, 80, 90]),
        shape([4..=5, 4..=5], [1..=1, 1..=2], 1, [50, 90, 90]),
        shape([4..=5, 3..=3], [1..=1, 1..=3], 1, [90, 60, 100]),
        shape([1..=2, 1..=2], [0..=3, 0..=3], 3, [60, 60, 50]),
        shape([2..=2, 2..=2], [1..=2, 1..=3], 3, [50, 70, 90]),
        shape([1..=3, 1..=3], [1..=2, 1..=2], 2, [50, 70, 90]),
        shape([2..=3, 2..=3], [1..=1, 1..=2], 2, [60, 80, 90]),
        shape([3..=3, 2..=2], [1..=2, 1..=3], 2, [60, 80, 100]),
        shape([2..=2, 3..=3], [1..=3, 1..=2], 2, [60, 70, 90]),
    ]
}

/// Any of the small shapes.
pub fn small_shape(random: &mut Random) -> Shape {
    let shapes = small_shapes();
    shapes[random.below(shapes.len())].clone()
}

/// A shape within the limits: from few nodes to all, from lists that are
/// nearly empty to full ones, quotas as large as the number of nodes allows,
/// from one shift to three.
pub fn any_shape(random: &mut Random) -> Shape {
    let mut side = || [(2, 8), (5, 8), (8, 8), (16, 4), (32, 2)][random.below(5)];
    let [surveyors, stands] = [side(), side()];
    Shape {
        counts: [0..=surveyors.0, 0..=stands.0],
        quotas: [0..=surveyors.1, 0..=stands.1],
        shifts: random.within(&(1..=MAX_SHIFT)),
        pairs: [10, 40, 80, 100][random.below(4)],
        ties: 50,
        opposed: [0, 30, 90][random.below(3)],
    }
}

/// The shape of the longest rosters: 32 by 32 nodes of quota 2 with full lists,
/// over three shifts.
pub fn longest_shape(ties: u8, opposed: u8) -> Shape {
    Shape {
        counts: [32..=32, 32..=32],
        quotas: [2..=2, 2..=2],
        shifts: MAX_SHIFT,
        pairs: 100,
        ties,
        opposed,
    }
}

/// The shape of the longest old rosters: the same with all pairs in one shift,
/// and so with every surveyor at every stand.
pub fn longest_old_shape(ties: u8, opposed: u8) -> Shape {
    Shape {
        shifts: OLD_SHIFT,
        ..longest_shape(ties, opposed)
    }
}

/// A random roster of that shape. The caller's ranges keep to the limits.
pub fn roster(random: &mut Random, shape: &Shape) -> Roster {
    let counts = SIDES.map(|side| random.within(&shape.counts[side as usize]));
    let pairs = pairs(random, shape, counts);
    let [surveyors, stands] = counts;
    let surveyors: Vec<Node> = (1..=surveyors)
        .map(|number| surveyor(random, shape, &pairs, number))
        .collect();
    let stands = (1..=stands)
        .map(|number| stand(random, shape, &surveyors, number))
        .collect();
    Roster::new(surveyors, stands).expect("both sides list the same pairs")
}

/// A stand's distance from a surveyor on a ring of nodes, and a shift.
type Round = (usize, u8);

/// All rounds on a ring of that many nodes, in a random order.
fn rounds(random: &mut Random, nodes: usize, shifts: u8) -> Vec<Round> {
    let in_shifts = |distance| (1..=shifts).map(move |shift| (distance, shift));
    let mut rounds: Vec<Round> = (0..nodes).flat_map(in_shifts).collect();
    random.shuffle(&mut rounds);
    rounds
}

/// The pairs of a roster with so many nodes. They are drawn in rounds, in each of
/// which every node has at most one pair; so lists fill evenly up to their
/// limit, and with all pairs of 32 by 32 nodes none keeps room.
fn pairs(random: &mut Random, shape: &Shape, [surveyors, stands]: [u8; 2]) -> Vec<Pair> {
    let nodes = usize::from(surveyors.max(stands));
    let mut lengths = [[0; MAX_NODES]; 2];
    let mut pairs = Vec::new();
    for (distance, shift) in rounds(random, nodes, shape.shifts) {
        for surveyor in 1..=surveyors {
            let stand = narrow((usize::from(surveyor - 1) + distance) % nodes + 1);
            if stand > stands || !random.chance(shape.pairs) {
                continue;
            }
            let ends = [(0, surveyor), (1, stand)].map(|(side, end)| (side, usize::from(end) - 1));
            if ends
                .iter()
                .all(|&(side, end)| lengths[side][end] < MAX_LIST)
            {
                for (side, end) in ends {
                    lengths[side][end] += 1;
                }
                pairs.push(Pair {
                    surveyor,
                    stand,
                    shift,
                });
            }
        }
    }
    pairs
}

/// A surveyor that ranks its pairs.
fn surveyor(random: &mut Random, shape: &Shape, pairs: &[Pair], number: u8) -> Node {
    let own = pairs.iter().filter(|pair| pair.surveyor == number);
    let mut strict: Vec<Entry> = own.map(|pair| pair.entry(Side::Surveyors)).collect();
    random.shuffle(&mut strict);
    Node {
        quota: random.within(&shape.quotas[Side::Surveyors as usize]),
        list: List {
            strict,
            tied: Vec::new(),
        },
    }
}

/// A joiner's list of some of the stands, each in some of the shifts, as its
/// file.
pub fn stand_list(random: &mut Random, stands: u8, percent: u8) -> Vec<u8> {
    let in_shifts = |number| (1..=MAX_SHIFT).map(move |shift| Entry { number, shift });
    let mut list: Vec<Entry> = (1..=stands)
        .flat_map(in_shifts)
        .filter(|_| random.chance(percent))
        .collect();
    random.shuffle(&mut list);
    list.truncate(MAX_LIST);
    list_file(&list)
}

/// A joiner's list, as its file, that no stand of the roster is too full for:
/// some of the stands, each in some of the shifts.
pub fn fitting_list(random: &mut Random, roster: &Roster, percent: u8) -> Vec<u8> {
    let mut list = Vec::new();
    for (number, stand) in (1..).zip(roster.nodes(Side::Stands)) {
        let room = MAX_LIST - stand.list.length();
        let shifts = (1..=MAX_SHIFT).filter(|_| random.chance(percent));
        list.extend(shifts.take(room).map(|shift| Entry { number, shift }));
    }
    random.shuffle(&mut list);
    list.truncate(MAX_LIST);
    list_file(&list)
}

/// A joiner's list as its file.
pub fn list_file(list: &[Entry]) -> Vec<u8> {
    let length = narrow(list.len());
    let entries = list.iter().flat_map(|entry| entry.bytes());
    std::iter::once(length).chain(entries).collect()
}

/// A stand that ranks the surveyors who rank it, each in the same shifts.
fn stand(random: &mut Random, shape: &Shape, surveyors: &[Node], number: u8) -> Node {
    let mut fans: Vec<(usize, Entry)> = Vec::new();
    for (surveyor, node) in (1..).zip(surveyors) {
        let places = node.list.entries().enumerate();
        let here = places.filter(|(_, entry)| entry.number == number);
        fans.extend(here.map(|(place, Entry { shift, .. })| {
            let number = surveyor;
            (place, Entry { number, shift })
        }));
    }
    random.shuffle(&mut fans);
    if random.chance(shape.opposed) {
        fans.sort_by_key(|&(place, _)| Reverse(place));
    }
    let mut strict: Vec<Entry> = fans.into_iter().map(|(_, entry)| entry).collect();
    let mut tied = Vec::new();
    if random.chance(shape.ties) {
        tied = strict.split_off(random.below(strict.len() + 1));
        tied.sort_unstable();
    }
    Node {
        quota: random.within(&shape.quotas[Side::Stands as usize]),
        list: List { strict, tied },
    }
}

/// A route that names each of so many stands once.
pub fn route(random: &mut Random, stands: usize) -> Vec<u8> {
    let mut route: Vec<u8> = (1..=narrow(stands)).collect();
    random.shuffle(&mut route);
    route
}

/// A random plan within the quotas: pairs are tried in a random order, and one
/// that still fits is taken in `percent` of a hundred cases.
pub fn plan(random: &mut Random, roster: &Roster, percent: u8) -> Plan {
    let mut order: Vec<usize> = (0..roster.pairs().len()).collect();
    random.shuffle(&mut order);
    let mut plan = Plan::default();
    for pair in order {
        let wider = plan.indices().iter().copied().chain([pair]);
        let wider: Plan = wider.collect();
        if random.chance(percent) && wider.within_quotas(roster) {
            plan = wider;
        }
    }
    plan
}

/// A random plan that takes pairs, in a random order, as long as they fit.
pub fn maximal_plan(random: &mut Random, roster: &Roster) -> Plan {
    let mut room = SIDES.map(|side| {
        let nodes = roster.nodes(side).iter();
        nodes.map(|node| node.quota).collect::<Vec<u8>>()
    });
    let mut order: Vec<usize> = (0..roster.pairs().len()).collect();
    random.shuffle(&mut order);
    let mut chosen = Vec::new();
    for pair in order {
        let ends = SIDES.map(|side| {
            let node = usize::from(roster.pairs()[pair].end(side)) - 1;
            (side as usize, node)
        });
        if ends.iter().all(|&(side, node)| room[side][node] > 0) {
            for (side, node) in ends {
                room[side][node] -= 1;
            }
            chosen.push(pair);
        }
    }
    chosen.into_iter().collect()
}

/// A random plan of that many pairs, which the roster must allow.
pub fn plan_of(random: &mut Random, roster: &Roster, pairs: usize) -> Plan {
    loop {
        let plan = maximal_plan(random, roster);
        if plan.indices().len() == pairs {
            return plan;
        }
    }
}

/// A roster of the longest kind on which all agree, with its plan of 64 pairs:
/// surveyors and stands come in groups of two, and everyone ranks the two of
/// the own group first, each in one shift; these pairs are the plan. It is
/// strong. With some groups `tied`, whose stands rank the own surveyors last and
/// alike, it is less so.
pub fn agreed(random: &mut Random, tied: usize) -> (Roster, Plan) {
    agreed_of(random, MAX_NODES, tied)
}

/// The same with so many nodes a side, an even number, and a plan of twice as many
/// pairs. Lists are as long as the limit and three shifts allow.
pub fn agreed_of(random: &mut Random, nodes: usize, tied: usize) -> (Roster, Plan) {
    let groups = nodes / 2;
    let own: [Round; 2] = [(0, 1), (groups, 3)];
    let first = |_, _, round| usize::from(!own.contains(&round));
    let tied = |stand: usize| stand % groups < tied;
    let roster = longest(random, nodes, &own, first, tied);
    let plan = plan_where(&roster, &own);
    (roster, plan)
}

/// A roster of the longest kind, with a strong plan of 64 pairs from which the
/// test for rivals has the longest way to go: each surveyor has the stand of
/// its own number and the one behind it, and ranks the one behind that between
/// the two. So walks of cost 0 lead from each stand to the next.
pub fn chained(random: &mut Random) -> (Roster, Plan) {
    // the last two have none behind that, so that no walk closes
    chain(random, MAX_NODES - 2)
}

/// The same with the walk closed: it leads through all stands and back, and is the
/// only draw. So the plan is popular, and the search for its rival goes deepest.
pub fn ringed(random: &mut Random) -> (Roster, Plan) {
    chain(random, MAX_NODES)
}

/// The same with the stand between anywhere: each surveyor has another one there, so that
/// walks close after some stands or lead into one that does. The plan is popular.
pub fn scattered(random: &mut Random) -> (Roster, Plan) {
    const SOME: usize = 8;
    let mut others: Vec<Round> = rounds(random, MAX_NODES, MAX_SHIFT);
    others.retain(|&(distance, _)| distance > 1);
    others.truncate(SOME);
    let between: Vec<Round> = (0..MAX_NODES).map(|_| others[random.below(SOME)]).collect();
    walked(random, &others, |node| Some(between[node]))
}

/// A chain in which so many surveyors, from the first on, have a stand between their two.
fn chain(random: &mut Random, surveyors: usize) -> (Roster, Plan) {
    const BETWEEN: Round = (2, 3);
    walked(random, &[BETWEEN], |node| {
        (node < surveyors).then_some(BETWEEN)
    })
}

/// A roster of the longest kind with a plan of 64 pairs: each surveyor has the stand of
/// its own number and the one behind it, and ranks a third between the two if it is given
/// one, of some rounds. Stands rank their own two first.
fn walked(
    random: &mut Random,
    others: &[Round],
    between: impl Fn(usize) -> Option<Round>,
) -> (Roster, Plan) {
    const PLAN: [Round; 2] = [(0, 1), (1, 2)];
    let first = |side, node, round: Round| match (side, round) {
        (Side::Stands, round) => usize::from(!PLAN.contains(&round)),
        (Side::Surveyors, round) if round == PLAN[0] => 0,
        (Side::Surveyors, round) if between(node) == Some(round) => 1,
        (Side::Surveyors, round) if round == PLAN[1] => 2,
        (Side::Surveyors, _) => 3,
    };
    let given = [&PLAN, others].concat();
    let roster = longest(random, MAX_NODES, &given, first, |_| false);
    let plan = plan_where(&roster, &PLAN);
    (roster, plan)
}

/// A roster of so many nodes a side with the longest lists: its pairs are those of 32
/// rounds, if there are so many, the given ones among them. Everyone ranks the own
/// pairs by a key, and in a random order where keys are equal. The stands chosen by
/// `tied` move the two best to a tie at the end. Nodes are counted from 0.
fn longest(
    random: &mut Random,
    nodes: usize,
    given: &[Round],
    key: impl Fn(Side, usize, Round) -> usize,
    tied: impl Fn(usize) -> bool,
) -> Roster {
    let mut drawn = rounds(random, nodes, MAX_SHIFT);
    drawn.sort_by_key(|round| !given.contains(round));
    drawn.truncate(MAX_LIST);
    let mut node = |side, number: usize| {
        random.shuffle(&mut drawn);
        drawn.sort_by_key(|&round| key(side, number, round));
        let entry = |&(distance, shift): &Round| {
            let other = match side {
                Side::Surveyors => number + distance,
                Side::Stands => number + nodes - distance,
            };
            let number = narrow(other % nodes + 1);
            Entry { number, shift }
        };
        let mut list = List {
            strict: drawn.iter().map(entry).collect(),
            tied: Vec::new(),
        };
        if side == Side::Stands && tied(number) {
            list.tied = list.strict.drain(..2).collect();
            list.tied.sort_unstable();
        }
        Node { quota: 2, list }
    };
    let [surveyors, stands] =
        SIDES.map(|side| (0..nodes).map(|number| node(side, number)).collect());
    Roster::new(surveyors, stands).expect("both sides have the same rounds")
}

/// The plan of the pairs of some rounds.
fn plan_where(roster: &Roster, chosen: &[Round]) -> Plan {
    let nodes = roster.nodes(Side::Stands).len();
    let round = |pair: Pair| {
        let distance = usize::from(pair.stand) + nodes - usize::from(pair.surveyor);
        (distance % nodes, pair.shift)
    };
    let in_round = |&index: &usize| chosen.contains(&round(roster.pairs()[index]));
    (0..roster.pairs().len()).filter(in_round).collect()
}
