//! The families of jobs. README.md says what each is for.
//!
//! Every job is drawn by dice with a fixed seed, so each run has the same ones. Where a job is said to be accepted or
//! refused, the driver holds the verdict to that.

use crate::plain;
use std::collections::{HashMap, HashSet};

pub type State = [u8; 24];

/// What is known of a verdict before.
#[derive(Clone, Copy, PartialEq, Eq)]
pub enum Expected {
    Accepted,
    Unanswered,
    Any,
}

pub struct Job {
    pub input: Vec<u8>,
    pub expected: Expected,
}

pub struct Family {
    pub name: &'static str,
    pub what: &'static str,
    pub jobs: fn() -> Vec<Job>,
}

pub const FAMILIES: [Family; 7] = [
    Family { name: "small", what: "small mixed jobs", jobs: small },
    Family { name: "hidden-1", what: "6 units, 7 hidden groups, limit 1", jobs: hidden_1 },
    Family { name: "hidden-2", what: "6 units, 7 hidden groups, limit 2", jobs: hidden_2 },
    Family { name: "hidden-8", what: "6 units, 7 hidden groups, limit 8", jobs: hidden_8 },
    Family { name: "listeners", what: "up to 5 linked listeners with several receive rows", jobs: listeners },
    Family { name: "wide", what: "256 values, with receives", jobs: wide },
    Family { name: "pairs", what: "about 1,000 pairs", jobs: pairs },
];

/// One network on both sides with ever more pairs: the same rows, and equally many steps of each state.
pub const SERIES: [Family; 4] = [
    Family { name: "125", what: "125 pairs", jobs: || series(5, 5) },
    Family { name: "250", what: "250 pairs", jobs: || series(5, 10) },
    Family { name: "500", what: "500 pairs", jobs: || series(10, 10) },
    Family { name: "1000", what: "1,000 pairs", jobs: || series(10, 20) },
];

// ---------------------------------------------------------------- dice

/// SplitMix64.
pub struct Dice(pub u64);

impl Dice {
    pub fn next(&mut self) -> u64 {
        self.0 = self.0.wrapping_add(0x9E37_79B9_7F4A_7C15);
        let mut word = self.0;
        word = (word ^ word >> 30).wrapping_mul(0xBF58_476D_1CE4_E5B9);
        word = (word ^ word >> 27).wrapping_mul(0x94D0_49BB_1331_11EB);
        word ^ word >> 31
    }

    /// A number below `bound`.
    fn below(&mut self, bound: usize) -> usize {
        (self.next() % bound as u64) as usize
    }

    fn one_of<T: Copy>(&mut self, from: &[T]) -> T {
        from[self.below(from.len())]
    }

    fn shuffle<T>(&mut self, items: &mut [T]) {
        for last in (1..items.len()).rev() {
            items.swap(last, self.below(last + 1));
        }
    }

    fn order(&mut self, count: usize) -> Vec<usize> {
        let mut order: Vec<usize> = (0..count).collect();
        self.shuffle(&mut order);
        order
    }
}

// ---------------------------------------------------------------- networks

const OPEN: [u8; 5] = [0; 5];
pub const FIRST: [u8; 2] = [0, 0];
pub const SECOND: [u8; 2] = [1, 0];
pub const KEEP: [[u8; 2]; 2] = [FIRST, SECOND];

pub fn constant(value: i8) -> [u8; 2] {
    [2, value as u8]
}

fn row(at: u8, guard: [u8; 5], action: u8, operand: [u8; 2], to: u8, new: [[u8; 2]; 2]) -> [u8; 16] {
    let mut bytes = [0; 16];
    bytes[0] = at;
    bytes[1..6].copy_from_slice(&guard);
    bytes[6] = action;
    bytes[7..9].copy_from_slice(&operand);
    bytes[9] = to;
    bytes[10..12].copy_from_slice(&new[0]);
    bytes[12..14].copy_from_slice(&new[1]);
    bytes
}

pub fn silent(at: u8, to: u8, new: [[u8; 2]; 2]) -> [u8; 16] {
    row(at, OPEN, 0, [0, 0], to, new)
}

pub fn broadcast(at: u8, sent: [u8; 2], to: u8, new: [[u8; 2]; 2]) -> [u8; 16] {
    row(at, OPEN, 1, sent, to, new)
}

pub fn receive(at: u8, into: [u8; 2], to: u8, new: [[u8; 2]; 2]) -> [u8; 16] {
    row(at, OPEN, 2, into, to, new)
}

pub fn joined(one: u8, other: u8) -> [u8; 3] {
    [1, one, other]
}

pub fn apart(one: u8, other: u8) -> [u8; 3] {
    [2, one, other]
}

#[derive(Clone)]
pub struct Network {
    pub lo: i8,
    pub hi: i8,
    pub free: u8,
    pub units: u8,
    pub limit: u8,
    pub rows: Vec<[u8; 16]>,
    pub links: Vec<[u8; 3]>,
}

impl Network {
    fn setting(&self, side: u8) -> [u8; 64] {
        let mut record = [0; 64];
        record[..7].copy_from_slice(&[1, side, self.lo as u8, self.hi as u8, self.free, self.units, self.limit]);
        record
    }

    fn write(&self, side: u8, input: &mut Vec<u8>) {
        for row in &self.rows {
            push(input, 2, side, row);
        }
        for link in &self.links {
            push(input, 3, side, link);
        }
    }

    /// The states in which the steps of a state land.
    fn landings(&self, state: &State) -> Vec<State> {
        plain::landings(&input_of(self, self, &[]), 0, state)
    }

    /// All states that are reached from a state, if they are no more than `most`.
    fn reached(&self, start: State, most: usize) -> Option<Vec<State>> {
        let mut reached = vec![start];
        let mut seen = HashSet::from([start]);
        let mut at = 0;
        while at < reached.len() {
            for landing in self.landings(&reached[at]) {
                if seen.insert(landing) {
                    reached.push(landing);
                }
            }
            if reached.len() > most {
                return None;
            }
            at += 1;
        }
        Some(reached)
    }
}

fn push(input: &mut Vec<u8>, kind: u8, side: u8, payload: &[u8]) {
    let end = input.len() + 64;
    input.extend([kind, side]);
    input.extend(payload);
    input.resize(end, 0);
}

pub fn input_of(left: &Network, right: &Network, pairs: &[(State, State)]) -> Vec<u8> {
    let mut input = Vec::with_capacity(65536);
    input.extend(left.setting(0));
    input.extend(right.setting(1));
    left.write(0, &mut input);
    right.write(1, &mut input);
    for (left, right) in pairs {
        push(&mut input, 4, 0, &[*left, *right].concat());
    }
    input
}

fn most_pairs(left: &Network, right: &Network) -> usize {
    1022 - left.rows.len() - left.links.len() - right.rows.len() - right.links.len()
}

/// The state of units that are each (location, first register, second register, set).
pub fn state(units: &[(u8, i8, i8, u8)]) -> State {
    let mut bytes = [0; 24];
    for (slot, unit) in bytes.chunks_exact_mut(4).zip(units) {
        slot.copy_from_slice(&[unit.0, unit.1 as u8, unit.2 as u8, unit.3]);
    }
    bytes
}

// ---------------------------------------------------------------- disguises

/// Another spelling of a network: locations renamed, hidden groups renamed, units and rows in another order. A state is
/// bisimilar to its disguise, but steps stand at other places in the list.
struct Disguise {
    locations: Vec<usize>,
    groups: Vec<usize>,
    units: Vec<usize>,
}

impl Disguise {
    fn of(network: &Network, dice: &mut Dice) -> Disguise {
        let hidden: Vec<usize> = (0..8).filter(|group| network.free >> group & 1 == 0).collect();
        let mut groups: Vec<usize> = (0..8).collect();
        for (&group, place) in hidden.iter().zip(dice.order(hidden.len())) {
            groups[group] = hidden[place];
        }
        Disguise { locations: dice.order(64), groups, units: dice.order(usize::from(network.units)) }
    }

    fn unit(&self, unit: &[u8]) -> [u8; 4] {
        let renamed = (0..8).filter(|group| unit[3] >> group & 1 != 0).map(|group: usize| 1 << self.groups[group]);
        [self.locations[usize::from(unit[0])] as u8, unit[1], unit[2], renamed.sum()]
    }

    fn state(&self, state: &State) -> State {
        let mut renamed = [0; 24];
        for (unit, &place) in state.chunks_exact(4).zip(&self.units) {
            renamed[4 * place..4 * place + 4].copy_from_slice(&self.unit(unit));
        }
        renamed
    }

    fn network(&self, network: &Network, dice: &mut Dice) -> Network {
        let mut renamed = network.clone();
        for row in &mut renamed.rows {
            row[0] = self.locations[usize::from(row[0])] as u8;
            row[9] = self.locations[usize::from(row[9])] as u8;
        }
        dice.shuffle(&mut renamed.rows);
        for link in &mut renamed.links {
            for unit in &mut link[1..] {
                *unit = self.units[usize::from(*unit)] as u8;
            }
        }
        renamed
    }
}

// ---------------------------------------------------------------- jobs from networks

/// A network beside itself, or beside a disguise of it, with a relation that pairs each state with itself or its disguise.
pub struct Likeness {
    left: Network,
    right: Network,
    pub pairs: Vec<(State, State)>,
}

impl Likeness {
    pub fn of(network: &Network, states: &[State], disguised: bool, dice: &mut Dice) -> Likeness {
        let (right, mut pairs): (Network, Vec<_>) = if disguised {
            let disguise = Disguise::of(network, dice);
            (disguise.network(network, dice), states.iter().map(|state| (*state, disguise.state(state))).collect())
        } else {
            (network.clone(), states.iter().map(|state| (*state, *state)).collect())
        };
        dice.shuffle(&mut pairs);
        Likeness { left: network.clone(), right, pairs }
    }

    pub fn job(&self, expected: Expected) -> Job {
        Job { input: input_of(&self.left, &self.right, &self.pairs), expected }
    }

    /// A pair is left out whose left state is reached from the fewest others. Those from which a step would land in it come
    /// last, the one with the latest such step first.
    fn refused_late(mut self) -> Job {
        let mut from: HashMap<State, Vec<(State, usize)>> = HashMap::new();
        for (state, _) in &self.pairs {
            let mut seen = HashSet::from([*state]);
            for (step, landing) in self.left.landings(state).into_iter().enumerate() {
                if seen.insert(landing) {
                    from.entry(landing).or_default().push((*state, step));
                }
            }
        }
        let place = (0..self.pairs.len()).filter(|&place| from.contains_key(&self.pairs[place].0));
        let lost = place.min_by_key(|&place| from[&self.pairs[place].0].len()).expect("there are steps");
        let (lost, _) = self.pairs.remove(lost);
        let steps: HashMap<State, usize> = from[&lost].iter().copied().collect();
        self.pairs.sort_by_key(|(state, _)| steps.get(state).map_or(0, |step| usize::MAX - step));
        self.job(Expected::Unanswered)
    }
}

fn closed(network: &Network, start: State) -> Vec<State> {
    let most = most_pairs(network, network);
    network.reached(start, most).unwrap_or_else(|| panic!("more than {most} states"))
}

/// Four jobs on all states that are reached: accepted and refused late, plain and disguised.
fn four(network: &Network, start: State, dice: &mut Dice, jobs: &mut Vec<Job>) {
    let states = closed(network, start);
    for disguised in [false, true] {
        jobs.push(Likeness::of(network, &states, disguised, dice).job(Expected::Accepted));
        jobs.push(Likeness::of(network, &states, disguised, dice).refused_late());
    }
}

/// Two jobs on a walk through more states than a relation holds: the states of the walk come first and have all their
/// landings among the pairs, so each is looked at whole; a state behind them is refused.
fn walks(network: &Network, start: State, dice: &mut Dice, jobs: &mut Vec<Job>) {
    let most = most_pairs(network, network);
    let mut centres = vec![];
    let (mut states, mut seen) = (vec![start], HashSet::from([start]));
    let mut at = start;
    loop {
        let landings = network.landings(&at);
        let more: HashSet<State> = landings.iter().copied().filter(|landing| !seen.contains(landing)).collect();
        if states.len() + more.len() > most {
            break;
        }
        for landing in &landings {
            if seen.insert(*landing) {
                states.push(*landing);
            }
        }
        centres.push(at);
        let ahead: Vec<State> = landings.into_iter().filter(|landing| !centres.contains(landing)).collect();
        at = dice.one_of(&ahead);
    }
    assert!(!centres.is_empty(), "the landings of one state are too many");
    for disguised in [false, true] {
        let mut likeness = Likeness::of(network, &states, disguised, dice);
        likeness.pairs.sort_by_key(|(state, _)| !centres.contains(state));
        jobs.push(likeness.job(Expected::Unanswered));
    }
}

// ---------------------------------------------------------------- small

fn any_operand(dice: &mut Dice, hi: i8) -> [u8; 2] {
    match dice.below(3) {
        0 => FIRST,
        1 => SECOND,
        _ => constant(dice.below(hi as usize + 1) as i8),
    }
}

fn any_row(dice: &mut Dice, hi: i8) -> [u8; 16] {
    let locations = 4;
    let mut guard = OPEN;
    if dice.below(3) == 0 {
        guard[0] = 1 + dice.below(3) as u8;
        guard[1..3].copy_from_slice(&any_operand(dice, hi));
        guard[3..].copy_from_slice(&any_operand(dice, hi));
    }
    let action = dice.below(3) as u8;
    let operand = match action {
        0 => [0, 0],
        1 => any_operand(dice, hi),
        _ => dice.one_of(&KEEP),
    };
    let new = if dice.below(2) == 0 { KEEP } else { [any_operand(dice, hi), any_operand(dice, hi)] };
    row(dice.below(locations) as u8, guard, action, operand, dice.below(locations) as u8, new)
}

fn any_network(dice: &mut Dice) -> Network {
    let hi = 1 + dice.below(2) as i8;
    let rows = 2 + dice.below(7);
    let units = 1 + dice.below(3) as u8;
    let links = if dice.below(4) == 0 {
        vec![[1 + dice.below(2) as u8, 0, dice.below(usize::from(units)) as u8]]
    } else {
        vec![]
    };
    Network {
        lo: 0,
        hi,
        free: dice.one_of(&[0xFF, 0xFE, 0xFD, 0x3F]),
        units,
        limit: 1 + dice.below(2) as u8,
        rows: (0..rows).map(|_| any_row(dice, hi)).collect(),
        links,
    }
}

fn any_state(dice: &mut Dice, network: &Network) -> State {
    let units: Vec<_> = (0..network.units)
        .map(|_| (dice.below(4) as u8, dice.below(2) as i8, dice.below(2) as i8, dice.one_of(&[0, 1, 1, 2, 3])))
        .collect();
    state(&units)
}

/// A job changed in one place.
fn changed(mut likeness: Likeness, dice: &mut Dice) -> Job {
    match dice.below(4) {
        0 => drop(likeness.pairs.pop()),
        1 => likeness.right.rows[0] = any_row(dice, likeness.left.hi),
        2 => {
            let at = dice.below(likeness.pairs.len());
            likeness.pairs[at].1[dice.below(24)] ^= 1;
        }
        _ => {
            let mut job = likeness.job(Expected::Any);
            let at = dice.below(job.input.len());
            job.input[at] = dice.below(256) as u8;
            return job;
        }
    }
    likeness.job(Expected::Any)
}

fn small() -> Vec<Job> {
    let mut dice = Dice(1);
    let mut jobs = Vec::new();
    while jobs.len() < 2000 {
        let network = any_network(&mut dice);
        let start = any_state(&mut dice, &network);
        let Some(states) = network.reached(start, 40) else { continue };
        // most networks that are drawn stand still
        if states.len() < 3 && dice.below(8) != 0 {
            continue;
        }
        let disguised = dice.below(2) == 0;
        let likeness = Likeness::of(&network, &states, disguised, &mut dice);
        if plain::answer(&input_of(&network, &network, &[(start, start)])).verdict[0] == 12 {
            continue;
        }
        jobs.push(if dice.below(2) == 0 { likeness.job(Expected::Accepted) } else { changed(likeness, &mut dice) });
    }
    jobs
}

// ---------------------------------------------------------------- hidden groups

/// Six units with one free group. Those at location 0 send a constant and those at 1 hear and stay as they were; 2 does
/// both, and 3 sends and goes to 4, from where it returns silently. So only 3 and 4 change place.
fn roaming(limit: u8, links: Vec<[u8; 3]>) -> Network {
    let reset = [constant(0), constant(0)];
    Network {
        lo: -2,
        hi: 2,
        free: 1,
        units: 6,
        limit,
        rows: vec![
            broadcast(0, constant(1), 0, KEEP),
            receive(1, FIRST, 1, reset),
            broadcast(2, constant(2), 2, KEEP),
            receive(2, SECOND, 2, reset),
            broadcast(3, FIRST, 4, KEEP),
            silent(4, 3, KEEP),
        ],
        links,
    }
}

/// The units' states, with registers 0.
fn placed(units: [(u8, u8); 6]) -> State {
    state(&units.map(|(location, set)| (location, 0, 0, set)))
}

fn hidden_1() -> Vec<Job> {
    let mut dice = Dice(2);
    let mut jobs = Vec::new();
    // three units roam over 8 sets each, and three stay on the free group: 512 states
    four(&roaming(1, vec![]), placed([(0, 0), (1, 2), (2, 0), (0, 1), (1, 1), (2, 1)]), &mut dice, &mut jobs);
    // two units roam, three others go to and fro: 512 states
    four(&roaming(1, vec![]), placed([(1, 0), (2, 4), (3, 1), (3, 1), (3, 1), (1, 1)]), &mut dice, &mut jobs);
    // all six roam
    walks(&roaming(1, vec![]), placed([(0, 0), (1, 2), (2, 2), (3, 4), (1, 4), (2, 0)]), &mut dice, &mut jobs);
    jobs
}

fn hidden_2() -> Vec<Job> {
    let mut dice = Dice(3);
    let mut jobs = Vec::new();
    // two units roam over 29 sets each, and four are held on no group: 841 states
    let alone = (2..6).map(|unit| apart(unit, unit)).collect();
    four(&roaming(2, alone), placed([(2, 6), (1, 2), (0, 0), (1, 0), (0, 0), (2, 0)]), &mut dice, &mut jobs);
    // three units on the free group take up one hidden group or none: 512 states
    let alone = (3..6).map(|unit| apart(unit, unit)).collect();
    four(&roaming(2, alone), placed([(0, 1), (1, 1), (2, 1), (0, 0), (0, 0), (2, 0)]), &mut dice, &mut jobs);
    // all six roam: 42 movements of each state, or 168
    walks(&roaming(2, vec![]), placed([(0, 1), (1, 3), (2, 5), (3, 9), (1, 1), (2, 1)]), &mut dice, &mut jobs);
    walks(&roaming(2, vec![]), placed([(0, 0), (1, 6), (2, 2), (3, 4), (1, 4), (2, 8)]), &mut dice, &mut jobs);
    jobs
}

fn hidden_8() -> Vec<Job> {
    let mut dice = Dice(4);
    let mut jobs = Vec::new();
    // one unit roams over all 128 sets, five are held on no group, two of them go to and fro: 512 states
    let alone = (1..6).map(|unit| apart(unit, unit)).collect();
    four(&roaming(8, alone), placed([(2, 2), (3, 0), (3, 0), (0, 0), (1, 0), (2, 0)]), &mut dice, &mut jobs);
    // no two units share a group, so that each has few movements
    let pairs = (0..6).flat_map(|one| (one + 1..6).map(move |other| apart(one, other)));
    walks(
        &roaming(8, pairs.collect()),
        placed([(0, 2), (1, 4), (2, 8), (3, 16), (1, 32), (2, 64)]),
        &mut dice,
        &mut jobs,
    );
    // units that must share groups in a ring
    let ring = (0..6).map(|unit| joined(unit, (unit + 1) % 6)).collect();
    walks(&roaming(8, ring), placed([(0, 6), (1, 12), (2, 24), (3, 48), (1, 96), (2, 66)]), &mut dice, &mut jobs);
    // all six roam freely, with 762 movements of each state
    walks(&roaming(8, vec![]), placed([(0, 2), (1, 6), (2, 10), (3, 1), (1, 255), (2, 0)]), &mut dice, &mut jobs);
    jobs
}

// ---------------------------------------------------------------- listeners

/// A sender at location 0, and listeners at the locations 1 to `places`, where each has `rows` receive rows to places in
/// turn. All hold the free group, and nothing moves.
fn audience(listeners: u8, places: u8, rows: u8) -> Network {
    let mut all = vec![broadcast(0, constant(1), 0, KEEP)];
    for place in 0..places {
        for row in 0..rows {
            all.push(receive(1 + place, FIRST, 1 + (place + row) % places, [constant(0), SECOND]));
        }
    }
    Network { lo: -1, hi: 1, free: 1, units: 1 + listeners, limit: 1, rows: all, links: vec![] }
}

fn seated(listeners: usize) -> State {
    let mut units = vec![(0, 0, 0, 1)];
    units.extend(vec![(1, 0, 0, 1); listeners]);
    state(&units)
}

/// Six units that send and hear at each of two places.
fn chorus() -> Network {
    let mut network = audience(5, 2, 3);
    network.rows.extend([broadcast(1, constant(1), 1, KEEP), broadcast(2, constant(0), 2, KEEP)]);
    network
}

fn listeners() -> Vec<Job> {
    let mut dice = Dice(5);
    let mut jobs = Vec::new();
    // two to five listeners, three rows each: up to 4^5 = 1,024 steps of one row, 243 states
    for count in 2..=5 {
        four(&audience(count, 3, 3), seated(usize::from(count)), &mut dice, &mut jobs);
    }
    // 5^5 = 3,125 and 9^5 = 59,049 steps of one row, 32 states
    four(&audience(5, 2, 4), seated(5), &mut dice, &mut jobs);
    four(&audience(5, 2, 8), seated(5), &mut dice, &mut jobs);
    // six senders, each heard by five: 6 * 4^5 steps, 64 states
    four(&chorus(), state(&[(1, 0, 0, 1); 6]), &mut dice, &mut jobs);
    jobs
}

// ---------------------------------------------------------------- wide ranges

/// One unit that at each of `places` locations receives any value and goes to any of them. At the first, with the highest
/// value, it can also stop for good.
fn collector(places: u8) -> Network {
    let mut rows = Vec::new();
    for from in 0..places {
        for to in 0..places {
            rows.push(receive(from, FIRST, to, [FIRST, constant(0)]));
        }
        rows.push(broadcast(from, FIRST, from, KEEP));
    }
    let mut stops = silent(0, places, KEEP);
    stops[1..6].copy_from_slice(&[1, 0, 0, 2, 127]);
    rows.push(stops);
    Network { lo: -128, hi: 127, free: 1, units: 1, limit: 1, rows, links: vec![] }
}

/// A unit that keeps what it receives and sends it on, and one that hears any value and forgets it.
fn relay() -> Network {
    let forget = [constant(0), constant(0)];
    let mut keeps = receive(0, SECOND, 1, [SECOND, constant(0)]);
    // if its first register is below 127, as it always is there
    keeps[1..6].copy_from_slice(&[3, 0, 0, 2, 127]);
    let rows = vec![
        keeps,
        broadcast(1, FIRST, 0, forget),
        receive(2, FIRST, 2, forget),
        receive(2, SECOND, 3, forget),
        receive(3, SECOND, 2, forget),
        silent(3, 2, KEEP),
    ];
    Network { lo: -128, hi: 127, free: 1, units: 2, limit: 1, rows, links: vec![] }
}

fn wide() -> Vec<Job> {
    let mut dice = Dice(6);
    let mut jobs = Vec::new();
    for places in 1..=3 {
        four(&collector(places), state(&[(0, 0, 0, 1)]), &mut dice, &mut jobs);
    }
    four(&relay(), state(&[(0, 0, 0, 1), (2, 0, 0, 1)]), &mut dice, &mut jobs);
    jobs
}

// ---------------------------------------------------------------- pairs

/// One unit goes round `places` locations and sends its first register at each. Another hears.
fn round(places: u8, lo: i8, hi: i8, others: Vec<[u8; 16]>) -> Network {
    let mut rows: Vec<_> = (0..places).map(|place| broadcast(place, FIRST, (place + 1) % places, KEEP)).collect();
    rows.extend(others);
    Network { lo, hi, free: 1, units: 2, limit: 1, rows, links: vec![] }
}

/// Every state with every other that differs from it in the names of hidden groups only.
fn squared(network: &Network, states: &[State], dice: &mut Dice) -> Job {
    let without_sets = |state: &State| {
        let mut shape = *state;
        shape.chunks_exact_mut(4).for_each(|unit| unit[3] &= network.free);
        shape
    };
    let mut pairs = Vec::new();
    for left in states {
        pairs.extend(
            states.iter().filter(|right| without_sets(left) == without_sets(right)).map(|right| (*left, *right)),
        );
    }
    dice.shuffle(&mut pairs);
    Likeness { left: network.clone(), right: network.clone(), pairs }.job(Expected::Accepted)
}

fn pairs() -> Vec<Job> {
    let mut dice = Dice(7);
    let mut jobs = Vec::new();
    // the sender's value stays and the hearer keeps what it hears: 10 places, 10 values of each, 1,000 states
    let network = round(10, 0, 9, vec![receive(60, FIRST, 60, KEEP)]);
    let most = most_pairs(&network, &network);
    let begins = (0..10).map(|value| state(&[(0, value, 0, 1), (60, 0, 0, 1)]));
    let states: Vec<State> = begins.flat_map(|begin| network.reached(begin, most).expect("ten times ten")).collect();
    for disguised in [false, true] {
        jobs.push(Likeness::of(&network, &states, disguised, &mut dice).job(Expected::Accepted));
        jobs.push(Likeness::of(&network, &states, disguised, &mut dice).refused_late());
    }
    // two units roam over 8 sets each, and the second goes round 15 places: 960 states
    let network = round(15, 0, 1, vec![receive(60, FIRST, 60, [constant(0), SECOND])]);
    four(&network, state(&[(60, 0, 0, 0), (0, 1, 0, 2)]), &mut dice, &mut jobs);
    // one unit on 29 sets, each paired with each: 841 pairs of 29 states
    let network = Network { limit: 2, units: 1, ..round(1, 0, 1, vec![]) };
    jobs.push(squared(&network, &closed(&network, state(&[(0, 0, 0, 0)])), &mut dice));
    jobs
}

/// Five places, and so many values of the sender's registers, which it never changes.
fn series(first: i8, second: i8) -> Vec<Job> {
    let mut dice = Dice(8);
    let forget = [constant(0), constant(0)];
    let others = vec![receive(60, FIRST, 60, forget), receive(60, SECOND, 60, forget), silent(60, 60, KEEP)];
    let network = round(5, 0, 19, others);
    let mut states = Vec::new();
    for place in 0..5 {
        for one in 0..first {
            states.extend((0..second).map(|two| state(&[(place, one, two, 1), (60, 0, 0, 1)])));
        }
    }
    let disguised = [false, true];
    disguised.map(|disguised| Likeness::of(&network, &states, disguised, &mut dice).job(Expected::Accepted)).into()
}
