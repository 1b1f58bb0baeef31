//! Jobs within the size of an input whose lists of steps are enormous. README.md says what each is for.
//!
//! A list of such a state has up to billions of steps, so nothing here lists them: the states of a relation are put together
//! from those of the units.

use crate::families::{
    Dice, Expected, FIRST, Job, KEEP, Likeness, Network, SECOND, State, apart, broadcast, constant, input_of, joined,
    receive, silent, state,
};

pub struct Hostile {
    pub name: String,
    pub job: Job,
}

/// A unit state: location, first register, second register, set.
type Unit = (u8, i8, i8, u8);

pub fn jobs() -> Vec<Hostile> {
    let mut draw = Draw { dice: Dice(9), jobs: Vec::new() };
    equal(&mut draw, 20, 4);
    equal(&mut draw, 30, 5);
    alike(&mut draw);
    ring(&mut draw);
    distinct(&mut draw);
    few_and_many(&mut draw);
    assemblies(&mut draw, 35, [0, 0, 0, 0, 29, 29], 1);
    assemblies(&mut draw, 43, [0, 0, 0, 0, 21, 21], 2);
    assemblies(&mut draw, 53, [0, 0, 0, 11, 9, 9], 1);
    assemblies(&mut draw, 61, [3, 3, 3, 3, 3, 3], 1);
    assembly_refused(&mut draw, 34, [0, 0, 0, 0, 29, 29]);
    whispers(&mut draw, 10, 26, 27);
    silent_rows(&mut draw);
    wide_rows(&mut draw);
    wide_crowd(&mut draw);
    wide_late(&mut draw);
    chorus_of_equals(&mut draw);
    movements(&mut draw);
    one_print(&mut draw);
    draw.jobs
}

// ---------------------------------------------------------------- drawing

struct Draw {
    dice: Dice,
    jobs: Vec<Hostile>,
}

impl Draw {
    fn push(&mut self, name: String, job: Job) {
        assert!(job.input.len() <= 65536, "{name} has {} bytes", job.input.len());
        self.jobs.push(Hostile { name, job });
    }

    /// Beside a disguise, accepted.
    fn disguised(&mut self, name: &str, network: &Network, states: &[State]) {
        let job = Likeness::of(network, states, true, &mut self.dice).job(Expected::Accepted);
        self.push(name.to_owned(), job);
    }

    /// Beside itself and beside a disguise, accepted.
    fn both(&mut self, name: &str, network: &Network, states: &[State]) {
        let job = Likeness::of(network, states, false, &mut self.dice).job(Expected::Accepted);
        self.push(name.to_owned(), job);
        self.disguised(&format!("{name}-other"), network, states);
    }

    /// Beside itself or a disguise, refused: of these states some have a step without a reply. The pairs stand in the order
    /// of the key, so that those states come last.
    fn refused(
        &mut self,
        name: &str,
        network: &Network,
        states: &[State],
        disguised: bool,
        key: impl Fn(&State) -> usize,
    ) {
        let mut likeness = Likeness::of(network, states, disguised, &mut self.dice);
        likeness.pairs.sort_by_key(|(state, _)| key(state));
        self.push(name.to_owned(), likeness.job(Expected::Unanswered));
    }
}

/// All states whose units are each in one of so many unit states.
fn every(units: &[Vec<Unit>]) -> Vec<State> {
    let mut chosen: Vec<Vec<Unit>> = vec![vec![]];
    for unit in units {
        chosen = chosen.iter().flat_map(|before| unit.iter().map(|one| [&before[..], &[*one]].concat())).collect();
    }
    chosen.iter().map(|units| state(units)).collect()
}

/// The states of a unit that keeps its registers at 0 and its set, and may be at so many locations.
fn at(locations: &[u8], set: u8) -> Vec<Unit> {
    locations.iter().map(|&location| (location, 0, 0, set)).collect()
}

/// The states of a unit at a location whose first register may have so many values.
fn holding(location: u8, values: i8, set: u8) -> Vec<Unit> {
    (0..values).map(|value| (location, value, 0, set)).collect()
}

/// How many units of a state are at a location.
fn count_at(state: &State, location: u8) -> usize {
    state.chunks_exact(4).filter(|unit| unit[3] != 0 && unit[0] == location).count()
}

/// A row under a guard that always is true, another one for each number.
fn guarded(mut row: [u8; 16], number: u8) -> [u8; 16] {
    row[1..6].copy_from_slice(&[1, 2, number, 2, number]);
    row
}

/// A row for units whose first register has this value.
fn only_with(mut row: [u8; 16], value: i8) -> [u8; 16] {
    row[1..6].copy_from_slice(&[1, 0, 0, 2, value as u8]);
    row
}

const SET: [[u8; 2]; 2] = [[2, 0], SECOND];

// ---------------------------------------------------------------- equal rows

/// A sender, and listeners that go to and fro between 1 and 2 by so many equal rows at each.
fn crowd(rows: usize, listeners: u8) -> Network {
    let mut all = vec![broadcast(0, constant(1), 0, KEEP)];
    for place in [1, 2] {
        all.extend(vec![receive(place, FIRST, 3 - place, SET); rows]);
    }
    Network { lo: 0, hi: 1, free: 1, units: 1 + listeners, limit: 1, rows: all, links: vec![] }
}

/// The same, and refused where the last row from 2 leads on to 3: all listeners at 3 are in no record, and where all are at
/// 2 the last of the sender's steps leads there.
fn equal(draw: &mut Draw, rows: usize, listeners: u8) {
    let name = format!("equal-{rows}-{listeners}");
    let mut network = crowd(rows, listeners);
    let seats = |places: &[u8]| {
        let mut units = vec![at(&[0], 1)];
        units.extend(vec![at(places, 1); usize::from(listeners)]);
        every(&units)
    };
    draw.both(&name, &network, &seats(&[1, 2]));
    network.rows.pop();
    network.rows.push(receive(2, FIRST, 3, SET));
    let mut states = seats(&[1, 2, 3]);
    states.retain(|state| count_at(state, 3) < usize::from(listeners));
    let key = |state: &State| if count_at(state, 1) > 0 { 0 } else { 1 + count_at(state, 3) };
    draw.refused(&format!("{name}-late"), &network, &states, false, key);
    draw.refused(&format!("{name}-other-late"), &network, &states, true, key);
}

/// Rows that do the same and differ in bytes.
fn alike(draw: &mut Draw) {
    let mut network = crowd(30, 5);
    network.hi = 63;
    for (number, row) in network.rows.iter_mut().enumerate() {
        *row = guarded(*row, number as u8);
    }
    let mut units = vec![at(&[0], 1)];
    units.extend(vec![at(&[1, 2], 1); 5]);
    draw.disguised("alike-30-5", &network, &every(&units));
}

/// A sender that goes round 27 places, and five listeners with 37 equal rows: 864 pairs.
fn ring(draw: &mut Draw) {
    let mut rows: Vec<_> =
        (0..27).map(|place| broadcast(10 + place, constant(1), 10 + (place + 1) % 27, KEEP)).collect();
    rows.extend(vec![receive(1, FIRST, 2, SET); 37]);
    let network = Network { lo: 0, hi: 1, free: 1, units: 6, limit: 1, rows, links: vec![] };
    let places: Vec<u8> = (10..37).collect();
    let mut units = vec![at(&places, 1)];
    units.extend(vec![at(&[1, 2], 1); 5]);
    draw.disguised("ring-37-5", &network, &every(&units));
}

// ---------------------------------------------------------------- different outcomes

/// A sender, and listeners at 1 with 63 rows that lead to as many states.
fn scattering(free: u8, links: Vec<[u8; 3]>) -> Network {
    let mut rows = vec![broadcast(0, constant(0), 0, KEEP)];
    rows.extend((1..64).map(|value| receive(1, FIRST, 2, [constant(value), SECOND])));
    Network { lo: 0, hi: 63, free, units: 6, limit: 1, rows, links }
}

/// 64 to the power of 5 steps that all differ. The relation holds the landings of the first 880.
fn distinct(draw: &mut Draw) {
    let network = scattering(1, vec![]);
    let mut units = vec![at(&[0], 1), at(&[1], 1), at(&[1], 1), at(&[1], 1)];
    let mut one = at(&[1], 1);
    one.extend((1..64).map(|value| (2, value, 0, 1)));
    units.extend([one.clone(), one]);
    let mut states = every(&units);
    states.truncate(880);
    let start = states[0];
    for disguised in [false, true] {
        let name = if disguised { "distinct-63-5-other" } else { "distinct-63-5" };
        draw.refused(name, &network, &states, disguised, |state| usize::from(*state != start));
    }
}

/// The links that hold six units on one hidden group.
fn held() -> Vec<[u8; 3]> {
    (1..6).map(|unit| joined(0, unit)).collect()
}

/// One step or two on the left, and a billion on the right, by a sender and listeners on a hidden group.
fn few_and_many(draw: &mut Draw) {
    let mut left = Network {
        lo: 0,
        hi: 63,
        free: 0x7F,
        units: 1,
        limit: 1,
        rows: vec![silent(0, 0, KEEP)],
        links: vec![apart(0, 0)],
    };
    let mut right = scattering(0x7F, held());
    for row in &mut right.rows[1..] {
        *row = receive(1, FIRST, 2, SET);
    }
    let mut units = vec![at(&[0], 0x80)];
    units.extend(vec![at(&[1, 2], 0x80); 5]);
    let alone = state(&[(0, 0, 0, 0)]);
    let pairs: Vec<_> = every(&units).into_iter().map(|state| (alone, state)).collect();
    draw.push("few-and-many".to_owned(), Job { input: input_of(&left, &right, &pairs), expected: Expected::Accepted });
    // the left goes to 1 or to 2, which the right has only as its last landing and as its first
    left.rows = vec![silent(0, 1, KEEP), silent(0, 2, KEEP)];
    let right = scattering(0x7F, held());
    let all = |listener: Unit| state(&[[(0, 0, 0, 0x80)].as_slice(), &[listener; 5]].concat());
    let (first, last) = (all((1, 0, 0, 0x80)), all((2, 63, 0, 0x80)));
    let pairs = [(alone, first), (state(&[(1, 0, 0, 0)]), last), (state(&[(2, 0, 0, 0)]), first)];
    draw.push(
        "few-and-last".to_owned(),
        Job { input: input_of(&left, &right, &pairs), expected: Expected::Unanswered },
    );
}

// ---------------------------------------------------------------- many labels and many landings

/// Six units at one place, each on a set of its own, that send so many values. A unit's second register says how many seats
/// it may take: each receive row leads to a seat, the first register, and is for the units that have it.
fn assembly(labels: i8, sizes: [i8; 6]) -> Network {
    let mut rows: Vec<_> = (0..labels).map(|label| broadcast(0, constant(label), 0, KEEP)).collect();
    for seat in 0..sizes.into_iter().max().unwrap_or(0) {
        let mut row = receive(0, FIRST, 0, [constant(seat), SECOND]);
        row[1..6].copy_from_slice(&[3, 2, seat as u8, 1, 0]);
        rows.push(row);
    }
    Network { lo: 0, hi: 63, free: 0xFF, units: 6, limit: 2, rows, links: vec![] }
}

/// All seats of all units. The first unit may be in one of so many classes, between which nothing differs.
fn seated(sizes: [i8; 6], classes: i8) -> Vec<State> {
    let unit = |(number, size): (usize, i8)| {
        let firsts = 0..if number == 0 && size == 0 { classes } else { size.max(1) };
        firsts.map(|first| (0, first, size, 1 | 2 << number)).collect()
    };
    let units: Vec<Vec<Unit>> = sizes.into_iter().enumerate().map(unit).collect();
    every(&units)
}

fn name_of(labels: i8, sizes: [i8; 6]) -> String {
    let seats: Vec<String> = sizes.iter().filter(|&&size| size > 0).map(i8::to_string).collect();
    format!("assembly-{labels}-{}", seats.join("."))
}

fn assemblies(draw: &mut Draw, labels: i8, sizes: [i8; 6], classes: i8) {
    let mut name = name_of(labels, sizes);
    if classes > 1 {
        name += &format!("-{classes}");
    }
    draw.disguised(&name, &assembly(labels, sizes), &seated(sizes, classes));
}

/// On its last seat a unit can also stop, and that is in no record. Pairs of states without such a unit come first.
fn assembly_refused(draw: &mut Draw, labels: i8, sizes: [i8; 6]) {
    let mut network = assembly(labels, sizes);
    let last = sizes[5] - 1;
    network.rows.push(only_with(silent(0, 1, KEEP), last));
    let stops = |state: &State| state.chunks_exact(4).filter(|unit| unit[1] == last as u8).count();
    draw.refused(&format!("{}-late", name_of(labels, sizes)), &network, &seated(sizes, 1), true, stops);
}

/// Senders on a hidden group, so that all steps are silent. A listener takes one of so many seats, another keeps the value.
/// Only the last sender sends another value than 0, so rows that seem to lead to a landing and do not come first.
fn whispers(draw: &mut Draw, rows: u8, seats: i8, values: i8) {
    let mut all: Vec<_> = (0..rows).map(|number| guarded(broadcast(0, constant(0), 0, KEEP), number)).collect();
    all.extend((1..=values).map(|value| broadcast(3, constant(value), 3, KEEP)));
    all.extend((0..seats).map(|seat| receive(1, FIRST, 1, [constant(seat), SECOND])));
    all.push(receive(2, FIRST, 2, KEEP));
    let network = Network { lo: 0, hi: 63, free: 0x7F, units: 6, limit: 1, rows: all, links: held() };
    let mut units = vec![at(&[0], 0x80); 3];
    units.extend([at(&[3], 0x80), holding(1, seats, 0x80), holding(2, values + 1, 0x80)]);
    draw.both(&format!("whispers-{rows}-{seats}-{values}"), &network, &every(&units));
}

/// Six units, each with 64 silent rows to three states.
fn silent_rows(draw: &mut Draw) {
    let rows = (0..64).map(|number| silent(0, 0, [constant(number % 3), SECOND])).collect();
    let network = Network { lo: 0, hi: 3, free: 1, units: 6, limit: 1, rows, links: vec![] };
    draw.both("silent-64", &network, &every(&vec![holding(0, 3, 1); 6]));
}

// ---------------------------------------------------------------- wide ranges

/// A unit that keeps what it receives, any of 256 values, with 63 rows to three places.
fn wide_rows(draw: &mut Draw) {
    let mut network = keepers(63);
    network.units = 1;
    draw.disguised("wide-63", &network, &every(&[keeping()]));
}

fn keepers(rows: u8) -> Network {
    let mut all = Vec::new();
    for number in 0..rows {
        all.push(guarded(receive(0, FIRST, 0, [FIRST, constant((number % 3) as i8)]), number));
    }
    Network { lo: -128, hi: 127, free: 1, units: 6, limit: 1, rows: all, links: vec![] }
}

fn keeping() -> Vec<Unit> {
    (0..3).flat_map(|second| (-128..=127).map(move |first| (0, first, second, 1))).collect()
}

/// The same with 32 rows, and beside it a sender, and four listeners that forget by 31 rows.
fn wide_crowd(draw: &mut Draw) {
    let mut network = keepers(32);
    network.rows.extend((0..31).map(|number| guarded(receive(1, FIRST, 1, [constant(0), constant(0)]), number)));
    network.rows.push(broadcast(2, constant(1), 2, KEEP));
    let mut units = vec![keeping()];
    units.extend(vec![at(&[1], 1); 4]);
    units.push(at(&[2], 1));
    draw.disguised("wide-32-31", &network, &every(&units));
}

/// Two places for each of 200 values, alike but for the last value. So the receives that lead to the one and to the other
/// differ at that value alone, and those that are no replies stand first on the right.
fn wide_late(draw: &mut Draw) {
    let rows = |first: u8| -> Vec<[u8; 16]> {
        let to = |place: u8| {
            (0..2).flat_map(move |from| (0..15).map(move |number| guarded(receive(from, FIRST, place, KEEP), number)))
        };
        let mut rows: Vec<_> = to(first).chain(to(1 - first)).collect();
        rows.push(only_with(broadcast(1, constant(0), 1, KEEP), 99));
        rows
    };
    let network = |first| Network { lo: -100, hi: 99, free: 1, units: 1, limit: 1, rows: rows(first), links: vec![] };
    let place = |place: u8, value: i8| state(&[(place, value, 0, 1)]);
    let mut pairs = Vec::new();
    for value in -100..=99 {
        for left in 0..2 {
            let likes = (0..2).filter(|&right| left == right || value < 99);
            pairs.extend(likes.map(|right| (place(left, value), place(right, value))));
        }
    }
    let input = input_of(&network(0), &network(1), &pairs);
    draw.push("wide-late".to_owned(), Job { input, expected: Expected::Accepted });
}

// ---------------------------------------------------------------- six that send and hear

/// Six units that go to and fro between two places by 22 equal rows at each, and send ten values there.
fn chorus_of_equals(draw: &mut Draw) {
    let mut rows = Vec::new();
    for place in [1, 2] {
        rows.extend((0..10).map(|value| broadcast(place, constant(value), place, KEEP)));
        rows.extend(vec![receive(place, FIRST, 3 - place, SET); 22]);
    }
    let network = Network { lo: 0, hi: 9, free: 1, units: 6, limit: 1, rows, links: vec![] };
    draw.both("chorus-10-22", &network, &every(&vec![at(&[1, 2], 1); 6]));
}

/// Two units that roam over 31 and 32 sets.
fn movements(draw: &mut Draw) {
    let network = Network { lo: 0, hi: 0, free: 7, units: 2, limit: 5, rows: vec![], links: vec![joined(0, 0)] };
    let sets = |from: u8| (from..32).map(|set| (0, 0, 0, set << 3)).collect();
    draw.disguised("movements-31-32", &network, &every(&[sets(1), sets(0)]));
}

// ---------------------------------------------------------------- one fingerprint

/// The factors by which the proved judge's index mixes the three words of a state.
const FACTORS: [u64; 3] = [0x9E37_79B9_7F4A_7C15, 0xC2B2_AE3D_27D4_EB4F, 0x1656_67B1_9E37_79F9];

/// The number by which a product with an odd factor is undone: each turn doubles the bits that are right.
fn undoing(factor: u64) -> u64 {
    (0..6).fold(factor, |found, _| found.wrapping_mul(2u64.wrapping_sub(factor.wrapping_mul(found))))
}

/// States of six units at location 0 that all have one fingerprint. The first four units are drawn, and what the last two
/// must be is kept where it leaves them at location 0.
fn of_one_print(count: usize, dice: &mut Dice) -> Vec<State> {
    const LOCATIONS: u64 = 0xFF_0000_00FF;
    let undo = undoing(FACTORS[2]);
    let mut states = Vec::new();
    while states.len() < count {
        let (one, two) = (dice.next() & !LOCATIONS, dice.next() & !LOCATIONS);
        let rest = one.wrapping_mul(FACTORS[0]) ^ two.wrapping_mul(FACTORS[1]).rotate_left(21);
        let three = rest.rotate_right(42).wrapping_mul(undo);
        if three & LOCATIONS == 0 {
            let bytes = [one, two, three].map(u64::to_le_bytes);
            states.push(std::array::from_fn(|at| bytes[at / 8][at % 8]));
        }
    }
    states
}

/// States that an index by fingerprints cannot tell apart, with 64 values sent by each of six units, which stay as they are.
fn one_print(draw: &mut Draw) {
    let rows = (0..64).map(|value| broadcast(0, constant(value), 0, KEEP)).collect();
    let network = Network { lo: -128, hi: 127, free: 0xFF, units: 6, limit: 8, rows, links: vec![] };
    let states = of_one_print(890, &mut draw.dice);
    let job = Likeness::of(&network, &states, false, &mut draw.dice).job(Expected::Accepted);
    draw.push("one-print".to_owned(), job);
}
