//! A plain judge of a job: the one that the proved judge is timed against.
//!
//! It is written for speed from docs/formats.md, docs/questions.md and docs/calculus.md alone. It numbers the states of the
//! relation by hash maps, lists the steps of each state in one pass, and keeps of every step its label and the number of
//! its landing. A step has a reply where a partner of its landing is the landing of a step of the other state with the same
//! label. Nothing is kept from one pair of the relation to the next.

use std::collections::HashMap;
use std::hash::{BuildHasherDefault, Hash, Hasher};
use std::ops::ControlFlow;

const RECORD: usize = 64;
const SETTING: u8 = 1;
const ROW: u8 = 2;
const LINK: u8 = 3;
const PAIR: u8 = 4;
const SLOTS: usize = 6;

/// What a job is answered, and what the plain judge looked at for it.
pub struct Answer {
    pub verdict: [u8; 16],
    /// Steps listed, of both states of each pair.
    pub steps: u64,
    /// Landings looked up: one for each step, or one for each value for a receive.
    pub landings: u64,
}

/// The answer no to a question.
#[derive(Debug)]
struct No {
    question: u8,
    side: u8,
    item: usize,
    step: u64,
}

fn no<T>(question: u8, side: u8, item: usize) -> Result<T, No> {
    Err(No { question, side, item, step: 0 })
}

pub fn answer(input: &[u8]) -> Answer {
    let mut looked = Looked::default();
    let mut verdict = [0; 16];
    match judge(input, &mut looked) {
        Ok(count) => verdict[12..].copy_from_slice(&(count as u32).to_le_bytes()),
        Err(no) => {
            verdict[0] = no.question;
            verdict[1] = no.side;
            verdict[2..4].copy_from_slice(&(no.item as u16).to_le_bytes());
            verdict[4..12].copy_from_slice(&no.step.to_le_bytes());
        }
    }
    Answer { verdict, steps: looked.steps, landings: looked.landings }
}

/// The states in which the steps of a state land, on one side of a job whose layouts are in order. For those who look for
/// relations; no verdict uses it.
pub fn landings(job: &[u8], side: u8, state: &[u8; 24]) -> Vec<[u8; 24]> {
    let network = Network::load(job, side).expect("the layouts are in order");
    let state = State::read(state);
    let mut found = Vec::new();
    if network.is_lawful(&state) {
        let mut choices = Choices::default();
        let _ = network.list(&state, &mut choices, |step| {
            match step {
                Step::To(_, landing) => found.push(landing.bytes()),
                Step::Receive(_, unit, row) => {
                    for value in network.lo..=network.hi {
                        found.push(state.with(unit, row.received(state.0[unit], value)).bytes());
                    }
                }
            }
            ControlFlow::<()>::Continue(())
        });
    }
    found
}

/// How many steps the states of all pairs have on both sides, of a job whose layouts are in order. They are counted, for a
/// broadcast by a product, and not listed. No verdict uses it.
pub fn steps(job: &[u8]) -> u64 {
    let networks = [0, 1].map(|side| Network::load(job, side).expect("the layouts are in order"));
    let mut choices = Choices::default();
    let mut count = |network: &Network, bytes: &[u8]| {
        let state = State::read(bytes);
        if network.is_lawful(&state) { network.count(&state, &mut choices) } else { 0 }
    };
    let of_pair = |bytes: &[u8]| count(&networks[0], &bytes[..24]) + count(&networks[1], &bytes[24..48]);
    payloads(job, PAIR, 0).map(of_pair).sum()
}

// ---------------------------------------------------------------- states

/// A unit state in one word: location, first register, second register, set, from the lowest byte on.
type Unit = u32;

fn unit(location: u8, first: i8, second: i8, groups: u8) -> Unit {
    u32::from_le_bytes([location, first as u8, second as u8, groups])
}

fn location(unit: Unit) -> u8 {
    unit as u8
}

fn first(unit: Unit) -> i8 {
    (unit >> 8) as i8
}

fn second(unit: Unit) -> i8 {
    (unit >> 16) as i8
}

fn groups(unit: Unit) -> u8 {
    (unit >> 24) as u8
}

#[derive(Clone, Copy, PartialEq, Eq)]
struct State([Unit; SLOTS]);

impl State {
    fn read(bytes: &[u8]) -> State {
        let mut units = [0; SLOTS];
        for (unit, slot) in units.iter_mut().zip(bytes.chunks_exact(4)) {
            *unit = u32::from_le_bytes([slot[0], slot[1], slot[2], slot[3]]);
        }
        State(units)
    }

    fn bytes(&self) -> [u8; 24] {
        let mut bytes = [0; 24];
        for (slot, unit) in bytes.chunks_exact_mut(4).zip(self.0) {
            slot.copy_from_slice(&unit.to_le_bytes());
        }
        bytes
    }

    fn with(&self, number: usize, unit: Unit) -> State {
        let mut state = *self;
        state.0[number] = unit;
        state
    }
}

impl Hash for State {
    fn hash<H: Hasher>(&self, hasher: &mut H) {
        let two = |at: usize| u64::from(self.0[at]) | u64::from(self.0[at + 1]) << 32;
        let one = two(0).wrapping_mul(0x9E37_79B9_7F4A_7C15);
        let other = two(2).wrapping_mul(0xC2B2_AE3D_27D4_EB4F).rotate_left(21);
        let last = two(4).wrapping_mul(0x1656_67B1_9E37_79F9).rotate_left(42);
        hasher.write_u64(one ^ other ^ last);
    }
}

/// The hash of one word: a product whose high half is folded in, so that every bit counts in the low ones too.
#[derive(Default)]
struct Fold(u64);

impl Hasher for Fold {
    fn write_u64(&mut self, word: u64) {
        let product = u128::from(self.0 ^ word) * 0xD6E8_FEB8_6659_FD93_u128;
        self.0 = product as u64 ^ (product >> 64) as u64;
    }

    fn write(&mut self, bytes: &[u8]) {
        for &byte in bytes {
            self.write_u64(u64::from(byte));
        }
    }

    fn finish(&self) -> u64 {
        self.0
    }
}

type Numbers = HashMap<State, u32, BuildHasherDefault<Fold>>;

// ---------------------------------------------------------------- rows

#[derive(Clone, Copy)]
enum Operand {
    First,
    Second,
    Constant(i8),
}

impl Operand {
    fn read(bytes: &[u8], lo: i8, hi: i8) -> Option<Operand> {
        match (bytes[0], bytes[1]) {
            (0, 0) => Some(Operand::First),
            (1, 0) => Some(Operand::Second),
            (2, byte) if (lo..=hi).contains(&(byte as i8)) => Some(Operand::Constant(byte as i8)),
            _ => None,
        }
    }

    fn of(self, unit: Unit) -> i8 {
        match self {
            Operand::First => first(unit),
            Operand::Second => second(unit),
            Operand::Constant(value) => value,
        }
    }
}

#[derive(Clone, Copy)]
enum Guard {
    Open,
    Equal(Operand, Operand),
    Differs(Operand, Operand),
    Less(Operand, Operand),
}

#[derive(Clone, Copy)]
enum Action {
    Silent,
    Broadcast(Operand),
    ReceiveFirst,
    ReceiveSecond,
}

#[derive(Clone, Copy)]
struct Row {
    from: u8,
    guard: Guard,
    action: Action,
    to: u8,
    first: Operand,
    second: Operand,
}

impl Row {
    fn read(bytes: &[u8], lo: i8, hi: i8) -> Option<Row> {
        let operand = |at: usize| Operand::read(&bytes[at..at + 2], lo, hi);
        let guard = match bytes[1] {
            0 if bytes[2..6] == [0; 4] => Guard::Open,
            1 => Guard::Equal(operand(2)?, operand(4)?),
            2 => Guard::Differs(operand(2)?, operand(4)?),
            3 => Guard::Less(operand(2)?, operand(4)?),
            _ => return None,
        };
        let action = match (bytes[6], bytes[7], bytes[8]) {
            (0, 0, 0) => Action::Silent,
            (1, _, _) => Action::Broadcast(operand(7)?),
            (2, 0, 0) => Action::ReceiveFirst,
            (2, 1, 0) => Action::ReceiveSecond,
            _ => return None,
        };
        let in_bounds = bytes[0] < 64 && bytes[9] < 64 && bytes[14..16] == [0; 2];
        in_bounds.then_some(Row {
            from: bytes[0],
            guard,
            action,
            to: bytes[9],
            first: operand(10)?,
            second: operand(12)?,
        })
    }

    /// Whether the guard is true of a unit at the row's location.
    fn is_open(&self, unit: Unit) -> bool {
        match self.guard {
            Guard::Open => true,
            Guard::Equal(one, other) => one.of(unit) == other.of(unit),
            Guard::Differs(one, other) => one.of(unit) != other.of(unit),
            Guard::Less(one, other) => one.of(unit) < other.of(unit),
        }
    }

    fn is_receive(&self) -> bool {
        matches!(self.action, Action::ReceiveFirst | Action::ReceiveSecond)
    }

    fn taken(&self, by: Unit) -> Unit {
        unit(self.to, self.first.of(by), self.second.of(by), groups(by))
    }

    /// The unit after a receive row with a value: the register is filled first.
    fn received(&self, by: Unit, value: i8) -> Unit {
        let filled = match self.action {
            Action::ReceiveFirst => unit(location(by), value, second(by), groups(by)),
            _ => unit(location(by), first(by), value, groups(by)),
        };
        self.taken(filled)
    }
}

// ---------------------------------------------------------------- networks

struct Link {
    joined: bool,
    one: usize,
    other: usize,
}

/// A label as a number: silent, movement, or a broadcast's set and value.
type Label = u32;
const SILENT: Label = 0;
const MOVEMENT: Label = 1;

fn broadcast(set: u8, value: i8) -> Label {
    1 << 16 | Label::from(set) << 8 | Label::from(value as u8)
}

enum Step {
    To(Label, State),
    /// A receive on a set, by a unit with a row.
    Receive(u8, usize, Row),
}

/// Room for what may become of each unit at a broadcast.
type Choices = [Vec<Unit>; SLOTS];

struct Network {
    lo: i8,
    hi: i8,
    free: u8,
    units: usize,
    limit: u32,
    /// The rows from each location, in list order.
    rows: Vec<Vec<Row>>,
    links: Vec<Link>,
    /// The sets of hidden groups within the limit, by number.
    hidden: Vec<u8>,
}

fn payloads(input: &[u8], kind: u8, side: u8) -> impl Iterator<Item = &[u8]> {
    input.chunks_exact(RECORD).filter(move |record| record[0] == kind && record[1] == side).map(|record| &record[2..])
}

fn load_links(input: &[u8], side: u8) -> Result<Vec<Link>, No> {
    if payloads(input, LINK, side).count() > 16 {
        return no(2, side, 0);
    }
    let mut links = Vec::new();
    for (number, bytes) in payloads(input, LINK, side).enumerate() {
        if !(1..=2).contains(&bytes[0]) || bytes[1] > 5 || bytes[2] > 5 {
            return no(3, side, number);
        }
        links.push(Link { joined: bytes[0] == 1, one: usize::from(bytes[1]), other: usize::from(bytes[2]) });
    }
    Ok(links)
}

fn load_rows(input: &[u8], side: u8, lo: i8, hi: i8) -> Result<Vec<Vec<Row>>, No> {
    if payloads(input, ROW, side).count() > 64 {
        return no(6, side, 0);
    }
    let mut rows: Vec<Vec<Row>> = Vec::new();
    rows.resize_with(64, Vec::new);
    for (number, bytes) in payloads(input, ROW, side).enumerate() {
        let Some(row) = Row::read(bytes, lo, hi) else { return no(7, side, number) };
        rows[usize::from(row.from)].push(row);
    }
    Ok(rows)
}

impl Network {
    fn load(input: &[u8], side: u8) -> Result<Network, No> {
        let setting = &input[RECORD * usize::from(side)..];
        let (lo, hi, free) = (setting[2] as i8, setting[3] as i8, setting[4]);
        if lo > hi {
            return no(1, side, 0);
        }
        let links = load_links(input, side)?;
        let limit = u32::from(setting[6]);
        if limit > 8 {
            return no(4, side, 0);
        }
        let units = usize::from(setting[5]);
        if !(1..=SLOTS).contains(&units) {
            return no(5, side, 0);
        }
        let rows = load_rows(input, side, lo, hi)?;
        let hidden = (0..=255).filter(|set: &u8| set & free == 0 && set.count_ones() <= limit).collect();
        Ok(Network { lo, hi, free, units, limit, rows, links, hidden })
    }

    fn is_met(&self, link: &Link, state: &State) -> bool {
        link.one < self.units
            && link.other < self.units
            && (groups(state.0[link.one]) & groups(state.0[link.other]) != 0) == link.joined
    }

    fn is_lawful(&self, state: &State) -> bool {
        let range = self.lo..=self.hi;
        let (units, spare) = state.0.split_at(self.units);
        units.iter().all(|&unit| {
            location(unit) < 64
                && range.contains(&first(unit))
                && range.contains(&second(unit))
                && groups(unit).count_ones() <= self.limit
        }) && spare.iter().all(|&unit| unit == 0)
            && self.links.iter().all(|link| self.is_met(link, state))
    }

    fn shown(&self, state: &State) -> u8 {
        state.0[..self.units].iter().fold(0, |union, &unit| union | groups(unit)) & self.free
    }

    fn rows_of(&self, unit: Unit) -> impl Iterator<Item = &Row> {
        self.rows[usize::from(location(unit))].iter().filter(move |row| row.is_open(unit))
    }

    /// Hands on the steps of a lawful state, in list order.
    fn list<B>(
        &self,
        state: &State,
        choices: &mut Choices,
        mut visit: impl FnMut(Step) -> ControlFlow<B>,
    ) -> ControlFlow<B> {
        for number in 0..self.units {
            self.movements(state, number, &mut visit)?;
        }
        for number in 0..self.units {
            let by = state.0[number];
            let set = groups(by) & self.free;
            for row in self.rows_of(by) {
                match row.action {
                    Action::Silent => visit(Step::To(SILENT, state.with(number, row.taken(by))))?,
                    Action::Broadcast(sent) => {
                        let value = sent.of(by);
                        let label = if set == 0 { SILENT } else { broadcast(set, value) };
                        self.fill_choices(state, number, row, value, choices);
                        combine(state, &choices[..self.units], |landing| visit(Step::To(label, landing)))?;
                    }
                    _ if set != 0 => visit(Step::Receive(set, number, *row))?,
                    _ => {}
                }
            }
        }
        ControlFlow::Continue(())
    }

    /// How many steps a lawful state has.
    fn count(&self, state: &State, choices: &mut Choices) -> u64 {
        let mut count = 0;
        for number in 0..self.units {
            let _ = self.movements(state, number, &mut |_| {
                count += 1;
                ControlFlow::<()>::Continue(())
            });
            let by = state.0[number];
            for row in self.rows_of(by) {
                count += match row.action {
                    Action::Silent => 1,
                    Action::Broadcast(sent) => {
                        self.fill_choices(state, number, row, sent.of(by), choices);
                        choices[..self.units].iter().map(|outcomes| outcomes.len() as u64).product()
                    }
                    _ => u64::from(groups(by) & self.free != 0),
                };
            }
        }
        count
    }

    /// The movements of one unit. The placement is allowed as it is, so only the links of this unit are asked again.
    fn movements<B>(
        &self,
        state: &State,
        number: usize,
        visit: &mut impl FnMut(Step) -> ControlFlow<B>,
    ) -> ControlFlow<B> {
        let by = state.0[number];
        let kept = groups(by) & self.free;
        let room = self.limit - kept.count_ones();
        for &hidden in &self.hidden {
            let set = kept | hidden;
            if set == groups(by) || hidden.count_ones() > room {
                continue;
            }
            let moved = state.with(number, by & 0x00FF_FFFF | Unit::from(set) << 24);
            let mut own = self.links.iter().filter(|link| link.one == number || link.other == number);
            if own.all(|link| self.is_met(link, &moved)) {
                visit(Step::To(MOVEMENT, moved))?;
            }
        }
        ControlFlow::Continue(())
    }

    fn fill_choices(&self, state: &State, sender: usize, row: &Row, value: i8, choices: &mut Choices) {
        for (number, outcomes) in choices.iter_mut().enumerate().take(self.units) {
            let unit = state.0[number];
            outcomes.clear();
            if number == sender {
                outcomes.push(row.taken(unit));
                continue;
            }
            outcomes.push(unit);
            if groups(unit) & groups(state.0[sender]) != 0 {
                let heard = self.rows_of(unit).filter(|row| row.is_receive());
                outcomes.extend(heard.map(|row| row.received(unit, value)));
            }
        }
    }
}

/// Each combination of what may become of the units, the lowest unit slowest.
fn combine<B>(state: &State, choices: &[Vec<Unit>], mut visit: impl FnMut(State) -> ControlFlow<B>) -> ControlFlow<B> {
    let mut landing = *state;
    for (unit, outcomes) in landing.0.iter_mut().zip(choices) {
        *unit = outcomes[0];
    }
    let mut at = [0; SLOTS];
    loop {
        visit(landing)?;
        let mut number = choices.len();
        loop {
            if number == 0 {
                return ControlFlow::Continue(());
            }
            number -= 1;
            at[number] += 1;
            if at[number] < choices[number].len() {
                landing.0[number] = choices[number][at[number]];
                break;
            }
            at[number] = 0;
            landing.0[number] = choices[number][0];
        }
    }
}

// ---------------------------------------------------------------- the relation

/// For each number of a state on one side, the numbers of its partners on the other.
struct Partners {
    begins: Vec<u32>,
    members: Vec<u32>,
}

impl Partners {
    fn of(pairs: &[(u32, u32)], states: usize) -> Partners {
        let mut begins = vec![0; states + 1];
        for &(own, _) in pairs {
            begins[own as usize + 1] += 1;
        }
        for number in 0..states {
            begins[number + 1] += begins[number];
        }
        let mut next = begins.clone();
        let mut members = vec![0; pairs.len()];
        for &(own, other) in pairs {
            members[next[own as usize] as usize] = other;
            next[own as usize] += 1;
        }
        Partners { begins, members }
    }

    fn at(&self, number: u32) -> &[u32] {
        let number = number as usize;
        &self.members[self.begins[number] as usize..self.begins[number + 1] as usize]
    }
}

/// The numbered pairs, as a table of bits with a row for each left state.
struct Table {
    width: usize,
    bits: Vec<u64>,
}

impl Table {
    fn of(pairs: &[(u32, u32)], left: usize, right: usize) -> Table {
        let mut table = Table { width: right, bits: vec![0; (left * right).div_ceil(64)] };
        for &(left, right) in pairs {
            let bit = table.place(left, right);
            table.bits[bit / 64] |= 1 << (bit % 64);
        }
        table
    }

    fn place(&self, left: u32, right: u32) -> usize {
        left as usize * self.width + right as usize
    }

    fn holds(&self, left: u32, right: u32) -> bool {
        let bit = self.place(left, right);
        self.bits[bit / 64] >> (bit % 64) & 1 != 0
    }
}

fn number_of(numbers: &mut Numbers, state: State) -> u32 {
    let next = numbers.len() as u32;
    *numbers.entry(state).or_insert(next)
}

// ---------------------------------------------------------------- lists

const NONE: u32 = u32::MAX;

/// A label and a landing, with the first step that has them.
struct Entry {
    label: Label,
    landing: u32,
    step: u64,
    next: u32,
}

struct Receive {
    set: u8,
    step: u64,
    begin: usize,
}

/// The steps of a state that land in states of the relation, each label and landing once.
#[derive(Default)]
struct List {
    entries: Vec<Entry>,
    /// For each number of a state the last entry that lands there.
    last: Vec<u32>,
    receives: Vec<Receive>,
    /// The numbers of the receives' landings, for each value in the range.
    landings: Vec<u32>,
    count: u64,
    /// The first step that lands outside of the relation.
    lost: Option<u64>,
}

#[derive(Default)]
struct Looked {
    steps: u64,
    landings: u64,
}

impl List {
    fn clear(&mut self) {
        for entry in self.entries.drain(..) {
            self.last[entry.landing as usize] = NONE;
        }
        self.receives.clear();
        self.landings.clear();
        self.count = 0;
        self.lost = None;
    }

    fn has(&self, label: Label, landing: u32) -> bool {
        let mut at = self.last[landing as usize];
        while at != NONE {
            let entry = &self.entries[at as usize];
            if entry.label == label {
                return true;
            }
            at = entry.next;
        }
        false
    }

    fn enter(&mut self, label: Label, landing: u32) {
        if !self.has(label, landing) {
            let next = std::mem::replace(&mut self.last[landing as usize], self.entries.len() as u32);
            self.entries.push(Entry { label, landing, step: self.count, next });
        }
    }

    /// Enters a receive, or says that it lands outside of the relation.
    fn enter_receive(&mut self, side: &Side, state: &State, set: u8, unit: usize, row: &Row) -> bool {
        let begin = self.landings.len();
        let mut before = None;
        for value in side.network.lo..=side.network.hi {
            let received = row.received(state.0[unit], value);
            let number = match before {
                Some((same, number)) if same == received => number,
                _ => match side.numbers.get(&state.with(unit, received)) {
                    Some(&number) => number,
                    None => {
                        self.landings.truncate(begin);
                        return false;
                    }
                },
            };
            before = Some((received, number));
            self.landings.push(number);
        }
        self.receives.push(Receive { set, step: self.count, begin });
        true
    }

    /// Lists the steps of a state. Where `all` is false it stops at the first that lands outside of the relation.
    fn fill(&mut self, side: &Side, state: &State, all: bool, choices: &mut Choices, looked: &mut Looked) {
        self.clear();
        let values = u64::from(side.network.hi.abs_diff(side.network.lo)) + 1;
        let _ = side.network.list(state, choices, |step| {
            let is_kept = match step {
                Step::To(label, landing) => {
                    looked.landings += 1;
                    let number = side.numbers.get(&landing);
                    if let Some(&number) = number {
                        self.enter(label, number);
                    }
                    number.is_some()
                }
                Step::Receive(set, unit, row) => {
                    looked.landings += values;
                    self.enter_receive(side, state, set, unit, &row)
                }
            };
            if !is_kept && self.lost.is_none() {
                self.lost = Some(self.count);
            }
            self.count += 1;
            if is_kept || all { ControlFlow::Continue(()) } else { ControlFlow::Break(()) }
        });
        looked.steps += self.count;
    }
}

// ---------------------------------------------------------------- the judge

struct Side {
    network: Network,
    numbers: Numbers,
    partners: Partners,
}

/// The first step of the list `own` that has no reply in the list `other`. `holds` looks up the pair of an own landing and
/// another one.
fn first_without_reply(
    side: &Side,
    own: &List,
    other: &List,
    values: usize,
    holds: impl Fn(u32, u32) -> bool,
) -> Option<u64> {
    let entry = own
        .entries
        .iter()
        .find(|entry| !side.partners.at(entry.landing).iter().any(|&partner| other.has(entry.label, partner)))
        .map(|entry| entry.step);
    let receive = own
        .receives
        .iter()
        .find(|receive| {
            let landings = &own.landings[receive.begin..receive.begin + values];
            !other.receives.iter().any(|reply| {
                let replied = &other.landings[reply.begin..reply.begin + values];
                reply.set == receive.set && landings.iter().zip(replied).all(|(&one, &two)| holds(one, two))
            })
        })
        .map(|receive| receive.step);
    [own.lost, entry, receive].into_iter().flatten().min()
}

fn frame_is_kept(number: usize, record: &[u8]) -> bool {
    let (kind, side) = (record[0], record[1]);
    let end = match kind {
        SETTING => 7,
        ROW => 18,
        LINK => 5,
        PAIR => 50,
        _ => return false,
    };
    let stands = if number < 2 {
        kind == SETTING && usize::from(side) == number
    } else {
        kind != SETTING && side <= u8::from(kind != PAIR)
    };
    stands && record[end..].iter().all(|&byte| byte == 0)
}

/// The count of pairs, or the first no.
fn judge(input: &[u8], looked: &mut Looked) -> Result<usize, No> {
    if !input.len().is_multiple_of(RECORD) || !(128..=65536).contains(&input.len()) {
        return no(22, 0, 0);
    }
    if let Some(number) =
        input.chunks_exact(RECORD).enumerate().position(|(number, record)| !frame_is_kept(number, record))
    {
        return no(23, 0, number);
    }
    let left = Network::load(input, 0)?;
    let right = Network::load(input, 1)?;
    if (left.lo, left.hi) != (right.lo, right.hi) {
        return no(10, 0, 0);
    }
    let relation: Vec<(State, State)> =
        payloads(input, PAIR, 0).map(|bytes| (State::read(&bytes[..24]), State::read(&bytes[24..48]))).collect();
    judge_relation(left, right, &relation, looked)
}

fn judge_relation(
    left: Network,
    right: Network,
    relation: &[(State, State)],
    looked: &mut Looked,
) -> Result<usize, No> {
    let (mut left_numbers, mut right_numbers) = (Numbers::default(), Numbers::default());
    left_numbers.reserve(relation.len());
    right_numbers.reserve(relation.len());
    let pairs: Vec<(u32, u32)> = relation
        .iter()
        .map(|&(left, right)| (number_of(&mut left_numbers, left), number_of(&mut right_numbers, right)))
        .collect();
    let turned: Vec<(u32, u32)> = pairs.iter().map(|&(left, right)| (right, left)).collect();
    let table = Table::of(&pairs, left_numbers.len(), right_numbers.len());
    let left = Side { network: left, partners: Partners::of(&pairs, left_numbers.len()), numbers: left_numbers };
    let right = Side { network: right, partners: Partners::of(&turned, right_numbers.len()), numbers: right_numbers };
    let values = usize::from(left.network.hi.abs_diff(left.network.lo)) + 1;
    let (mut left_list, mut right_list, mut choices) = (List::default(), List::default(), Choices::default());
    left_list.last.resize(left.numbers.len(), NONE);
    right_list.last.resize(right.numbers.len(), NONE);
    for (item, (left_state, right_state)) in relation.iter().enumerate() {
        if !left.network.is_lawful(left_state) {
            return no(12, 0, item);
        }
        if !right.network.is_lawful(right_state) {
            return no(13, 1, item);
        }
        if left.network.shown(left_state) != right.network.shown(right_state) {
            return no(14, 0, item);
        }
        left_list.fill(&left, left_state, false, &mut choices, looked);
        right_list.fill(&right, right_state, true, &mut choices, looked);
        let holds = |left, right| table.holds(left, right);
        if let Some(step) = first_without_reply(&left, &left_list, &right_list, values, holds) {
            return Err(No { question: 15, side: 0, item, step });
        }
        let holds = |right, left| table.holds(left, right);
        if let Some(step) = first_without_reply(&right, &right_list, &left_list, values, holds) {
            return Err(No { question: 16, side: 1, item, step });
        }
    }
    Ok(relation.len())
}
