//! What is printed.

use crate::families::{Family, SERIES};
use std::time::Duration;

/// The targets: times of the plain judge, times for twice the pairs, MiB, and the time of a hostile job.
const RATIO: f64 = 1.5;
const GROWTH: f64 = 2.2;
const PEAK: f64 = 64.0;
const HOSTILE: Duration = Duration::from_secs(2);

pub enum Side {
    Whole(Duration),
    /// The time was over after so many jobs, which took this long. The numbers of the plain side are of these jobs too.
    Part(Duration, usize),
    /// The time was over before the first job was done, which had taken this long by then.
    NoJob(Duration),
}

pub struct Measured {
    pub family: &'static Family,
    pub jobs: usize,
    pub pairs: usize,
    pub steps: u64,
    pub landings: u64,
    pub plain: Duration,
    pub proved: Side,
    /// The most memory of the process that ran the proved judge alone, in KiB: before the first job, and in all.
    pub before: u64,
    pub peak: u64,
}

/// A hostile job.
pub struct Told {
    pub name: String,
    pub bytes: usize,
    pub pairs: usize,
    pub steps: u64,
    /// The plain judge's time, where it was put the job.
    pub plain: Option<Duration>,
    /// The proved judge's time, and whether it was done by then.
    pub proved: Duration,
    pub is_done: bool,
    /// The most memory of the process that ran the proved judge, in KiB, if it was done.
    pub peak: Option<u64>,
}

impl Told {
    fn proved(&self) -> String {
        if self.is_done { format!("{:.3}", millis(self.proved)) } else { format!("> {:.0}", millis(self.proved)) }
    }
}

impl Measured {
    fn ratio(&self) -> f64 {
        let proved = match self.proved {
            Side::Whole(time) | Side::Part(time, _) | Side::NoJob(time) => time,
        };
        proved.as_secs_f64() / self.plain.as_secs_f64()
    }
}

pub fn pairs(input: &[u8]) -> usize {
    input.chunks(64).filter(|record| record.first() == Some(&4)).count()
}

fn mib(kib: u64) -> f64 {
    kib as f64 / 1024.0
}

fn millis(time: Duration) -> f64 {
    time.as_secs_f64() * 1e3
}

fn rate(steps: u64, time: Duration) -> String {
    let rate = steps as f64 / time.as_secs_f64();
    if rate >= 1e6 { format!("{:.1}M", rate / 1e6) } else { format!("{:.1}k", rate / 1e3) }
}

pub fn head() {
    println!(
        "{:10} {:>5} {:>7} {:>9} {:>9} {:>11} {:>8} {:>13} {:>8} {:>10} {:>9}",
        "family",
        "jobs",
        "pairs",
        "steps",
        "landings",
        "plain ms",
        "steps/s",
        "proved ms",
        "steps/s",
        "ratio",
        "peak MiB"
    );
}

pub fn line(one: &Measured) {
    let (time, rate_of_proved, mark) = match one.proved {
        Side::Whole(time) => (format!("{:.3}", millis(time)), rate(one.steps, time), ""),
        Side::Part(time, _) => (format!("{:.3}", millis(time)), rate(one.steps, time), ""),
        Side::NoJob(time) => (format!("> {:.0}", millis(time)), String::from("-"), "> "),
    };
    println!(
        "{:10} {:>5} {:>7} {:>9} {:>9} {:>11.3} {:>8} {:>13} {:>8} {:>10} {:>9}",
        one.family.name,
        one.jobs,
        one.pairs,
        one.steps,
        one.landings,
        millis(one.plain),
        rate(one.steps, one.plain),
        time,
        rate_of_proved,
        format!("{mark}{:.2}", one.ratio()),
        format!("{:.1}", mib(one.peak)),
    );
    match one.proved {
        Side::Part(_, done) => println!("{:10} time was over: steps, times and ratio are of the first {done} jobs", ""),
        Side::NoJob(_) => {
            println!("{:10} time was over within the first job: steps and the plain time are of that job", "")
        }
        Side::Whole(_) => {}
    }
}

pub fn head_of_hostile() {
    println!();
    println!(
        "{:24} {:>5} {:>5} {:>15} {:>13} {:>9} {:>8}",
        "hostile job", "bytes", "pairs", "steps", "proved ms", "plain ms", "peak MiB"
    );
}

pub fn line_of_hostile(one: &Told) {
    println!(
        "{:24} {:>5} {:>5} {:>15} {:>13} {:>9} {:>8}",
        one.name,
        one.bytes,
        one.pairs,
        one.steps,
        one.proved(),
        one.plain.map_or(String::from("-"), |time| format!("{:.3}", millis(time))),
        one.peak.map_or(String::from("-"), |kib| format!("{:.1}", mib(kib))),
    );
}

/// Whether a target is met. It is open where it is met as far as was seen, and the time was over.
fn verdict(is_whole: bool, is_met: bool) -> &'static str {
    match (is_met, is_whole) {
        (false, _) => "MISSED",
        (true, false) => "OPEN  ",
        (true, true) => "met   ",
    }
}

pub fn targets(measured: &[Measured]) {
    println!();
    for one in measured.iter().filter(|one| SERIES.iter().all(|step| step.name != one.family.name)) {
        let is_whole = matches!(one.proved, Side::Whole(_));
        let bound = match one.proved {
            Side::NoJob(_) => "more than ",
            _ => "",
        };
        println!(
            "{} {}: the proved judge takes {bound}{:.2} times as long as the plain one{} (at most {RATIO})",
            verdict(is_whole, one.ratio() <= RATIO),
            one.family.name,
            one.ratio(),
            if is_whole { "" } else { ", on the jobs that were done" },
        );
    }
    growth(measured);
    for one in measured {
        let name = one.family.name;
        let is_whole = matches!(one.proved, Side::Whole(_));
        println!(
            "{} {name}: peak memory {:.1} MiB, of which {:.1} before the first job{} (below {PEAK})",
            verdict(is_whole, mib(one.peak) < PEAK),
            mib(one.peak),
            mib(one.before),
            if is_whole { "" } else { ", on the jobs that were done" },
        );
    }
}

fn growth(measured: &[Measured]) {
    let series: Vec<&Measured> =
        SERIES.iter().filter_map(|step| measured.iter().find(|one| one.family.name == step.name)).collect();
    for two in series.windows(2) {
        let plain = two[1].plain.as_secs_f64() / two[0].plain.as_secs_f64();
        let (from, to) = (two[0].family.name, two[1].family.name);
        match (&two[0].proved, &two[1].proved) {
            (Side::Whole(before), Side::Whole(after)) => {
                let factor = after.as_secs_f64() / before.as_secs_f64();
                println!(
                    "{} {from} to {to} pairs: {factor:.2} times the time, the plain judge {plain:.2} (at most {GROWTH})",
                    verdict(true, factor <= GROWTH)
                );
            }
            _ => println!(
                "{} {from} to {to} pairs: not known, since the time was over; the plain judge {plain:.2}",
                verdict(false, true)
            ),
        }
    }
}

/// A job that was cut off is open where the time was over before its target was.
pub fn target_of_hostile(told: &[Told]) {
    let Some(slowest) = told.iter().max_by_key(|one| one.proved) else { return };
    let late = told.iter().filter(|one| one.proved > HOSTILE).count();
    let open = told.iter().filter(|one| one.proved <= HOSTILE && !one.is_done).count();
    println!(
        "{} hostile: {late} of {} jobs took longer, of {open} it is not known; {} took {} ms (each within {} s)",
        verdict(open == 0, late == 0),
        told.len(),
        slowest.name,
        slowest.proved(),
        HOSTILE.as_secs(),
    );
}
