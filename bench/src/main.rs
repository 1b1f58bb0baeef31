//! Times the proved judge, linked as a static library, against a plain one, on families of jobs. README.md says how to run
//! it and how to read what it prints.

mod alone;
mod clock;
mod families;
mod hostile;
mod plain;
mod proved;
mod report;

use families::{Expected, FAMILIES, Family, Job, SERIES};
use hostile::Hostile;
use report::{Measured, Side, Told};
use std::hint::black_box;
use std::process::ExitCode;
use std::time::Duration;

struct Settings {
    /// How long the proved judge has for a family's jobs, each once, and for each hostile job.
    limit: Duration,
    /// How often a family is measured, and how long a round is at the least.
    rounds: u32,
    least: Duration,
    names: Vec<String>,
}

type Failure = String;

/// The family whose jobs are told one by one.
const HOSTILE: &str = "hostile";

/// The plain judge lists steps, so it is put no hostile job with more of them.
const MOST_STEPS: u64 = 20_000_000;

fn settings(words: &[String]) -> Result<Settings, Failure> {
    let mut settings =
        Settings { limit: Duration::from_secs(60), rounds: 5, least: Duration::from_millis(100), names: Vec::new() };
    let mut words = words.iter();
    while let Some(word) = words.next() {
        let mut number = || words.next().and_then(|word| word.parse().ok()).ok_or(format!("{word} wants a number"));
        match word.as_str() {
            "--seconds" => settings.limit = Duration::from_secs(number()?),
            "--rounds" => settings.rounds = number()?.max(1) as u32,
            name if name == HOSTILE || all().any(|family| family.name == name) => settings.names.push(name.to_owned()),
            "series" => settings.names.extend(SERIES.iter().map(|family| family.name.to_owned())),
            word => return Err(format!("{word} is no family and no setting")),
        }
    }
    Ok(settings)
}

fn all() -> impl Iterator<Item = &'static Family> {
    FAMILIES.iter().chain(&SERIES)
}

fn hex(bytes: &[u8]) -> String {
    bytes.iter().map(|byte| format!("{byte:02x}")).collect()
}

// ---------------------------------------------------------------- one family

/// Whether a verdict is one that the job was made to have.
fn is_as_made(job: &Job, verdict: &[u8; 16]) -> bool {
    let count = (report::pairs(&job.input) as u32).to_le_bytes();
    match job.expected {
        Expected::Accepted => verdict[..12] == [0; 12] && verdict[12..] == count,
        Expected::Unanswered => verdict[0] == 15 || verdict[0] == 16,
        Expected::Any => true,
    }
}

/// The plain verdicts, held to what is known of them, and what was looked at.
fn by_plain(family: &Family, jobs: &[Job]) -> Result<Vec<plain::Answer>, Failure> {
    let answers: Vec<plain::Answer> = jobs.iter().map(|job| plain::answer(&job.input)).collect();
    for (number, (job, answer)) in jobs.iter().zip(&answers).enumerate() {
        if !is_as_made(job, &answer.verdict) {
            return Err(format!("{} job {number}: the plain verdict is {}", family.name, hex(&answer.verdict)));
        }
    }
    Ok(answers)
}

/// The job is kept in a file.
fn differs(name: &str, job: &Job, wanted: &str, proved: &str) -> Failure {
    let file = std::env::temp_dir().join(format!("differs-{name}.job"));
    let kept = match std::fs::write(&file, &job.input) {
        Ok(()) => format!("the job is in {}", file.display()),
        Err(error) => format!("the job could not be kept: {error}"),
    };
    format!("VERDICTS DIFFER: job {name}: {wanted}, proved {proved}; {kept}")
}

/// The time of one pass over the jobs, in the mean of as many passes as fill a round. Each verdict is held to the one that
/// is known by then.
fn time(
    settings: &Settings,
    jobs: &[Job],
    answers: &[plain::Answer],
    judge: impl Fn(&[u8]) -> [u8; 16],
) -> Result<Duration, Failure> {
    let (mut passes, mut wrong) = (0, 0);
    let start = clock::spent();
    while passes == 0 || clock::spent() - start < settings.least {
        for (job, answer) in jobs.iter().zip(answers) {
            wrong += u32::from(judge(black_box(&job.input)) != answer.verdict);
        }
        passes += 1;
    }
    let spent = clock::spent() - start;
    if wrong == 0 { Ok(spent / passes) } else { Err(format!("VERDICTS DIFFER: {wrong} in {passes} passes")) }
}

fn measure(settings: &Settings, family: &'static Family) -> Result<Measured, Failure> {
    let jobs = (family.jobs)();
    let answers = by_plain(family, &jobs)?;
    let ran = alone::run(&jobs, settings.limit)?;
    for (number, (done, answer)) in ran.done.iter().zip(&answers).enumerate() {
        let verdict = hex(&answer.verdict);
        if done.verdict != verdict {
            let name = format!("{}-{number}", family.name);
            return Err(differs(&name, &jobs[number], &format!("plain {verdict}"), &done.verdict));
        }
    }
    let spent: Duration = ran.done.iter().map(|done| done.time).sum();
    let is_whole = ran.done.len() == jobs.len();
    let count = ran.done.len().max(1);
    let (jobs_done, answers) = (&jobs[..count], &answers[..count]);
    let (mut plain, mut proved) = (Duration::MAX, Duration::MAX);
    for _ in 0..settings.rounds {
        plain = plain.min(time(settings, jobs_done, answers, |input| plain::answer(input).verdict)?);
        if is_whole {
            proved = proved.min(time(settings, jobs_done, answers, proved::verdict)?);
        }
        // what takes that long need not be taken again
        if spent > Duration::from_secs(10) {
            break;
        }
    }
    Ok(Measured {
        family,
        jobs: jobs.len(),
        pairs: jobs.iter().map(|job| report::pairs(&job.input)).sum(),
        steps: answers.iter().map(|answer| answer.steps).sum(),
        landings: answers.iter().map(|answer| answer.landings).sum(),
        plain,
        proved: match ran.done.len() {
            _ if is_whole => Side::Whole(proved),
            0 => Side::NoJob(ran.spent),
            done => Side::Part(spent, done),
        },
        before: ran.before,
        peak: ran.done.last().map_or(ran.before, |done| done.peak),
    })
}

// ---------------------------------------------------------------- the hostile family

/// The plain judge's verdict and time, where it is put the job.
fn plain_of(hostile: &Hostile, steps: u64) -> Result<Option<([u8; 16], Duration)>, Failure> {
    if steps > MOST_STEPS {
        return Ok(None);
    }
    let start = clock::spent();
    let verdict = plain::answer(black_box(&hostile.job.input)).verdict;
    let time = clock::spent() - start;
    if is_as_made(&hostile.job, &verdict) {
        Ok(Some((verdict, time)))
    } else {
        Err(format!("job {}: the plain verdict is {}", hostile.name, hex(&verdict)))
    }
}

/// Holds the proved verdict to the plain one, and where there is none to what the job was made to have.
fn hold(hostile: &Hostile, plain: Option<[u8; 16]>, proved: &str) -> Result<(), Failure> {
    let (is_right, wanted) = match plain {
        Some(verdict) => (hex(&verdict) == proved, format!("plain {}", hex(&verdict))),
        None => {
            let verdict = bytes_of(proved).ok_or(format!("job {}: the proved verdict is {proved}", hostile.name))?;
            let wanted = if hostile.job.expected == Expected::Accepted { "accepted" } else { "refused by 15 or 16" };
            (is_as_made(&hostile.job, &verdict), format!("made to be {wanted}"))
        }
    };
    if is_right { Ok(()) } else { Err(differs(&hostile.name, &hostile.job, &wanted, proved)) }
}

/// A verdict from its 32 digits.
fn bytes_of(digits: &str) -> Option<[u8; 16]> {
    Some(u128::from_str_radix(digits, 16).ok()?.to_be_bytes())
}

/// One hostile job, by the proved judge in a process of its own.
fn tell(settings: &Settings, hostile: &Hostile) -> Result<Told, Failure> {
    let steps = plain::steps(&hostile.job.input);
    let plain = plain_of(hostile, steps)?;
    let ran = alone::run(std::slice::from_ref(&hostile.job), settings.limit)?;
    if let Some(done) = ran.done.first() {
        hold(hostile, plain.map(|(verdict, _)| verdict), &done.verdict)?;
    }
    Ok(Told {
        name: hostile.name.clone(),
        bytes: hostile.job.input.len(),
        pairs: report::pairs(&hostile.job.input),
        steps,
        plain: plain.map(|(_, time)| time),
        proved: ran.done.first().map_or(ran.spent, |done| done.time),
        is_done: !ran.done.is_empty(),
        peak: ran.done.first().map(|done| done.peak),
    })
}

fn tell_all(settings: &Settings) -> Result<Vec<Told>, Failure> {
    let mut told = Vec::new();
    report::head_of_hostile();
    for hostile in hostile::jobs() {
        let one = tell(settings, &hostile)?;
        report::line_of_hostile(&one);
        told.push(one);
    }
    Ok(told)
}

// ---------------------------------------------------------------- all

fn bench(words: &[String]) -> Result<(), Failure> {
    let settings = settings(words)?;
    let is_wanted = |wanted: &str| settings.names.is_empty() || settings.names.iter().any(|name| name == wanted);
    let families: Vec<&Family> = all().filter(|family| is_wanted(family.name)).collect();
    let mut measured = Vec::new();
    if !families.is_empty() {
        report::head();
    }
    for family in families {
        let one = measure(&settings, family)?;
        report::line(&one);
        measured.push(one);
    }
    let told = if is_wanted(HOSTILE) { tell_all(&settings)? } else { vec![] };
    report::targets(&measured);
    report::target_of_hostile(&told);
    Ok(())
}

// ---------------------------------------------------------------- cases

/// Holds both judges to the cases that tools/make_cases.py writes.
fn cases(folder: &str) -> Result<(), Failure> {
    let read =
        |name: &str| std::fs::read(format!("{folder}/{name}")).map_err(|error| format!("{folder}/{name}: {error}"));
    let (stdin, stdout) = (read("stdin")?, read("stdout")?);
    let wanted: Vec<String> = String::from_utf8_lossy(&stdout).lines().map(str::to_owned).collect();
    let (mut rest, mut number, mut wrong) = (&stdin[..], 0, 0);
    while let Some((length, behind)) = rest.split_first_chunk::<4>() {
        let length = u32::from_le_bytes(*length) as usize;
        let (input, behind) = behind.split_at_checked(length).ok_or("a case is cut off")?;
        let wants = wanted.get(number).map_or("", String::as_str);
        for (judge, verdict) in [("plain", plain::answer(input).verdict), ("proved", proved::verdict(input))] {
            if format!("{number} {}", hex(&verdict)) != wants {
                println!("{judge}: {number} {}, wanted {wants}", hex(&verdict));
                wrong += 1;
            }
        }
        (rest, number) = (behind, number + 1);
    }
    println!("{number} cases, {} wanted, {wrong} wrong verdicts", wanted.len());
    if wrong == 0 && number == wanted.len() && number > 0 {
        Ok(())
    } else {
        Err("the cases are not as wanted".to_owned())
    }
}

/// Writes the jobs of the families to a folder, for other programs.
fn write(folder: &str) -> Result<(), Failure> {
    for family in all() {
        for (number, job) in (family.jobs)().iter().enumerate() {
            let file = format!("{folder}/{}-{number}.job", family.name);
            std::fs::write(&file, &job.input).map_err(|error| format!("{file}: {error}"))?;
        }
    }
    for hostile in hostile::jobs() {
        let file = format!("{folder}/{HOSTILE}-{}.job", hostile.name);
        std::fs::write(&file, &hostile.job.input).map_err(|error| format!("{file}: {error}"))?;
    }
    Ok(())
}

/// Each job of the families by the plain judge alone: its pairs, steps and verdict.
fn plain_alone() -> Result<(), Failure> {
    for family in all() {
        let jobs = (family.jobs)();
        println!("{}: {}, {} jobs", family.name, family.what, jobs.len());
        let answers = by_plain(family, &jobs)?;
        for (number, (job, answer)) in jobs.iter().zip(&answers).enumerate().take(40) {
            let start = clock::spent();
            black_box(plain::answer(black_box(&job.input)));
            let (time, verdict) = ((clock::spent() - start).as_secs_f64() * 1e3, hex(&answer.verdict));
            println!(
                "{number:3} {:4} pairs {:8} steps {:8} landings {verdict} {time:9.3} ms",
                report::pairs(&job.input),
                answer.steps,
                answer.landings
            );
        }
    }
    hostile_by_plain()
}

/// Each hostile job: its pairs, its steps, and the verdict where the plain judge is put it.
fn hostile_by_plain() -> Result<(), Failure> {
    let jobs = hostile::jobs();
    println!("{HOSTILE}: enormous lists of steps, {} jobs", jobs.len());
    for hostile in &jobs {
        let steps = plain::steps(&hostile.job.input);
        let answer = match plain_of(hostile, steps)? {
            Some((verdict, time)) => format!("{} {:9.3} ms", hex(&verdict), time.as_secs_f64() * 1e3),
            None => "too many steps".to_owned(),
        };
        println!("{:24} {:4} pairs {steps:15} steps {answer}", hostile.name, report::pairs(&hostile.job.input));
    }
    Ok(())
}

fn main() -> ExitCode {
    let words: Vec<String> = std::env::args().skip(1).collect();
    let done = match words.iter().map(String::as_str).collect::<Vec<_>>()[..] {
        ["proved-alone"] => alone::serve(),
        ["cases", folder] => cases(folder),
        ["write", folder] => write(folder),
        ["plain"] => plain_alone(),
        _ => bench(&words),
    };
    match done {
        Ok(()) => ExitCode::SUCCESS,
        Err(failure) => {
            eprintln!("bench: {failure}");
            ExitCode::FAILURE
        }
    }
}
