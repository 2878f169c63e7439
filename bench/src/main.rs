//! The proved book against a plain one: the same calls on both, in turns; every answer and every line must be the same.
mod answer;
mod book;
mod call;
mod day;
mod id;
mod proved;
mod random;
mod row;
mod run;
mod tape;
mod terms;

use answer::Answer;
use day::{Day, Setting};
use run::{Run, run};
use std::process::ExitCode;
use std::time::Duration;
use tape::LINE_BYTES;

const CALLS: usize = 100_000;
const ROUNDS: usize = 15;
const SEED: u64 = 20_260_717;

/// So many of a hundred calls are quotes.
const FEW: u32 = 2;
const MANY: u32 = 30;

/// The times of both books, a pair for each round.
struct Rounds {
    proved: Vec<Duration>,
    plain: Vec<Duration>,
}

fn main() -> ExitCode {
    println!(
        "{CALLS} calls a day, {ROUNDS} rounds of each book in turns; calls a second in the best round, in the median one"
    );
    println!(
        "most  mean  quotes  refused   lines  marked      proved best    median       plain best    median  ratio best  median"
    );
    for resting in [8, 32, 64] {
        for quotes in [FEW, MANY] {
            let setting = Setting { resting, quotes };
            let day = Day::draw(SEED + resting as u64, setting, CALLS);
            match compare(&day) {
                Ok(rounds) => report(setting, &day, rounds),
                Err(what) => {
                    println!("DIFFERS: {what}");
                    return ExitCode::FAILURE;
                }
            }
        }
    }
    ExitCode::SUCCESS
}

/// Both books in turns, one round before those that count.
fn compare(day: &Day) -> Result<Rounds, String> {
    let mut proved_answers = vec![Answer::default(); day.calls.len()];
    let mut plain_answers = proved_answers.clone();
    // No call is refused for want of lines, and none of the room is wasted.
    let mut proved_room = vec![0; (day.lines + 64) * LINE_BYTES];
    let mut plain_room = proved_room.clone();
    let mut rounds = Rounds {
        proved: Vec::new(),
        plain: Vec::new(),
    };
    for round in 0..=ROUNDS {
        let proved = run(proved::run, day, &mut proved_answers, &mut proved_room);
        let plain = run(book::run, day, &mut plain_answers, &mut plain_room);
        same(&proved, &plain, &proved_answers, &plain_answers)?;
        if round > 0 {
            rounds.proved.push(proved.time);
            rounds.plain.push(plain.time);
        }
    }
    Ok(rounds)
}

fn same(
    proved: &Run,
    plain: &Run,
    proved_answers: &[Answer],
    plain_answers: &[Answer],
) -> Result<(), String> {
    if let Some(index) = proved_answers
        .iter()
        .zip(plain_answers)
        .position(|(one, other)| one != other)
    {
        return Err(format!(
            "call {} is answered {:?} by the proved book, {:?} by the plain one",
            index + 1,
            proved_answers[index],
            plain_answers[index]
        ));
    }
    let (Some(lines), Some(others)) = (proved.lines, plain.lines) else {
        return Err("a book is not opened".to_string());
    };
    if lines != others {
        return Err(format!(
            "{lines} lines by the proved book, {others} by the plain one"
        ));
    }
    if proved.checksum != plain.checksum {
        return Err("the lines are not the same".to_string());
    }
    Ok(())
}

fn report(setting: Setting, day: &Day, rounds: Rounds) {
    let calls = day.calls.len();
    let speed = |time: Duration| calls as f64 / time.as_secs_f64();
    let best = |times: &[Duration]| *times.iter().min().expect("a round");
    let (proved, plain) = (best(&rounds.proved), best(&rounds.plain));
    let ratios = rounds
        .proved
        .iter()
        .zip(&rounds.plain)
        .map(|(one, other)| other.as_secs_f64() / one.as_secs_f64());
    println!(
        "{:4}  {:4.0}  {:5}%  {:6.1}%  {:6}  {:6}  {:15.0}  {:8.0}  {:15.0}  {:8.0}  {:10.2}  {:6.2}",
        setting.resting,
        day.mean_resting,
        setting.quotes,
        100.0 * day.refused as f64 / calls as f64,
        day.lines,
        day.marked,
        speed(proved),
        speed(median(rounds.proved.clone())),
        speed(plain),
        speed(median(rounds.plain.clone())),
        speed(proved) / speed(plain),
        median(ratios.collect()),
    );
}

fn median<T: PartialOrd + Copy>(mut values: Vec<T>) -> T {
    values.sort_by(|one, other| one.partial_cmp(other).expect("ordered"));
    values[values.len() / 2]
}
