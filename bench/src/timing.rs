//! Timings of the twin, and with the feature `proved` of the proved player beside it.

use std::hint::black_box;
use std::time::{Duration, Instant};

use crate::random::Random;
use crate::twin::answer::{Answer, AnswerRecord};
use crate::twin::figures::Figures;
use crate::twin::job::{self, MOST_RECORDS};
use crate::twin::{play, play_answers};
use crate::writer::{Taste, Writer};

/// How many different jobs of each kind are played in turn, so that the machine does not learn the
/// branches of one job by heart.
const JOBS: u64 = 8;
/// How long one round lasts at least.
const ROUND: Duration = Duration::from_millis(2);

/// A kind of job to time. All are for 8 cores with 64 slots each and 16 strips.
struct Workload {
    name: &'static str,
    words: u16,
    favourites: u32,
    taste: Taste,
}

/// The five kinds.
fn workloads() -> [Workload; 5] {
    let calm = Taste {
        calls: [45, 35, 4, 6, 6, 2, 2],
        modes: [20, 50, 30],
        odd: 0,
        fitting: 95,
        apart: 95,
        bursts: 0,
    };
    [
        Workload {
            name: "lock-heavy",
            words: 512,
            favourites: 64,
            taste: Taste { calls: [22, 22, 1, 27, 27, 1, 0], modes: [0, 5, 95], ..calm },
        },
        Workload {
            name: "read-heavy",
            words: 512,
            favourites: 48,
            taste: Taste { calls: [960, 20, 5, 5, 5, 4, 1], modes: [40, 40, 20], ..calm },
        },
        Workload {
            name: "phase-heavy",
            words: 1024,
            favourites: 96,
            taste: Taste { calls: [30, 30, 2, 4, 4, 20, 10], ..calm },
        },
        Workload {
            name: "store-heavy",
            words: 1024,
            favourites: 96,
            taste: Taste { calls: [8, 88, 1, 1, 1, 1, 0], modes: [0, 80, 20], ..calm },
        },
        Workload { name: "mixed", words: 4096, favourites: 256, taste: calm },
    ]
}

/// Jobs of this kind with as many records as a job can have.
fn jobs_of(load: &Workload) -> Vec<Vec<u8>> {
    let figures = Figures::check(8, 64, load.words, load.words / 16, 1_000_000)
        .expect("the figures are within their limits");
    (0..JOBS)
        .map(|seed| {
            let mut random = Random::new(seed);
            let favourites =
                (0..load.favourites).map(|_| random.below(u32::from(load.words)) as u16).collect();
            let writer = Writer::with_favourites(&mut random, figures, load.taste, favourites);
            job::encode(figures, &writer.write(MOST_RECORDS))
        })
        .collect()
}

/// Plays a job and keeps nothing of it.
type Play = Box<dyn FnMut(&[u8])>;

/// One player to time, with the nanoseconds of a call in each round.
struct Player {
    name: &'static str,
    play: Play,
    rounds: Vec<f64>,
}

impl Player {
    fn new(name: &'static str, play: impl FnMut(&[u8]) + 'static) -> Player {
        Player { name, play: Box::new(play), rounds: Vec::new() }
    }

    /// Plays all jobs again and again for one round.
    fn round(&mut self, jobs: &[Vec<u8>]) {
        let start = Instant::now();
        let mut passes = 0;
        while start.elapsed() < ROUND {
            for job in jobs {
                (self.play)(black_box(job));
            }
            passes += 1;
        }
        let calls = passes * jobs.len() * MOST_RECORDS;
        self.rounds.push(start.elapsed().as_nanos() as f64 / calls as f64);
    }

    /// The middle and the least of the rounds.
    fn times(&self) -> Times {
        let mut rounds = self.rounds.clone();
        rounds.sort_by(f64::total_cmp);
        Times { median: rounds[rounds.len() / 2], best: rounds[0] }
    }
}

/// Nanoseconds of a call.
#[derive(Clone, Copy)]
struct Times {
    median: f64,
    best: f64,
}

/// The twin without lines and with lines.
fn twin_players() -> Vec<Player> {
    let mut answers = vec![AnswerRecord::EMPTY; MOST_RECORDS];
    let mut out = Vec::new();
    vec![
        Player::new("twin, answers", move |job| {
            black_box(play_answers(job, &mut answers).is_ok());
            black_box(&answers);
        }),
        Player::new("twin, lines", move |job| {
            out.clear();
            play(job, &mut out);
            black_box(&out);
        }),
    ]
}

/// The proved player without lines and with lines.
#[cfg(feature = "proved")]
fn proved_players() -> Vec<Player> {
    let mut out = vec![0; crate::ffi::MOST_OUTPUT];
    vec![
        Player::new("proved, answers", |job| {
            black_box(crate::ffi::answers(job));
        }),
        Player::new("proved, lines", move |job| {
            black_box(crate::ffi::lines(job, &mut out));
        }),
    ]
}

#[cfg(not(feature = "proved"))]
fn proved_players() -> Vec<Player> {
    Vec::new()
}

/// In how many of 100 calls the jobs are accepted.
fn accepted_share(jobs: &[Vec<u8>]) -> f64 {
    let mut answers = vec![AnswerRecord::EMPTY; MOST_RECORDS];
    let mut accepted = 0;
    for job in jobs {
        let count = play_answers(job, &mut answers).unwrap_or(0);
        let is_accepted = |record: &&AnswerRecord| !matches!(record.answer, Answer::Refused(_));
        accepted += answers[..count].iter().filter(is_accepted).count();
    }
    100.0 * accepted as f64 / (jobs.len() * MOST_RECORDS) as f64
}

/// Times every kind whose name begins with `wanted` over this many rounds and prints a table. The players
/// take turns round by round, so that a disturbance of the machine meets them alike.
pub fn run(rounds: usize, wanted: &str) {
    println!("{MOST_RECORDS} calls a job, {JOBS} jobs of each kind, {rounds} rounds");
    println!("ns: nanoseconds of a call; M/s: million calls a second");
    for workload in workloads().iter().filter(|workload| workload.name.starts_with(wanted)) {
        let jobs = jobs_of(workload);
        let mut players: Vec<Player> = twin_players().into_iter().chain(proved_players()).collect();
        for _ in 0..rounds {
            players.iter_mut().for_each(|player| player.round(&jobs));
        }
        println!("{}: {:.0} % of the calls are accepted", workload.name, accepted_share(&jobs));
        print_times(&players);
    }
}

/// Prints a row for each player, and how fast the proved player is beside the twin.
fn print_times(players: &[Player]) {
    let times: Vec<Times> = players.iter().map(Player::times).collect();
    for (player, Times { median, best }) in players.iter().zip(&times) {
        println!(
            "  {:<16} median {median:6.2} ns {:6.1} M/s   best {best:6.2} ns {:6.1} M/s",
            player.name,
            1000.0 / median,
            1000.0 / best
        );
    }
    if let [twin_answers, twin_lines, proved_answers, proved_lines] = times[..] {
        print_ratio("answers", twin_answers, proved_answers);
        print_ratio("lines", twin_lines, proved_lines);
    }
}

/// Prints the calls a second of the proved player by those of the twin.
fn print_ratio(name: &str, twin: Times, proved: Times) {
    println!(
        "  proved / twin, {name:<7} median {:.2}, best {:.2} of the twin's calls a second",
        twin.median / proved.median,
        twin.best / proved.best
    );
}
