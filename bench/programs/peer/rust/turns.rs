//! Libraries of the store and peers of the harness by turns, in one process: a round measures each cell of one
//! after the other, in an order that rotates. It is a module of `cells`, whose runs and checks it takes.

use super::*;
use crate::{noria::Noria, pipeline::Pipeline, plain::Plain};
use std::env;
use std::io::{stdout, Write};

const SHAPE: Shape = Shape { stories: STORIES, authors: AUTHORS };

/// How many sessions the cells have whose names end so.
const SESSIONS: usize = 4;

/// So many rounds count bytes, which hardly change.
const MEMORY_ROUNDS: usize = 2;

const CELLS: &str = "hits,mixed,writes,first,visible,rest,hits4,writes4,mixed4,story,vote";

struct Peer {
    name: String,
    library: Option<String>,
}

/// A store that is loaded, with what its answers must be.
struct Loaded {
    store: Box<dyn Store>,
    model: Model,
    /// The id of the next vote.
    next: u64,
}

/// A figure of one peer, and for which part of it all sessions were on a processor.
type Figure = (f64, f64);

impl Peer {
    fn open(&self) -> Result<Box<dyn Store>, String> {
        Ok(match (&self.library, self.name.as_str()) {
            (Some(file), _) => Box::new(Noria::new(file, SESSIONS)?),
            (None, "plain") => Box::new(Plain::new()),
            (None, "pipeline") => Box::new(Pipeline::new()),
            (None, name) => return Err(format!("no peer {name}")),
        })
    }

    fn loaded(&self) -> Result<Loaded, String> {
        let votes = load_votes(&SHAPE, VOTES, Dist::Uniform);
        let mut store = self.open()?;
        store.load_stories(&SHAPE);
        store.load_votes(&votes);
        store.drain();
        Ok(Loaded { store, model: Model::new(&SHAPE, &votes), next: VOTES as u64 })
    }

    /// The calls of a session in one run.
    fn count(&self, share: u32, sessions: usize) -> usize {
        let count = match (self.library.is_some(), self.name.as_str(), share) {
            (false, "plain", 100) => 1_000_000,
            (false, "plain", 95) => 600_000,
            (false, "plain", _) => 100_000,
            (_, _, 100) => 800_000,
            (true, _, 95) => 100_000,
            (true, _, _) => 12_000,
            (false, _, 95) => 60_000,
            (false, _, _) => 10_000,
        };
        if sessions > 1 && share < 100 {
            count / 2
        } else {
            count
        }
    }

    /// First reads a second, each run of a new store.
    fn first(&self, runs: usize) -> Result<Figure, String> {
        let mut order: Vec<u32> = (0..AUTHORS).collect();
        let mut rng = Rng::new(5);
        for i in (1..order.len()).rev() {
            order.swap(i, rng.below(i as u32 + 1) as usize);
        }
        let ops = [order];
        let mut best: f64 = 0.0;
        for _ in 0..runs {
            let at = self.loaded()?;
            let sample = run(&*at.store, &ops, at.next, 1 << 20, 0);
            best = best.max(AUTHORS as f64 / sample.seconds);
            at.check()?;
        }
        Ok((best, 1.0))
    }

    /// Bytes of a story with its vote and its shown row, and of a further vote.
    fn memory(&self) -> Result<[f64; 2], String> {
        let votes = load_votes(&SHAPE, VOTES, Dist::Uniform);
        let mut store = self.open()?;
        let empty = allocated() as f64;
        store.load_stories(&SHAPE);
        let held = |votes: &[u32], first: usize| {
            let mut session = store.session(0);
            votes.iter().enumerate().for_each(|(i, &story)| session.vote((first + i) as u64, story));
            drop(session);
            store.drain();
            read_all(&*store);
            allocated() as f64 - empty
        };
        let few = STORIES as usize;
        let small = held(&votes[..few], 0);
        let large = held(&votes[few..], few);
        check(&*store, &SHAPE, &Model::new(&SHAPE, &votes), 1)?;
        Ok([small / few as f64, (large - small) / (VOTES - few) as f64])
    }
}

impl Loaded {
    fn check(&self) -> Result<(), String> {
        check(&*self.store, &SHAPE, &self.model, 1)
    }

    /// Calls a second, so many of a hundred being reads, until all votes are shown.
    fn calls(&mut self, peer: &Peer, share: u32, sessions: usize, runs: usize) -> Result<Figure, String> {
        let keys = [STORIES, AUTHORS].map(|n| Keys::new(n, Dist::Uniform));
        let count = peer.count(share, sessions);
        let make = |session| ops(&keys[0], &keys[1], share, count, 1000 + session as u64);
        let all: Vec<Vec<u32>> = (0..sessions).map(make).collect();
        let mut best = (0.0, 0.0);
        for _ in 0..runs {
            let sample = run(&*self.store, &all, self.next, 1 << 20, AUTHORS);
            self.next += (sessions * count) as u64;
            all.iter().for_each(|ops| self.model.apply(ops));
            let speed = (sessions * count) as f64 / sample.seconds;
            if speed > best.0 {
                best = (speed, sample.at_once);
            }
        }
        self.check()?;
        Ok(best)
    }

    /// Microseconds from the call of a vote to a read that shows it, p50, with a rest before each vote or none.
    fn visible(&mut self, has_rest: bool, runs: usize) -> Result<Figure, String> {
        let mut rng = Rng::new(77);
        let mut best = f64::MAX;
        for _ in 0..runs {
            let mut session = self.store.session(0);
            let mut times = Vec::new();
            for _ in 0..if has_rest { 150 } else { 600 } {
                let story = rng.below(STORIES);
                self.model.votes[story as usize] += 1;
                let meant = self.model.votes[story as usize];
                if has_rest {
                    std::thread::sleep(Duration::from_micros(500));
                }
                let start = Instant::now();
                session.vote(self.next, story);
                self.next += 1;
                while !session
                    .read(SHAPE.author(story))
                    .iter()
                    .any(|r| r.story == story as u64 && r.votes >= meant)
                {
                    if start.elapsed() > Duration::from_secs(5) {
                        return Err("a vote is not shown after 5 s".to_string());
                    }
                }
                times.push(start.elapsed().as_nanos() as u32);
            }
            times.sort_unstable();
            best = best.min(percentile_of(&times, 0.5).unwrap_or(0) as f64 / 1000.0);
        }
        self.check()?;
        Ok((best, 1.0))
    }
}

fn read_all(store: &dyn Store) {
    let mut session = store.session(0);
    (0..AUTHORS).for_each(|author| drop(session.read(author)));
}

/// The reads in a hundred calls, and the sessions, of a cell of calls.
fn mix(cell: &str) -> Option<(u32, usize)> {
    let (kind, sessions) = cell.strip_suffix('4').map_or((cell, 1), |kind| (kind, SESSIONS));
    let share = match kind {
        "hits" => 100,
        "mixed" => 95,
        "writes" => 0,
        _ => return None,
    };
    Some((share, sessions))
}

fn word(name: &str, usual: &str) -> String {
    env::var(name).unwrap_or_else(|_| usual.to_string())
}

fn number(name: &str, usual: usize) -> usize {
    word(name, "").parse().unwrap_or(usual)
}

fn median(values: &[f64]) -> f64 {
    let mut sorted = values.to_vec();
    sorted.sort_by(f64::total_cmp);
    let middle = sorted.len() / 2;
    match sorted.len() {
        0 => f64::NAN,
        n if n % 2 == 1 => sorted[middle],
        _ => (sorted[middle - 1] + sorted[middle]) / 2.0,
    }
}

fn short(value: f64) -> String {
    match value {
        v if v >= 1e6 => format!("{:.3}M", v / 1e6),
        v if v >= 1e4 => format!("{:.1}k", v / 1e3),
        v => format!("{v:.2}"),
    }
}

/// Measures the libraries of the words NAME=FILE and the peers, and prints each round and then the ratios.
pub fn all() -> Result<(), String> {
    let mut peers = Vec::new();
    for word in env::args().skip(2) {
        let (name, file) = word.split_once('=').ok_or("a library is NAME=FILE")?;
        peers.push(Peer { name: name.to_string(), library: Some(file.to_string()) });
    }
    let libraries = peers.len();
    for name in word("PEERS", "plain pipeline").split_whitespace() {
        peers.push(Peer { name: name.to_string(), library: None });
    }
    let cells: Vec<String> = word("CELLS", CELLS).split(',').map(str::to_string).collect();
    let (rounds, runs) = (number("ROUNDS", 5), number("REPS", 6));
    let first_runs = number("FIRST_REPS", runs.min(3));
    let mut figures: Vec<Vec<Vec<Figure>>> = vec![vec![Vec::new(); peers.len()]; cells.len()];
    for round in 0..rounds {
        let order: Vec<usize> = (0..peers.len()).map(|i| (i + round) % peers.len()).collect();
        let mut opened: Vec<Option<Loaded>> = peers.iter().map(|_| None).collect();
        let mut memories: Vec<Option<[f64; 2]>> = vec![None; peers.len()];
        // What wants stores of its own comes first, while no other is open.
        for has_own in [true, false] {
            for (cell, figures) in cells.iter().zip(&mut figures) {
                let is_memory = matches!(cell.as_str(), "story" | "vote");
                if has_own != (is_memory || cell == "first") || is_memory && round >= MEMORY_ROUNDS {
                    continue;
                }
                for &p in &order {
                    if !has_own && opened[p].is_none() {
                        let at = peers[p].loaded()?;
                        read_all(&*at.store);
                        opened[p] = Some(at);
                    }
                }
                print!("round {} {cell:<8}", round + 1);
                for &p in &order {
                    let peer = &peers[p];
                    let figure = match (cell.as_str(), mix(cell), &mut opened[p]) {
                        (_, Some((share, sessions)), Some(at)) => at.calls(peer, share, sessions, runs),
                        ("visible" | "rest", _, Some(at)) => at.visible(cell == "rest", runs),
                        ("first", ..) => peer.first(first_runs),
                        ("story" | "vote", ..) => {
                            let bytes = memories[p].map_or_else(|| peer.memory(), Ok);
                            bytes.map(|b| (memories[p].insert(b)[(cell == "vote") as usize], 1.0))
                        }
                        _ => Err("no such cell".to_string()),
                    }
                    .map_err(|why| format!("{}: {cell}: {why}", peer.name))?;
                    figures[p].push(figure);
                    print!("  {} {}", peer.name, short(figure.0));
                    let _ = stdout().flush();
                }
                println!();
            }
        }
    }
    println!("\nCalls a second (more is better); visible, rest: microseconds, story, vote: bytes (less is better).");
    println!("Ratios, by each peer and by the first library: of the bests / of the medians of all rounds.");
    for (cell, figures) in cells.iter().zip(&figures) {
        println!("\n{cell}");
        report(cell, &peers, libraries, figures);
    }
    Ok(())
}

fn report(cell: &str, peers: &[Peer], libraries: usize, figures: &[Vec<Figure>]) {
    let is_less_better = matches!(cell, "visible" | "rest" | "story" | "vote");
    let pick = if is_less_better { f64::min } else { f64::max };
    let of_all = |all: &Vec<Figure>| {
        let values: Vec<f64> = all.iter().map(|f| f.0).collect();
        (values.iter().copied().fold(f64::NAN, pick), median(&values))
    };
    let both: Vec<(f64, f64)> = figures.iter().map(of_all).collect();
    for (p, peer) in peers.iter().enumerate() {
        print!("  {:<10} best {:>9}  median {:>9}", peer.name, short(both[p].0), short(both[p].1));
        if cell.ends_with('4') {
            print!("  at once {:.2}", figures[p].iter().map(|f| f.1).fold(0.0, f64::max));
        }
        if p < libraries {
            for q in (libraries..peers.len()).chain(0..(p > 0) as usize) {
                print!("   /{} {:.3} / {:.3}", peers[q].name, both[p].0 / both[q].0, both[p].1 / both[q].1);
            }
        }
        println!();
    }
}
