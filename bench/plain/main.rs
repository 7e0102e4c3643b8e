//! The work of the measures of bench/programs/store by peers in plain Rust, and the same lines. The first
//! argument names the peer: `maps` or `pipeline`; the others what is measured.
mod maps;
mod pipeline;
mod shown;

use std::env;
use std::fs;
use std::sync::Arc;
use std::thread;
use std::time::{Duration, Instant};

const STORIES: usize = 4000;
const OF_AUTHOR: usize = 4;
const AUTHORS: usize = STORIES / OF_AUTHOR;
const VOTES: usize = 2;
const HITS: usize = 200000;
const COLD: usize = 2000;
const FIRSTS: usize = 500;
const NEW_STORIES: usize = 7 * FIRSTS * OF_AUTHOR;
const NEW_VOTES: usize = 10;
const WRITES: usize = 2000;
const MIXED: usize = 40000;
const MANY: usize = 100000;
const LOADED: usize = 15;

#[derive(Clone, PartialEq, Eq, Hash)]
pub enum Value {
    Int(i64),
    Text(Arc<String>),
}

pub type Row = Vec<Value>;

pub fn int(number: usize) -> Value {
    Value::Int(number as i64)
}

pub fn story_row(id: usize, author: usize) -> Row {
    vec![int(id), int(author), Value::Text(Arc::new("a title of some length".to_string()))]
}

pub fn vote_row(id: usize, story: usize) -> Row {
    vec![int(id), int(story), int(1)]
}

/// A store: what all sessions share.
pub trait Peer: Send + Sync {
    fn add_story(&self, id: usize, author: usize);
    /// A session of this number, which no other has at the time.
    fn session(self: Arc<Self>, number: usize) -> Box<dyn Session>;
    /// Ends when reads see all votes that were answered.
    fn fence(&self);
}

/// What one thread calls.
pub trait Session: Send {
    fn add_vote(&mut self, id: usize, story: usize);
    fn read(&mut self, author: usize) -> Vec<Row>;
    /// A read of an author that is not shown.
    fn read_anew(&mut self, author: usize) -> Vec<Row>;
}

fn load(peer: &Arc<dyn Peer>, stories: usize, votes: usize) {
    for story in 0..stories {
        peer.add_story(story, story % (stories / OF_AUTHOR));
    }
    let mut session = Arc::clone(peer).session(0);
    for number in 0..stories * votes {
        session.add_vote(id_of(number, LOADED), number % stories);
    }
    peer.fence();
}

fn fill(peer: &Arc<dyn Peer>, authors: usize) {
    let mut session = Arc::clone(peer).session(0);
    for author in 0..authors {
        session.read_anew(author);
    }
}

fn id_of(number: usize, part: usize) -> usize {
    (number * 7919 % 1000003) * 16 + part
}

type Work = fn(&mut dyn Session, usize, usize);

// The time that so many threads take; each is called with its part.
fn time_of(peer: &Arc<dyn Peer>, threads: usize, work: Work) -> Duration {
    let start = Instant::now();
    let parts: Vec<_> = (0..threads)
        .map(|number| {
            let mut session = Arc::clone(peer).session(number);
            thread::spawn(move || work(&mut *session, threads - 1 + number, threads))
        })
        .collect();
    for part in parts {
        part.join().unwrap();
    }
    start.elapsed()
}

fn hit(session: &mut dyn Session, part: usize, _threads: usize) {
    let rows: usize = (0..HITS).map(|read| session.read((read * 7 + part) % AUTHORS).len()).sum();
    assert_eq!(rows, HITS * OF_AUTHOR);
}

fn read_cold(session: &mut dyn Session, part: usize, threads: usize) {
    let rows: usize = (0..COLD).map(|read| session.read_anew((read * threads + part) % AUTHORS).len()).sum();
    assert_eq!(rows, COLD * OF_AUTHOR);
}

fn read_first(session: &mut dyn Session, part: usize, _threads: usize) {
    let rows: usize = (0..FIRSTS).map(|read| session.read_anew(part * FIRSTS + read).len()).sum();
    assert_eq!(rows, FIRSTS * OF_AUTHOR);
}

fn write(session: &mut dyn Session, part: usize, _threads: usize) {
    for number in 0..WRITES {
        session.add_vote(id_of(number, part), number % STORIES);
    }
}

// Each 20th call is a vote.
fn mix(session: &mut dyn Session, part: usize, _threads: usize) {
    let mut rows = 0;
    for number in 0..MIXED {
        if number % 20 == 7 {
            session.add_vote(id_of(number, part), number % STORIES);
        } else {
            rows += session.read((number * 7 + part) % AUTHORS).len();
        }
    }
    assert_eq!(rows, MIXED / 20 * 19 * OF_AUTHOR);
}

// The bytes of this process that are resident.
fn resident() -> usize {
    let status = fs::read_to_string("/proc/self/status").unwrap();
    let line = status.lines().find(|line| line.starts_with("VmRSS:")).unwrap();
    line.split_whitespace().nth(1).unwrap().parse::<usize>().unwrap() * 1024
}

fn memory(peer: &Arc<dyn Peer>) {
    let empty = resident();
    load(peer, MANY, 1);
    fill(peer, MANY / OF_AUTHOR);
    let stories = resident();
    let mut session = Arc::clone(peer).session(0);
    for number in 0..MANY {
        session.add_vote(id_of(number, 0), number);
    }
    peer.fence();
    let votes = resident();
    println!("a story, its vote and its shown row: {} bytes", stories.saturating_sub(empty) / MANY);
    println!("a vote: {} bytes", votes.saturating_sub(stories) / MANY);
}

// The times from the answer of one session's vote to the first hit of another that counts it.
fn shows(peer: &Arc<dyn Peer>) {
    let mut writer = Arc::clone(peer).session(0);
    let mut reader = Arc::clone(peer).session(1);
    let mut times: Vec<u128> = (0..WRITES)
        .map(|story| {
            writer.add_vote(id_of(story, 0), story);
            let start = Instant::now();
            let counted = |row: &Row| row[0] == int(story) && row[3] == int(VOTES + 1);
            while !reader.read(story % AUTHORS).iter().any(counted) {}
            start.elapsed().as_nanos()
        })
        .collect();
    times.sort();
    for share in [50, 99] {
        let time = times[times.len() * share / 100];
        println!("from an accepted write to its first hit p{share}: {time} ns");
    }
}

fn calls(peer: &Arc<dyn Peer>, count: usize, name: &str, work: Work) {
    for threads in [1, 2, 4] {
        let start = Instant::now();
        let time = time_of(peer, threads, work).as_nanos();
        println!("{threads} sessions {count} {name}: {time} ns");
        if name == "writes" {
            peer.fence();
            println!("{threads} sessions {count} shown writes: {} ns", start.elapsed().as_nanos());
        }
    }
}

fn main() {
    let mut words = env::args().skip(1);
    let peer = words.next();
    for word in words {
        // So few that each read finds a hole, or all.
        let cap = if word == "cold" { 16 } else { 65536 };
        let peer: Arc<dyn Peer> = match peer.as_deref() {
            Some("maps") => Arc::new(maps::Maps::new()),
            Some("pipeline") => Arc::new(pipeline::Pipeline::new(cap)),
            _ => panic!("no such peer"),
        };
        if word == "memory" {
            memory(&peer);
            continue;
        }
        if word == "first" {
            load(&peer, NEW_STORIES, NEW_VOTES);
            calls(&peer, FIRSTS, "first reads", read_first);
            continue;
        }
        load(&peer, STORIES, VOTES);
        fill(&peer, AUTHORS);
        match word.as_str() {
            "hits" => calls(&peer, HITS, "hits", hit),
            "cold" => calls(&peer, COLD, "cold reads", read_cold),
            "writes" => calls(&peer, WRITES, "writes", write),
            "mixed" => calls(&peer, MIXED, "mixed calls", mix),
            "shows" => shows(&peer),
            _ => panic!("no such measure"),
        }
    }
}
