//! The twin of programs/match: the same matches by the queues of queues.rs, and the same calls of the hub of
//! hub.rs. Nothing here is proved.
//!
//! usage: matching WAITING MATCHES [TAGS]        with TAGS the messages have so many in turn, and receives take any
//!        matching hub MESSAGES PART             tells too how long the first and the last PART messages took, and all

use std::time::Instant;
use std::{env, process};

include!("queues.rs");
include!("hub.rs");

const WANTED: u16 = 7;

fn sent(tag: u16) -> Sent {
    Sent {
        dest: 1,
        comm: 0,
        source: 0,
        tag,
    }
}

fn asked(tag: Option<u16>) -> Key {
    Key {
        rank: 1,
        comm: 0,
        source: Some(0),
        tag,
    }
}

fn send(queues: &mut Queues, tag: u16) {
    queues.post_send(sent(tag), Box::new([1]));
}

fn receive(queues: &mut Queues, tag: Option<u16>) -> bool {
    let post = queues.post_recv(asked(tag));
    queues.collect(post).is_some()
}

fn usage() -> ! {
    eprintln!("usage: matching WAITING MATCHES [TAGS]\n       matching hub MESSAGES PART");
    process::exit(2)
}

fn number(at: usize) -> u32 {
    let Some(word) = env::args().nth(at) else {
        return 0;
    };
    word.parse().unwrap_or_else(|_| usage())
}

/// Messages of one tag that no receive asks for wait, and others are matched beside them.
fn matched(queues: &mut Queues, waiting: u32, matches: u32) -> u32 {
    (0..waiting).for_each(|_| send(queues, WANTED + 1));
    (0..matches).fold(0, |matched, _| {
        send(queues, WANTED);
        matched + u32::from(receive(queues, Some(WANTED)))
    })
}

/// Messages of so many tags in turn are matched with receives of any tag, while others wait.
fn matched_any(queues: &mut Queues, waiting: u32, matches: u32, tags: u32) -> u32 {
    (0..waiting).for_each(|number| send(queues, (number % tags) as u16));
    (0..matches).fold(0, |matched, number| {
        send(queues, (number % tags) as u16);
        matched + u32::from(receive(queues, None))
    })
}

fn print_matches(waiting: u32, matches: u32, tags: u32) {
    let mut queues = Queues::default();
    let matched = match tags {
        0 => matched(&mut queues, waiting, matches),
        _ => matched_any(&mut queues, waiting, matches, tags),
    };
    println!(
        "{matched} of {matches} messages matched, {} held",
        queues.held
    );
}

/// A hub that two ranks call in turn, with their clocks, and how many messages were got.
#[derive(Default)]
struct Calls {
    hub: Hub,
    clocks: [u64; 2],
    got: u32,
}

impl Calls {
    fn call(&mut self, rank: u8, request: Request) -> Reply {
        let clock = &mut self.clocks[usize::from(rank)];
        let (reply, stamp) = self.hub.call(rank, *clock, request);
        *clock = stamp;
        reply
    }

    /// A send and a receive of its message, so many times.
    fn make(&mut self, messages: u32) {
        for _ in 0..messages {
            let body = Box::new([1]);
            self.call(
                0,
                Request::Send {
                    sent: sent(WANTED),
                    body,
                },
            );
            if let Reply::Got(..) = self.call(1, Request::Receive(asked(Some(WANTED)))) {
                self.got += 1;
            }
        }
    }

    fn make_timed(&mut self, name: &str, messages: u32) {
        let begin = Instant::now();
        self.make(messages);
        eprintln!("{name} {}", begin.elapsed().as_micros());
    }
}

fn print_hub(messages: u32, part: u32) {
    let part = part.min(messages / 2);
    let mut calls = Calls::default();
    let begin = Instant::now();
    calls.make_timed("first", part);
    calls.make(messages - part - part);
    calls.make_timed("last", part);
    eprintln!("all {}", begin.elapsed().as_micros());
    let (got, entries) = (calls.got, calls.hub.entries.len());
    println!("{got} of {messages} messages got in {entries} calls");
}

fn main() {
    match env::args().nth(1) {
        Some(word) if word == "hub" => print_hub(number(2), number(3)),
        Some(_) => print_matches(number(1), number(2), number(3)),
        None => usage(),
    }
}
