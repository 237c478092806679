// The queues of the twins matching.rs, pingpong.rs, threads.rs and unexpected.rs, which include this text: posts with
// their partners and bodies in lists, and the posts without a partner in a hash map of deques, a deque for each
// communicator, source and tag of a rank, wildcards among them. A deque that is empty isn't kept. Nothing here is
// proved.

use std::collections::hash_map;
use std::collections::{HashMap, VecDeque};

#[derive(Clone, Copy, PartialEq, Eq, Hash)]
struct Key {
    rank: u8,
    comm: u8,
    source: Option<u8>,
    tag: Option<u16>,
}

#[derive(Clone, Copy)]
struct Sent {
    dest: u8,
    comm: u8,
    source: u8,
    tag: u16,
}

#[derive(Clone, Copy)]
enum Post {
    Send(Sent),
    Receive(Key),
}

#[derive(Clone, Copy)]
struct Line {
    post: Post,
    partner: Option<u64>,
}

fn key(sent: Sent, source: Option<u8>, tag: Option<u16>) -> Key {
    Key {
        rank: sent.dest,
        comm: sent.comm,
        source,
        tag,
    }
}

#[derive(Default)]
struct Waiting(HashMap<Key, VecDeque<u64>>);

impl Waiting {
    fn front(&self, key: Key) -> Option<u64> {
        self.0.get(&key)?.front().copied()
    }

    fn push(&mut self, key: Key, place: u64) {
        self.0.entry(key).or_default().push_back(place);
    }

    fn pop(&mut self, key: Key) {
        if let hash_map::Entry::Occupied(mut queue) = self.0.entry(key) {
            queue.get_mut().pop_front();
            if queue.get().is_empty() {
                queue.remove();
            }
        }
    }

    fn least_accepted(&self, asked: Key) -> Option<u64> {
        let accepts = |key: &Key| {
            key.rank == asked.rank
                && key.comm == asked.comm
                && (asked.source.is_none() || key.source == asked.source)
                && (asked.tag.is_none() || key.tag == asked.tag)
        };
        let queues = self.0.iter().filter(|(key, _)| accepts(key));
        queues.filter_map(|(_, queue)| queue.front().copied()).min()
    }
}

#[derive(Default)]
struct Queues {
    lines: Vec<Line>,
    bodies: Vec<Option<Box<[u8]>>>,
    messages: Waiting,
    receives: Waiting,
    held: u64,
}

impl Queues {
    fn add(&mut self, post: Post, partner: Option<u64>, body: Option<Box<[u8]>>) {
        let place = self.lines.len() as u64;
        match partner {
            None => match post {
                Post::Send(sent) => self
                    .messages
                    .push(key(sent, Some(sent.source), Some(sent.tag)), place),
                Post::Receive(asked) => self.receives.push(asked, place),
            },
            Some(partner) => {
                let line = &mut self.lines[partner as usize];
                line.partner = Some(place);
                match line.post {
                    Post::Send(sent) => {
                        self.messages
                            .pop(key(sent, Some(sent.source), Some(sent.tag)))
                    }
                    Post::Receive(asked) => self.receives.pop(asked),
                }
            }
        }
        self.held += u64::from(body.is_some());
        self.lines.push(Line { post, partner });
        self.bodies.push(body);
    }

    fn posts(&self) -> u64 {
        self.lines.len() as u64
    }

    fn post_send(&mut self, sent: Sent, body: Box<[u8]>) {
        let (source, tag) = (Some(sent.source), Some(sent.tag));
        let keys = [(source, tag), (source, None), (None, tag), (None, None)];
        let fronts = keys
            .iter()
            .filter_map(|&(source, tag)| self.receives.front(key(sent, source, tag)));
        let partner = fronts.min();
        self.add(Post::Send(sent), partner, Some(body));
    }

    fn post_recv(&mut self, asked: Key) -> u64 {
        let partner = match (asked.source, asked.tag) {
            (Some(_), Some(_)) => self.messages.front(asked),
            _ => self.messages.least_accepted(asked),
        };
        self.add(Post::Receive(asked), partner, None);
        self.posts()
    }

    fn collect(&mut self, post: u64) -> Option<(Sent, Box<[u8]>)> {
        let place = self.lines.get(post as usize - 1)?.partner? as usize;
        let Post::Send(sent) = self.lines[place].post else {
            return None;
        };
        let body = self.bodies[place].take()?;
        self.held -= 1;
        Some((sent, body))
    }
}
