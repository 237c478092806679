// The hub of the twins matching.rs, pingpong.rs, threads.rs and unexpected.rs, which include this text behind queues.rs:
// the queues, and a list of all calls, each with its rank, clocks, request and reply. What a message carries is copied as
// in rvmc: the request keeps its own bytes, the queues have some until the message is collected, and the reply is entered
// and told. Some of the twins ask less than others, and read less.

#[allow(dead_code)]
enum Request {
    Send { sent: Sent, body: Box<[u8]> },
    Receive(Key),
    Collect(u64),
}

#[allow(dead_code)]
#[derive(Clone)]
enum Reply {
    Posted(u64),
    Got(Sent, Box<[u8]>),
    NotYet,
}

#[allow(dead_code)]
struct Entry {
    rank: u8,
    clock: u64,
    stamp: u64,
    request: Request,
    reply: Reply,
}

#[derive(Default)]
struct Hub {
    queues: Queues,
    entries: Vec<Entry>,
    clock: u64,
}

impl Hub {
    fn collected(&mut self, post: u64, other: Reply) -> Reply {
        match self.queues.collect(post) {
            Some((sent, body)) => Reply::Got(sent, body),
            None => other,
        }
    }

    fn answer(&mut self, request: &Request) -> Reply {
        match request {
            Request::Send { sent, body } => {
                self.queues.post_send(*sent, body.clone());
                Reply::Posted(self.queues.posts())
            }
            Request::Receive(asked) => {
                let post = self.queues.post_recv(*asked);
                self.collected(post, Reply::Posted(post))
            }
            Request::Collect(post) => self.collected(*post, Reply::NotYet),
        }
    }

    /// Answers a call and enters it. Beside the reply stands its stamp.
    fn call(&mut self, rank: u8, clock: u64, request: Request) -> (Reply, u64) {
        let stamp = self.clock.max(clock) + 1;
        let reply = self.answer(&request);
        self.clock = stamp;
        self.entries.push(Entry {
            rank,
            clock,
            stamp,
            request,
            reply: reply.clone(),
        });
        (reply, stamp)
    }
}
