// The trace of the twins threads.rs and unexpected.rs, which include this text: an event of 24 bytes for each turn of a
// rank, and turns of one kind that follow one another as one.

#[allow(dead_code)]
#[derive(Clone, Copy, PartialEq)]
enum Kind {
    Plain,
    Local,
    Hub,
}

/// Turns of one kind whose stamps follow one another.
struct Event {
    from: u64,
    count: u64,
    hart: u8,
    kind: Kind,
}

#[derive(Default)]
struct Trace {
    events: Vec<Event>,
    turns: u64,
}

impl Trace {
    fn push(&mut self, stamp: u64, kind: Kind) {
        self.turns += 1;
        if let Some(last) = self.events.last_mut()
            && last.kind == kind
            && last.hart == 0
            && last.from + last.count == stamp
        {
            last.count += 1;
            return;
        }
        self.events.push(Event {
            from: stamp,
            count: 1,
            hart: 0,
            kind,
        });
    }
}
