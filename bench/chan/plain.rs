// A plain queue with a journal: what waits stands in a `VecDeque`, and all that was ever put in a `Vec` beside it. It
// does what `chan` of bench/parts does. Words: the capacity and how many items. It prints the sum of what was
// read, and the last item of the journal.
use std::collections::VecDeque;
use std::env;

struct Channel {
    queue: VecDeque<i64>,
    journal: Vec<i64>,
    capacity: usize,
}

impl Channel {
    fn is_full(&self) -> bool {
        self.capacity <= self.queue.len()
    }

    fn put(&mut self, item: i64) {
        self.journal.push(item);
        self.queue.push_back(item);
    }

    fn get(&mut self) -> Option<i64> {
        self.queue.pop_front()
    }
}

fn drained(channel: &mut Channel) -> i64 {
    let mut sum = 0i64;
    while let Some(item) = channel.get() {
        sum = sum.wrapping_add(item);
    }
    sum
}

fn main() {
    let words: Vec<String> = env::args().collect();
    let capacity = words[1].parse().expect("the capacity");
    let items: i64 = words[2].parse().expect("how many items");
    let mut channel = Channel { queue: VecDeque::new(), journal: Vec::new(), capacity };
    let mut sum = 0i64;
    for item in 0..items {
        if channel.is_full() {
            sum = sum.wrapping_add(drained(&mut channel));
        }
        channel.put(item);
    }
    sum = sum.wrapping_add(drained(&mut channel));
    println!("{} {}", sum, channel.journal.last().copied().unwrap_or(0));
}
