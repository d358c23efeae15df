// As many threads as the first word says, each of which computes by itself as many turns as the second word says: what
// the computing processes of bench/networks.py do, compiled. It writes what each has computed.
use std::env;
use std::thread;

fn computed(start: i64, turns: i64) -> i64 {
    let mut x = start;
    for _ in 0..turns {
        x = (x * 16807) % 2147483647;
    }
    x
}

fn main() {
    let words: Vec<i64> = env::args().skip(1).map(|word| word.parse().expect("a number")).collect();
    let [threads, turns] = words[..] else {
        panic!("two words: threads and turns");
    };
    let started: Vec<_> = (1..=threads).map(|start| thread::spawn(move || computed(start, turns))).collect();
    for thread in started {
        println!("{}", thread.join().expect("a thread that ends"));
    }
}
