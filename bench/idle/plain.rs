//! What main.rt.txt does, in plain Rust: a thread feeds each item after a pause, another one copies it, and the calling
//! thread takes it. Input and output are the same, but the number of workers does not count.
use std::sync::mpsc;
use std::thread;
use std::time::{Duration, Instant};

fn main() {
    let mut line = String::new();
    std::io::stdin().read_line(&mut line).unwrap();
    let numbers: Vec<u64> = line.split_whitespace().map(|word| word.parse().unwrap()).collect();
    let (items, pause) = (numbers[1], Duration::from_micros(numbers[2]));
    let (feed, fed) = mpsc::channel();
    let (put, taken) = mpsc::channel();
    let feeder = thread::spawn(move || {
        for _ in 0..items {
            thread::sleep(pause);
            feed.send(Instant::now()).unwrap();
        }
    });
    let copier = thread::spawn(move || fed.into_iter().for_each(|item: Instant| put.send(item).unwrap()));
    let spans: Vec<_> = taken.into_iter().map(|item: Instant| item.elapsed()).collect();
    feeder.join().unwrap();
    copier.join().unwrap();
    spans.iter().for_each(|span| println!("{}", span.as_nanos()));
}
