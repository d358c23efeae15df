// A plain writer of traces: it does what `trace` of bench/parts does, with `writeln!` into a `Vec`. Words:
// how many events, and how often the trace is written. It prints how many bytes a trace has, and the sum of its bytes.
use std::env;
use std::io::{self, Write};

#[derive(Clone, Copy)]
enum Event {
    Get(u16, u16, i64),
    Put(u16, u16, i64),
    WaitEmpty(u16, u16),
    Take(u16, i64),
}

fn write_trace<W: Write>(writer: &mut W, events: &[Event]) -> io::Result<()> {
    writeln!(writer, "kpn-trace 2")?;
    writeln!(writer, "policy cycles grow one")?;
    for event in events {
        match *event {
            Event::Get(process, channel, item) => writeln!(writer, "get {process} {channel} {item}")?,
            Event::Put(process, channel, item) => writeln!(writer, "put {process} {channel} {item}")?,
            Event::WaitEmpty(process, channel) => writeln!(writer, "wait-empty {process} {channel}")?,
            Event::Take(channel, item) => writeln!(writer, "take {channel} {item}")?,
        }
    }
    Ok(())
}

fn event_of(k: u32) -> Event {
    let process = (k % 200) as u16;
    let channel = (k / 3 % 1000) as u16;
    let item = i64::from(k).wrapping_mul(7_919).wrapping_sub(1_000_000_000);
    match k % 4 {
        0 => Event::Put(process, channel, item),
        1 => Event::Get(process, channel, item),
        2 => Event::Take(channel, item),
        _ => Event::WaitEmpty(process, channel),
    }
}

fn main() {
    let words: Vec<String> = env::args().collect();
    let events: u32 = words[1].parse().expect("how many events");
    let times: u32 = words[2].parse().expect("how often");
    let mut history = Vec::new();
    for k in 0..events {
        history.push(event_of(k));
    }
    let mut text = Vec::with_capacity(history.len() * 40);
    for _time in 0..times {
        text.clear();
        write_trace(&mut text, &history).expect("memory");
    }
    let sum = text.iter().fold(0u64, |sum, byte| sum.wrapping_add(u64::from(*byte)));
    println!("{} {}", text.len(), sum);
}
