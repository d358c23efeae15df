//! Runs a network on lists, in calls and then in a session, and prints what c/driver.c prints.
use std::{env, fs, ptr};

const TOO_SMALL: u32 = 61;
const TURN: u64 = 1000;
const FEW: u64 = 2;

#[repr(C)]
#[derive(Default)]
struct Place {
    has_place: bool,
    place: usize,
}

#[repr(C)]
struct Session {
    at: *mut u8,
}

#[repr(C)]
struct Limits {
    commits: u64,
    has_take: bool,
    take: u64,
    quota: u32,
}

#[repr(C)]
struct Lists {
    items: *const i64,
    item_count: usize,
    lengths: *const usize,
    source_count: usize,
}

#[repr(C)]
struct Room {
    items: *mut i64,
    item_room: usize,
    lengths: *mut usize,
    sink_room: usize,
    trace: *mut u8,
    trace_room: usize,
}

#[repr(C)]
#[derive(Default)]
struct Ran {
    outcome: u32,
    commits: u64,
    item_count: usize,
    sink_count: usize,
    trace_length: usize,
}

extern "C" {
    fn kpn_check(text: *const u8, length: usize, place: *mut Place) -> u32;
    fn kpn_run(
        text: *const u8,
        length: usize,
        lists: *const Lists,
        limits: *const Limits,
        room: *const Room,
        ran: *mut Ran,
        place: *mut Place,
    ) -> u32;
    fn kpn_open(text: *const u8, length: usize, session: *mut Session, place: *mut Place) -> u32;
    fn kpn_channel(session: *mut Session, name: *const u8, length: usize, channel: *mut usize) -> u32;
    fn kpn_feed(session: *mut Session, source: usize, items: *const i64, count: usize, fed: *mut usize) -> u32;
    fn kpn_close_source(session: *mut Session, source: usize) -> u32;
    fn kpn_step(session: *mut Session, most: u64, commits: *mut u64) -> u32;
    fn kpn_take(session: *mut Session, sink: usize, items: *mut i64, room: usize, taken: *mut usize) -> u32;
    fn kpn_is_complete(session: *mut Session, channel: usize, complete: *mut bool) -> u32;
    fn kpn_verdict(session: *mut Session, verdict: *mut u32) -> u32;
    fn kpn_trace(session: *mut Session, text: *mut u8, room: usize, length: *mut usize) -> u32;
    fn kpn_free(session: *mut Session) -> u32;
}

fn spelled(items: &[i64]) -> String {
    items.iter().map(|item| format!(" {item}")).collect()
}

fn run(net: &[u8], lists: &[Vec<i64>], limits: Limits, trace: Option<&str>) {
    let items: Vec<i64> = lists.concat();
    let lengths: Vec<usize> = lists.iter().map(Vec::len).collect();
    let given = Lists {
        items: items.as_ptr(),
        item_count: items.len(),
        lengths: lengths.as_ptr(),
        source_count: lengths.len(),
    };
    let call = |room: Room| {
        let (mut ran, mut place) = (Ran::default(), Place::default());
        let fault = unsafe { kpn_run(net.as_ptr(), net.len(), &given, &limits, &room, &mut ran, &mut place) };
        (fault, ran, place)
    };
    let none = Room {
        items: ptr::null_mut(),
        item_room: 0,
        lengths: ptr::null_mut(),
        sink_room: 0,
        trace: ptr::null_mut(),
        trace_room: 0,
    };
    let (fault, ran, place) = call(none);
    if fault != TOO_SMALL {
        println!("run {fault} {} {}", u8::from(place.has_place), place.place);
        return;
    }
    let (mut items, mut lengths) = (vec![0; ran.item_count], vec![0; ran.sink_count]);
    let mut text = vec![0; ran.trace_length];
    let (fault, ran, _) = call(Room {
        items: items.as_mut_ptr(),
        item_room: items.len(),
        lengths: lengths.as_mut_ptr(),
        sink_room: lengths.len(),
        trace: text.as_mut_ptr(),
        trace_room: text.len(),
    });
    println!("run {fault} {} {}", ran.outcome, ran.commits);
    let mut rest = &items[..];
    for length in lengths {
        println!("sink{}", spelled(&rest[..length]));
        rest = &rest[length..];
    }
    if let Some(trace) = trace {
        fs::write(trace, text).unwrap();
    }
}

fn channel(session: &mut Session, name: &str) -> Result<usize, u32> {
    let mut number = 0;
    ok(unsafe { kpn_channel(session, name.as_ptr(), name.len(), &mut number) }, number)
}

fn ok<T>(fault: u32, value: T) -> Result<T, u32> {
    if fault == 0 { Ok(value) } else { Err(fault) }
}

fn serve(
    session: &mut Session,
    sinks: &[&str],
    sources: &[(String, Vec<i64>)],
    most: u64,
) -> Result<(Vec<usize>, Vec<Vec<i64>>), u32> {
    let channels = sinks.iter().map(|sink| channel(session, sink)).collect::<Result<Vec<_>, _>>()?;
    for (name, list) in sources {
        let source = channel(session, name)?;
        let mut fed = 0;
        ok(unsafe { kpn_feed(session, source, list.as_ptr(), list.len(), &mut fed) }, ())?;
        ok(unsafe { kpn_close_source(session, source) }, ())?;
    }
    let mut taken = vec![Vec::new(); channels.len()];
    let (mut left, mut made) = (most, 1);
    while made > 0 {
        ok(unsafe { kpn_step(session, left.min(TURN), &mut made) }, ())?;
        left -= made;
        for (sink, items) in channels.iter().zip(&mut taken) {
            let mut got = 1;
            while got > 0 {
                let mut some = [0; TURN as usize];
                ok(unsafe { kpn_take(session, *sink, some.as_mut_ptr(), some.len(), &mut got) }, ())?;
                items.extend_from_slice(&some[..got]);
            }
        }
    }
    Ok((channels, taken))
}

fn tell(session: &mut Session, channels: &[usize], taken: &[Vec<i64>], trace: &str) {
    let (mut verdict, mut length) = (0, 0);
    let fault = unsafe { kpn_verdict(session, &mut verdict) };
    println!("verdict {fault} {verdict}");
    for (channel, items) in channels.iter().zip(taken) {
        let mut complete = false;
        let fault = unsafe { kpn_is_complete(session, *channel, &mut complete) };
        println!("sink {fault} {}{}", u8::from(complete), spelled(items));
    }
    let mut fault = unsafe { kpn_trace(session, ptr::null_mut(), 0, &mut length) };
    let mut text = vec![0; length];
    if fault == TOO_SMALL {
        fault = unsafe { kpn_trace(session, text.as_mut_ptr(), text.len(), &mut length) };
    }
    println!("trace {fault}");
    fs::write(trace, text).unwrap();
}

fn ask_for_nothing(session: &mut Session, sources: &[usize], sinks: &[usize]) {
    let mut ask = |channel| {
        let mut count = 0;
        let fed = unsafe { kpn_feed(session, channel, ptr::null(), 0, &mut count) };
        let taken = unsafe { kpn_take(session, channel, ptr::null_mut(), 0, &mut count) };
        print!(" {fed} {taken}");
    };
    print!("wrong");
    ask(usize::MAX);
    sinks.iter().for_each(|sink| ask(*sink));
    sources.iter().for_each(|source| ask(*source));
    println!();
}

fn main() {
    let words: Vec<String> = env::args().collect();
    let sources: Vec<(String, Vec<i64>)> = words[5..]
        .iter()
        .map(|word| {
            let (name, file) = word.split_once('=').unwrap();
            let text = fs::read_to_string(file).unwrap();
            (name.to_string(), text.lines().map(|line| line.parse().unwrap()).collect())
        })
        .collect();
    let net = fs::read(&words[1]).unwrap();
    let commits = words[3].parse().unwrap();
    let mut place = Place::default();
    let fault = unsafe { kpn_check(net.as_ptr(), net.len(), &mut place) };
    println!("check {fault} {} {}", u8::from(place.has_place), place.place);
    let lists: Vec<Vec<i64>> = sources.iter().map(|(_, list)| list.clone()).collect();
    let quota = TURN as u32;
    run(&net, &lists, Limits { commits, has_take: false, take: 0, quota }, Some(&words[2]));
    run(&net, &lists, Limits { commits, has_take: true, take: FEW, quota }, None);
    let mut session = Session { at: ptr::null_mut() };
    let fault = unsafe { kpn_open(net.as_ptr(), net.len(), &mut session, &mut place) };
    println!("open {fault} {} {}", u8::from(place.has_place), place.place);
    let sinks: Vec<&str> = words[4].split(',').filter(|name| !name.is_empty()).collect();
    let served = if fault == 0 { serve(&mut session, &sinks, &sources, commits) } else { Err(fault) };
    println!("served {}", served.as_ref().err().unwrap_or(&0));
    let numbers = match served {
        Ok(_) => sources.iter().filter_map(|(name, _)| channel(&mut session, name).ok()).collect(),
        Err(_) => Vec::new(),
    };
    let (channels, taken) = served.unwrap_or_default();
    tell(&mut session, &channels, &taken, &format!("{}.session", words[2]));
    ask_for_nothing(&mut session, &numbers, &channels);
    unsafe { kpn_free(&mut session) };
    println!("freed {}", unsafe { kpn_close_source(&mut session, 0) });
}
