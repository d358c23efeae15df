// The running sums of the numbers on standard input, one on each line: the plain program that `kpn alone sum` is
// measured beside. It reads all, adds with a check, builds the text and writes it, as `kpn` does.
use std::fmt::Write as _;
use std::io::{self, Read, Write};

fn main() -> io::Result<()> {
    let mut text = String::new();
    io::stdin().read_to_string(&mut text)?;
    let mut total = 0i64;
    let mut out = String::new();
    for line in text.lines() {
        let item: i64 = line.parse().map_err(io::Error::other)?;
        total = total.checked_add(item).ok_or(io::Error::other("overflow"))?;
        writeln!(out, "{total}").map_err(io::Error::other)?;
    }
    io::stdout().write_all(out.as_bytes())
}
