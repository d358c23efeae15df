// The plain program that reading is measured beside. `items` reads the numbers of standard input, one on each line, and
// tells how many there are and their exclusive or; `bytes` reads a file and tells how many lines it has.
use std::io::{self, Read};

fn main() -> io::Result<()> {
    let word = std::env::args().nth(1);
    if word.as_deref() == Some("items") {
        let mut text = String::new();
        io::stdin().read_to_string(&mut text)?;
        let mut items: Vec<i64> = Vec::new();
        for line in text.lines() {
            items.push(line.parse().map_err(io::Error::other)?);
        }
        println!("{} {}", items.len(), items.iter().fold(0, |all, item| all ^ item));
        return Ok(());
    }
    let mut bytes = Vec::new();
    io::stdin().read_to_end(&mut bytes)?;
    println!("{}", bytes.iter().filter(|&&byte| byte == b'\n').count());
    Ok(())
}
