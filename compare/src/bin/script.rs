//! script gen FIRST COUNT [KIND]   the lists as a script (FORMAT.md), on standard output
//! script answer                   the machine's answers to a script on standard input
//! As `compare gen` and `compare answer`, built without the library.
use compare::{gen, script};

fn main() {
    let a: Vec<String> = std::env::args().collect();
    let number = |i: usize| a.get(i).map_or(1, |s| s.parse().expect("number"));
    match a.get(1).map(|s| s.as_str()) {
        Some("gen") => script::write(number(2), number(3), &gen::kinds(a.get(4).map_or("all", |s| s.as_str())), std::io::stdout().lock()),
        Some("answer") => script::answer(std::io::stdin().lock(), std::io::stdout().lock()),
        _ => {
            eprintln!("script gen FIRST COUNT [KIND] | answer");
            std::process::exit(2);
        }
    }
}
