//! compare lists FIRST COUNT [KIND]   generated call lists, seeds FIRST to FIRST + COUNT - 1
//! compare day [FRAMES [SEED]]        one stream of a day
//! compare nearest FIRST COUNT        the nearest voice, COUNT cases from the seed FIRST
//! compare nearest-lines              the same on cases with their answers, on standard input (FORMAT.md)
//! compare loud FIRST COUNT           views of loud frames in the library's rooms, COUNT lists from the seed FIRST
//! compare load-lines                 loads of models with their answers, on standard input (FORMAT.md)
//! compare settings FIRST COUNT       the options from settings texts, COUNT pairs from the seed FIRST
//! compare settings-lines             the same on pairs with their answers, on standard input (FORMAT.md)
//! compare write FIRST COUNT          a model written and loaded back, COUNT sets at each width from the seed FIRST
//! compare write-lines                the same on cases with their answers, on standard input (FORMAT.md)
//! compare loads FIRST COUNT          request 14's program, COUNT inputs from the seed FIRST
//! compare translated FIRST COUNT FOLDER [KIND]   the original's answers to lists, for its translation (original/), into a folder
//! compare gen FIRST COUNT [KIND]     the lists as a script (FORMAT.md), on standard output
//! compare answer                     the machine's answers to a script on standard input
//! KIND: calls wild damage edges rooms forged silence long limit exact nan registers floor widths window trigger big cuts, or all (all but big and cuts).
//! THREADS: how many (2).
//! Exit status 1 on any difference.
use compare::{day, gen, lists, load_lines, loads, loud, nearest, script, settings, translated, writer};

fn main() {
    std::panic::set_hook(Box::new(|i| {
        // panics of the original are expected; others are shown
        let f = i.location().map_or("", |l| l.file());
        if !f.contains("orig") {
            eprintln!("{i}");
        }
    }));
    let a: Vec<String> = std::env::args().collect();
    let num = |i: usize, d: u64| a.get(i).map_or(d, |s| s.replace('_', "").parse().expect("number"));
    let kind = |i: usize| gen::kinds(a.get(i).map_or("all", |s| s.as_str()));
    match a.get(1).map(|s| s.as_str()) {
        Some("lists") => {
            let (first, count, ks) = (num(2, 1), num(3, 1000), kind(4));
            let threads = std::env::var("THREADS").ok().and_then(|s| s.parse().ok()).unwrap_or(2u64);
            let hs: Vec<_> = (0..threads)
                .map(|i| {
                    let ks = ks.clone();
                    std::thread::spawn(move || {
                        let mut t = lists::Tally::default();
                        for seed in (first + i..first + count).step_by(threads as usize) {
                            for k in &ks {
                                lists::one(seed, *k, &mut t);
                            }
                        }
                        t
                    })
                })
                .collect();
            let mut t = lists::Tally::default();
            for h in hs {
                t.merge(h.join().expect("thread"));
            }
            println!("kinds {ks:?} seeds {first} to {}", first + count - 1);
            t.print();
            std::process::exit(i32::from(t.differences != 0));
        }
        Some("day") => std::process::exit(i32::from(!day::run(num(2, 8_640_000), num(3, 1)))),
        Some("nearest") => std::process::exit(i32::from(nearest::run(num(2, 1), num(3, 1000)) != 0)),
        Some("loud") => std::process::exit(i32::from(!loud::run(num(2, 1), num(3, 1000)))),
        Some("nearest-lines") => std::process::exit(i32::from(nearest::lines(std::io::stdin().lock()) != 0)),
        Some("load-lines") => std::process::exit(i32::from(load_lines::lines(std::io::stdin().lock()) != 0)),
        Some("settings") => std::process::exit(i32::from(settings::run(num(2, 1), num(3, 1000)) != 0)),
        Some("settings-lines") => std::process::exit(i32::from(settings::lines(std::io::stdin().lock()) != 0)),
        Some("write") => std::process::exit(i32::from(writer::run(num(2, 1), num(3, 1000)) != 0)),
        Some("write-lines") => std::process::exit(i32::from(writer::lines(std::io::stdin().lock()) != 0)),
        Some("loads") => std::process::exit(i32::from(loads::run(num(2, 1), num(3, 1000)) != 0)),
        Some("translated") => translated::run(num(2, 1), num(3, 1), &kind(5), std::path::Path::new(&a[4])),
        Some("gen") => script::write(num(2, 1), num(3, 1), &kind(4), std::io::stdout().lock()),
        Some("answer") => script::answer(std::io::stdin().lock(), std::io::stdout().lock()),
        _ => {
            eprintln!(
                "compare lists FIRST COUNT [KIND] | day [FRAMES [SEED]] | nearest FIRST COUNT | nearest-lines | loud FIRST COUNT | load-lines | settings FIRST COUNT | settings-lines | write FIRST COUNT | write-lines | loads FIRST COUNT | translated FIRST COUNT FOLDER [KIND] | gen FIRST COUNT [KIND] | answer"
            );
            std::process::exit(2);
        }
    }
}
