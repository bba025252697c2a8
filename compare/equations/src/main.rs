//! Turns a script and its answers into equations about the definitions, each to be proved by computing (`refl`).
//!
//!     equations SCRIPT ANSWERS FOLDER [--first N] [--calls N] [--bytes N] [--numbers N] [--equations N] [--past FILE] [--wrong]
//!
//! FOLDER gets a module for each session of the script, numbered from `--first`, one with the words that they share, and Lib.antt. What makes an
//! equation: a load (`m`) whose files have at most `--bytes` bytes together; where it is taken, the `k` behind it tells the model. A fresh stream
//! (`s`), and the calls on it as one list, at most `--calls` of them. A silence table (`t`), and the calls on it as one list. A call with a forged
//! record (`x`, `y`). A session with steps over registers or rounds (`r`, `u`) is one list of events, on the program's rooms; what is forged among
//! them is left out. A model of more than `--numbers` numbers is left out, too. Of a session there are at most `--equations` lists of calls, and as many
//! other equations of each sort.
//! With `--wrong` each has another right side, by its last digit: so none holds.
//! FILE has the prover's lines about equations that it could not compute to the end: a list of calls is halved for each line that names
//! it, another equation is left out. Printed are the lists that were cut, and how much of each kind was written.
use std::collections::{BTreeMap, HashMap, HashSet};
use std::fmt::{Display, Write};
mod head;

#[rustfmt::skip]
const OPTIONS: [&str; 10] = [
    "left_context", "right_context", "cmn_window", "global_frames", "num_gselect", "num_cg_iters",
    "min_post", "posterior_scale", "max_count", "min_energy",
];
const DIMENSIONS: [&str; 6] = ["num_gauss", "ext_gauss", "feat_dim", "ivector_dim", "base_dim", "lda_cols"];
const TABLES: [&str; 8] = ["gconsts", "means_invvars_t", "inv_vars_t", "sigma_inv_m", "u", "lda_t", "lda_offset", "global_mean_stats"];
const RINGS: [&str; 4] = ["frames", "rows", "waiting_frames", "waiting_weights"];
const ESTIMATE: [&str; 5] = ["cmvn_stats", "linear", "quadratic", "current", "scratch"];
#[rustfmt::skip]
const STREAM: [&str; 13] = [
    "info", "lengths", "accepted", "num_frames_stats", "mark", "floor", "window", "longest", "waiting", "past_highest", "delta_weights_provided",
    "input_finished", "num_frames",
];
const OUTCOME: [&str; 6] = ["refusal", "step", "full", "found", "index", "distance"];
const SILENCE: [&str; 5] = ["silence_weight", "subsampling", "phones", "table", "length"];
/// The script's names for options, dimensions and counters, in the order of `Record::fields`.
#[rustfmt::skip]
const FIELDS: [&str; 22] = [
    "left", "right", "window", "global", "gselect", "iters", "minpost", "scale", "maxcount", "energy",
    "gaussg", "gausse", "feat", "ivec", "base", "ldacols", "accepted", "next", "mark", "floor", "in force", "longest",
];

// ---- antt

fn record<T: Display>(names: &[&str], values: impl IntoIterator<Item = T>) -> String {
    format!("(record {{ {} }})", names.iter().zip(values).map(|(n, v)| format!("{n} = {v}")).collect::<Vec<_>>().join("; "))
}
/// A stream's nine lengths.
fn rooms(lengths: &[i128]) -> String {
    record(&["rings", "estimate"], [record(&RINGS, &lengths[..4]), record(&ESTIMATE, &lengths[4..])])
}
fn list<T: Display>(items: impl IntoIterator<Item = T>) -> String {
    items.into_iter().fold("(".to_string(), |s, x| s + &format!("{x} ∷ ")) + "[])"
}
/// A float by its bits, in 8 or 16 digits.
fn float(bits: &str) -> String {
    format!("f{} 0x{bits}", 4 * bits.len())
}
fn floats(bits: &[&str]) -> String {
    list(bits.iter().map(|b| float(b)))
}
fn phones(words: &[&str]) -> String {
    list(words.iter().map(|p| number(p)).map(|p| if p < 0 { format!("negsuc {}", -p - 1) } else { format!("pos {p}") }))
}
fn bits(words: &[&str]) -> String {
    list(words.iter().map(|b| format!("0x{b}")))
}
fn zeros(n: i128, zero: &str) -> String {
    format!("(replicate {n} {zero})")
}
/// Frame numbers and weights in turn.
fn changes(words: &[&str]) -> String {
    list(words.chunks(2).map(|c| format!("({}, {})", c[0], float(c[1]))))
}
fn bytes(hex: &str) -> String {
    list((0..hex.len() / 2).map(|i| u8::from_str_radix(&hex[2 * i..2 * i + 2], 16).unwrap()))
}

// ---- the script

/// A command's words, and its answer's.
type Line<'a> = (Vec<&'a str>, Vec<&'a str>);

fn number(word: &str) -> i128 {
    word.parse().unwrap()
}
/// Takes n words off the front.
fn cut<'a>(words: &mut &'a [&'a str], n: i128) -> &'a [&'a str] {
    let (front, rest) = words.split_at(n as usize);
    *words = rest;
    front
}
/// Takes a list off the front: its length, then its items.
fn counted<'a>(words: &mut &'a [&'a str]) -> &'a [&'a str] {
    let n = number(words[0]);
    cut(words, n + 1).split_first().unwrap().1
}
fn lengths(needs: &[i128], more: &[&str]) -> Vec<i128> {
    needs.iter().zip(more).map(|(n, d)| (n + number(d)).max(0)).collect()
}
fn outcome(refusal: &str) -> String {
    format!("refused {refusal}").replace("refused 0", "taken")
}

/// A model's record or a stream's: options, dimensions and counters; lent lengths of tables and rooms; frames of the waiting changes.
#[derive(Clone, Default)]
struct Record {
    fields: Vec<String>,
    prior: String,
    lengths: Vec<i128>,
    waiting: Vec<i128>,
    /// Whether it is a stream's.
    made: bool,
}

impl Record {
    fn field(&self, name: &str) -> i128 {
        number(&self.fields[FIELDS.iter().position(|f| *f == name).unwrap()])
    }
    fn set(&mut self, name: &str, value: i128) {
        self.fields[FIELDS.iter().position(|f| *f == name).unwrap()] = match name {
            "minpost" | "scale" | "energy" => format!("{value:08x}"),
            "maxcount" => format!("{value:016x}"),
            _ => value.to_string(),
        };
    }
    /// How many numbers the tables keep, the rooms of a stream that have a fixed length, and the scratch of a load.
    fn needs(&self) -> ([i128; 8], [i128; 5], i128) {
        let [g, e, f, s, b] = ["gaussg", "gausse", "feat", "ivec", "base"].map(|n| self.field(n));
        let spliced = b * (self.field("left") + 1 + self.field("right"));
        let packed = s * (s + 1) / 2;
        ([g, g * f, g * f, e * f * s, e * packed, spliced * f, f, b + 1], [b + 1, s, packed, s, (g * f).max(s * s)], f * (f + 1) / 2 + f * s)
    }
    fn options(&self) -> String {
        record(&OPTIONS, self.fields[..10].iter().enumerate().map(|(i, x)| if i < 6 { x.clone() } else { float(x) }))
    }
    fn info(&self) -> String {
        let dims = record(&DIMENSIONS, &self.fields[10..16]);
        record(&["opts", "dims", "prior_offset", "tables"], [self.options(), dims, float(&self.prior), record(&TABLES, &self.lengths)])
    }
    fn rooms(&self) -> String {
        rooms(&self.lengths[8..])
    }
    fn rings(&self) -> String {
        record(&RINGS, &self.lengths[8..12])
    }
    /// Refusal 10 of a call with this record. The fields at the end are not judged.
    fn declined(&self, lent: &[i128]) -> String {
        let (n, rest) = (self.waiting.len().to_string(), ["0", "false", "false", "f64 0"].map(String::from));
        let values = [self.info(), self.rooms()].into_iter().chain(self.fields[16..].to_vec()).chain([n]).chain(rest);
        format!("declined {} {} {} {}", record(&STREAM, values), list(&self.waiting), record(&TABLES, lent), rooms(&lent[8..]))
    }
    /// Notes what a call on the stream leaves, by its answer.
    fn called(&mut self, v: &[&str], q: &[&str]) {
        let (mut rest, taken) = (&v[1..], q[0] == "0");
        match v[0] {
            "p" => self.set("accepted", self.field("accepted") + taken as i128),
            "w" if taken => {
                self.waiting.extend(counted(&mut rest).iter().map(|f| number(f)));
                self.waiting.sort();
            }
            "d" => self.set("floor", self.field("floor").max(number(v[1]))),
            "n" if taken => {
                self.set("in force", number(v[1]));
                self.set("longest", self.field("longest").max(number(v[1])));
            }
            "v" if taken && number(v[1]) >= self.field("next") => {
                let f = number(v[1]);
                self.set("next", f + 1);
                self.waiting.retain(|t| *t > f);
            }
            _ => {}
        }
        let mark = self.field("accepted") - number(q[1]);
        if mark > self.field("mark") {
            self.set("longest", self.field("in force"));
        }
        self.set("mark", mark);
    }
    /// The record that `x` lines make of this one, and the lengths that are lent with it.
    fn forged(&self, lines: &[Vec<&str>]) -> (Record, Vec<i128>) {
        let (mut r, mut lent) = (self.clone(), self.lengths.clone());
        for x in lines {
            match x[1] {
                "r" => lent[number(x[2]) as usize] = (lent[number(x[2]) as usize] + number(x[3])).max(0),
                // of a stream it is the window in force
                "n" if x[2] == "window" && self.lengths.len() > 8 && r.made => r.set("in force", number(x[3])),
                "n" => r.set(x[2], number(x[3])),
                _ => r.waiting = x[3..].iter().step_by(2).map(|f| number(f)).collect(),
            }
        }
        (r, lent)
    }
}

// ---- calls and their answers

/// A call on a stream, its answer, and what it counts as.
fn stream_call(v: &[&str], q: &[&str]) -> Made {
    let mut rest = &v[1..];
    let (mut counts, mut vector) = (vec!["stream calls".to_string()], "[] 0 0".to_string());
    let text = match v[0] {
        "p" => format!("push {}", floats(counted(&mut rest))),
        "f" => "finish".into(),
        "w" => {
            let (frames, weights) = (counted(&mut rest), counted(&mut rest));
            format!("change {} {}", list(frames), floats(weights))
        }
        "d" => format!("forget {}", v[1]),
        "n" => format!("set_window {}", v[1]),
        _ => {
            if q[0] == "0" {
                counts.push("fetches".into());
                counts.extend((q[3] != "0").then(|| "fetches not finite".into()));
                counts.extend((q[4] != "0").then(|| "fetches with NaN likelihoods".into()));
                vector = format!("{} {} {}", bits(&q[5..]), q[3], q[4]);
            }
            format!("fetch {} {}", v[1], v[2])
        }
    };
    counts.extend((v[0] == "n").then(|| "windows".into()));
    counts.extend((q[0] != "0").then(|| format!("stream calls refused {}", q[0])));
    Made { text, answer: format!("said {} {} {} {vector}", q[0], q[1], q[2]), counts }
}

/// A call on a silence table; of its answer the refusal number and the changes that it gave.
fn silence_call(v: &[&str], q: &[&str]) -> (String, String, Vec<String>) {
    let mut rest = &v[2..];
    let text = if v[0] == "b" {
        let [ps, starts, ends] = [0; 3].map(|_| counted(&mut rest));
        format!("traceback {} {} {} {}", v[1], phones(ps), list(starts), list(ends))
    } else {
        format!("weights {}", v[1..].join(" "))
    };
    let mut counts = vec!["silence calls".to_string()];
    counts.extend((q[0] != "0").then(|| format!("silence calls refused {}", q[0])));
    (text, changes(q.get(2..).unwrap_or(&[])), counts)
}

/// A step over registers: the vector buffer is all zeros before it.
fn step(v: &[&str], q: &[&str]) -> Made {
    let mut rest = &v[2..];
    let (frame, m) = (counted(&mut rest), number(v[1]));
    let (block, after) = (bytes(rest[1]), q.get(1).map(|b| bytes(b)));
    let vector = if q.len() > 2 { bits(&q[2..]) } else { zeros(m, "0") };
    let mut counts = vec!["steps".to_string()];
    counts.extend((q[0] != "0").then(|| format!("steps answered {}", q[0])));
    counts.extend((q.len() > 2).then(|| "steps that fetch".into()));
    Made { text: format!("step {block} {} {m}", floats(frame)), answer: format!("leaving {} {} {vector}", q[0], after.unwrap_or(block)), counts }
}

/// A round: its lists for the changes and its output are all zeros before it.
fn round(v: &[&str], q: &[&str]) -> Made {
    let mut rest = &v[2..];
    let [frames, ps, starts, ends] = [0; 4].map(|_| counted(&mut rest));
    let (lent, voices) = (cut(&mut rest, 3), cut(&mut rest, 1)[0]);
    let (enrolled, limit) = (counted(&mut rest), cut(&mut rest, 1)[0]);
    let said = ["start", "numbers", "phones", "starts", "ends"];
    let utterance = record(&said, [v[1].to_string(), floats(frames), phones(ps), list(starts), list(ends)]);
    let voices = record(&["count", "enrolled", "limit"], [voices.to_string(), bits(enrolled), float(limit)]);

    let (mut rest, mut what) = (&q[1..], "rounds full".to_string());
    let [mut refusal, mut step, mut found, mut index, mut distance] = ["0", "0", "false", "0", "00000000"];
    match q[0] {
        "1" => {
            [refusal, step] = [cut(&mut rest, 1)[0], cut(&mut rest, 1)[0]];
            what = format!("rounds refused {refusal} at step {step}");
        }
        "2" => what = "rounds without a vector".into(),
        "3" => {}
        _ => {
            [found, index, distance] = ["true", cut(&mut rest, 1)[0], cut(&mut rest, 1)[0]];
            what += ", with a voice";
        }
    }
    let full = ["3", "4"].contains(&q[0]).to_string();
    let ending = record(&OUTCOME, [refusal, step, &full, found, index, &float(distance)]);
    let given = rest.first().map_or(0, |n| 1 + 2 * number(n));
    let given = changes(cut(&mut rest, given).get(1..).unwrap_or(&[]));
    let out = if rest.is_empty() { zeros(number(lent[2]), "0") } else { bits(rest) };
    Made {
        text: format!("turn {utterance} {voices} {}", lent.join(" ")),
        answer: format!("ending {ending} {given} {out}"),
        counts: vec!["rounds".into(), what],
    }
}

/// The same with another last digit, or the other truth value.
fn wrong(right: &str) -> String {
    match right.rfind(|c: char| c.is_ascii_digit()) {
        Some(i) => format!("{}{}{}", &right[..i], (right.as_bytes()[i] - b'0' + 1) % 10, &right[i + 1..]),
        None if right == "true" => "false".into(),
        None => "true".into(),
    }
}

// ---- a module of equations

struct Limits {
    calls: usize,
    bytes: usize,
    numbers: usize,
    equations: usize,
    wrong: bool,
    past: HashMap<(String, String), u32>,
}

struct Module<'a> {
    limits: &'a Limits,
    counts: &'a mut BTreeMap<String, usize>,
    name: String,
    text: String,
    names: usize,
    seen: HashSet<String>,
    /// How many equations of each sort it has.
    made: HashMap<String, usize>,
}

/// A call, its answer (empty where it has none), and what it counts as.
struct Made {
    text: String,
    answer: String,
    counts: Vec<String>,
}

/// A list of calls, and what they are made on.
struct Calls {
    what: &'static str,
    name: String,
    on: String,
    calls: Vec<Made>,
}

impl Module<'_> {
    fn count(&mut self, what: &str) {
        *self.counts.entry(what.into()).or_default() += 1;
    }
    fn new_name(&mut self, stem: &str) -> String {
        self.names += 1;
        format!("{stem}{}", self.names)
    }
    /// How often the prover could not compute an equation.
    fn past(&self, name: &str) -> u32 {
        self.limits.past.get(&(self.name.clone(), name.into())).copied().unwrap_or(0)
    }
    fn abbrev(&mut self, stem: &str, kind: &str, value: &str) -> String {
        let name = self.new_name(stem);
        write!(self.text, "\nabbrev {name} : {kind}\n{name} = {value}\n").unwrap();
        name
    }
    fn state(&mut self, name: &str, left: &str, right: &str) {
        let right = if self.limits.wrong { &wrong(right) } else { right };
        write!(self.text, "\n{name} : {left}\n    ≡ {right}\nunfolding opened\n{name} = refl\n").unwrap();
        self.count("equations");
    }
    /// Whether there may be one more equation of a sort: a list's calls, or the first word of what it counts as.
    fn has_room(&mut self, sort: &str) -> bool {
        let made = self.made.entry(sort.into()).or_default();
        *made += 1;
        *made <= self.limits.equations
    }
    /// An equation, unless it stands already.
    fn equation(&mut self, left: &str, right: &str, what: &str) {
        let name = self.new_name("equation");
        if self.past(&name) > 0 {
            println!("left out: {} {name}, {what}", self.name);
        } else if self.seen.insert(format!("{left} ≡ {right}")) && self.has_room(what.split(' ').next().unwrap()) {
            self.state(&name, left, right);
            self.count(what);
        }
    }
    fn calls(&mut self, c: Calls) {
        let n = c.calls.len().min(self.limits.calls) >> self.past(&c.name);
        if n < c.calls.len() {
            println!("cut: {} {}, {n} of {} calls", self.name, c.name, c.calls.len());
        }
        if n > 0 && self.has_room(c.what) {
            let kept = &c.calls[..n];
            let answers = kept.iter().map(|x| &x.answer).filter(|a| !a.is_empty());
            self.state(&c.name, &format!("{}\n    {}", c.on, list(kept.iter().map(|x| &x.text))), &list(answers));
            self.count(&format!("lists of {}", c.what));
            kept.iter().flat_map(|x| &x.counts).for_each(|what| self.count(what));
        }
    }
}

// ---- a session

/// A session with steps or rounds: its first model, whether a stream and a table stand, and all calls on them.
#[derive(Default)]
struct Desk {
    model: Option<String>,
    stream: bool,
    table: bool,
    events: Vec<Made>,
}

/// A model's name, that with the tables as they are lent, and the record.
#[derive(Clone)]
struct Loaded {
    name: String,
    lent: String,
    record: Record,
}

#[derive(Default)]
struct Session<'a> {
    options: Vec<String>,
    files: [&'a str; 4],
    model: Option<Loaded>,
    stream: Option<(Record, Calls)>,
    silence: Option<(Vec<String>, Calls)>,
    desk: Option<Desk>,
}

impl<'a> Session<'a> {
    /// Notes options and files.
    fn given(&mut self, v: &[&'a str]) {
        if v[0] == "o" {
            self.options = v[1..].iter().map(|x| x.to_string()).collect();
        } else if let Some(i) = "gelc".find(v[0]) {
            self.files[i] = v[2];
        }
    }
    /// A call on the desk, unless it is forged, or what it is made on does not stand.
    fn event(&mut self, m: &mut Module, made: Made, forged: bool, stands: impl Fn(&Desk) -> bool) {
        let Some(d) = &mut self.desk else { return };
        let what = &made.counts[0];
        if !stands(d) {
            m.count(&format!("{what} left out, without stream or table"));
        } else if forged {
            m.count(&format!("{what} left out, forged among steps or rounds"));
        } else {
            d.events.push(made);
        }
    }
    /// The lists of calls end here. A stream's record, as its calls leave it, is not broken.
    fn close(&mut self, m: &mut Module, stream: bool, silence: bool) {
        if let Some((r, calls)) = self.stream.take_if(|_| stream) {
            m.calls(calls);
            m.equation(&r.declined(&r.lengths), "false", "records not broken");
        }
        if let Some((_, calls)) = self.silence.take_if(|_| silence) {
            m.calls(calls);
        }
    }
    /// A load. `k`: the tables that options and files give. The lent lengths do not matter where a load is refused before 8.
    fn load(&mut self, m: &mut Module, (v, q): &Line, k: Option<&Vec<&str>>) {
        let mut r = Record { fields: self.options.clone(), lengths: vec![0; 8], ..Record::default() };
        let (mut scratch, mut right) = (0, format!("refused {}", q[0]));
        if let Some(k) = k {
            r.fields.extend(k[..6].iter().chain(&["0"; 4]).map(|x| x.to_string()));
            let window = r.fields[2].clone();
            r.fields.extend([window.clone(), window]);
            r.prior = k[6].into();
            let (tables, _, load_scratch) = r.needs();
            (r.lengths, scratch) = (lengths(&tables, &v[1..]), load_scratch);
            if q[0] == "0" {
                if k.len() > m.limits.numbers {
                    return m.count("models too large");
                }
                let mut words = &k[7..];
                let mut tables: Vec<Vec<&str>> = tables.map(|n| cut(&mut words, n).to_vec()).into();
                let model = |tables: &[Vec<&str>]| {
                    let tables: Vec<String> = tables.iter().map(|t| floats(t)).collect();
                    record(&["info", "tables"], [r.info(), format!("tables_from {}", tables.join(" "))])
                };
                let name = m.abbrev("model", "Model", &model(&tables));
                // a room that is longer than its table holds zeros past it
                let longer = tables.iter().zip(&r.lengths).any(|(t, n)| (t.len() as i128) < *n);
                let wide = ["00000000", "0000000000000000"];
                tables.iter_mut().zip([0, 0, 0, 1, 1, 0, 0, 1]).zip(&r.lengths).for_each(|((t, w), n)| t.resize(*n as usize, wide[w]));
                let lent = if longer && self.desk.is_some() { m.abbrev("lent", "Model", &model(&tables)) } else { name.clone() };
                right = format!("read {name} 0");
                if let Some(d) = &mut self.desk {
                    d.model.get_or_insert(name.clone());
                }
                self.model = Some(Loaded { name, lent, record: r.clone() });
            }
        } else if q[0] == "0" || q[0] == "8" {
            return m.count("loads without tables");
        }
        if self.files.iter().map(|f| f.len() / 2).sum::<usize>() > m.limits.bytes {
            return m.count("loads with too many bytes");
        }
        let files = record(&["gmm", "extractor", "lda", "cmvn"], self.files.map(bytes));
        let left = format!("load {} {files}\n    {} {scratch}", r.options(), record(&TABLES, &r.lengths));
        m.equation(&left, &right, &format!("loads {}", outcome(q[0])));
    }
    fn fresh(&mut self, m: &mut Module, (v, q): &Line, forging: &[Vec<&str>]) {
        let Some(Loaded { name, lent: model, record: mut r }) = self.model.clone() else { return m.count("streams without tables") };
        r.lengths.extend(v[1..5].iter().map(|x| number(x)));
        r.lengths.extend(lengths(&r.needs().1, &v[5..]));
        let (f, lent) = r.forged(forging);
        m.equation(&format!("new_refusal {} {} {}", f.info(), record(&TABLES, lent), r.rooms()), q[0], &format!("fresh streams {}", outcome(q[0])));
        if q[0] != "0" {
            return;
        }
        if let Some(d) = &mut self.desk {
            let z = &r.lengths[8..];
            let rings = [zeros(z[0], "zero₃₂"), zeros(z[1], "zero₆₄"), zeros(z[2], "0"), zeros(z[3], "zero₃₂")].join(" ");
            let estimate: Vec<String> = z[4..8].iter().map(|n| zeros(*n, "zero₆₄")).collect();
            let text = format!("make_stream {model} (rooms_from (rings_from {rings}) (estimate_from {})) {}", estimate.join(" "), z[8]);
            let answer = format!("answered (said {} [] 0 0)", q.join(" "));
            d.events.push(Made { text, answer, counts: vec!["streams of steps or rounds".into()] });
            d.stream = true;
        } else {
            let calls = Calls { what: "stream calls", name: m.new_name("calls"), on: format!("answers {name} {}", r.rings()), calls: vec![] };
            r.made = true;
            self.stream = Some((r, calls));
        }
    }
    fn call(&mut self, m: &mut Module, (v, q): &Line, forging: &[Vec<&str>]) {
        if self.desk.is_some() {
            let made = stream_call(v, q);
            let made = Made { text: format!("plain ({})", made.text), answer: format!("answered ({})", made.answer), ..made };
            return self.event(m, made, !forging.is_empty(), |d| d.stream);
        }
        let Some((r, calls)) = &mut self.stream else { return };
        if !forging.is_empty() {
            let (f, lent) = r.forged(forging);
            m.equation(&f.declined(&lent), if q[0] == "10" { "true" } else { "false" }, &format!("forged stream calls {}", outcome(q[0])));
            if v[0] == "p" && q[0] != "10" {
                let (info, numbers) = (m.abbrev("info", "IvectorInfo", &f.info()), floats(&v[2..]));
                let tests =
                    format!("push_tests {info}.dims {} {} {} {} {numbers}", f.rings(), f.field("longest"), f.field("accepted"), f.field("mark"));
                m.equation(&format!("first_of ({tests})"), q[0], "forged pushes past 10");
            }
            return;
        }
        r.called(v, q);
        calls.calls.push(stream_call(v, q));
    }
    fn table(&mut self, m: &mut Module, (v, q): &Line) {
        let fields = [&float(v[2]), v[3], v[4], v[1], "(decoder 0)"].map(String::from);
        let settings = format!("{} ({}) {}", v[4], fields[0], v[3]);
        let table = record(&SILENCE, &fields);
        let right = if q[0] == "0" { format!("Ok {table}") } else { format!("Err {}", q[0]) };
        m.equation(&format!("settings_refusal {settings}"), q[0], "silence settings");
        m.equation(&format!("new_table {settings} {}", v[1]), &right, &format!("silence tables {}", outcome(q[0])));
        if let Some(d) = &mut self.desk {
            d.table = q[0] == "0";
            if d.table {
                let text = format!("make_table {} ({}) {} {}", phones(&v[5..]), fields[0], v[3], v[1]);
                d.events.push(Made { text, answer: "refusing 0".into(), counts: vec!["tables of rounds".into()] });
            }
        } else if q[0] == "0" {
            let calls =
                Calls { what: "silence calls", name: m.new_name("queries"), on: format!("heard {table} {} []", phones(&v[5..])), calls: vec![] };
            self.silence = Some((fields.to_vec(), calls));
        }
    }
    fn query(&mut self, m: &mut Module, (v, q): &Line, forging: &[Vec<&str>]) {
        let (text, given, counts) = silence_call(v, q);
        if self.desk.is_some() {
            let made = Made { text: format!("ask ({text})"), answer: format!("giving {} {given}", q[0]), counts };
            return self.event(m, made, !forging.is_empty(), |d| d.table);
        }
        let Some((fields, calls)) = &mut self.silence else { return };
        if !forging.is_empty() {
            let (mut f, mut lent) = (fields.clone(), number(&fields[3]));
            for y in forging {
                match y[1] {
                    "r" => lent = (lent + number(y[2])).max(0),
                    "w" => f[0] = float(y[2]),
                    "s" => f[1] = y[2].into(),
                    "p" => f[2] = y[2].into(),
                    _ => f[4] = format!("(decoder {})", y[2]),
                }
            }
            let left = format!("table_broken {} {lent} {lent} {lent}", record(&SILENCE, &f));
            return m.equation(&left, if q[0] == "10" { "true" } else { "false" }, &format!("forged silence calls {}", outcome(q[0])));
        }
        calls.calls.push(Made { text, answer: format!("({}, {given})", q[0]), counts });
    }
    /// A round. `x` lines are of its first step, which they refuse; `y` lines of its third, and what was done before that remains done.
    fn round(&mut self, m: &mut Module, (v, q): &Line, x: &[Vec<&str>], y: &[Vec<&str>]) {
        let stands = |d: &Desk| d.stream && d.table;
        self.event(m, round(v, q), !x.is_empty() || !y.is_empty(), stands);
        if x.is_empty() && !y.is_empty() {
            let text = format!("begun {} {}", v[1], floats(counted(&mut &v[2..])));
            self.event(m, Made { text, answer: String::new(), counts: vec!["rounds begun".into()] }, false, stands);
        }
    }
}

fn session(m: &mut Module, lines: &[Line]) {
    let (mut s, mut tables) = (Session::default(), HashMap::new());
    for (v, q) in lines {
        s.given(v);
        if v[0] == "k" {
            tables.insert((s.options.clone(), s.files), q.clone());
        }
    }
    s = Session::default();
    s.desk = lines.iter().any(|(v, _)| matches!(v[0], "r" | "u")).then(Desk::default);
    let (mut x, mut y) = (vec![], vec![]);
    for line in lines {
        let v = &line.0;
        s.given(v);
        match v[0] {
            "m" => {
                s.close(m, true, false);
                s.model = None;
                s.desk.iter_mut().for_each(|d| d.stream = false);
                let k = tables.get(&(s.options.clone(), s.files));
                s.load(m, line, k);
            }
            "s" => {
                s.close(m, true, false);
                s.desk.iter_mut().for_each(|d| d.stream = false);
                s.fresh(m, line, &std::mem::take(&mut x));
            }
            "p" | "f" | "w" | "d" | "n" | "v" => s.call(m, line, &std::mem::take(&mut x)),
            "t" => {
                s.close(m, false, true);
                s.table(m, line);
            }
            "b" | "a" => s.query(m, line, &std::mem::take(&mut y)),
            "r" => s.event(m, step(v, &line.1), !std::mem::take(&mut x).is_empty(), |d| d.stream),
            "u" => s.round(m, line, &std::mem::take(&mut x), &std::mem::take(&mut y)),
            "x" => x.push(v.clone()),
            "y" => y.push(v.clone()),
            _ => {}
        }
    }
    s.close(m, true, true);
    if let Some(Desk { model: Some(model), events, .. }) = s.desk {
        let name = m.new_name("events");
        m.calls(Calls { what: "events", name, on: format!("events (bare {model})"), calls: events });
    }
}

fn main() {
    let args: Vec<String> = std::env::args().skip(1).collect();
    let file = |path: &str| std::fs::read_to_string(path).unwrap_or_else(|e| panic!("{path}: {e}"));
    let option = |name: &str| args.iter().position(|a| a == name).map(|i| args[i + 1].clone());
    let count = |name: &str, default: usize| option(name).map_or(default, |n| n.parse().expect("a number"));
    let mut limits = Limits {
        calls: count("--calls", usize::MAX),
        bytes: count("--bytes", 8000),
        numbers: count("--numbers", 20_000),
        equations: count("--equations", usize::MAX),
        wrong: args.iter().any(|a| a == "--wrong"),
        past: HashMap::new(),
    };
    for line in option("--past").map_or(String::new(), |p| file(&p)).lines() {
        let (path, rest) = line.split_once(".antt:").expect("a line of the prover");
        let equation = rest.split('`').nth(1).expect("a line of the prover");
        *limits.past.entry((path.rsplit('/').next().unwrap().into(), equation.into())).or_default() += 1;
    }
    let (script, answers) = (file(&args[0]), file(&args[1]));
    let mut answer = answers.lines();
    let mut sessions: Vec<Vec<Line>> = vec![vec![]];
    for line in script.lines() {
        let v: Vec<&str> = line.split(' ').collect();
        match v[0] {
            "z" => sessions.push(vec![]),
            c => {
                let q = "mkspfwdnvtbaru".find(c).map_or("", |_| answer.next().expect("an answer"));
                sessions.last_mut().unwrap().push((v, q.split(' ').collect()));
            }
        }
    }
    assert!(answer.next().is_none(), "more answers than commands");
    let (mut counts, mut modules) = (BTreeMap::new(), String::new());
    for (i, lines) in sessions.iter().enumerate() {
        let name = format!("S{}", count("--first", 1) + i);
        let mut m =
            Module { limits: &limits, counts: &mut counts, name, text: head::HEAD.into(), names: 0, seen: HashSet::new(), made: HashMap::new() };
        session(&mut m, lines);
        if !m.seen.is_empty() || m.text.len() > head::HEAD.len() {
            m.count("sessions");
            writeln!(modules, "pub mod {}", m.name).unwrap();
            std::fs::write(format!("{}/{}.antt", args[2], m.name), m.text).expect("the folder");
        }
    }
    std::fs::write(format!("{}/Words.antt", args[2]), head::WORDS).expect("the folder");
    std::fs::write(format!("{}/Lib.antt", args[2]), format!("pub mod Words\n{modules}")).expect("the folder");
    counts.iter().for_each(|(what, n)| println!("{n} {what}"));
}
