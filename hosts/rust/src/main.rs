//! The program `shofrakin`: vectors of a Kaldi archive of features, and what a model is.
mod output;
mod standard;

use output::Output;
use shofrakin::archive::{write_matrix, Archive, ArchiveError, Specifier};
use shofrakin::{IvectorInfo, IvectorStream, Refusal, Room, MODEL_FILES, SETTINGS_FILES};
use standard::Messages;
use std::fs::File;
use std::io::{self, ErrorKind, Read, Write};
use std::path::Path;
use std::process::ExitCode;
use std::time::{Duration, Instant};

const USAGE: &str = "\
shofrakin extract [--ivector-period=10] [--max-frames=N] MODEL FEATS OUT
    Reads an archive of feature matrices, a matrix for an utterance, and writes an archive with a matrix of i-vectors for each: the vectors
    at the frames 0, PERIOD, 2 PERIOD and so on. Every utterance is a fresh stream, and what is behind is forgotten on the way.
      MODEL   a folder with final.dubm, final.ie, final.mat and global_cmvn.stats; splice.conf and online_cmvn.conf count where they are there
      FEATS   ark:FILE, ark,t:FILE or FILE, - for standard input: an archive, text or binary
      OUT     likewise, - for standard output; ark,t: writes text. A file is written beside its place, and takes it when all is read and written:
              else what was there stays. It is none of the files that are read
    --ivector-period=N   1 to 1,000,000
    --max-frames=N       how many frames a stream has room for; as many as the period and the contexts need if it is not given

shofrakin info MODEL
    Prints the model's dimensions, its options and the memory that it and a stream need.

Exit status: 0; 1 where something is refused, damaged or can't be read or written, a message too; 2 for a wrong command line. Where nobody reads
the output any more, nothing is said.
";

/// What ends the program: a wrong command line, a message about something else, or an output that nobody reads.
enum Fault {
    Usage(String),
    Other(String),
    Unread,
}

fn other(e: impl ToString) -> Fault {
    Fault::Other(e.to_string())
}

/// An output's error.
fn unwritten(name: &str, e: io::Error) -> Fault {
    match e.kind() {
        ErrorKind::BrokenPipe => Fault::Unread,
        _ => Fault::Other(format!("{name}: {e}")),
    }
}

fn main() -> ExitCode {
    let mut messages = Messages::new();
    let status = match run(&mut messages) {
        Ok(true) => 0,
        Ok(false) => 1,
        Err(Fault::Usage(s)) => {
            messages.show(&format!("shofrakin: {s}\n\n{USAGE}"));
            2
        }
        Err(Fault::Other(s)) => {
            messages.line(&s);
            1
        }
        Err(Fault::Unread) => {
            messages.show("");
            1
        }
    };
    ExitCode::from(if messages.lost() { status.max(1) } else { status })
}

/// True where nothing was refused.
fn run(messages: &mut Messages) -> Result<bool, Fault> {
    if let Some(name) = standard::closed() {
        return Err(other(format!("{name} is closed")));
    }
    let words = std::env::args_os().skip(1).map(|w| w.into_string().map_err(|w| Fault::Usage(format!("{}: not UTF-8", w.to_string_lossy()))));
    let words: Vec<String> = words.collect::<Result<_, _>>()?;
    let (options, rest): (Vec<&str>, Vec<&str>) = words.iter().map(String::as_str).partition(|w| w.starts_with("--"));
    if options.contains(&"--help") {
        return print(USAGE);
    }
    match rest[..] {
        ["extract", model, feats, out] => extract(&options, model, feats, out, messages),
        ["info", model] if options.is_empty() => info(model),
        _ => Err(Fault::Usage("no such command".into())),
    }
}

/// On the standard output.
fn print(text: &str) -> Result<bool, Fault> {
    let printed = Output::open(None, &[]).and_then(|mut to| {
        to.write_all(text.as_bytes())?;
        to.end(true)
    });
    printed.map_err(|e| unwritten("standard output", e))
}

/// The value of `--name=value`.
fn option(options: &[&str], name: &str) -> Result<Option<usize>, Fault> {
    let Some(v) = options.iter().rev().find_map(|w| w.strip_prefix("--")?.strip_prefix(name)?.strip_prefix('=')) else {
        return Ok(None);
    };
    match v.parse() {
        Ok(n) if (1..=1_000_000).contains(&n) => Ok(Some(n)),
        _ => Err(Fault::Usage(format!("--{name}={v}: not a number from 1 to 1,000,000"))),
    }
}

/// True where nothing was refused.
fn extract(options: &[&str], model: &str, feats: &str, out: &str, messages: &mut Messages) -> Result<bool, Fault> {
    if let Some(w) = options.iter().find(|w| !w.starts_with("--ivector-period=") && !w.starts_with("--max-frames=")) {
        return Err(Fault::Usage(format!("unknown option {w}")));
    }
    let period = option(options, "ivector-period")?.unwrap_or(10);
    let max_frames = option(options, "max-frames")?;
    let from = Specifier::parse(feats).map_err(Fault::Usage)?;
    let to = Specifier::parse(out).map_err(Fault::Usage)?;

    let info = IvectorInfo::open(Path::new(model)).map_err(other)?;
    let unread = |e| other(format!("{}: {e}", from.file.as_ref().map_or("standard input".into(), |p| p.display().to_string())));
    let input = from.file.as_ref().map_or_else(standard::input, File::open).map_err(unread)?;
    let mut read = vec![input.metadata().map_err(unread)?];
    read.extend(MODEL_FILES.iter().chain(&SETTINGS_FILES).filter_map(|name| Path::new(model).join(name).metadata().ok()));
    let unwritten = |e| unwritten(out, e);
    let mut output = Output::open(to.file.as_deref(), &read).map_err(unwritten)?;
    // every vector begins an utterance: at most a period is pushed from one to the next, and before the first as much as makes it ready
    let enough = Room { waiting: 0, ..Room::for_utterances(&info, period.max(info.options().right_context + 1)) };
    let room = Room { frames: max_frames.unwrap_or(enough.frames), ..enough };

    let mut archive = Archive::new(input);
    let mut tally = Tally::new(messages);
    let damaged = loop {
        let key = match archive.next_key() {
            Ok(Some(k)) => k.to_vec(),
            Ok(None) => break None,
            Err(e) => break Some(e),
        };
        match utterance(&info, room, period, &mut archive, &mut tally) {
            Ok(Ok(u)) => {
                write_matrix(&mut output, to.form, &key, info.ivector_dim(), &u.vectors).map_err(unwritten)?;
                tally.written += 1;
                if u.not_finite + u.nan_likelihoods > 0 {
                    tally.messages.line(&format!(
                        "utterance {}: {} elements of its vectors are not finite, {} likelihoods were NaN",
                        String::from_utf8_lossy(&key),
                        u.not_finite,
                        u.nan_likelihoods
                    ));
                }
            }
            Ok(Err((frame, r))) => {
                tally.refused += 1;
                tally.messages.line(&format!("utterance {}, frame {frame}: {r}", String::from_utf8_lossy(&key)));
            }
            Err(e) => break Some(e),
        }
    };
    // where each utterance is refused there is nothing to put in the place of what was there
    let whole = damaged.is_none() && (tally.written > 0 || tally.refused == 0);
    let stands = output.end(whole).map_err(unwritten)?;
    if !stands {
        tally.written = 0;
    }
    tally.end();
    if !stands {
        tally.messages.line(&format!("{out}: left as it was"));
    }
    if let Some(e) = damaged {
        return Err(other(format!("{feats}: {e}")));
    }
    Ok(tally.refused == 0)
}

/// An utterance's vectors one after the other, and how many of their numbers, and of the likelihoods on the way, were none.
struct Vectors {
    vectors: Vec<f32>,
    not_finite: usize,
    nan_likelihoods: usize,
}

/// An utterance on a fresh stream; the inner Err is the frame at which a call was refused.
#[allow(clippy::type_complexity)]
fn utterance(
    info: &IvectorInfo,
    room: Room,
    period: usize,
    archive: &mut Archive<impl Read>,
    tally: &mut Tally,
) -> Result<Result<Vectors, (usize, Refusal)>, ArchiveError> {
    let mut stream = match IvectorStream::new(info, room) {
        Ok(s) => s,
        Err(r) => return Ok(Err((0, r))),
    };
    let dim = info.ivector_dim();
    let mut u = Vectors { vectors: Vec::new(), not_finite: 0, nan_likelihoods: 0 };
    // every vector whose frame is ready, and nothing kept behind it
    let mut fetch = |stream: &mut IvectorStream| -> Result<(), (usize, Refusal)> {
        loop {
            let n = u.vectors.len();
            let at = n / dim * period;
            if at >= stream.num_frames_ready() {
                return Ok(());
            }
            u.vectors.resize(n + dim, 0.0);
            let a = stream.get_frame(at, &mut u.vectors[n..]).map_err(|r| (at, r))?;
            u.not_finite += a.not_finite;
            u.nan_likelihoods += a.nan_likelihoods;
            stream.forget_before(at + 1).map_err(|r| (at, r))?;
        }
    };
    let (mut row, mut frames) = (Vec::new(), 0);
    while archive.next_row(&mut row)? {
        if let Err(e) = stream.push_frame(&row).map_err(|r| (frames, r)).and_then(|_| fetch(&mut stream)) {
            return Ok(Err(e));
        }
        frames += 1;
        tally.frame();
    }
    Ok(stream.set_input_finished().map_err(|r| (frames, r)).and_then(|_| fetch(&mut stream)).map(|()| {
        tally.utterances += 1;
        u
    }))
}

/// What was done, said on standard error: while it goes on only to a terminal.
struct Tally<'a> {
    messages: &'a mut Messages,
    began: Instant,
    said: Instant,
    utterances: u64,
    frames: u64,
    written: u64,
    refused: u64,
}

impl Tally<'_> {
    fn new(messages: &mut Messages) -> Tally<'_> {
        let now = Instant::now();
        Tally { messages, began: now, said: now, utterances: 0, frames: 0, written: 0, refused: 0 }
    }

    fn rate(&self) -> String {
        let s = self.began.elapsed().as_secs_f64();
        format!("frames: {}, {:.0} a second", self.frames, self.frames as f64 / s.max(1e-9))
    }

    fn frame(&mut self) {
        self.frames += 1;
        if self.messages.terminal() && self.frames & 63 == 0 && self.said.elapsed() > Duration::from_millis(200) {
            self.said = Instant::now();
            self.messages.show(&format!("utterances: {}; {}", self.utterances, self.rate()));
        }
    }

    fn end(&mut self) {
        self.messages.line(&format!("utterances: {} written, {} refused; {}", self.written, self.refused, self.rate()));
    }
}

fn info(model: &str) -> Result<bool, Fault> {
    let info = IvectorInfo::open(Path::new(model)).map_err(other)?;
    let (d, o, room) = (info.dimensions(), info.options(), Room::default());
    let memory = |room: Room| Ok(room.memory(&info).map_err(other)? + std::mem::size_of::<IvectorStream>());
    let (bytes, more) = (memory(room)?, memory(Room { frames: room.frames + 1, ..room })?);
    let text = format!(
        "\
model            {model}
Gaussians        {} in the GMM, {} in the extractor
dimensions       base {}, feature {}, i-vector {}, LDA columns {}
prior offset     {}
left-context     {}
right-context    {}
cmn-window       {}
global-frames    {}
cmn-min-energy   {}
num-gselect      {}
min-post         {}
posterior-scale  {}
max-count        {}
num-cg-iters     {}
memory           {} bytes of tables
a stream         {} bytes with room for {} frames, {} rows and {} changes; {} for a frame more
",
        d.num_gauss,
        d.ext_gauss,
        d.base_dim,
        d.feat_dim,
        d.ivector_dim,
        d.lda_cols,
        info.prior_offset(),
        o.left_context,
        o.right_context,
        o.cmn_window,
        o.global_frames,
        o.min_energy,
        o.num_gselect,
        o.min_post,
        o.posterior_scale,
        o.max_count,
        o.num_cg_iters,
        info.memory(),
        bytes,
        room.frames,
        room.rows_for(&info),
        room.waiting,
        more - bytes,
    );
    print(&text)
}
