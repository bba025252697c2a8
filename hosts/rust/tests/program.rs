//! The program, run: vectors of an archive, what a model is, and what it says where something is wrong.
use shofrakin::archive::{write_matrix, Archive, Form};
use shofrakin::{IvectorInfo, IvectorStream, Room};
use std::io::Write;
use std::path::{Path, PathBuf};
use std::process::{Command, Stdio};

const MODEL: &str = concat!(env!("CARGO_MANIFEST_DIR"), "/../../examples/model");
const FEATURES: &str = concat!(env!("CARGO_MANIFEST_DIR"), "/../../examples/features.txt");

/// Exit status, standard output, standard error.
fn run(args: &[&str], stdin: &[u8]) -> (i32, Vec<u8>, String) {
    let mut p =
        Command::new(env!("CARGO_BIN_EXE_shofrakin")).args(args).stdin(Stdio::piped()).stdout(Stdio::piped()).stderr(Stdio::piped()).spawn().unwrap();
    let mut to = p.stdin.take().unwrap();
    let bytes = stdin.to_vec();
    // the program may end before it has read all
    let writer = std::thread::spawn(move || drop(to.write_all(&bytes)));
    let out = p.wait_with_output().unwrap();
    writer.join().unwrap();
    (out.status.code().unwrap(), out.stdout, String::from_utf8(out.stderr).unwrap())
}

fn features() -> Vec<Vec<f32>> {
    let text = std::fs::read_to_string(FEATURES).unwrap();
    text.lines().map(|l| l.split_whitespace().map(|x| x.parse().unwrap()).collect()).collect()
}

/// The examples' frames as an utterance `one`, and the first 13 of them as `two`.
fn archive(form: Form) -> Vec<u8> {
    let (all, mut b) = (features(), Vec::new());
    write_matrix(&mut b, form, b"one", 4, &all.concat()).unwrap();
    write_matrix(&mut b, form, b"two", 4, &all[..13].concat()).unwrap();
    b
}

/// The vectors at every `period`-th frame, of a stream that is given all frames first and forgets nothing.
fn vectors(frames: &[Vec<f32>], period: usize) -> Vec<f32> {
    let info = IvectorInfo::open(Path::new(MODEL)).unwrap();
    let mut s = IvectorStream::new(&info, Room::default()).unwrap();
    for f in frames {
        s.push_frame(f).unwrap();
    }
    s.set_input_finished().unwrap();
    let mut v = Vec::new();
    for t in (0..frames.len()).step_by(period) {
        let mut out = vec![0.0; info.ivector_dim()];
        s.get_frame(t, &mut out).unwrap();
        v.extend(out);
    }
    v
}

fn read(bytes: &[u8]) -> Vec<(Vec<u8>, Vec<f32>)> {
    let mut a = Archive::new(bytes);
    let (mut all, mut row) = (Vec::new(), Vec::new());
    while let Some(key) = a.next_key().unwrap() {
        let (key, mut numbers) = (key.to_vec(), Vec::new());
        while a.next_row(&mut row).unwrap() {
            numbers.extend(&row);
        }
        all.push((key, numbers));
    }
    all
}

fn scratch(name: &str) -> PathBuf {
    let dir = Path::new(env!("CARGO_TARGET_TMPDIR")).join(name);
    let _ = std::fs::remove_dir_all(&dir);
    std::fs::create_dir_all(&dir).unwrap();
    dir
}

#[test]
fn vectors_of_an_archive() {
    let all = features();
    for period in [1, 7, 10, 1000] {
        let want = vec![(b"one".to_vec(), vectors(&all, period)), (b"two".to_vec(), vectors(&all[..13], period))];
        let option = format!("--ivector-period={period}");
        for form in [Form::Text, Form::Binary] {
            for to in ["-", "ark:-", "ark,t:-"] {
                let (status, out, said) = run(&["extract", &option, MODEL, "ark:-", to], &archive(form));
                assert_eq!(status, 0, "{said}");
                assert_eq!(read(&out), want);
                assert_eq!(out.starts_with(b"one  ["), to == "ark,t:-");
                let frames = all.len() + 13;
                assert!(said.starts_with(&format!("shofrakin: utterances: 2 written, 0 refused; frames: {frames}, ")), "{said}");
                assert_eq!(said.lines().count(), 1, "{said}");
            }
        }
    }
}

#[test]
fn files_are_read_and_written() {
    let dir = scratch("files");
    let (from, to) = (dir.join("feats.ark"), dir.join("out.ark"));
    std::fs::write(&from, archive(Form::Binary)).unwrap();
    let (status, out, said) = run(&["extract", MODEL, from.to_str().unwrap(), &format!("ark,t:{}", to.display())], b"");
    assert_eq!((status, out), (0, vec![]), "{said}");
    assert_eq!(read(&std::fs::read(&to).unwrap())[0].1, vectors(&features(), 10));
}

#[test]
fn what_is_refused() {
    // of three utterances the second has a number that is not finite: the others are written
    let input = b"a [ 1 2 3 4 ]\nb [ 1 2 3 4\n 1 2 3 4\n 1 nan 3 4\n 1 2 3 4 ]\nc [ 1 2 3 4 ]\n";
    let (status, out, said) = run(&["extract", MODEL, "-", "-"], input);
    assert_eq!(status, 1);
    assert!(said.starts_with("shofrakin: utterance b, frame 2: refused, 12: a number of the frame is not finite\n"), "{said}");
    assert!(said.contains("utterances: 2 written, 1 refused"), "{said}");
    assert_eq!(read(&out).iter().map(|u| u.0[0]).collect::<Vec<_>>(), b"ac");
    // features of another dimension
    let (status, out, said) = run(&["extract", MODEL, "-", "-"], b"a [ 1 2 3 ]\n");
    assert_eq!((status, out), (1, vec![]));
    assert!(said.starts_with("shofrakin: utterance a, frame 0: refused, 11: the frame's length is not the model's base dimension\n"), "{said}");
    // a room that is too small for the period
    let (status, _, said) = run(&["extract", "--max-frames=11", MODEL, "-", "-"], &archive(Form::Text));
    assert_eq!(status, 1);
    assert!(said.starts_with("shofrakin: utterance one, frame 11: refused, 14: the frame room is full\n"), "{said}");
    let (status, _, said) = run(&["extract", "--max-frames=12", MODEL, "-", "-"], &archive(Form::Text));
    assert_eq!(status, 0, "{said}");
}

#[test]
fn what_is_damaged() {
    let b = archive(Form::Binary);
    let n = b.len() - 30;
    let (status, out, said) = run(&["extract", MODEL, "-", "-"], &b[..n]);
    assert_eq!(status, 1);
    assert!(said.starts_with("shofrakin: utterances: 1 written, 0 refused; "), "{said}");
    assert!(said.ends_with(&format!("\nshofrakin: -: byte {n}: the archive ends inside utterance two, row 11\n")), "{said}");
    assert_eq!(read(&out).len(), 1);
    let dir = scratch("damaged-model");
    for f in shofrakin::MODEL_FILES.iter().chain(&["splice.conf", "online_cmvn.conf"]) {
        std::fs::copy(Path::new(MODEL).join(f), dir.join(f)).unwrap();
    }
    let ie = dir.join("final.ie");
    let bytes = std::fs::read(&ie).unwrap();
    std::fs::write(&ie, &bytes[..300]).unwrap();
    let model = dir.to_str().unwrap();
    for args in [&["info", model] as &[&str], &["extract", model, "-", "-"]] {
        let (status, out, said) = run(args, b"");
        assert_eq!((status, out), (1, vec![]));
        assert_eq!(said, format!("shofrakin: {}: refused, 2: the bytes end before an item does\n", ie.display()));
    }
    std::fs::remove_file(&ie).unwrap();
    let (status, _, said) = run(&["info", model], b"");
    assert_eq!((status, said), (1, format!("shofrakin: {}: No such file or directory (os error 2)\n", ie.display())));
    // a settings file that is refused, by its text or by an option
    for (name, text, what) in [
        ("splice.conf", b"--left-context=1\xa0\n" as &[u8], "25: a settings text is not ASCII, or longer than 65,536 bytes"),
        ("online_cmvn.conf", &[b' '; 65537], "25: a settings text is not ASCII, or longer than 65,536 bytes"),
        ("online_cmvn.conf", b"--cmn-window=1001", "1: an option is outside its range"),
    ] {
        let whole = std::fs::read(dir.join(name)).unwrap();
        std::fs::write(dir.join(name), text).unwrap();
        std::fs::write(&ie, &bytes).unwrap();
        let (status, out, said) = run(&["extract", model, "-", "-"], b"");
        assert_eq!((status, out), (1, vec![]));
        assert_eq!(said, format!("shofrakin: {}: refused, {what}\n", dir.join(name).display()));
        std::fs::write(dir.join(name), whole).unwrap();
    }
    // features that are not there leave the output alone
    let out = dir.join("out.ark");
    let (status, _, said) = run(&["extract", MODEL, "ark:/no/such/feats.ark", out.to_str().unwrap()], b"");
    assert_eq!((status, said.as_str()), (1, "shofrakin: /no/such/feats.ark: No such file or directory (os error 2)\n"));
    assert!(!out.exists());
    // nothing can be written
    let (status, _, said) = run(&["extract", MODEL, "-", "/dev/full"], &archive(Form::Text));
    assert_eq!((status, said.as_str()), (1, "shofrakin: /dev/full: No space left on device (os error 28)\n"));
}

#[test]
fn what_a_model_is() {
    let (status, out, said) = run(&["info", MODEL], b"");
    assert_eq!((status, said.as_str()), (0, ""));
    let out = String::from_utf8(out).unwrap();
    assert!(out.contains("dimensions       base 4, feature 3, i-vector 3, LDA columns 13\n"), "{out}");
    assert!(out.contains("left-context     1\n") && out.contains("memory           788 bytes of tables\n"), "{out}");
}

#[test]
fn a_wrong_command_line() {
    let cases: &[&[&str]] = &[
        &[],
        &["extract", MODEL, "-"],
        &["extract", "--ivector-period=0", MODEL, "-", "-"],
        &["extract", "--ivector-period=ten", MODEL, "-", "-"],
        &["extract", "--period=1", MODEL, "-", "-"],
        &["extract", MODEL, "scp:feats.scp", "-"],
        &["info"],
        &["info", "--max-frames=1", MODEL],
    ];
    for args in cases {
        let (status, out, said) = run(args, b"");
        assert_eq!((status, out), (2, vec![]), "{args:?}");
        assert!(said.contains("shofrakin extract ["), "{said}");
    }
    assert_eq!(run(&["--help"], b"").0, 0);
}
