//! The program's files and streams: what was there is not lost before the new is whole, and no error of a write or a message is passed over.
use shofrakin::archive::Archive;
use std::fs::{self, File, OpenOptions};
use std::io::{Read, Write};
use std::os::unix::ffi::OsStrExt;
use std::os::unix::fs::{chown, symlink, MetadataExt, PermissionsExt};
use std::path::{Path, PathBuf};
use std::process::{Child, Command, Stdio};
use std::time::{Duration, Instant};

const PROGRAM: &str = env!("CARGO_BIN_EXE_shofrakin");
const MODEL: &str = concat!(env!("CARGO_MANIFEST_DIR"), "/../../examples/model");
const FEATURES: &[u8] = b"a [ 1 2 3 4\n 5 6 7 8 ]\nb [ 1 2 3 4 ]\n";
const OLD: &[u8] = b"what was there";

/// An empty folder.
fn folder(name: &str) -> PathBuf {
    let dir = Path::new(env!("CARGO_TARGET_TMPDIR")).join(name);
    let _ = fs::remove_dir_all(&dir);
    fs::create_dir_all(&dir).unwrap();
    dir
}

/// A file of a folder, for the command line.
fn file(dir: &Path, name: &str, bytes: &[u8]) -> String {
    let path = dir.join(name);
    fs::write(&path, bytes).unwrap();
    path.to_str().unwrap().into()
}

/// The names in a folder, in order.
fn names(dir: &Path) -> Vec<String> {
    let mut names: Vec<String> = fs::read_dir(dir).unwrap().map(|f| f.unwrap().file_name().into_string().unwrap()).collect();
    names.sort();
    names
}

/// A command with no input whose two outputs are kept.
fn command(program: &str, args: &[&str]) -> Command {
    let mut c = Command::new(program);
    c.args(args).stdin(Stdio::null()).stdout(Stdio::piped()).stderr(Stdio::piped());
    c
}

fn program(args: &[&str]) -> Command {
    command(PROGRAM, args)
}

/// The program under a line of the shell.
fn shell(line: &str, args: &[&str]) -> Command {
    let mut c = command("sh", &["-c", line, PROGRAM]);
    c.args(args);
    c
}

/// Exit status, standard output, standard error.
fn run(mut c: Command) -> (i32, Vec<u8>, String) {
    let out = c.output().unwrap();
    (out.status.code().unwrap(), out.stdout, String::from_utf8(out.stderr).unwrap())
}

/// The keys of an archive.
fn keys(bytes: &[u8]) -> Vec<String> {
    let (mut archive, mut keys) = (Archive::new(bytes), Vec::new());
    while let Some(key) = archive.next_key().unwrap() {
        keys.push(String::from_utf8(key.to_vec()).unwrap());
    }
    keys
}

/// A thousand utterances, every second of which is refused where so wanted.
fn thousand(refused: bool) -> Vec<u8> {
    (0..1000).flat_map(|i| format!("u{i} [ 1 2 3 {} ]\n", if refused && i % 2 == 1 { "nan" } else { "4" }).into_bytes()).collect()
}

#[test]
fn an_output_that_is_an_input() {
    let dir = folder("same");
    let x = file(&dir, "x", FEATURES);
    fs::hard_link(&x, dir.join("hard")).unwrap();
    symlink("x", dir.join("soft")).unwrap();
    let says = "this is an input: the output has to be another file\n";
    for to in ["x", "hard", "soft", "../same/x"] {
        let to = format!("ark:{}", dir.join(to).display());
        assert_eq!(run(program(&["extract", MODEL, &format!("ark:{x}"), &to])), (1, vec![], format!("shofrakin: {to}: {says}")));
    }
    // by a standard stream
    let mut c = program(&["extract", MODEL, "-", &x]);
    c.stdin(File::open(&x).unwrap());
    assert_eq!(run(c), (1, vec![], format!("shofrakin: {x}: {says}")));
    let mut c = program(&["extract", MODEL, &x, "-"]);
    c.stdout(OpenOptions::new().append(true).open(&x).unwrap());
    assert_eq!(run(c), (1, vec![], format!("shofrakin: -: {says}")));
    assert_eq!(fs::read(&x).unwrap(), FEATURES);
    assert_eq!(names(&dir), ["hard", "soft", "x"]);
    // a file of the model is read too
    let model = dir.join("model");
    fs::create_dir(&model).unwrap();
    for f in shofrakin::MODEL_FILES.iter().chain(&shofrakin::SETTINGS_FILES) {
        fs::copy(Path::new(MODEL).join(f), model.join(f)).unwrap();
    }
    for f in ["final.ie", "splice.conf"] {
        let to = model.join(f).to_str().unwrap().to_string();
        assert_eq!(run(program(&["extract", model.to_str().unwrap(), &x, &to])), (1, vec![], format!("shofrakin: {to}: {says}")));
        assert_eq!(fs::read(&to).unwrap(), fs::read(Path::new(MODEL).join(f)).unwrap());
    }
    // a device may be both
    let mut c = program(&["extract", MODEL, "-", "-"]);
    c.stdin(File::open("/dev/null").unwrap()).stdout(OpenOptions::new().write(true).open("/dev/null").unwrap());
    assert_eq!(run(c).0, 0);
}

#[test]
fn an_output_that_was_there_stays() {
    let dir = folder("stays");
    let (from, out) = (dir.join("from"), file(&dir, "out", OLD));
    let cut = &FEATURES[..FEATURES.len() - 3];
    for (input, damaged) in [(b"no archive" as &[u8], true), (cut, true), (b"a [ 1 2 3 ]\nb [ 1 nan 3 4 ]\n", false)] {
        fs::write(&from, input).unwrap();
        for to in [&out, &format!("{out}.new")] {
            let (status, _, said) = run(program(&["extract", MODEL, from.to_str().unwrap(), to]));
            assert_eq!(status, 1);
            assert!(said.contains("utterances: 0 written, "), "{said}");
            assert!(said.contains(&format!("\nshofrakin: {to}: left as it was\n")), "{said}");
            assert_eq!(said.contains("from: byte "), damaged, "{said}");
            assert_eq!(fs::read(&out).unwrap(), OLD);
            assert_eq!(names(&dir), ["from", "out"]);
        }
    }
    // a folder
    let (status, _, said) = run(program(&["extract", MODEL, from.to_str().unwrap(), dir.to_str().unwrap()]));
    assert_eq!((status, said), (1, format!("shofrakin: {}: Is a directory (os error 21)\n", dir.display())));
    // some refused, some not: the others are written
    fs::write(&from, b"a [ 1 2 3 ]\nb [ 1 2 3 4 ]\n").unwrap();
    let (status, _, said) = run(program(&["extract", MODEL, from.to_str().unwrap(), &out]));
    assert!(status == 1 && said.contains("utterances: 1 written, 1 refused"), "{said}");
    assert_eq!(keys(&fs::read(&out).unwrap()), ["b"]);
    // an archive of nothing is whole
    fs::write(&from, b"").unwrap();
    assert_eq!(run(program(&["extract", MODEL, from.to_str().unwrap(), &out])).0, 0);
    assert_eq!(fs::read(&out).unwrap(), b"");
    assert_eq!(names(&dir), ["from", "out"]);
}

/// The program, waiting for the rest of its input, its file begun beside its place.
fn begun(dir: &Path, out: &str) -> Child {
    let mut c = program(&["extract", MODEL, "-", out]);
    let mut child = c.stdin(Stdio::piped()).spawn().unwrap();
    child.stdin.as_mut().unwrap().write_all(FEATURES).unwrap();
    let began = Instant::now();
    while !names(dir).iter().any(|n| n.starts_with(".shofrakin-")) {
        assert!(began.elapsed() < Duration::from_secs(60) && child.try_wait().unwrap().is_none());
        std::thread::sleep(Duration::from_millis(2));
    }
    child
}

fn ended(child: Child) -> (i32, String) {
    let out = child.wait_with_output().unwrap();
    (out.status.code().unwrap(), String::from_utf8(out.stderr).unwrap())
}

#[test]
fn a_file_takes_its_place_when_it_is_whole() {
    let dir = folder("place");
    let out = file(&dir, "out", OLD);
    // root alone may give it away
    let _ = chown(&out, Some(1), Some(1));
    fs::set_permissions(&out, fs::Permissions::from_mode(0o606)).unwrap();
    let owner = || fs::metadata(&out).map(|m| (m.uid(), m.gid())).unwrap();
    let owned = owner();
    symlink("out", dir.join("link")).unwrap();
    symlink("link", dir.join("far")).unwrap();
    symlink("new", dir.join("dangling")).unwrap();
    for (to, place) in [("out", "out"), ("far", "out"), ("dangling", "new"), ("fresh", "fresh")] {
        fs::write(&out, OLD).unwrap();
        let before = fs::read(dir.join(place)).ok();
        let child = begun(&dir, &format!("ark:{}", dir.join(to).display()));
        assert_eq!(fs::read(dir.join(place)).ok(), before);
        let (status, said) = ended(child);
        assert!(status == 0 && said.starts_with("shofrakin: utterances: 2 written, 0 refused; "), "{said}");
        assert_eq!(keys(&fs::read(dir.join(place)).unwrap()), ["a", "b"]);
    }
    assert_eq!(names(&dir), ["dangling", "far", "fresh", "link", "new", "out"]);
    for link in ["far", "link", "dangling"] {
        assert!(dir.join(link).is_symlink());
    }
    let mode = |name: &str| fs::metadata(dir.join(name)).unwrap().permissions().mode() & 0o7777;
    assert_eq!((mode("out"), owner()), (0o606, owned));
    // as any new file's
    file(&dir, "plain", b"");
    assert_eq!((mode("new"), mode("fresh")), (mode("plain"), mode("plain")));
}

#[test]
fn a_file_that_can_not_take_its_place_is_removed() {
    let dir = folder("no-place");
    let out = file(&dir, "out", OLD);
    let child = begun(&dir, &out);
    fs::remove_file(&out).unwrap();
    fs::create_dir(&out).unwrap();
    fs::write(dir.join("out/in"), b"").unwrap();
    assert_eq!(ended(child), (1, format!("shofrakin: {out}: Is a directory (os error 21)\n")));
    assert_eq!(names(&dir), ["out"]);
    // one that may not be written is not replaced: the program that runs may not, not even by root
    let own = dir.join("own");
    fs::hard_link(PROGRAM, &own).unwrap();
    let says = format!("shofrakin: {}: Text file busy (os error 26)\n", own.display());
    assert_eq!(run(program(&["extract", MODEL, "-", own.to_str().unwrap()])), (1, vec![], says));
    fs::remove_file(&own).unwrap();
    // none can be begun
    let nowhere = dir.join("none/out");
    let (status, _, said) = run(program(&["extract", MODEL, "-", nowhere.to_str().unwrap()]));
    let says = "no file can be made beside it: No such file or directory (os error 2)";
    assert_eq!((status, said), (1, format!("shofrakin: {}: {says}\n", nowhere.display())));
    // a run that was killed leaves its part, which is no other run's
    let mut child = begun(&dir, dir.join("new").to_str().unwrap());
    child.kill().unwrap();
    child.wait().unwrap();
    assert_eq!(names(&dir).len(), 2);
    assert!(!dir.join("new").exists());
}

#[test]
fn what_is_no_file_is_written_as_it_stands() {
    let dir = folder("in-place");
    let from = file(&dir, "from", FEATURES);
    // a pipe by its name
    let pipe = dir.join("pipe");
    assert!(Command::new("mkfifo").arg(&pipe).status().unwrap().success());
    let child = program(&["extract", MODEL, &from, pipe.to_str().unwrap()]).spawn().unwrap();
    let mut bytes = Vec::new();
    File::open(&pipe).unwrap().read_to_end(&mut bytes).unwrap();
    assert_eq!((ended(child).0, keys(&bytes)), (0, vec!["a".into(), "b".into()]));
    assert_eq!(run(program(&["extract", MODEL, &from, "/dev/null"])).0, 0);
    // the standard output, a descriptor, a link to one: what stands in the file before is not ours
    let link = dir.join("link");
    symlink("/proc/self/fd/8", &link).unwrap();
    for (to, fd) in [("/dev/stdout", 1), ("/dev/fd/7", 7), (link.to_str().unwrap(), 8)] {
        let out = file(&dir, "out", b"x [ 1 ]\n");
        let mut c = shell(&format!("exec \"$0\" \"$@\" {fd}>>\"$OUT\""), &["extract", MODEL, &from, to]);
        c.env("OUT", &out);
        let (status, _, said) = run(c);
        assert_eq!(status, 0, "{said}");
        assert_eq!(keys(&fs::read(&out).unwrap()), ["x", "a", "b"], "{to}");
    }
    let (status, out, _) = run(program(&["extract", MODEL, &from, "/dev/stdout"]));
    assert_eq!((status, keys(&out)), (0, vec!["a".into(), "b".into()]));
    assert_eq!(names(&dir), ["from", "link", "out", "pipe"]);
}

/// To a device that takes nothing.
fn full() -> File {
    OpenOptions::new().write(true).open("/dev/full").unwrap()
}

/// To a pipe that nobody reads.
fn unread() -> Stdio {
    let mut ended = Command::new("true").stdin(Stdio::piped()).spawn().unwrap();
    let mut pipe = ended.stdin.take().unwrap();
    ended.wait().unwrap();
    // a program that another test begins may have the other end for a moment
    while pipe.write(&[0]).is_ok() {
        std::thread::sleep(Duration::from_millis(1));
    }
    pipe.into()
}

#[test]
fn an_output_that_takes_nothing() {
    let dir = folder("full");
    let from = file(&dir, "from", &thousand(false));
    let space = "No space left on device (os error 28)";
    let all: [(&[&str], &str); 4] = [
        (&["--help"], "standard output"),
        (&["info", MODEL], "standard output"),
        (&["extract", MODEL, &from, "-"], "-"),
        (&["extract", MODEL, &from, "ark,t:/dev/full"], "ark,t:/dev/full"),
    ];
    for (args, name) in all {
        let mut c = program(args);
        c.stdout(full());
        assert_eq!(run(c), (1, vec![], format!("shofrakin: {name}: {space}\n")), "{args:?}");
        // nothing can be said either
        let mut c = program(args);
        c.stdout(full()).stderr(full());
        assert_eq!(run(c).0, 1, "{args:?}");
    }
    for (args, _) in &all[..3] {
        let mut c = program(args);
        c.stdout(unread());
        assert_eq!(run(c), (1, vec![], String::new()), "{args:?}");
    }
}

/// Messages that can't be said are no reason to leave the work, and the status tells of them.
#[test]
fn messages_that_are_not_taken() {
    let dir = folder("messages");
    let out = dir.join("out").to_str().unwrap().to_string();
    for refused in [false, true] {
        let from = file(&dir, "from", &thousand(refused));
        for to in [full().into(), unread()] {
            let mut c = program(&["extract", MODEL, &from, &out]);
            c.stderr(to);
            assert_eq!(run(c).0, 1);
            assert_eq!(keys(&fs::read(&out).unwrap()).len(), if refused { 500 } else { 1000 });
            fs::remove_file(&out).unwrap();
        }
    }
    for to in [full().into(), unread()] {
        let mut c = program(&["extract"]);
        c.stderr(to);
        assert_eq!(run(c).0, 2);
    }
}

#[test]
fn closed_streams() {
    let dir = folder("closed");
    let (from, out) = (file(&dir, "from", FEATURES), dir.join("out").to_str().unwrap().to_string());
    for args in [&["extract", MODEL, &from, &out] as &[&str], &["extract", MODEL, "-", "-"], &["info", MODEL], &["--help"]] {
        for (how, name) in [("<&-", "input"), (">&-", "output"), ("2>&-", ""), (">&- 2>&-", "")] {
            let says = if name.is_empty() { String::new() } else { format!("shofrakin: standard {name} is closed\n") };
            assert_eq!(run(shell(&format!("exec \"$0\" \"$@\" {how}"), args)), (1, vec![], says), "{args:?} {how}");
        }
    }
    assert_eq!(names(&dir), ["from"]);
    // open to nothing, read and write, is not closed
    let null = || OpenOptions::new().read(true).write(true).open("/dev/null").unwrap();
    let mut c = program(&["extract", MODEL, "-", "-"]);
    c.stdin(null()).stdout(null()).stderr(null());
    assert_eq!(run(c).0, 0);
    // open the other way round
    let mut c = program(&["extract", MODEL, "-", &out]);
    c.stdin(OpenOptions::new().write(true).open("/dev/null").unwrap());
    let (status, _, said) = run(c);
    assert!(status == 1 && said.ends_with("shofrakin: -: Bad file descriptor (os error 9)\n"), "{said}");
    for (args, name) in [(&["--help"] as &[&str], "standard output"), (&["extract", MODEL, &from, "-"], "-")] {
        let mut c = program(args);
        c.stdout(File::open("/dev/null").unwrap());
        assert_eq!(run(c), (1, vec![], format!("shofrakin: {name}: Bad file descriptor (os error 9)\n")));
    }
    assert_eq!(names(&dir), ["from"]);
}

/// A disk that is found full when a file is closed, by a C library whose `close` says so.
#[test]
fn a_close_that_fails() {
    let dir = folder("close");
    let source = "#include <errno.h>\n#include <fcntl.h>\n#include <sys/syscall.h>\n#include <unistd.h>\n\
        int close(int fd) {\n    int flags = fcntl(fd, F_GETFL);\n    if (syscall(SYS_close, fd)) return -1;\n    \
        if ((flags & O_ACCMODE) != O_WRONLY) return 0;\n    errno = EDQUOT;\n    return -1;\n}\n";
    let (source, library) = (file(&dir, "close.c", source.as_bytes()), dir.join("close.so"));
    let cc = std::env::var("CC").unwrap_or_else(|_| "cc".into());
    match Command::new(&cc).args(["-D_GNU_SOURCE", "-shared", "-fPIC", "-o"]).arg(&library).arg(source).status() {
        Err(e) if e.kind() == std::io::ErrorKind::NotFound => return eprintln!("no C compiler ({cc}): a close that fails is not tried"),
        built => assert!(built.unwrap().success()),
    }
    let (from, out) = (file(&dir, "from", FEATURES), file(&dir, "out", OLD));
    let with = |args: &[&str]| {
        let mut c = program(args);
        c.env("LD_PRELOAD", &library);
        c
    };
    let says = |name: &str| format!("shofrakin: {name}: Disk quota exceeded (os error 122)\n");
    assert_eq!(run(with(&["extract", MODEL, &from, &out])), (1, vec![], says(&out)));
    assert_eq!(fs::read(&out).unwrap(), OLD);
    assert_eq!(names(&dir), ["close.c", "close.so", "from", "out"]);
    for (args, name) in [(&["extract", MODEL, &from, "-"] as &[&str], "-"), (&["info", MODEL], "standard output")] {
        let mut c = with(args);
        c.stdout(File::create(dir.join("out")).unwrap());
        assert_eq!(run(c), (1, vec![], says(name)));
    }
}

#[test]
fn a_stream_that_no_memory_holds() {
    let dir = folder("memory");
    let from = file(&dir, "from", FEATURES);
    let (status, out, said) = run(shell("ulimit -v 40000; exec \"$0\" \"$@\"", &["extract", "--max-frames=1000000", MODEL, &from, "-"]));
    assert_eq!((status, out), (1, vec![]), "{said}");
    assert!(said.starts_with("shofrakin: utterance a, frame 0: refused, 8: no memory holds a room of that size\n"), "{said}");
}

/// In binary by its number of columns, in text by the numbers that come.
#[test]
fn a_row_that_no_memory_holds() {
    let dir = folder("row");
    let binary = [b"a \0BFM \x04\x01\0\0\0\x04\xff\xff\xff\x7f" as &[u8], &[0; 18 << 20]].concat();
    let text = [b"a [" as &[u8], &b" 1".repeat(9 << 19)].concat();
    for bytes in [binary, text] {
        let from = file(&dir, "from", &bytes);
        let (status, out, said) = run(shell("ulimit -v 20000; exec \"$0\" \"$@\"", &["extract", MODEL, &from, "-"]));
        assert_eq!((status, out), (1, vec![]), "{said}");
        assert!(said.ends_with("from: out of memory\n"), "{said}");
    }
}

#[test]
fn a_name_that_is_no_text() {
    let mut c = program(&["extract", MODEL, "-"]);
    c.arg(std::ffi::OsStr::from_bytes(b"out\xff"));
    let (status, _, said) = run(c);
    assert!(status == 2 && said.starts_with("shofrakin: out\u{fffd}: not UTF-8\n"), "{said}");
}
