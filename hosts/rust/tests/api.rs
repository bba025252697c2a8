//! The types over the library: a model, streams, the silence table, the nearest voice; what is refused, and with which number.
use shofrakin::{
    nearest_voice, DecoderFrame, Held, InputFrame, IvectorInfo, IvectorOptions, IvectorStream, ModelParams, ModelSizes, OpenError, PhoneSegment,
    Refusal, Room, RoundEnd, SilenceWeighting, Voice, Written, MAX_CHANGES,
};
use std::path::{Path, PathBuf};

const MODEL: &str = concat!(env!("CARGO_MANIFEST_DIR"), "/../../examples/model");

fn info() -> IvectorInfo {
    IvectorInfo::open(Path::new(MODEL)).unwrap()
}

fn frame(t: usize) -> [f32; 4] {
    let x = t as f32;
    [7.0 + x.sin(), (x * 0.3).cos(), 0.5 - 0.001 * x, (x * 0.7).sin() * 0.5]
}

fn number<T: std::fmt::Debug>(r: Result<T, Refusal>) -> usize {
    r.unwrap_err().number()
}

/// The scope's P9: all dimensions 1, all GMM numbers 1, M 2, SigmaInv 1, prior 1, LDA 1, global row (50, 100).
fn p9() -> [Vec<u8>; 4] {
    let dim = |n: u8| [4, n, 0, 0, 0];
    let one = 1f32.to_le_bytes();
    let gmm = [
        b"\0B<DiagGMM> <WEIGHTS> FV " as &[u8],
        &dim(1),
        &one,
        b"<MEANS_INVVARS> FM ",
        &dim(1),
        &dim(1),
        &one,
        b"<INV_VARS> FM ",
        &dim(1),
        &dim(1),
        &one,
    ];
    let ie = [
        b"\0B<IvectorExtractor> <w> DM " as &[u8],
        &dim(0),
        &dim(0),
        b"<w_vec> DV ",
        &dim(0),
        b"<M> ",
        &dim(1),
        b"DM ",
        &dim(1),
        &dim(1),
        &2f64.to_le_bytes(),
        b"<SigmaInv> DP ",
        &dim(1),
        &1f64.to_le_bytes(),
        b"<IvectorOffset> \x08",
        &1f64.to_le_bytes(),
        b"</IvectorExtractor> ",
    ];
    let mat = [b"\0BFM " as &[u8], &dim(1), &dim(1), &one];
    [gmm.concat(), ie.concat(), mat.concat(), b" [ 50 100\n 0 0 ]\n".to_vec()]
}

fn p9_options() -> IvectorOptions {
    IvectorOptions { left_context: 0, right_context: 0, posterior_scale: 0.25, ..IvectorOptions::default() }
}

fn p9_info(o: IvectorOptions) -> Result<IvectorInfo, Refusal> {
    let b = p9();
    IvectorInfo::from_bytes(o, &b[0], &b[1], &b[2], &b[3])
}

#[test]
fn the_scopes_example() {
    let info = p9_info(p9_options()).unwrap();
    assert_eq!((info.base_dim(), info.ivector_dim(), info.prior_offset()), (1, 1, 1.0));
    let mut s = IvectorStream::new(&info, Room { frames: 4, ..Room::default() }).unwrap();
    assert_eq!(s.held(), Held { frames: 0, rows: 1 });
    s.push_frame(&[4.0]).unwrap();
    let mut out = [0.0];
    let a = s.get_frame(0, &mut out).unwrap();
    assert_eq!((out, a.not_finite, a.nan_likelihoods, a.held), ([0.5], 0, 0, Held { frames: 1, rows: 2 }));
    assert_eq!(s.num_frames_stats(), 1);
}

#[test]
fn a_model_says_what_it_is() {
    let info = info();
    let d = info.dimensions();
    assert_eq!((d.num_gauss, d.ext_gauss, d.feat_dim, d.ivector_dim, d.base_dim, d.lda_cols), (4, 4, 3, 3, 4, 13));
    let o = info.options();
    assert_eq!((o.left_context, o.right_context, o.cmn_window, o.min_energy), (1, 1, 600, 1.0));
    // g, dg, dg, kd, d floats; eds, es(s+1)/2, b+1 doubles
    assert_eq!(info.memory(), 4 * (4 + 12 + 12 + 36 + 3) + 8 * (36 + 24 + 5));
}

#[test]
fn files_that_are_not_a_model() {
    let b = p9();
    let load = |i: usize, bytes: &[u8]| {
        let mut f: Vec<&[u8]> = b.iter().map(Vec::as_slice).collect();
        f[i] = bytes;
        number(IvectorInfo::from_bytes(p9_options(), f[0], f[1], f[2], f[3]))
    };
    assert_eq!(number(p9_info(IvectorOptions { cmn_window: 0, ..p9_options() })), 1);
    assert_eq!(number(p9_info(IvectorOptions { left_context: usize::MAX, right_context: usize::MAX, ..p9_options() })), 1);
    assert_eq!(number(p9_info(IvectorOptions { left_context: 1, ..p9_options() })), 5);
    for (i, file) in b.iter().enumerate() {
        for n in 0..file.len() {
            let r = number(IvectorInfo::from_bytes(
                p9_options(),
                if i == 0 { &file[..n] } else { &b[0] },
                if i == 1 { &file[..n] } else { &b[1] },
                if i == 2 { &file[..n] } else { &b[2] },
                // the text's last line end may go
                if i == 3 { &file[..n.min(file.len() - 2)] } else { &b[3] },
            ));
            assert_eq!(r, if i == 3 { 7 } else { 2 }, "file {i} cut at {n}");
        }
    }
    assert_eq!(load(0, b"no"), 3);
    assert_eq!(load(3, b"[ 50 0\n 0 0 ]"), 7);
    let mut many = b[0].clone();
    let at = many.windows(3).position(|w| w == b"FM ").unwrap() + 4;
    many[at..at + 4].copy_from_slice(&[0xff, 0xff, 0xff, 0x7f]);
    assert_eq!(load(0, &many), 4);
}

/// A copy of the model's folder, in which a file may be spoilt.
fn folder(name: &str) -> PathBuf {
    let dir = Path::new(env!("CARGO_TARGET_TMPDIR")).join(name);
    let _ = std::fs::remove_dir_all(&dir);
    std::fs::create_dir_all(&dir).unwrap();
    for f in std::fs::read_dir(MODEL).unwrap() {
        let f = f.unwrap();
        std::fs::copy(f.path(), dir.join(f.file_name())).unwrap();
    }
    dir
}

#[test]
fn a_refused_folder_names_the_file() {
    let dir = folder("damaged");
    for (name, number) in [("final.dubm", 2), ("final.ie", 2), ("final.mat", 2), ("global_cmvn.stats", 7)] {
        let path = dir.join(name);
        let whole = std::fs::read(&path).unwrap();
        std::fs::write(&path, &whole[..whole.len() / 2]).unwrap();
        match IvectorInfo::open(&dir) {
            Err(OpenError::Refused(r, p)) => assert_eq!((r.number(), &p), (number, &path)),
            other => panic!("{other:?}"),
        }
        // a number that is not finite: 6, where there are numbers in binary
        if name != "global_cmvn.stats" {
            let mut b = whole.clone();
            let before: &[u8] = if name == "final.ie" { b"<M> \x04\x04\0\0\0DM " } else { b"FM " };
            let at = b.windows(before.len()).position(|w| w == before).unwrap() + before.len() + 10;
            b[at..at + 8].copy_from_slice(&[0, 0, 0xc0, 0x7f, 0, 0, 0xf8, 0x7f]);
            std::fs::write(&path, &b).unwrap();
            let e = IvectorInfo::open(&dir).unwrap_err().to_string();
            assert!(e.starts_with(&format!("{}: refused, 6: ", path.display())), "{e}");
        }
        std::fs::write(&path, whole).unwrap();
    }
    // files that don't go together name the folder
    std::fs::write(dir.join("splice.conf"), "--left-context=2\n").unwrap();
    let e = IvectorInfo::open(&dir).unwrap_err().to_string();
    assert_eq!(e, format!("{}: refused, 5: dimensions disagree", dir.display()));
    std::fs::remove_file(dir.join("final.mat")).unwrap();
    assert!(matches!(IvectorInfo::open(&dir), Err(OpenError::Unread(p, _)) if p == dir.join("final.mat")));
}

#[test]
fn settings() {
    let dir = folder("settings");
    let open = |splice: &[u8], cmvn: &[u8]| {
        std::fs::write(dir.join("splice.conf"), splice).unwrap();
        std::fs::write(dir.join("online_cmvn.conf"), cmvn).unwrap();
        IvectorInfo::open(&dir)
    };
    let with = |splice: &[u8], cmvn: &[u8]| *open(splice, cmvn).unwrap().options();
    let one = b"--left-context=1\n--right-context=1";
    let o = with(one, b" --cmn-window=20 \n--global-frames=+7\n--cmn-min-energy=-2.5e1\n--cmn-window=30\n--speaker-frames=1\n");
    assert_eq!((o.cmn_window, o.global_frames, o.min_energy), (20, 7, -25.0));
    // the first line with a key decides; what can't be read leaves the default
    let o = with(one, b"--cmn-window=x\n--cmn-window=30\n--cmn-min-energy=16777216\n#--global-frames=1");
    assert_eq!((o.cmn_window, o.global_frames, o.min_energy), (600, 200, 50.0));
    assert_eq!(with(one, b"--cmn-min-energy=1.00000e-5").min_energy, 1e-5);
    assert_eq!(with(one, b"--cmn-min-energy=1e-11").min_energy, 50.0);
    assert!(open(one, &[b'\n'; 65536]).is_ok());
    // a refused file is named: the first of two
    let says = |splice: &[u8], cmvn: &[u8]| open(splice, cmvn).unwrap_err().to_string();
    let in_file = |name: &str, what: &str| format!("{}: refused, {what}", dir.join(name).display());
    let text = "25: a settings text is not ASCII, or longer than 65,536 bytes";
    let range = "1: an option is outside its range";
    let (first, second) = ("splice.conf", "online_cmvn.conf");
    assert_eq!(says(one, b"\xff"), in_file(second, text));
    assert_eq!(says(b"--left-context=1\n\x80", b""), in_file(first, text));
    assert_eq!(says(b"\xff", b"\xff"), in_file(first, text));
    assert_eq!(says(one, &[b'\n'; 65537]), in_file(second, text));
    assert_eq!(says(&[b'\n'; 65537], b""), in_file(first, text));
    assert_eq!(says(one, b"--cmn-window=0"), in_file(second, range));
    assert_eq!(says(b"--left-context=9", b"--cmn-window=0"), in_file(first, range));
    // 25 comes before 1, and both before a file of the model, even one that is not there
    assert_eq!(says(b"--left-context=9", b"\xff"), in_file(second, text));
    std::fs::write(dir.join("final.dubm"), b"").unwrap();
    assert_eq!(says(one, b"--global-frames=0"), in_file(second, range));
    std::fs::remove_file(dir.join("final.dubm")).unwrap();
    assert_eq!(says(one, b"\xff"), in_file(second, text));
    // one that is there and can't be read
    std::fs::remove_file(dir.join(first)).unwrap();
    std::fs::create_dir(dir.join(first)).unwrap();
    assert!(matches!(IvectorInfo::open(&dir), Err(OpenError::Unread(p, _)) if p == dir.join(first)));
}

/// What the settings' bytes give is what the options do, and no settings are the defaults.
#[test]
fn settings_from_bytes() {
    assert_eq!(IvectorOptions::from_settings(b"", b""), Ok(IvectorOptions::default()));
    assert_eq!(number(IvectorOptions::from_settings(b"", b"\x80")), 25);
    let b = p9();
    let load = |splice: &[u8], online: &[u8]| IvectorInfo::from_bytes_with_settings(splice, online, &b[0], &b[1], &b[2], &b[3]);
    let none = b"--left-context=0\n--right-context=0\n";
    let o = IvectorOptions::from_settings(none, b"--cmn-window=7").unwrap();
    assert_eq!(o, IvectorOptions { left_context: 0, right_context: 0, cmn_window: 7, ..IvectorOptions::default() });
    let (x, y) = (load(none, b"--cmn-window=7").unwrap(), IvectorInfo::from_bytes(o, &b[0], &b[1], &b[2], &b[3]).unwrap());
    assert_eq!((x.options(), x.dimensions(), x.memory()), (y.options(), y.dimensions(), y.memory()));
    assert_eq!(number(load(b"", b"")), 5);
    assert_eq!(number(load(b"--left-context=9", b"")), 1);
    assert_eq!(number(load(b"--left-context=9", b"\xff")), 25);
}

#[test]
fn what_a_stream_refuses() {
    let info = info();
    assert_eq!(number(IvectorStream::new(&info, Room { frames: 0, ..Room::default() })), 8);
    assert_eq!(number(IvectorStream::new(&info, Room { rows: Some(1), ..Room::default() })), 8);
    let large = Room { frames: 1_000_000_001, rows: Some(2), waiting: 0 };
    for room in [large, Room { frames: 1, rows: Some(2_000_000_001), waiting: 0 }, Room::for_utterances(&info, usize::MAX)] {
        assert_eq!(number(IvectorStream::new(&info, room)), 8);
        assert_eq!(number(room.memory(&info)), 8);
    }
    // 3 frames and 603 rows of 4 numbers, 2 changes, and the fetch's rooms: 5, 3, 6, 3, and 4 Gaussians of 3
    assert_eq!(Room { frames: 3, rows: None, waiting: 2 }.memory(&info), Ok(4 * (12 + 2) + 8 * (2412 + 2 + 5 + 3 + 6 + 3 + 12)));
    let mut s = IvectorStream::new(&info, Room { frames: 3, rows: None, waiting: 2 }).unwrap();
    let mut out = [0.0; 3];
    assert_eq!(number(s.push_frame(&[1.0])), 11);
    assert_eq!(number(s.push_frame(&[1.0, 2.0, f32::NAN, 4.0])), 12);
    assert_eq!(number(s.get_frame(0, &mut out)), 21);
    for t in 0..3 {
        s.push_frame(&frame(t)).unwrap();
    }
    assert_eq!(number(s.push_frame(&frame(3))), 14);
    assert_eq!(s.held(), Held { frames: 3, rows: 4 });
    assert_eq!((s.num_frames_ready(), s.num_frames_stats()), (2, 0));
    assert_eq!(number(s.get_frame(0, &mut out[..2])), 20);
    assert_eq!(number(s.get_frame(2, &mut out)), 21);
    s.set_input_finished().unwrap();
    assert_eq!(s.num_frames_ready(), 3);
    assert_eq!(number(s.update_frame_weights(&[(1, f32::INFINITY)])), 17);
    assert_eq!(number(s.update_frame_weights(&[(0, 1.0), (1, 1.0), (2, 1.0)])), 19);
    s.update_frame_weights(&[(1, 1.0), (0, 1.0)]).unwrap();
    assert_eq!(number(s.get_frame(2, &mut out)), 22);
    s.get_frame(1, &mut out).unwrap();
    assert_eq!(s.num_frames_stats(), 2);
    s.forget_before(2).unwrap();
    assert_eq!(s.held(), Held { frames: 2, rows: 4 });
    assert_eq!(number(s.update_frame_weights(&[(0, 1.0)])), 30);
    assert_eq!(number(s.update_frame_weights(&vec![(2, 0.0); MAX_CHANGES + 1])), 16);
    let mut tight = IvectorStream::new(&info, Room { frames: 9, rows: Some(3), waiting: 0 }).unwrap();
    tight.push_frame(&frame(0)).unwrap();
    tight.push_frame(&frame(1)).unwrap();
    assert_eq!(number(tight.push_frame(&frame(2))), 15);
}

#[test]
fn changes_in_parts_are_taken_whole_or_not_at_all() {
    let info = info();
    let deltas: Vec<(usize, f32)> = (0..1000).map(|t| (t, 0.5)).collect();
    let fetch = |s: &mut IvectorStream| {
        let mut out = [0.0; 3];
        s.get_frame(900, &mut out).unwrap();
        out.map(f32::to_bits)
    };
    let fresh = |waiting| {
        let mut s = IvectorStream::new(&info, Room { frames: 1000, rows: None, waiting }).unwrap();
        for t in 0..1000 {
            s.push_frame(&frame(t)).unwrap();
        }
        s
    };
    let (mut whole, mut parts) = (fresh(1000), fresh(1000));
    whole.update_frame_weights_in_parts(&deltas).unwrap();
    for p in deltas.chunks(250) {
        parts.update_frame_weights(p).unwrap();
    }
    assert_eq!(fetch(&mut whole), fetch(&mut parts));
    // no room for the last part: the stream is as it was, not even weighted
    let (mut short, mut plain) = (fresh(999), fresh(999));
    assert_eq!(number(short.update_frame_weights_in_parts(&deltas)), 19);
    assert_eq!(fetch(&mut short), fetch(&mut plain));
    // an empty list is a change call too
    let mut none = fresh(0);
    none.update_frame_weights_in_parts(&[]).unwrap();
    assert_eq!(number(none.get_frame(0, &mut [0.0; 3])), 22);
}

/// A list that needs several calls is judged as one call judges a list of the same faults, and where it is refused the stream is as it was.
#[test]
fn changes_in_parts_are_refused_as_one_call_refuses() {
    let info = info();
    for faults in 0..16 {
        let [not_finite, too_far, behind, short] = [1, 2, 4, 8].map(|bit| faults & bit != 0);
        let judged = [300, 1000].map(|n| {
            let mut s = IvectorStream::new(&info, Room { waiting: if short { 100 } else { n }, ..Room::default() }).unwrap();
            s.forget_before(10).unwrap();
            let mut deltas: Vec<(usize, f32)> = (10..10 + n).map(|t| (t, 0.5)).collect();
            if not_finite {
                deltas[n - 1].1 = f32::NAN;
            }
            if too_far {
                deltas[n - 2].0 = 1_000_000_000;
            }
            if behind {
                deltas[n - 3].0 = 9;
            }
            let before = format!("{s:?}");
            let r = s.update_frame_weights_in_parts(&deltas);
            assert_eq!(r.is_err(), format!("{s:?}") == before);
            r.map_or_else(Refusal::number, |_| 0)
        });
        let want = [(not_finite || too_far, 17), (behind, 30), (short, 19)].into_iter().find(|f| f.0).map_or(0, |f| f.1);
        assert_eq!(judged, [want; 2]);
    }
}

#[test]
fn forgetting_changes_no_vector() {
    let info = info();
    let o = *info.options();
    let n = 2000;
    let mut keeps = IvectorStream::new(&info, Room { frames: n, rows: None, waiting: 0 }).unwrap();
    let small = Room { frames: 10 + o.left_context + o.right_context, rows: None, waiting: 0 };
    let mut forgets = IvectorStream::new(&info, small).unwrap();
    let mut next = 0;
    for t in 0..n {
        keeps.push_frame(&frame(t)).unwrap();
        forgets.push_frame(&frame(t)).unwrap();
        if next < forgets.num_frames_ready() {
            let (mut a, mut b) = ([0.0; 3], [1.0; 3]);
            keeps.get_frame(next, &mut a).unwrap();
            forgets.get_frame(next, &mut b).unwrap();
            assert_eq!(a.map(f32::to_bits), b.map(f32::to_bits));
            forgets.forget_before(next + 1).unwrap();
            next += 10;
        }
    }
    assert_eq!(keeps.held().frames, n);
}

/// P9's model with contexts and a window.
fn spliced(left: usize, right: usize, window: usize) -> IvectorInfo {
    let columns = left + 1 + right;
    let mut b = p9();
    b[2] = [b"\0BFM " as &[u8], &[4, 1, 0, 0, 0], &[4, columns as u8, 0, 0, 0], &1f32.to_le_bytes().repeat(columns)].concat();
    let o = IvectorOptions { left_context: left, right_context: right, cmn_window: window, posterior_scale: 0.25, ..IvectorOptions::default() };
    IvectorInfo::from_bytes(o, &b[0], &b[1], &b[2], &b[3]).unwrap()
}

/// The example of crates/program/proofs/Tight.antt: three utterances of 2 frames at contexts 1 and 1 and window 2, the second and the third begun by a fetch
/// of the last ready frame and a forget. There the calls' refusal numbers are computed from the definitions, in exactly these rooms, with a frame less,
/// and with a row less.
#[test]
fn rooms_are_tight() {
    let info = spliced(1, 1, 2);
    let room = Room::for_utterances(&info, 2);
    assert_eq!((room.frames, room.rows_for(&info)), (4, 6));
    let numbers = |frames: usize, rows: usize| {
        let mut s = IvectorStream::new(&info, Room { frames, rows: Some(rows), waiting: 1 }).unwrap();
        let calls = [('p', 0), ('p', 0), ('v', 0), ('d', 2), ('p', 0), ('p', 0), ('v', 2), ('d', 4), ('p', 0), ('p', 0)];
        calls.map(|(call, at)| {
            let r = match call {
                'p' => s.push_frame(&[60.0]),
                'v' => s.get_frame(at, &mut [0.0]).map(|a| a.held),
                _ => s.forget_before(at),
            };
            r.map_or_else(Refusal::number, |_| 0)
        })
    };
    assert_eq!(numbers(4, 6), [0; 10]);
    assert_eq!(numbers(3, 6), [0, 0, 0, 0, 0, 14, 21, 0, 14, 14]);
    assert_eq!(numbers(4, 5), [0, 0, 0, 0, 0, 0, 0, 0, 0, 15]);
}

/// A caller that pushes an utterance, fetches the last ready frame and forgets is never refused 14 or 15 in rooms by the rules, and is in rooms of a frame or
/// a row less, once its utterances are as long as they may be.
#[test]
fn utterances_fit_in_their_room() {
    for (left, right, window, longest) in [(0, 0, 1, 2), (1, 1, 2, 2), (3, 3, 10, 5), (8, 8, 20, 1), (0, 4, 7, 3), (5, 0, 3, 40), (3, 3, 600, 100)] {
        let info = spliced(left, right, window);
        let room = Room { waiting: 0, ..Room::for_utterances(&info, longest) };
        assert_eq!((room.frames, room.rows_for(&info)), (longest + left + right, longest + left + right + window));
        // how many pushes are refused 14, and 15, and how many frames were held at most
        let refused = |frames: usize, rows: usize, any_length: bool| {
            let mut s = IvectorStream::new(&info, Room { frames, rows: Some(rows), waiting: 0 }).unwrap();
            let (mut counts, mut most, mut pushed, mut x) = ([0, 0], 0, 0, 1u32);
            while pushed < 3000 {
                x = x.wrapping_mul(1_664_525).wrapping_add(1_013_904_223);
                for _ in 0..if any_length { 1 + (x >> 16) as usize % longest } else { longest } {
                    match s.push_frame(&[(pushed % 90) as f32]).map_err(Refusal::number) {
                        Ok(h) => (pushed, most) = (pushed + 1, most.max(h.frames)),
                        Err(n @ (14 | 15)) => counts[n - 14] += 1,
                        Err(n) => panic!("{n}"),
                    }
                }
                if let Some(last) = s.num_frames_ready().checked_sub(1) {
                    s.get_frame(last, &mut [0.0]).unwrap();
                }
                s.forget_before(pushed).unwrap();
                if counts != [0, 0] {
                    break;
                }
            }
            (counts, most)
        };
        let (f, r) = (room.frames, room.rows_for(&info));
        assert_eq!(refused(f, r, true).0, [0, 0]);
        assert_eq!(refused(f, r, false), ([0, 0], f));
        let fewer = refused(f - 1, r, false).0;
        assert!(fewer[0] > 0 && fewer[1] == 0, "{fewer:?}");
        let fewer = refused(f, r - 1, false).0;
        assert!(fewer[0] == 0 && fewer[1] > 0, "{fewer:?}");
    }
}

/// The same commands as plain calls and as steps over registers.
#[test]
fn a_board_with_registers() {
    let info = info();
    let (mut plain, mut board) = (IvectorStream::new(&info, Room::default()).unwrap(), IvectorStream::new(&info, Room::default()).unwrap());
    let (mut a, mut b, mut block) = ([0.0; 3], [0.0; 3], [0; 16]);
    for t in 0..50 {
        plain.push_frame(&frame(t)).unwrap();
        block[0] = 1;
        board.registers_step(&mut block, &frame(t), &mut b).unwrap();
        assert_eq!((block[0], block[1], block[8]), (0, 4, t as u8 + 1));
    }
    plain.get_frame(40, &mut a).unwrap();
    (block[0], block[4]) = (4, 40);
    board.registers_step(&mut block, &[], &mut b).unwrap();
    assert_eq!((block[1], block[12], a), (5, 0, b));
    plain.forget_before(41).unwrap();
    (block[0], block[4]) = (3, 41);
    board.registers_step(&mut block, &[], &mut b).unwrap();
    assert_eq!(plain.held(), board.held());
    (block[0], block[4]) = (4, 50);
    board.registers_step(&mut block, &[], &mut b).unwrap();
    assert_eq!((block[1], block[12]), (6, 21));
    assert_eq!(number(board.registers_step(&mut block[..15], &[], &mut b)), 10);
}

#[test]
fn the_silence_table() {
    // the scope's P12
    let mut t = SilenceWeighting::new(&[1, 2], 0.25, 3, DecoderFrame(8)).unwrap();
    assert!(t.active());
    let want: Vec<_> = (0..6).map(|i| (i, 0.25)).collect();
    assert_eq!(t.get_delta_weights(InputFrame(4), InputFrame(0)).unwrap(), want);
    assert_eq!(t.get_delta_weights(InputFrame(4), InputFrame(0)).unwrap(), vec![(3, 0.0), (4, 0.0), (5, 0.0)]);
    assert_eq!(t.get_delta_weights(InputFrame(4), InputFrame(4)).unwrap(), vec![]);
    t.compute_current_traceback(&[PhoneSegment { phone: 2, start: 0, end: 2 }], DecoderFrame(3)).unwrap();
    assert_eq!(t.length(), DecoderFrame(3));
    assert_eq!(number(t.compute_current_traceback(&[], DecoderFrame(9))), 23);
    assert_eq!(number(t.get_delta_weights(InputFrame(usize::MAX), InputFrame(0))), 23);
    assert_eq!(number(t.get_delta_weights(InputFrame(25), InputFrame(0))), 23);
    assert!(!t.get_delta_weights(InputFrame(24), InputFrame(0)).unwrap().is_empty());
    assert_eq!(number(SilenceWeighting::new(&[1; 65], 0.25, 3, DecoderFrame(8))), 9);
    assert_eq!(number(SilenceWeighting::new(&[1], 0.25, 0, DecoderFrame(8))), 9);
    assert!(!SilenceWeighting::new(&[], 0.25, 1, DecoderFrame(usize::MAX)).unwrap().active());
}

/// The lists for the changes are as long as any walk needs: no call is refused for want of them.
#[test]
fn the_silence_lists_are_long_enough() {
    let mut t = SilenceWeighting::new(&[1], 0.5, 4, DecoderFrame(3000)).unwrap();
    let mut x = 1u32;
    let mut ready = 0;
    let mut most = 0;
    while ready < 12_000 {
        x ^= x << 13;
        x ^= x >> 17;
        x ^= x << 5;
        ready = (ready + x as usize % 900).min(12_000);
        let decoded = ready / 4 - x as usize % 7 % (ready / 4 + 1);
        let path: Vec<_> =
            (0..decoded).step_by(5).map(|s| PhoneSegment { phone: (s as i32 + x as i32 % 3) % 2, start: s, end: (s + 5).min(decoded) }).collect();
        t.compute_current_traceback(&path, DecoderFrame(decoded)).unwrap();
        most = most.max(t.get_delta_weights(InputFrame(ready), InputFrame(0)).unwrap().len());
    }
    assert!(most > MAX_CHANGES, "{most}");
}

#[test]
fn whose_voice_it_is() {
    let enrolled = [vec![3.0, 4.0], vec![1.0, 2.0], vec![1.0, 2.0]];
    let ask = |limit| nearest_voice(2, &[1.0, 1.0], &enrolled, limit);
    assert_eq!(ask(1.0), Ok(Some(Voice { index: 1, distance: 1.0 })));
    assert_eq!(ask(0.75), Ok(None));
    assert_eq!(number(ask(-1.0)), 29);
    assert_eq!(number(nearest_voice::<&[f32]>(2, &[1.0, 1.0], &[], 1.0)), 27);
    assert_eq!(number(nearest_voice(2, &[1.0, 1.0], &[[1.0]; 33], 1.0)), 27);
    assert_eq!(number(nearest_voice(2, &[1.0], &enrolled, 1.0)), 28);
    // together they have the right length
    assert_eq!(number(nearest_voice(2, &[1.0, 1.0], &[vec![1.0], vec![1.0, 2.0, 3.0]], 1.0)), 28);
    assert_eq!(number(nearest_voice(2, &[1.0, 1.0], &[vec![1.0], vec![1.0, f32::NAN, 3.0]], 1.0)), 28);
}

#[test]
fn streams_go_to_other_threads() {
    fn sendable<T: Send + 'static>() {}
    fn shareable<T: Send + Sync + 'static>() {}
    sendable::<IvectorStream>();
    sendable::<SilenceWeighting>();
    shareable::<IvectorInfo>();
    shareable::<Refusal>();
    let info = info();
    let run = |info: IvectorInfo| {
        let mut s = IvectorStream::new(&info, Room::default()).unwrap();
        let mut out = [0.0; 3];
        for t in 0..100 {
            s.push_frame(&frame(t)).unwrap();
        }
        s.get_frame(98, &mut out).unwrap();
        out.map(f32::to_bits)
    };
    let threads: Vec<_> = (0..4)
        .map(|_| {
            std::thread::spawn({
                let info = info.clone();
                move || run(info)
            })
        })
        .collect();
    let want = run(info);
    for t in threads {
        assert_eq!(t.join().unwrap(), want);
    }
}

#[test]
fn every_refusal_has_a_sentence() {
    let info = info();
    let r = IvectorStream::new(&info, Room { frames: 0, ..Room::default() }).unwrap_err();
    assert_eq!(r.to_string(), "refused, 8: a lent room is too short");
}

#[test]
fn rounds() {
    let info = info();
    let mut stream = IvectorStream::new(&info, Room::for_utterances(&info, 40)).unwrap();
    let mut vector = vec![0.0; info.ivector_dim()];
    let table = || SilenceWeighting::new(&[1], 0.25, 1, DecoderFrame(40)).unwrap();
    let path = [PhoneSegment { phone: 1, start: 0, end: 5 }, PhoneSegment { phone: 2, start: 5, end: 19 }];
    let numbers = |from: usize| (from..from + 20).flat_map(frame).collect::<Vec<f32>>();
    // nobody is enrolled: the vector is there all the same
    let a = stream.round(&mut table(), 0, &numbers(0), &path, &[] as &[Vec<f32>], 1.0, &mut vector);
    assert!(matches!(a.end, RoundEnd::Refused(r, 7) if r.number() == 27), "{a:?}");
    assert!(!a.changes.is_empty() && vector.iter().any(|x| *x != 0.0));
    assert_eq!(stream.held().frames, 20);
    // the same calls, one by one
    let mut plain = IvectorStream::new(&info, Room::for_utterances(&info, 40)).unwrap();
    let mut same = vec![0.0; info.ivector_dim()];
    let mut silence = table();
    plain.forget_before(0).unwrap();
    for x in numbers(0).chunks(4) {
        plain.push_frame(x).unwrap();
    }
    silence.compute_current_traceback(&path, DecoderFrame(19)).unwrap();
    let changes = silence.get_delta_weights(InputFrame(plain.num_frames_ready()), InputFrame(0)).unwrap();
    assert_eq!(changes, a.changes);
    plain.update_frame_weights(&changes).unwrap();
    plain.get_frame(plain.num_frames_ready() - 1, &mut same).unwrap();
    assert_eq!(same, vector);
    assert_eq!(plain.held(), stream.held());
    // with that vector enrolled; then a frame that is cut short
    let enrolled = [vector.clone()];
    let a = stream.round(&mut table(), 20, &numbers(20), &path, &enrolled, 1e9, &mut vector);
    assert!(matches!(a.end, RoundEnd::Full(Some(Voice { index: 0, .. }))), "{a:?}");
    let a = stream.round(&mut table(), 40, &[1.0], &path, &enrolled, 1e9, &mut vector);
    assert!(matches!(a.end, RoundEnd::Refused(r, 2) if r.number() == 11), "{a:?}");
    // a fresh stream has no frame ready
    let mut fresh = IvectorStream::new(&info, Room::default()).unwrap();
    assert_eq!(fresh.round(&mut table(), 0, &[], &[], &enrolled, 1.0, &mut vector).end, RoundEnd::NoVector);
}

/// P9's numbers written at both widths, and loaded back: its vector is 0.5, as of its own files.
#[test]
fn a_model_written_back() {
    let o = p9_options();
    let text = p9()[3].clone();
    let sizes = ModelSizes { num_gauss: 1, ext_gauss: 1, feat_dim: 1, ivector_dim: 1, lda_cols: 1 };
    let (one, two) = ([1f32], [2f32]);
    let narrow = ModelParams { sizes, weights: &one, means_invvars: &one, inv_vars: &one, m: &two, sigma_inv: &one, prior_offset: 1f32, lda: &one };
    let (one, two) = ([1f64], [2f64]);
    let wide = ModelParams { sizes, weights: &one, means_invvars: &one, inv_vars: &one, m: &two, sigma_inv: &one, prior_offset: 1f64, lda: &one };
    for files in [narrow.files(&o, &text).unwrap(), wide.files(&o, &text).unwrap()] {
        let info = IvectorInfo::from_bytes(o, &files[0], &files[1], &files[2], &text).unwrap();
        let mut s = IvectorStream::new(&info, Room::for_utterances(&info, 4)).unwrap();
        s.push_frame(&[4.0]).unwrap();
        let mut v = [0.0];
        s.get_frame(0, &mut v).unwrap();
        assert_eq!(v, [0.5]);
    }
    let mut out = vec![7; 300];
    assert_eq!(narrow.write(&o, &text, &mut out).unwrap(), Written { gmm: 124, extractor: 144, lda: 19 });
    assert_eq!(out[287..], [7; 13]);
    let mut out = vec![7; 286];
    assert_eq!(number(narrow.write(&o, &text, &mut out)), 26);
    assert_eq!(out, [7; 286]);
    assert_eq!(number(ModelParams { lda: &[], ..wide }.files(&o, &text)), 5);
    assert_eq!(number(ModelParams { weights: &[1e-50], ..wide }.files(&o, &text)), 6);
    assert_eq!(number(ModelParams { sizes: ModelSizes { feat_dim: usize::MAX, ..sizes }, ..wide }.files(&o, &text)), 4);
    assert_eq!(number(wide.files(&o, b"")), 7);
}
