//! Numbers of the options and of the text at their edges; lent lengths.
use crate::gen::{give, spec, text_num, CallList, Rng};
use crate::machine::Alter;
use crate::script::Cmd;

pub fn edges(r: &mut Rng, out: &mut CallList) {
    let sp = spec(r, false);
    give(&mut out.cmds, &sp);
    out.cmds.push(Cmd::Model([0; 8]));
    out.expect.push((out.cmds.len() - 1, 0));
    let inf = f32::INFINITY;
    let nan = f32::NAN;
    let base = sp.opts;
    for _ in 0..14 {
        let mut o = base;
        let mut n = 1;
        match r.n(26) {
            0 => o.left = r.pick(&[9, 10, 1 << 40, u64::MAX]),
            1 => o.right = r.pick(&[9, 100, u64::MAX]),
            2 => o.window = r.pick(&[0, 1001, u64::MAX]),
            3 => o.global_frames = r.pick(&[0, 10_001, u64::MAX]),
            4 => o.num_gselect = r.pick(&[0, 33, u64::MAX]),
            5 => o.num_cg_iters = r.pick(&[201, 1 << 31, u64::MAX]),
            6 => o.min_post = r.pick(&[1.0, -1e-45, nan, inf, -inf, 2.0]),
            7 => o.posterior_scale = r.pick(&[nan, inf, -inf]),
            8 => o.max_count = r.pick(&[f64::NAN, f64::INFINITY, f64::NEG_INFINITY]),
            9 => o.min_energy = r.pick(&[nan, inf, -inf]),
            k => {
                n = 0;
                match k {
                    10 => o.window = r.pick(&[1, 1000]),
                    11 => o.global_frames = r.pick(&[1, 10_000]),
                    12 => o.num_gselect = r.pick(&[1, 32]),
                    13 => o.num_cg_iters = r.pick(&[0, 200]),
                    14 => o.min_post = r.pick(&[0.0, -0.0, 0.99999994, 1e-45]),
                    15 => o.posterior_scale = r.pick(&[0.0, -1.0, f32::MAX, 1e-45]),
                    16 => o.max_count = r.pick(&[0.0, -1.0, f64::MAX, 5e-324]),
                    17 => o.min_energy = r.pick(&[0.0, f32::MAX, -f32::MAX]),
                    18 => {
                        // wide enough options, LDA no longer fits
                        o.left = 8 - o.right.min(3);
                        n = if sp.base as u64 * (o.left + o.right + 1) == sp.base as u64 * (base.left + base.right + 1) { 0 } else { 5 };
                        // one column more or less can still fit as the offset column
                        if sp.base == 1 {
                            continue;
                        }
                    }
                    _ => continue,
                }
            }
        }
        out.cmds.push(Cmd::Options(o));
        out.cmds.push(Cmd::Model([0; 8]));
        out.expect.push((out.cmds.len() - 1, n));
        if n == 1 && r.p(20) {
            // 1 comes before any fault in the bytes
            out.cmds.push(Cmd::Bytes(0, vec![]));
            out.cmds.push(Cmd::Model([-1; 8]));
            out.expect.push((out.cmds.len() - 1, 1));
            out.cmds.push(Cmd::Bytes(0, sp.files[0].b.clone()));
        }
    }
    // number texts
    for _ in 0..8 {
        let t: Vec<String> = (0..4).map(|i| text_num(r, i == 1)).collect();
        out.cmds.push(Cmd::Options(base));
        let pad = |k: usize| vec!["0"; sp.base.saturating_sub(k)].join(" ");
        let text = if sp.base == 1 {
            format!("[{} {}\n{} {}]", t[0], t[1], t[2], t[3])
        } else {
            format!("[{} {} {}\n{} {} {}]", pad(1), t[0], t[1], pad(1), t[2], t[3])
        };
        out.cmds.push(Cmd::Bytes(3, text.into_bytes()));
        out.cmds.push(Cmd::Model([0; 8]));
        if r.p(60) {
            out.cmds.push(Cmd::Tables);
        }
        out.expect.push((out.cmds.len() - 1 - usize::from(matches!(out.cmds.last(), Some(Cmd::Tables))), 0));
    }
}

pub fn rooms(r: &mut Rng, out: &mut CallList) {
    let sp = spec(r, false);
    give(&mut out.cmds, &sp);
    for _ in 0..4 {
        let mut d = [0i64; 8];
        for v in d.iter_mut() {
            if r.p(15) {
                *v = r.pick(&[-1, 1, -1000, 3]);
            }
        }
        out.cmds.push(Cmd::Model(d));
        let n = if d.iter().any(|&v| v < 0) { 8 } else { 0 };
        out.expect.push((out.cmds.len() - 1, n));
    }
    // faults in the bytes come before short rooms
    out.cmds.push(Cmd::Bytes(3, b"[".to_vec()));
    out.cmds.push(Cmd::Model([-1; 8]));
    out.expect.push((out.cmds.len() - 1, 7));
    out.cmds.push(Cmd::Bytes(3, sp.files[3].b.clone()));
    out.cmds.push(Cmd::Model([0; 8]));
    let b = sp.base as u64;
    for _ in 0..10 {
        let mut l = [8 * b, 20 * b, 5, 5];
        let mut d = [0i64; 5];
        match r.n(6) {
            0 => l[0] = r.n(2 * b + 1),
            1 => l[1] = r.n(3 * b + 1),
            2 => l[2] = r.n(3),
            3 => l[3] = 0,
            4 => d[r.n(5) as usize] = r.pick(&[-1, -100, 2]),
            _ => {}
        }
        if r.p(25) {
            let (k, v) = r.pick(&[
                ("window", 0u64),
                ("left", 9),
                ("gaussg", 0),
                ("ivec", 129),
                ("base", 0),
                ("feat", 65),
                ("ldacols", 0),
                ("gausse", 0),
                ("iters", 201),
            ]);
            out.cmds.push(Cmd::Alter(Alter::Field(k.into(), v)));
        } else if r.p(15) {
            out.cmds.push(Cmd::Alter(Alter::Room(r.n(8) as usize, r.pick(&[-1, 1]))));
        }
        out.cmds.push(Cmd::Stream(l, d));
    }
}
