//! Request 5: loads that bring their answers, on the library and the machine.
use crate::machine::{self, Model, Options};
use crate::rattle;
use std::collections::BTreeMap;
use std::io::BufRead;

/// BYTES of FORMAT.md.
fn bytes(w: &str) -> Vec<u8> {
    if w == "-" {
        return vec![];
    }
    let mut v = vec![];
    for p in w.split('+') {
        match p.split_once('*') {
            Some((n, b)) => v.resize(v.len() + n.parse::<usize>().unwrap(), u8::from_str_radix(b, 16).unwrap()),
            None => v.extend(p.as_bytes().chunks(2).map(|c| u8::from_str_radix(std::str::from_utf8(c).unwrap(), 16).unwrap())),
        }
    }
    v
}

/// A model's dimensions, prior and tables as one line, a NaN as one pattern.
fn told(m: &Model) -> String {
    fn f32s(t: &mut String, v: &[f32]) {
        v.iter().for_each(|x| *t += &format!(" {:08x}", if x.is_nan() { 0x7fc0_0000 } else { x.to_bits() }));
    }
    fn f64s(t: &mut String, v: &[f64]) {
        v.iter().for_each(|x| *t += &format!(" {:016x}", if x.is_nan() { 0x7ff8 << 48 } else { x.to_bits() }));
    }
    let d = &m.dims;
    let mut t = format!("0 {} {} {} {} {} {}", d.gmm_gauss, d.ext_gauss, d.feat, d.ivec, d.base, d.lda_cols);
    f64s(&mut t, &[m.prior]);
    f32s(&mut t, &m.gconsts);
    f32s(&mut t, &m.means_t);
    f32s(&mut t, &m.invvars_t);
    f64s(&mut t, &m.sim);
    f64s(&mut t, &m.u);
    f32s(&mut t, &m.lda_t);
    f32s(&mut t, &m.lda_offset);
    f64s(&mut t, &m.global);
    t
}

/// Lines `load OPTIONS GMM EXTRACTOR LDA TEXT = ANSWER` that bring their answers, on the library and on the machine; returns the differences.
pub fn lines(input: impl BufRead) -> u64 {
    let (mut shown, mut wrong, mut count, mut skipped) = (BTreeMap::new(), 0, 0, 0);
    for line in input.lines() {
        let line = line.unwrap();
        let Some((case, want)) = line.strip_prefix("load ").and_then(|t| t.split_once(" = ")) else {
            skipped += 1;
            continue;
        };
        let w: Vec<&str> = case.split(' ').collect();
        let (u, f) = (|i: usize| w[i].parse::<u64>().unwrap(), |i: usize| f32::from_bits(u32::from_str_radix(w[i], 16).unwrap()));
        let o = Options {
            left: u(0),
            right: u(1),
            window: u(2),
            global_frames: u(3),
            num_gselect: u(4),
            num_cg_iters: u(5),
            min_post: f(6),
            posterior_scale: f(7),
            max_count: f64::from_bits(u64::from_str_radix(w[8], 16).unwrap()),
            min_energy: f(9),
        };
        let b: [Vec<u8>; 4] = std::array::from_fn(|k| bytes(w[10 + k]));
        let m = machine::load(&o, &b[0], &b[1], &b[2], &b[3], &[0; 8]);
        let says = m.as_ref().map_or_else(|n| n.to_string(), told);
        let (lens, scratch) = match &m {
            Ok(m) => (machine::model_needs(&m.dims, &o).iter().map(|n| *n as usize).collect(), rattle::load_scratch(m.dims.feat, m.dims.ivec)),
            Err(_) => (vec![7; 8], 10_272),
        };
        let (n, _, fault) = rattle::load(&o, &b, &lens, scratch, m.as_ref().ok());
        count += 1;
        let number = want.split(' ').next().unwrap().to_string();
        if says != want || n.to_string() != number || fault.is_some() {
            wrong += 1;
            println!("{line}: machine {says}, library {n} {fault:?}");
        }
        *shown.entry(number).or_insert(0u64) += 1;
    }
    println!("load: {count} lines, {skipped} of another kind, answers {shown:?}, {wrong} differences");
    wrong
}
