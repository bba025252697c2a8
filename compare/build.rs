//! Reads the original Rust from the folder UTTER_SRC at build time, patches it and writes two variants into OUT_DIR: `orig.rs` (as
//! published, with the scope's exponential and logarithm, sums from -0.0, and a start on the solution kept) and `orig_nan.rs` (the same with NaN ordered last
//! instead of a panic). No original text is kept here; each patch asserts how often it applies. Where UTTER_SRC is not set, without.rs stands
//! in the place of both. What is changed of its arithmetic stands in patches.txt. The library comes with hosts/rust; where SHOFRAKIN_CRATE names another
//! crate, the archive that `rt lib` wrote of it to the folder SHOFRAKIN_LIB is linked.
use std::{
    env, fs,
    path::{Path, PathBuf},
};

/// Replace `from` by `to`, which must occur exactly `n` times.
fn sub(t: &str, from: &str, to: &str, n: usize) -> String {
    let got = t.matches(from).count();
    assert!(got == n, "patch {from:?}: wanted {n} places, found {got}");
    t.replace(from, to)
}

fn cut<'a>(t: &'a str, a: &str, b: &str) -> (usize, usize, &'a str) {
    let i = t.find(a).unwrap_or_else(|| panic!("no {a:?}"));
    let j = i + t[i..].find(b).unwrap_or_else(|| panic!("no {b:?} after {a:?}"));
    (i, j, &t[i..j])
}

/// A file of this script's folder, which `selection` uses too.
fn beside(name: &str) -> PathBuf {
    Path::new(file!()).with_file_name(name)
}

/// The patches of that kind in patches.txt, which `original/translate` reads too: (from, to, how often).
fn patches(kind: &str) -> Vec<(String, String, usize)> {
    let table = fs::read_to_string(beside("patches.txt")).unwrap();
    let mut found = Vec::new();
    for block in table.split("\n\n") {
        let field = |name: &str| block.lines().find_map(|l| l.strip_prefix(name)?.strip_prefix(": ")).map(|v| v.replace("\\n", "\n"));
        if field("kind").as_deref() == Some(kind) {
            let to = field("rust").or_else(|| field("to")).expect("patches.txt: rust: or to:");
            found.push((field("from").expect("patches.txt: from:"), to, field("times").expect("patches.txt: times:").parse().unwrap()));
        }
    }
    assert!(!found.is_empty(), "patches.txt has none of {kind:?}");
    found
}

fn patched(t: &str, kind: &str) -> String {
    patches(kind).iter().fold(t.to_string(), |t, (from, to, n)| sub(&t, from, to, *n))
}

fn main() {
    println!("cargo:rerun-if-env-changed=UTTER_SRC");
    println!("cargo:rerun-if-changed={}", beside("build.rs").display());
    println!("cargo:rerun-if-changed={}", beside("patches.txt").display());
    println!("cargo:rerun-if-env-changed=SHOFRAKIN_CRATE");
    println!("cargo:rerun-if-env-changed=SHOFRAKIN_LIB");
    if let Ok(name) = env::var("SHOFRAKIN_CRATE") {
        let lib = env::var("SHOFRAKIN_LIB").expect("SHOFRAKIN_LIB names the archive's folder");
        println!("cargo:rerun-if-changed={lib}/lib{name}.a");
        println!("cargo:rustc-link-search=native={lib}");
        println!("cargo:rustc-link-lib=static={name}");
    }
    let out = env::var("OUT_DIR").unwrap();
    let Ok(dir) = env::var("UTTER_SRC") else {
        println!("cargo:rerun-if-changed={}", beside("without.rs").display());
        for name in ["orig.rs", "orig_nan.rs"] {
            fs::copy(beside("without.rs"), Path::new(&out).join(name)).unwrap();
        }
        return;
    };
    let read = |n: &str| -> String {
        let p = format!("{dir}/{n}.rs");
        println!("cargo:rerun-if-changed={p}");
        fs::read_to_string(&p).unwrap_or_else(|e| panic!("{p}: {e}"))
    };
    let ivector = read("ivector");
    let kaldi = read("kaldi_io");
    let silence = read("silence_weighting");
    let decoder = read("decoder");

    // Module paths: two variants stand beside each other.
    let mut iv = sub(&ivector, "use crate::kaldi_io::", "use super::kaldi_io::", 1);
    let mut sil = sub(&silence, "use crate::decoder::Path;", "use super::decoder::Path;", 1);

    // (1) the scope's logarithm and exponential.
    iv = patched(&iv, "the scope's exponential and logarithm");
    assert!(!iv.contains(".ln()") && !iv.contains(".exp()"));
    // Sums start at -0.0 whatever the standard library does.
    iv = sub(&iv, ".map(|(x, y)| x * y).sum()", ".map(|(x, y)| x * y).fold(-0.0f64, |a, b| a + b)", 1);
    iv = sub(&iv, "temp.iter().map(|p| p.1).sum()", "temp.iter().map(|p| p.1).fold(-0.0f32, |a, b| a + b)", 1);
    assert!(!iv.contains(".sum()"));

    // (2) the constructor: bytes and options in place of a directory and its settings files.
    iv = sub(
        &iv,
        "pub fn open(dir: &std::path::Path) -> Result<IvectorInfo> {",
        "pub fn open_bytes(opts: IvectorOptions, dubm: &[u8], ie: &[u8], mat: &[u8], cmvn: &[u8]) -> Result<IvectorInfo> {",
        1,
    );
    let (i, j, _) = cut(&iv, "let mut opts = IvectorOptions::default();", "let gmm = DiagGmm::parse");
    // the settings files, read as texts that are given
    let mut half = iv[i..j].to_string();
    half = sub(&half, "std::fs::read_to_string(dir.join(\"splice.conf\"))", "Ok::<&str, ()>(splice)", 1);
    half = sub(&half, "std::fs::read_to_string(dir.join(\"online_cmvn.conf\"))", "Ok::<&str, ()>(online_cmvn)", 1);
    iv.replace_range(i..j, "");
    iv.push_str(&format!("\npub fn settings(splice: &str, online_cmvn: &str) -> IvectorOptions {{\n{half}opts\n}}\n"));
    iv = sub(&iv, "DiagGmm::parse(&std::fs::read(dir.join(\"final.dubm\"))?)?", "DiagGmm::parse(dubm)?", 1);
    iv = sub(&iv, "IvectorExtractor::parse(&std::fs::read(dir.join(\"final.ie\"))?)?", "IvectorExtractor::parse(ie)?", 1);
    iv = sub(&iv, "let mat = std::fs::read(dir.join(\"final.mat\"))?;", "", 1);
    iv = sub(&iv, "std::fs::read_to_string(dir.join(\"global_cmvn.stats\"))?", "std::str::from_utf8(cmvn).map_err(|_| err(\"utf-8\"))?", 1);
    assert!(!iv.contains("std::fs"));

    // (3) request 9: a start on the solution is kept.
    iv = patched(&iv, "a start on the solution is kept");

    // Access to private items.
    iv.push_str(
        r#"
#[derive(Clone, Debug)]
pub struct Tables {
    pub gconsts: Vec<f32>, pub means_invvars_t: Vec<f32>, pub inv_vars_t: Vec<f32>,
    pub sigma_inv_m: Vec<f64>, pub u: Vec<f64>, pub lda_t: Vec<f32>, pub lda_offset: Vec<f32>, pub global: Vec<f64>,
}
impl IvectorInfo {
    pub fn tables(&self) -> Tables {
        Tables {
            gconsts: self.gmm.gconsts.clone(), means_invvars_t: self.gmm.means_invvars_t.clone(),
            inv_vars_t: self.gmm.inv_vars_t.clone(), sigma_inv_m: self.extractor.sigma_inv_m.concat(),
            u: self.extractor.u.concat(), lda_t: self.lda_t.clone(), lda_offset: self.lda_offset.clone(),
            global: self.global_mean_stats.clone(),
        }
    }
}
impl<'a> IvectorStream<'a> {
    pub fn x_held(&self) -> (u64, u64) { (self.frames.len() as u64, self.prefix.len() as u64) }
    /// cmvn state, linear, quadratic, frame count, current.
    pub fn x_state(&self) -> Vec<f64> {
        let mut v = self.cmvn_stats.clone();
        v.extend(&self.stats.linear);
        v.extend(&self.stats.quadratic);
        v.push(self.stats.num_frames);
        v.extend(&self.current);
        v
    }
    pub fn x_next(&self) -> usize { self.num_frames_stats }
    pub fn x_waiting(&self) -> usize { self.delta_weights.len() }
    pub fn x_cmvn(&mut self, t: usize, out: &mut [f32]) { self.cmvn_frame(t, out) }
    pub fn x_cmvn_state(&self) -> Vec<f64> { self.cmvn_stats.clone() }
    pub fn x_min_post_for(&self, w: f32) -> f32 { self.min_post_for(w) }
}
pub fn x_cgd(a: &[f64], n: usize, b: &[f64], x: &mut [f64], it: i32) { linear_cgd(a, n, b, x, it) }
pub fn x_cholesky(a: &[f64], n: usize, b: &[f64], x: &mut [f64]) -> bool { cholesky_solve(a, n, b, x) }
"#,
    );
    sil.push_str(
        r#"
impl SilenceWeighting {
    pub fn x_table(&self) -> Vec<(bool, bool, u32)> {
        self.frame_info.iter().map(|f| (f.known, f.is_silence, f.current_weight.to_bits())).collect()
    }
}
"#,
    );

    // decoder.rs: PhoneSegment and Path alone (Label is i32 in fst.rs).
    let (_, _, seg) = cut(&decoder, "#[derive(Clone, Debug, PartialEq)]\npub struct PhoneSegment", "/// Everything a traceback yields.");
    let (_, _, path) = cut(&decoder, "#[derive(Clone, Debug, Default)]\npub struct Path", "impl Path {");
    let dec = format!("pub type Label = i32;\n{seg}\n{path}\n");

    let allow = "#[allow(dead_code, unused_imports, unused_mut, clippy::all)]\n";
    let write = |name: &str, iv: &str| {
        let t = format!(
            "pub const HERE: bool = true;\n{allow}pub mod kaldi_io {{\n{kaldi}\n}}\n{allow}pub mod decoder {{\n{dec}\n}}\n{allow}pub mod silence_weighting {{\n{sil}\n}}\n{allow}pub mod ivector {{\n{iv}\n}}\n"
        );
        fs::write(Path::new(&out).join(name), t).unwrap();
    };
    write("orig.rs", &iv);
    write("orig_nan.rs", &patched(&iv, "NaN stands last"));
}
