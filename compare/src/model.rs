//! Model files of any size with plain numbers, as a trained model has them: for the day and the bench.
use crate::gen::Rng;
use crate::machine::Options;

#[derive(Clone, Copy, Debug)]
pub struct Size {
    pub gauss: usize,
    pub feat: usize,
    pub ivec: usize,
    pub base: usize,
}

pub const SMALL: Size = Size { gauss: 6, feat: 4, ivec: 4, base: 3 };
pub const LARGE: Size = Size { gauss: 512, feat: 40, ivec: 100, base: 40 };

fn token(b: &mut Vec<u8>, t: &str) {
    b.extend(t.as_bytes());
    b.push(b' ');
}
fn dim(b: &mut Vec<u8>, n: usize) {
    b.push(4);
    b.extend((n as i32).to_le_bytes());
}
fn f32s(b: &mut Vec<u8>, v: impl IntoIterator<Item = f64>) {
    for x in v {
        b.extend((x as f32).to_le_bytes());
    }
}
fn f64s(b: &mut Vec<u8>, v: impl IntoIterator<Item = f64>) {
    for x in v {
        b.extend(x.to_le_bytes());
    }
}

/// GMM, extractor, LDA and CMVN text.
pub fn files(r: &mut Rng, o: &Options, z: Size) -> [Vec<u8>; 4] {
    let (g, d, s) = (z.gauss, z.feat, z.ivec);
    let mut gmm = vec![0, b'B'];
    token(&mut gmm, "<DiagGMM>");
    token(&mut gmm, "<WEIGHTS>");
    token(&mut gmm, "FV");
    dim(&mut gmm, g);
    f32s(&mut gmm, (0..g).map(|_| (0.5 + r.unit()) / g as f64));
    let vars: Vec<f64> = (0..g * d).map(|_| 0.5 + r.unit()).collect();
    token(&mut gmm, "<MEANS_INVVARS>");
    token(&mut gmm, "FM");
    dim(&mut gmm, g);
    dim(&mut gmm, d);
    f32s(&mut gmm, vars.iter().map(|v| v * 1.5 * r.sym()).collect::<Vec<_>>());
    token(&mut gmm, "<INV_VARS>");
    token(&mut gmm, "FM");
    dim(&mut gmm, g);
    dim(&mut gmm, d);
    f32s(&mut gmm, vars);
    token(&mut gmm, "</DiagGMM>");

    let mut ie = vec![0, b'B'];
    token(&mut ie, "<IvectorExtractor>");
    token(&mut ie, "<w>");
    token(&mut ie, "DM");
    dim(&mut ie, 0);
    dim(&mut ie, 0);
    token(&mut ie, "<w_vec>");
    token(&mut ie, "DV");
    dim(&mut ie, g);
    f64s(&mut ie, (0..g).map(|_| 1.0 / g as f64));
    token(&mut ie, "<M>");
    dim(&mut ie, g);
    for _ in 0..g {
        token(&mut ie, "DM");
        dim(&mut ie, d);
        dim(&mut ie, s);
        f64s(&mut ie, (0..d * s).map(|_| 0.2 * r.sym()).collect::<Vec<_>>());
    }
    token(&mut ie, "<SigmaInv>");
    for _ in 0..g {
        token(&mut ie, "DP");
        dim(&mut ie, d);
        for i in 0..d {
            for j in 0..=i {
                f64s(&mut ie, [if i == j { 1.0 + r.unit() } else { 0.02 * r.sym() }]);
            }
        }
    }
    token(&mut ie, "<IvectorOffset>");
    ie.push(8);
    f64s(&mut ie, [10.0]);
    token(&mut ie, "</IvectorExtractor>");

    let spliced = z.base * (o.left + 1 + o.right) as usize;
    let mut lda = vec![0, b'B'];
    token(&mut lda, "FM");
    dim(&mut lda, d);
    dim(&mut lda, spliced + 1);
    let k = 1.0 / (spliced as f64).sqrt();
    f32s(&mut lda, (0..d * (spliced + 1)).map(|_| k * r.sym()).collect::<Vec<_>>());

    let mut text = String::from(" [\n ");
    for row in 0..2 {
        for _ in 0..z.base {
            text.push_str(&format!(" {:.4}", 1000.0 * r.sym() + if row == 1 { 5000.0 } else { 0.0 }));
        }
        text.push_str(if row == 0 { " 1000\n " } else { " 0 ]\n" });
    }
    [gmm, ie, lda, text.into_bytes()]
}

/// Frame t of one voice: loud two times of three.
pub fn frame(r: &mut Rng, o: &Options, base: usize) -> Vec<f32> {
    let mut x: Vec<f32> = (0..base).map(|_| (2.0 * (r.sym() + r.sym())) as f32).collect();
    x[0] = o.min_energy + if r.p(67) { 5.0 } else { -5.0 } * r.unit() as f32;
    x
}
