# What is taken of the original, in order, and the rewrites that turn it into Rattle. No line of the original is here but the anchors.

# The kinds of rewrites, and why each keeps the meaning. Three of them are compare's patches too: compare/patches.txt has those, under these names.
ALLOC = 'allocation may fail'
LOGARITHM = 'the scope\'s exponential and logarithm'
START = 'a start on the solution is kept'
NAN = 'NaN stands last'
METHOD = CAST = TAKE = 'a method or a cast as a function'
COUNT = 'a signed count as usize'
ZIP = 'a zip over what changes, by its index'
BORROW = 'a borrow taken where it is read'
DROP = 'a type that may be let go'
PROVE = 'an assertion that is proved'
TEXT = 'an error\'s text, and a text as a text'
BYTES = 'bytes in place of files'
WHY = {
    ALLOC: 'What allocates is passed `alloc` and answers a `Result`; `?` hands out of memory on, `Ok` wraps what the original gives. Erased again, the original\'s tokens '
           'are left, to the last (`erase.py`, tried at each translation; what was there before, a `?` or an `Ok` of a reader\'s own, stays where it stood). Where memory suffices, '
           'each step is the original\'s.',
    LOGARITHM: 'The scope sets `ln` and `exp` bit for bit; the original calls the platform\'s. The same places as in compare\'s copy.',
    START: 'Request 9: a start that solves the equation is kept, where the original divides 0 by 0. The same place as in compare\'s copy.',
    NAN: 'Where the original panics at a NaN likelihood, a NaN stands last and the lower index first. The same place as in compare\'s copy.',
    METHOD: 'Rust\'s `sqrt`, `abs`, `min` and `max` of a float are here the functions of `floats` of those names, proved equal to their definitions: the root rounded, the number without '
            'its sign, the other number where one is a NaN; of two equal numbers Rust leaves open which one `min` or `max` gives (a zero\'s sign), and here it is the first. `as` between '
            '`f32` and `f64` is exact or rounds to nearest, NaN to NaN; `to_bits`, `from_bits` and the bytes of a float are its bit pattern; `try_collect` is `collect` of results. '
            '`by_ref().take(n).read_to_end(buf)` puts the next n bytes behind `buf`, or all where fewer are left; so does `read_up_to`, of which that is proved, where the kit\'s clauses '
            'leave open what the reader has left.',
    COUNT: 'The count of turns begins at 0, rises by 1 and ends at 133 at most; as a `usize` it needs no test of its sign. The option that it is compared with is not negative within '
           'the limits.',
    ZIP: '`a.iter_mut().zip(b)` visits the places of both in order; by the index of `a` the same, where `b` is as long, which the prover sees to.',
    BORROW: 'A row that a `let` borrows once is borrowed at each read: between them nothing writes to it. What is lent already is not lent again.',
    DROP: 'Rattle asks a type to say that its values may be let go. No step is added.',
    TEXT: 'The words of an error take nothing of what was read; the error and its kind stay. A `String` is compared, or stripped, as the text that it holds.',
    BYTES: 'The folder is a value that holds its files\' bytes, by their names, where the original reads them from the file system.',
    PROVE: '`assert!` panics where it does not hold; `prove!` is proved to hold, so that the panic cannot come.',
}

# the project's crates that the contracts and proofs speak of; those below them come with them
DEPS = 'loops floats definition algebra gmm ivector_stats'
# files of laws, and of words that they need, in crates that stand on more than these: each is laid into this crate, since it needs no more than these itself
LAWS = ['rounds/proofs/Phones', 'kaldi/proofs/Bytes', 'kaldi/proofs/Values', 'kaldi/proofs/Chain', 'kaldi/specs/Inner/KaldiIoAnswers', 'kaldi/specs/Settings']

IVECTOR = 'ivector.rs'
SILENCE = 'silence_weighting.rs'
# the branch's files; what of their functions stands here nowhere is listed, and no function of the branch calls it
BRANCH = [IVECTOR, SILENCE, 'kaldi_io.rs']


def item(name, at, source=IVECTOR, open=False, subs=(), alloc=(), closures=()):
    """The item that begins with the text `at` in `source`. subs: rewrites (kind, from, to, how often if not once); alloc: those for allocation, done after
    them (from, to, how often if not once). A count that is off stops the run. open: translated, not proved yet. closures: (name, head) of a closure
    whose clauses stand in contracts/ITEM.NAME; head: its translated text up to its block."""
    return dict(name=name, at=at, source=source, open=open, subs=subs, alloc=alloc, closures=closures)


def impl(name, head, items):
    """An impl whose head is `head`, with some of its functions."""
    return dict(name=name, head=head, items=items)


def own(name, open=False):
    """A text of ours, contracts/NAME. open: it goes with items that are not proved yet."""
    return dict(own=name, open=open)


LIB = [
    item('packed_index', 'fn packed_index('),
    item('sp_mat_vec', 'fn sp_mat_vec('),
    item('dot', 'fn dot('),
    item('cholesky_solve', 'fn cholesky_solve(', subs=[
        (METHOD, 's.sqrt()', 'floats::sqrt(s)'),
    ], alloc=[
        ('fn cholesky_solve(a', 'fn cholesky_solve(alloc: Global, a'),
        ('-> bool', '-> Result<bool, AllocError>'),
        ('vec![0.0f64; n * n];', 'vec![in alloc; 0.0f64; n * n]?;'),
        ('vec![0.0f64; n];', 'vec![in alloc; 0.0f64; n]?;'),
        ('return false;', 'return Ok(false);'),
        ('\n    true\n', '\n    Ok(true)\n'),
    ]),
    item('linear_cgd', 'fn linear_cgd(', subs=[
        (COUNT, 'max_iters: i32', 'max_iters: usize'),
        (COUNT, 'let mut k = 0i32;', 'let mut k = 0usize;'),
        (COUNT, 'usize::try_from(k).is_ok_and(|i| i < n + 5)', 'k < n + 5'),
    ], alloc=[
        ('fn linear_cgd(a', 'fn linear_cgd(alloc: Global, a'),
        ('max_iters: usize)', 'max_iters: usize) -> Result<(), AllocError>'),
        ('return;', 'return Ok(());'),
        ('vec![0.0f64; n];', 'vec![in alloc; 0.0f64; n]?;', 4),
        ('x.to_vec()', 'x.to_vec(alloc)?'),
        ('if cholesky_solve(a, n, b, &mut exact) {', 'if cholesky_solve(alloc, a, n, b, &mut exact)? {'),
        ('\n        }\n    }\n}', '\n        }\n    }\n    Ok(())\n}'),
    ]),
    item('DiagGmm', 'pub struct DiagGmm {', subs=[
        (DROP, 'pub struct DiagGmm {', '#[derive(Drop)]\npub struct DiagGmm {'),
    ]),
    impl('DiagGmm', 'impl DiagGmm {', [
        item('loglikes', 'pub fn loglikes(', alloc=[
            ('scratch: &mut Vec<f32>)', 'scratch: &mut Vec<f32>) -> Result<(), AllocError>'),
            ('scratch.resize(g, 0.0);', 'scratch.resize(g, 0.0)?;'),
            ('\n        }\n    }', '\n        }\n        Ok(())\n    }'),
        ]),
    ]),
    own('nan_last'),
    item('select_posteriors', 'pub fn select_posteriors(', subs=[
        (METHOD, 'f32::NEG_INFINITY, f32::max', 'f32::NEG_INFINITY, floats::max'),
    ], alloc=[
        ('pub fn select_posteriors(loglikes', 'pub fn select_posteriors(alloc: Global, loglikes'),
        ('-> Vec<(usize, f32)> {', '-> Result<Vec<(usize, f32)>, AllocError> {'),
        ('Vec::new()', 'Vec::new(alloc)'),
        ('temp.push((g, floats::exp(l - max_like)));', 'temp.push((g, floats::exp(l - max_like)))?;'),
        ('.collect();', '.collect(alloc)?;'),
        ('nan_last(a, b));', 'nan_last(a, b))?;'),
        ('\n    temp\n', '\n    Ok(temp)\n'),
    ]),
    item('OnlineIvectorStats', 'pub struct OnlineIvectorStats {', subs=[
        (DROP, 'pub struct OnlineIvectorStats {', '#[derive(Drop)]\npub struct OnlineIvectorStats {'),
    ]),
    impl('OnlineIvectorStats', 'impl OnlineIvectorStats {', [
        item('new', 'pub fn new(', alloc=[
            ('pub fn new(dim', 'pub fn new(alloc: Global, dim'),
            ('-> Self', '-> Result<Self, AllocError>'),
            ('vec![0.0; dim]', 'vec![in alloc; 0.0; dim]?'),
            ('vec![0.0; dim * (dim + 1) / 2]', 'vec![in alloc; 0.0; dim * (dim + 1) / 2]?'),
            ('\n        s\n', '\n        Ok(s)\n'),
        ]),
        item('acc', 'pub fn acc(', subs=[
            (CAST, 'w as f64', 'std::num::f32_to_f64_with_nan(w)', 2),
            (CAST, 'x as f64', 'std::num::f32_to_f64_with_nan(x)'),
            (ZIP, 'for (acc, &x) in wsum[k].iter_mut().zip(feats[t]) {', 'for (a, acc) in wsum[k].iter_mut().enumerate() {\n                    let x = feats[t][a];'),
            (ZIP, 'for (q, &v) in self.quadratic.iter_mut().zip(ug) {', 'for (i, q) in self.quadratic.iter_mut().enumerate() {\n                let v = ug[i];'),
            (METHOD, 'old.max(self.max_count)', 'floats::max(old, self.max_count)'),
            (METHOD, 'new.max(self.max_count)', 'floats::max(new, self.max_count)'),
        ], alloc=[
            ('pub fn acc(&mut self, ext', 'pub fn acc(&mut self, alloc: Global, ext'),
            ('posts: &[Vec<(usize, f32)>]) {', 'posts: &[Vec<(usize, f32)>]) -> Result<(), AllocError> {'),
            ('Vec::new()', 'Vec::new(alloc)', 3),
            ('vec![usize::MAX; ext.num_gauss]', 'vec![in alloc; usize::MAX; ext.num_gauss]?'),
            ('order.push(g);', 'order.push(g)?;'),
            ('tot_w.push(0.0);', 'tot_w.push(0.0)?;'),
            ('wsum.push(vec![0.0; d]);', 'wsum.push(vec![in alloc; 0.0; d]?)?;'),
            (';\n    }', ';\n        Ok(())\n    }'),
        ]),
        item('get_ivector', 'pub fn get_ivector(', subs=[
            (COUNT, 'num_cg_iters: i32', 'num_cg_iters: usize'),
        ], alloc=[
            ('get_ivector(&self', 'get_ivector(&self, alloc: Global'),
            ('ivector: &mut [f64])', 'ivector: &mut [f64]) -> Result<(), AllocError>'),
            ('linear_cgd(\n', 'linear_cgd(\n                alloc,\n'),
            ('num_cg_iters,\n            );', 'num_cg_iters,\n            )?;'),
            ('\n        }\n    }', '\n        }\n        Ok(())\n    }'),
        ]),
        item('num_frames', 'pub fn num_frames('),
    ]),
    item('IvectorExtractor', 'pub struct IvectorExtractor {', subs=[
        (DROP, 'pub struct IvectorExtractor {', '#[derive(Drop)]\npub struct IvectorExtractor {'),
    ]),
    item('IvectorOptions', '#[derive(Clone, Debug)]\npub struct IvectorOptions {', subs=[
        (DROP, '#[derive(Clone, Debug)]', '#[derive(Clone, Debug, Drop)]'),
        (COUNT, 'pub num_cg_iters: i32', 'pub num_cg_iters: usize'),
    ]),
    item('IvectorOptions.default', 'impl Default for IvectorOptions {'),
    item('conf_float', 'fn conf_float(', subs=[
        (TEXT, 'txt.lines()', 'let prefix = format!("--{key}=");\n    txt.lines()'),
        (TEXT, '&format!("--{key}=")', 'prefix.as_str()'),
    ], alloc=[
        ('conf_float(txt', 'conf_float(alloc: Global, txt'),
        ('-> Option<f32>', '-> Result<Option<f32>, AllocError>'),
        ('format!("--{key}=")', 'format!(in alloc; "--{key}=")?'),
        ('\n    txt.lines()', '\n    Ok(txt.lines()'),
        ('.ok())\n', '.ok()))\n'),
    ]),
    item('conf_int', 'fn conf_int(', subs=[
        (TEXT, '&format!("--{key}=")', 'format!("--{key}=").as_str()'),
    ], alloc=[
        ('conf_int(txt', 'conf_int(alloc: Global, txt'),
        ('-> Option<usize>', '-> Result<Option<usize>, AllocError>'),
        ('format!("--{key}=")', 'format!(in alloc; "--{key}=")?'),
        ('return v.trim().parse().ok();', 'return Ok(v.trim().parse().ok());'),
        ('\n    None\n', '\n    Ok(None)\n'),
    ]),
    item('IvectorInfo', 'pub struct IvectorInfo {', subs=[
        (DROP, 'pub struct IvectorInfo {', '#[derive(Drop)]\npub struct IvectorInfo {'),
    ]),
    impl('IvectorInfo', 'impl IvectorInfo {', [
        item('ivector_dim', 'pub fn ivector_dim('),
    ]),
    item('IvectorStream', "pub struct IvectorStream<'a> {", subs=[
        (DROP, "pub struct IvectorStream<'a> {", "#[derive(Drop)]\npub struct IvectorStream<'a> {"),
    ]),
    impl('IvectorStream', "impl<'a> IvectorStream<'a> {", [
        item('new', 'pub fn new(', alloc=[
            ('pub fn new(info', 'pub fn new(alloc: Global, info'),
            ('-> Self', '-> Result<Self, AllocError>'),
            ('vec![0.0; dim];', 'vec![in alloc; 0.0; dim]?;'),
            ('        IvectorStream {\n', '        Ok(IvectorStream {\n'),
            ('frames: Vec::new()', 'frames: Vec::new(alloc)'),
            ('vec![vec![0.0; info.global_mean_stats.len() - 1]]', 'vec![in alloc; vec![in alloc; 0.0; info.global_mean_stats.len() - 1]?]?'),
            ('vec![0.0; info.global_mean_stats.len()]', 'vec![in alloc; 0.0; info.global_mean_stats.len()]?'),
            ('OnlineIvectorStats::new(dim, info.extractor.prior_offset, info.opts.max_count)', 'OnlineIvectorStats::new(alloc, dim, info.extractor.prior_offset, info.opts.max_count)?'),
            ('std::collections::BinaryHeap::new()', 'std::collections::BinaryHeap::new(alloc)'),
            ('most_recent_frame_with_weight: -1,\n        }\n', 'most_recent_frame_with_weight: -1,\n        })\n'),
        ]),
        item('update_frame_weights', 'pub fn update_frame_weights(', subs=[
            (CAST, 'w.to_bits()', 'std::num::f32_to_bits_with_nan(w)'),
        ], alloc=[
            ('(usize, f32)]) {', '(usize, f32)]) -> Result<(), AllocError> {'),
            (')));', ')))?;'),
            (';\n    }', ';\n        Ok(())\n    }'),
        ]),
        item('min_post_for', 'fn min_post_for(', subs=[
            (METHOD, 'weight.abs()', 'floats::abs(weight)'),
            (METHOD, '(self.info.opts.min_post / abs).min(0.99)', 'floats::min(self.info.opts.min_post / abs, 0.99)'),
        ]),
        item('frames_end', 'fn frames_end('),
        item('frame', 'fn frame('),
        item('prefix', 'fn prefix('),
        item('forget_before', 'pub fn forget_before('),
        item('push_frame', 'pub fn push_frame(', subs=[
            (CAST, 'b as f64', 'std::num::f32_to_f64_with_nan(b)'),
        ], alloc=[
            ('frame: &[f32]) {', 'alloc: Global, frame: &[f32]) -> Result<(), AllocError> {'),
            ('.collect();', '.collect(alloc)?;'),
            ('self.prefix.push(next);', 'self.prefix.push(next)?;'),
            ('self.frames.push(frame.to_vec());', 'self.frames.push(frame.to_vec(alloc)?)?;'),
            (';\n    }', ';\n        Ok(())\n    }'),
        ]),
        item('set_input_finished', 'pub fn set_input_finished('),
        item('num_frames_ready', 'pub fn num_frames_ready('),
        item('cmvn_frame', 'fn cmvn_frame(', subs=[
            (METHOD, '(o.cmn_window as f64 - cur_count).min(o.global_frames as f64)', 'floats::min(o.cmn_window as f64 - cur_count, o.global_frames as f64)'),
            (CAST, '(self.cmvn_stats[d] / count) as f32', 'floats::narrow(self.cmvn_stats[d] / count)'),
            (BORROW, '        let src = self.frame(t);\n', ''),
            (BORROW, 'out[d] = src[d] -', 'out[d] = self.frame(t)[d] -'),
        ]),
        item('lda_frame', 'fn lda_frame(', alloc=[
            ('fn lda_frame(&mut self', 'fn lda_frame(&mut self, alloc: Global'),
            ('out: &mut [f32]) {', 'out: &mut [f32]) -> Result<(), AllocError> {'),
            ('vec![0.0f32; dim * width];', 'vec![in alloc; 0.0f32; dim * width]?;'),
            ('vec![0.0f32; dim];', 'vec![in alloc; 0.0f32; dim]?;'),
            ('\n        }\n    }', '\n        }\n        Ok(())\n    }'),
        ]),
        item('update_stats_for_frames', 'fn update_stats_for_frames(', alloc=[
            ('(&mut self, frame_weights: &[(usize, f32)]) {', '(&mut self, alloc: Global, frame_weights: &[(usize, f32)]) -> Result<(), AllocError> {'),
            ('return;', 'return Ok(());'),
            ('frame_weights.to_vec();', 'frame_weights.to_vec(alloc)?;'),
            ('merged.sort_by_key(|p| p.0);', 'merged.sort_by_key(|p| p.0)?;'),
            ('Vec::with_capacity(merged.len());', 'Vec::with_capacity(alloc, merged.len())?;'),
            ('_ => out.push((f, w)),', '_ => out.push((f, w))?,'),
            ('vec![0.0f32; info.gmm.num_gauss];', 'vec![in alloc; 0.0f32; info.gmm.num_gauss]?;'),
            ('vec![0.0f32; fd];', 'vec![in alloc; 0.0f32; fd]?;', 2),
            ('Vec::new()', 'Vec::new(alloc)', 2),
            ('Vec::with_capacity(out.len());', 'Vec::with_capacity(alloc, out.len())?;', 2),
            ('self.lda_frame(t, true, &mut f);', 'self.lda_frame(alloc, t, true, &mut f)?;'),
            ('self.lda_frame(t, false, &mut g);', 'self.lda_frame(alloc, t, false, &mut g)?;'),
            ('&mut scratch);', '&mut scratch)?;'),
            ('select_posteriors(&ll, o.num_gselect, self.min_post_for(weight));', 'select_posteriors(alloc, &ll, o.num_gselect, self.min_post_for(weight))?;'),
            ('posts.push(post);', 'posts.push(post)?;'),
            ('raw.push(g);', 'raw.push(g)?;'),
            ('.collect();', '.collect(alloc)?;'),
            ('self.stats.acc(&info.extractor, &refs, &posts);', 'self.stats.acc(alloc, &info.extractor, &refs, &posts)?;\n        Ok(())'),
        ]),
        item('update_stats_until_frame_weighted', 'fn update_stats_until_frame_weighted(', subs=[
            (PROVE, 'assert!(', 'prove!('),
            (CAST, 'f32::from_bits(w)', 'std::num::f32_from_bits_with_nan(w)'),
        ], alloc=[
            ('(&mut self, frame: usize) {', '(&mut self, alloc: Global, frame: usize) -> Result<(), AllocError> {'),
            ('Vec::new()', 'Vec::new(alloc)'),
            ('frame_weights.push((f, std::num::f32_from_bits_with_nan(w)));', 'frame_weights.push((f, std::num::f32_from_bits_with_nan(w)))?;'),
            ('self.update_stats_for_frames(&frame_weights);\n                frame', 'self.update_stats_for_frames(alloc, &frame_weights)?;\n                frame'),
            ('std::mem::take(&mut self.current)', 'std::mem::try_take(&mut self.current)?'),
            ('.get_ivector(self.info.opts.num_cg_iters, &mut cur);', '.get_ivector(alloc, self.info.opts.num_cg_iters, &mut cur)?;'),
            ('self.update_stats_for_frames(&frame_weights);\n    }', 'self.update_stats_for_frames(alloc, &frame_weights)?;\n        Ok(())\n    }'),
        ]),
        item('update_stats_until', 'fn update_stats_until(', alloc=[
            ('(&mut self, frame: usize) {', '(&mut self, alloc: Global, frame: usize) -> Result<(), AllocError> {'),
            ('Vec::new()', 'Vec::new(alloc)', 2),
            ('|this: &mut Self, pending: &mut Vec<usize>| {', '|this: &mut Self, pending: &mut Vec<usize>| -> Result<(), AllocError> {'),
            ('return;', 'return Ok(());'),
            ('Vec::with_capacity(pending.len());', 'Vec::with_capacity(alloc, pending.len())?;', 3),
            ('vec![0.0f32; this.info.gmm.num_gauss];', 'vec![in alloc; 0.0f32; this.info.gmm.num_gauss]?;'),
            ('vec![0.0f32; fd];', 'vec![in alloc; 0.0f32; fd]?;', 2),
            ('this.lda_frame(t, true, &mut f);', 'this.lda_frame(alloc, t, true, &mut f)?;'),
            ('this.lda_frame(t, false, &mut g);', 'this.lda_frame(alloc, t, false, &mut g)?;'),
            ('&mut scratch);', '&mut scratch)?;'),
            ('select_posteriors(&ll, o.num_gselect, o.min_post);', 'select_posteriors(alloc, &ll, o.num_gselect, o.min_post)?;'),
            ('posts.push(post);', 'posts.push(post)?;'),
            ('normalized.push(f);', 'normalized.push(f)?;'),
            ('raw.push(g);', 'raw.push(g)?;'),
            ('.collect();', '.collect(alloc)?;'),
            ('this.stats.acc(&this.info.extractor, &refs, &posts);', 'this.stats.acc(alloc, &this.info.extractor, &refs, &posts)?;'),
            ('pending.clear();\n', 'pending.clear();\n            Ok(())\n'),
            ('pending.push(t);', 'pending.push(t)?;'),
            ('flush(self, &mut pending);\n                ', 'flush(self, &mut pending)?;\n                '),
            ('std::mem::take(&mut self.current)', 'std::mem::try_take(&mut self.current)?'),
            ('self.stats.get_ivector(o.num_cg_iters, &mut cur);', 'self.stats.get_ivector(alloc, o.num_cg_iters, &mut cur)?;'),
            ('flush(self, &mut pending);\n    }', 'flush(self, &mut pending)?;\n        Ok(())\n    }'),
        ], closures=[('flush', '|this: &mut Self, pending: &mut Vec<usize>| -> Result<(), AllocError> ')]),
        item('get_frame', 'pub fn get_frame(', subs=[
            (PROVE, 'assert!(', 'prove!('),
            (ZIP, 'for (o, &v) in out.iter_mut().zip(&self.current) {', 'for (i, o) in out.iter_mut().enumerate() {\n            let v = self.current[i];'),
            (CAST, '*o = v as f32;', '*o = floats::narrow(v);'),
            (CAST, 'self.info.extractor.prior_offset as f32;', 'floats::narrow(self.info.extractor.prior_offset);'),
        ], alloc=[
            ('get_frame(&mut self, frame', 'get_frame(&mut self, alloc: Global, frame'),
            ('out: &mut [f32]) {', 'out: &mut [f32]) -> Result<(), AllocError> {'),
            ('self.update_stats_until_frame_weighted(frame);', 'self.update_stats_until_frame_weighted(alloc, frame)?;'),
            ('self.update_stats_until(frame);', 'self.update_stats_until(alloc, frame)?;'),
            (';\n    }', ';\n        Ok(())\n    }'),
        ]),
        item('num_frames_stats', 'pub fn num_frames_stats('),
    ]),
    item('Label', 'pub type Label = i32;', source='fst.rs'),
    item('PhoneSegment', 'pub struct PhoneSegment {', source='decoder.rs', subs=[
        (DROP, 'pub struct PhoneSegment {', '#[derive(Drop)]\npub struct PhoneSegment {'),
    ]),
    item('Path', 'pub struct Path {', source='decoder.rs', subs=[
        (DROP, 'pub struct Path {', '#[derive(Drop)]\npub struct Path {'),
    ]),
    item('FrameInfo', '#[derive(Clone, Copy)]\nstruct FrameInfo {', source=SILENCE),
    item('SilenceWeighting', 'pub struct SilenceWeighting {', source=SILENCE, subs=[
        (DROP, 'pub struct SilenceWeighting {', '#[derive(Drop)]\npub struct SilenceWeighting {'),
    ]),
    impl('SilenceWeighting', 'impl SilenceWeighting {', [
        item('new', 'pub fn new(', source=SILENCE, alloc=[
            ('pub fn new(silence_phones', 'pub fn new(alloc: Global, silence_phones'),
            ('-> Self {\n        SilenceWeighting {\n', '-> Result<Self, AllocError> {\n        Ok(SilenceWeighting {\n'),
            ('silence_phones.to_vec(),', 'silence_phones.to_vec(alloc)?,'),
            ('frame_info: Vec::new(),\n        }\n', 'frame_info: Vec::new(alloc),\n        })\n'),
        ]),
        item('active', 'pub fn active(', source=SILENCE),
        item('compute_current_traceback', 'pub fn compute_current_traceback(', source=SILENCE, alloc=[
            ('num_frames_decoded: usize) {', 'num_frames_decoded: usize) -> Result<(), AllocError> {'),
            ('                },\n            );', '                },\n            )?;'),
            ('\n        }\n    }', '\n        }\n        Ok(())\n    }'),
        ]),
        item('get_delta_weights', 'pub fn get_delta_weights(', source=SILENCE, alloc=[
            ('&mut self,\n        num_frames_ready: usize,', '&mut self,\n        alloc: Global,\n        num_frames_ready: usize,'),
            ('-> Vec<(usize, f32)> {', '-> Result<Vec<(usize, f32)>, AllocError> {'),
            ('let mut deltas = Vec::new();', 'let mut deltas = Vec::new(alloc);'),
            ('return deltas;', 'return Ok(deltas);', 2),
            ('                },\n            );', '                },\n            )?;'),
            ('vec![1.0f32; frames_out];', 'vec![in alloc; 1.0f32; frames_out]?;'),
            ('deltas.push((first_decoder_frame + frame * fs + i, diff));', 'deltas.push((first_decoder_frame + frame * fs + i, diff))?;'),
            ('\n        deltas\n', '\n        Ok(deltas)\n'),
        ]),
    ]),
]

K = 'kaldi_io.rs'
R = 'impl<R: Read> KaldiReader<R> {'


def reader(name, subs=(), alloc=()):
    at = ('fn ' if name in ('byte', 'read_bounded', 'read_f32_raw', 'read_f64_raw') else 'pub fn ') + name + '('
    return item(name, at, source=K, subs=subs, alloc=alloc)


# what a reader is passed: behind `&mut self`
SELF = ('(&mut self)', '(&mut self, alloc: Global)')
READERS = [
    own('above', open=True),
    item('KaldiReader', 'pub struct KaldiReader<R: Read> {', source=K, subs=[
        (DROP, 'pub struct', '#[derive(Drop)]\npub struct'),
    ]),
    item('cells', 'fn cells(', source=K),
    item('err', 'pub fn err(', source=K, subs=[
        (TEXT, 'msg.to_string()', 'msg'),
    ]),
    own('read_up_to'),
    impl('KaldiReader', R, [
        reader('new'),
        reader('byte'),
        reader('expect_binary'),
        reader('read_token', alloc=[
            SELF,
            ('String::new()', 'String::new(alloc)'),
            ('s.push(c as char);', 's.push(c as char)?;'),
        ]),
        reader('expect_token', subs=[
            (TEXT, 'got != want', 'got.as_str() != want'),
            (TEXT, '&format!("expected {want}, got {got}")', '"expected another token"'),
        ], alloc=[
            ('&mut self, want', '&mut self, alloc: Global, want'),
            ('self.read_token()', 'self.read_token(alloc)'),
        ]),
        reader('read_i32'),
        reader('read_dim', subs=[
            (TEXT, '&format!("negative dimension {n}")', '"negative dimension"'),
        ]),
        reader('read_f64', subs=[
            (CAST, 'f64::from_le_bytes(b)', 'std::num::f64_from_bits_with_nan(u64::from_le_bytes(b))'),
        ]),
        reader('read_bounded', subs=[
            (TAKE, 'self.r.by_ref().take(want as u64).read_to_end(&mut buf)', 'read_up_to(&mut self.r, want as u64, &mut buf)'),
        ], alloc=[
            ('&mut self, count', '&mut self, alloc: Global, count'),
            ('Vec::new()', 'Vec::new(alloc)'),
        ]),
        reader('read_f32_raw', subs=[
            (CAST, 'f32::from_le_bytes(*c)', 'std::num::f32_from_bits_with_nan(u32::from_le_bytes(*c))'),
        ], alloc=[
            ('&mut self, count', '&mut self, alloc: Global, count'),
            ('read_bounded(count', 'read_bounded(alloc, count'),
            ('.collect())', '.collect(alloc)?)'),
        ]),
        reader('read_f64_raw', subs=[
            (CAST, 'f64::from_le_bytes(*c)', 'std::num::f64_from_bits_with_nan(u64::from_le_bytes(*c))'),
        ], alloc=[
            ('&mut self, count', '&mut self, alloc: Global, count'),
            ('read_bounded(count', 'read_bounded(alloc, count'),
            ('.collect())', '.collect(alloc)?)'),
        ]),
        *[reader(name, alloc=[
            SELF,
            ('expect_token(', 'expect_token(alloc, '),
            ('_raw(', '_raw(alloc, '),
        ]) for name in ('read_float_vec', 'read_float_matrix', 'read_double_vec', 'read_double_matrix', 'read_packed_double')],
    ]),
    item('parse_text_matrix', 'pub fn parse_text_matrix(', source=K, subs=[
        (TEXT, '&format!("bad number {v}")', '"bad number"'),
        (CAST, '.collect::<Result<_>>()', '.try_collect()'),
    ], alloc=[
        ('parse_text_matrix(txt', 'parse_text_matrix(alloc: Global, txt'),
        ('Vec::new()', 'Vec::new(alloc)'),
        ('.try_collect()', '.try_collect(alloc)'),
        ('data.extend(vals)', 'data.extend(vals)?'),
    ]),
    impl('DiagGmm', 'impl DiagGmm {', [
        item('parse', 'pub fn parse(', open=True, subs=[
            (CAST, 'means_invvars[m * d + k] as f64', 'std::num::f32_to_f64_with_nan(means_invvars[m * d + k])'),
            (CAST, 'inv_vars[m * d + k] as f64', 'std::num::f32_to_f64_with_nan(inv_vars[m * d + k])'),
            (CAST, 'gc as f32', 'floats::narrow(gc)'),
            (TEXT, 'if tok == ', 'if tok.as_str() == '),
            (TEXT, 'if tok != ', 'if tok.as_str() != '),
        ], alloc=[
            ('parse(bytes', 'parse(alloc: Global, bytes'),
            ('expect_token(', 'expect_token(alloc, ', 3),
            ('read_token()', 'read_token(alloc)', 2),
            ('read_float_vec()', 'read_float_vec(alloc)', 2),
            ('read_float_matrix()', 'read_float_matrix(alloc)', 2),
            ('.collect();', '.collect(alloc)?;'),
            ('vec![0.0f32; d * g]', 'vec![in alloc; 0.0f32; d * g]?', 2),
        ]),
    ]),
    impl('IvectorExtractor', 'impl IvectorExtractor {', [
        item('parse', 'pub fn parse(', open=True, alloc=[
            ('parse(bytes', 'parse(alloc: Global, bytes'),
            ('expect_token(', 'expect_token(alloc, ', 7),
            ('read_double_matrix()', 'read_double_matrix(alloc)', 2),
            ('read_double_vec()', 'read_double_vec(alloc)'),
            ('read_packed_double()', 'read_packed_double(alloc)'),
            ('Vec::new()', 'Vec::new(alloc)', 2),
            ('(alloc)?);', '(alloc)?)?;', 2),
            ('Vec::with_capacity(size)', 'Vec::with_capacity(alloc, size)?', 2),
            ('vec![0.0f64; d * s]', 'vec![in alloc; 0.0f64; d * s]?'),
            ('vec![0.0f64; s * (s + 1) / 2]', 'vec![in alloc; 0.0f64; s * (s + 1) / 2]?'),
            ('.push(sim);', '.push(sim)?;'),
            ('.push(ui);', '.push(ui)?;'),
        ]),
    ]),
    own('folder', open=True),
    impl('IvectorInfo', 'impl IvectorInfo {', [
        item('open', 'pub fn open(', open=True, subs=[
            (BYTES, '&std::path::Path', '&Folder<\'_>'),
            (BYTES, 'std::fs::', '', 6),
            (BORROW, '&read(', 'read(', 2),
            (BORROW, '(&t, ', '(t, ', 6),
            (BORROW, '(&stats_txt)', '(stats_txt)'),
        ], alloc=[
            ('open(dir', 'open(alloc: Global, dir'),
            ('conf_int(t', 'conf_int(alloc, t', 5),
            ('conf_float(t', 'conf_float(alloc, t'),
            ('-context") {', '-context")? {', 2),
            ('cmn-window") {', 'cmn-window")? {'),
            ('cmn-min-energy") {', 'cmn-min-energy")? {'),
            ('-frames") {', '-frames")? {', 2),
            ('::parse(', '::parse(alloc, ', 2),
            ('read_float_matrix()', 'read_float_matrix(alloc)'),
            ('parse_text_matrix(', 'parse_text_matrix(alloc, '),
            ('.to_vec()', '.to_vec(alloc)?'),
            ('vec![0.0f32; lin * lda_rows]', 'vec![in alloc; 0.0f32; lin * lda_rows]?'),
            ('vec![0.0f32; lda_rows]', 'vec![in alloc; 0.0f32; lda_rows]?'),
        ]),
    ]),
]

# what a list of calls gives
CALLS = [own('calls')]

FILES = {'lib.rt': LIB, 'calls.rt': CALLS, 'readers.rt': READERS}
