use crate::memory::zeros;
use crate::sys::RoomLengths;
use crate::{sys, IvectorInfo, Refusal};
use std::fmt;

/// The most entries of one change call.
pub const MAX_CHANGES: usize = 384;

/// The most frames of a stream: a change names one below.
const MAX_FRAMES: usize = 1_000_000_000;

/// How much a stream has room for. It is allocated when the stream is made, exactly that much; its calls allocate nothing but the lists of a
/// [`round`](IvectorStream::round).
///
/// How much is enough is proved over every list of calls, refused ones among them (docs/THEOREMS.md and crates/program/specs/Habit.antt of the
/// repository):
///
/// - `frames-enough`: with at least L frames and both contexts no push is refused for want of a frame (14), where at most L frames are pushed
///   from one start of an utterance to the next. A start is a [`forget_before`](IvectorStream::forget_before) of a frame above the last ready one, where that
///   one was fetched and no change since has named it or a frame below it.
/// - `rows_enough`: with as many rows as frames and the window together no push is refused for want of a row (15). The window is the model's, or
///   the longest that is set.
/// - `all-taken`: so a caller that pushes an utterance of at most L frames, fetches the last ready frame, forgets before the count of frames pushed, and
///   does so again, has every frame taken, up to 1,000,000,000 of them.
///
/// Neither can be less: in the example of `tight` a push is refused with a frame or a row fewer.
///
/// The default has room for utterances of up to 1,000 frames, whatever the contexts, and for 1,024 changes.
#[derive(Clone, Copy, Debug, PartialEq, Eq)]
pub struct Room {
    /// How many frames may be held at once: those accepted, less those below the mark that [`IvectorStream::forget_before`] raises. 1 to 1,000,000,000.
    /// [`for_utterances`](Room::for_utterances) has as many as `frames-enough` asks for.
    pub frames: usize,
    /// How many prefix rows may be held, for the CMVN window: 2 to 2,000,000,000. `None` is as many as `frames` and the model's window together, which
    /// `rows_enough` asks for; a caller that sets a longer window ([`IvectorStream::set_cmn_window`]) gives `frames` and that window.
    pub rows: Option<usize>,
    /// How many weight changes may wait for their frames to be fetched. 0 for a stream whose weights are never changed.
    pub waiting: usize,
}

impl Default for Room {
    fn default() -> Self {
        Room { frames: 1000 + 8 + 8, rows: None, waiting: 1024 }
    }
}

impl Room {
    /// For utterances of at most `longest` frames, each begun by a fetch of the last ready frame and a forget: `longest` frames and both contexts
    /// (`frames-enough`), and as many rows as these and the window (`rows_enough`).
    pub fn for_utterances(info: &IvectorInfo, longest: usize) -> Room {
        let o = info.options();
        Room { frames: longest.saturating_add(o.left_context + o.right_context), ..Room::default() }
    }

    /// The prefix rows that are had.
    pub fn rows_for(&self, info: &IvectorInfo) -> usize {
        self.rows.unwrap_or(self.frames.saturating_add(info.options().cmn_window))
    }

    /// The bytes of a stream's rooms. Refusal 8 for a room outside its limits, or of more bytes than a `usize` counts.
    pub fn memory(&self, info: &IvectorInfo) -> Result<usize, Refusal> {
        let n = self.lengths(info)?;
        let (r, e) = (n.rings, n.estimate);
        let sum = |lengths: &[usize]| lengths.iter().try_fold(0usize, |sum, &n| sum.checked_add(n));
        let floats = sum(&[r.frames, r.waiting_weights]).and_then(|n| n.checked_mul(4));
        let others = sum(&[r.rows, r.waiting_frames, e.cmvn_stats, e.linear, e.quadratic, e.current, e.scratch]).and_then(|n| n.checked_mul(8));
        floats.zip(others).and_then(|(a, b)| a.checked_add(b)).ok_or(Refusal::NO_MEMORY)
    }

    /// The lengths of a stream's rooms: the least that hold as much.
    fn lengths(&self, info: &IvectorInfo) -> Result<RoomLengths, Refusal> {
        // SAFETY: numbers alone.
        let a = unsafe { sys::shofrakin_rooms_needed(*info.dimensions(), self.frames, self.rows_for(info), self.waiting) };
        Refusal::of(a.refusal)?;
        Ok(a.lengths)
    }
}

/// What a stream holds after a call.
#[derive(Clone, Copy, Debug, Default, PartialEq, Eq)]
pub struct Held {
    /// Frames accepted less the mark.
    pub frames: usize,
    /// The prefix rows that they and their windows need.
    pub rows: usize,
}

/// What a fetch tells beside its vector.
#[derive(Clone, Copy, Debug, Default, PartialEq, Eq)]
pub struct Fetched {
    /// What the stream holds.
    pub held: Held,
    /// How many elements of the vector are not finite.
    pub not_finite: usize,
    /// How many likelihoods of the frames that this fetch brought in were NaN, one for each Gaussian and frame. A frame of weight 0 and a
    /// fetch that brings no frame in count 0.
    pub nan_likelihoods: usize,
}

/// The per-stream state: frames as they arrive, statistics up to the last frame asked for, and the current estimate. Old frames are
/// dropped where [`forget_before`](IvectorStream::forget_before) allows it, so that a stream can stay open all day in the same memory.
///
/// A refused call changes nothing; a [`round`](IvectorStream::round), which is several calls, keeps those before the one that is refused.
pub struct IvectorStream {
    pub(crate) info: IvectorInfo,
    pub(crate) record: sys::IvectorStream,
    pub(crate) held: Held,
    pub(crate) frames: Vec<f32>,
    pub(crate) rows: Vec<f64>,
    pub(crate) waiting_frames: Vec<usize>,
    pub(crate) waiting_weights: Vec<f32>,
    pub(crate) cmvn_stats: Vec<f64>,
    pub(crate) linear: Vec<f64>,
    pub(crate) quadratic: Vec<f64>,
    pub(crate) current: Vec<f64>,
    pub(crate) scratch: Vec<f64>,
}

impl IvectorStream {
    /// A fresh stream on a model. Refusal 8 where the room has no frame or fewer than two rows, or more than 1,000,000,000 frames or twice as many rows, or
    /// where no memory holds it.
    #[rustfmt::skip]
    pub fn new(info: &IvectorInfo, room: Room) -> Result<IvectorStream, Refusal> {
        let n = room.lengths(info)?;
        let mut frames = zeros::<f32>(n.rings.frames)?;
        let mut rows = zeros::<f64>(n.rings.rows)?;
        let waiting_frames = zeros::<usize>(n.rings.waiting_frames)?;
        let waiting_weights = zeros::<f32>(n.rings.waiting_weights)?;
        let mut cmvn_stats = zeros::<f64>(n.estimate.cmvn_stats)?;
        let mut linear = zeros::<f64>(n.estimate.linear)?;
        let mut quadratic = zeros::<f64>(n.estimate.quadratic)?;
        let mut current = zeros::<f64>(n.estimate.current)?;
        let mut scratch = zeros::<f64>(n.estimate.scratch)?;
        let (loaded, m) = (info.loaded().info, &info.loaded().tables);
        // SAFETY: every pointer is a slice's with its length, initialised and aligned; what is written is borrowed alone.
        let a = unsafe {
            sys::shofrakin_new_stream(
                loaded,
                m.gconsts.as_ptr(), m.gconsts.len(), m.means_invvars_t.as_ptr(), m.means_invvars_t.len(),
                m.inv_vars_t.as_ptr(), m.inv_vars_t.len(), m.sigma_inv_m.as_ptr(), m.sigma_inv_m.len(),
                m.u.as_ptr(), m.u.len(), m.lda_t.as_ptr(), m.lda_t.len(),
                m.lda_offset.as_ptr(), m.lda_offset.len(), m.global_mean_stats.as_ptr(), m.global_mean_stats.len(),
                frames.as_mut_ptr(), frames.len(), rows.as_mut_ptr(), rows.len(),
                waiting_frames.as_ptr(), waiting_frames.len(), waiting_weights.as_ptr(), waiting_weights.len(),
                cmvn_stats.as_mut_ptr(), cmvn_stats.len(), linear.as_mut_ptr(), linear.len(),
                quadratic.as_mut_ptr(), quadratic.len(), current.as_mut_ptr(), current.len(),
                scratch.as_mut_ptr(), scratch.len(),
            )
        };
        Refusal::of(a.answer.refusal)?;
        let held = Held { frames: a.answer.frames_held, rows: a.answer.rows_held };
        Ok(IvectorStream {
            info: info.clone(), record: a.stream, held, frames, rows, waiting_frames, waiting_weights, cmvn_stats, linear, quadratic, current, scratch,
        })
    }

    fn answered(&mut self, a: sys::StreamAnswer) -> Result<Held, Refusal> {
        Refusal::of(a.refusal)?;
        self.held = Held { frames: a.frames_held, rows: a.rows_held };
        Ok(self.held)
    }

    /// Changes of the weights of input frames, applied as their frames are reached; at most [`MAX_CHANGES`]. From the first such call on,
    /// even an empty one, fetches are weighted. Refusals 16, 17, 30 and 19.
    pub fn update_frame_weights(&mut self, deltas: &[(usize, f32)]) -> Result<Held, Refusal> {
        // one more than a call takes, so that the call itself refuses a list that is too long
        let (mut frames, mut weights) = ([0; MAX_CHANGES + 1], [0.0; MAX_CHANGES + 1]);
        let n = deltas.len().min(MAX_CHANGES + 1);
        for (i, &(f, w)) in deltas[..n].iter().enumerate() {
            (frames[i], weights[i]) = (f, w);
        }
        self.change(&frames[..n], &weights[..n])
    }

    /// The same for any number of changes: in as many calls as it takes, at least one, which together do what one would. The whole list is judged before the
    /// first of them, by a call's own rules, so that all of it is taken or nothing. Refusals 17, 30 and 19.
    pub fn update_frame_weights_in_parts(&mut self, deltas: &[(usize, f32)]) -> Result<Held, Refusal> {
        if deltas.len() <= MAX_CHANGES {
            return self.update_frame_weights(deltas);
        }
        let places = self.waiting_frames.len() - self.record.waiting;
        let refusal = if deltas.iter().any(|&(f, w)| f >= MAX_FRAMES || !w.is_finite()) {
            17
        } else if deltas.iter().any(|&(f, _)| f < self.record.floor) {
            30
        } else if deltas.len() > places {
            19
        } else {
            0
        };
        Refusal::of(refusal)?;
        for part in deltas.chunks(MAX_CHANGES) {
            self.update_frame_weights(part)?;
        }
        Ok(self.held)
    }

    #[rustfmt::skip]
    fn change(&mut self, frames: &[usize], weights: &[f32]) -> Result<Held, Refusal> {
        // SAFETY: as in `new`; the record is borrowed alone, and overlaps no slice.
        let a = unsafe {
            sys::shofrakin_update_frame_weights(
                &mut self.record, frames.as_ptr(), frames.len(), weights.as_ptr(), weights.len(),
                self.frames.as_ptr(), self.frames.len(), self.rows.as_ptr(), self.rows.len(),
                self.waiting_frames.as_mut_ptr(), self.waiting_frames.len(), self.waiting_weights.as_mut_ptr(), self.waiting_weights.len(),
            )
        };
        self.answered(a)
    }

    /// An utterance begins at `frame`, and no change may name a frame before it from now on (30): frees what neither it, nor a frame that is not in the
    /// statistics yet, nor a waiting change can need. Any frame number is taken and none is taken back: a forget far ahead ends all changes of this stream for
    /// good, but for the empty one.
    ///
    /// Where all frames below `frame` were fetched and no change below it waits, at most the frames from it on and the left context are held
    /// (`held-after-forget` of docs/THEOREMS.md).
    #[rustfmt::skip]
    pub fn forget_before(&mut self, frame: usize) -> Result<Held, Refusal> {
        // SAFETY: as in `change`.
        let a = unsafe {
            sys::shofrakin_forget_before(
                &mut self.record, frame, self.frames.as_ptr(), self.frames.len(), self.rows.as_ptr(), self.rows.len(),
                self.waiting_frames.as_ptr(), self.waiting_frames.len(), self.waiting_weights.as_ptr(), self.waiting_weights.len(),
            )
        };
        self.answered(a)
    }

    /// The window of the fetches to come, 1 to 1,000 frames: what is known so far carries over. Refusals 31, and 32 for a window above the longest since
    /// the mark last rose, once older rows are gone. So from then on the longest can only fall: a stream that gets a window of 1 and begins an utterance
    /// is left with 1. A window above the model's needs more rows ([`Room::rows`]).
    #[rustfmt::skip]
    pub fn set_cmn_window(&mut self, window: usize) -> Result<Held, Refusal> {
        // SAFETY: as in `change`.
        let a = unsafe {
            sys::shofrakin_set_cmn_window(
                &mut self.record, window, self.frames.as_ptr(), self.frames.len(), self.rows.as_ptr(), self.rows.len(),
                self.waiting_frames.as_ptr(), self.waiting_frames.len(), self.waiting_weights.as_ptr(), self.waiting_weights.len(),
            )
        };
        self.answered(a)
    }

    /// Appends a frame of [`IvectorInfo::base_dim`] numbers. Refusals 11 to 15.
    #[rustfmt::skip]
    pub fn push_frame(&mut self, frame: &[f32]) -> Result<Held, Refusal> {
        // SAFETY: as in `change`.
        let a = unsafe {
            sys::shofrakin_push_frame(
                &mut self.record, frame.as_ptr(), frame.len(),
                self.frames.as_mut_ptr(), self.frames.len(), self.rows.as_mut_ptr(), self.rows.len(),
                self.waiting_frames.as_ptr(), self.waiting_frames.len(), self.waiting_weights.as_ptr(), self.waiting_weights.len(),
            )
        };
        self.answered(a)
    }

    /// No frame needs its right context any more: every accepted frame is ready.
    #[rustfmt::skip]
    pub fn set_input_finished(&mut self) -> Result<Held, Refusal> {
        // SAFETY: as in `change`.
        let a = unsafe {
            sys::shofrakin_set_input_finished(
                &mut self.record, self.frames.as_ptr(), self.frames.len(), self.rows.as_ptr(), self.rows.len(),
                self.waiting_frames.as_ptr(), self.waiting_frames.len(), self.waiting_weights.as_ptr(), self.waiting_weights.len(),
            )
        };
        self.answered(a)
    }

    /// The vector at `frame`, into `out` of [`IvectorInfo::ivector_dim`] numbers, a NaN as 7FC00000: statistics are brought up to the frame,
    /// the estimate is refreshed, and the prior is taken off element 0. Below the statistics it is the current vector. Refusals 20 to 22.
    ///
    /// A frame whose c0 is at most the minimum energy is viewed by the CMVN state that the fetches before it left. So the vector can depend on when a host
    /// fetches: equal frames give equal vectors where they are fetched at equal moments.
    #[rustfmt::skip]
    pub fn get_frame(&mut self, frame: usize, out: &mut [f32]) -> Result<Fetched, Refusal> {
        let m = &self.info.loaded().tables;
        // SAFETY: as in `change`; f32 and u32 have the same size and alignment, and any bits are a number of either.
        let a = unsafe {
            sys::shofrakin_get_frame(
                &mut self.record, frame,
                m.gconsts.as_ptr(), m.gconsts.len(), m.means_invvars_t.as_ptr(), m.means_invvars_t.len(),
                m.inv_vars_t.as_ptr(), m.inv_vars_t.len(), m.sigma_inv_m.as_ptr(), m.sigma_inv_m.len(),
                m.u.as_ptr(), m.u.len(), m.lda_t.as_ptr(), m.lda_t.len(),
                m.lda_offset.as_ptr(), m.lda_offset.len(), m.global_mean_stats.as_ptr(), m.global_mean_stats.len(),
                self.frames.as_ptr(), self.frames.len(), self.rows.as_ptr(), self.rows.len(),
                self.waiting_frames.as_mut_ptr(), self.waiting_frames.len(), self.waiting_weights.as_mut_ptr(), self.waiting_weights.len(),
                self.cmvn_stats.as_mut_ptr(), self.cmvn_stats.len(), self.linear.as_mut_ptr(), self.linear.len(),
                self.quadratic.as_mut_ptr(), self.quadratic.len(), self.current.as_mut_ptr(), self.current.len(),
                self.scratch.as_mut_ptr(), self.scratch.len(), out.as_mut_ptr().cast::<u32>(), out.len(),
            )
        };
        let held = self.answered(a)?;
        Ok(Fetched { held, not_finite: a.not_finite, nan_likelihoods: a.nan_likelihoods })
    }

    /// What is held now: neither a round nor a step over registers tells both counts, and a finish on a copy of the record does.
    #[rustfmt::skip]
    pub(crate) fn counted(&self) -> Held {
        let mut copy = self.record;
        // SAFETY: as in `change`; nothing but the copy is written.
        let a = unsafe {
            sys::shofrakin_set_input_finished(
                &mut copy, self.frames.as_ptr(), self.frames.len(), self.rows.as_ptr(), self.rows.len(),
                self.waiting_frames.as_ptr(), self.waiting_frames.len(), self.waiting_weights.as_ptr(), self.waiting_weights.len(),
            )
        };
        Held { frames: a.frames_held, rows: a.rows_held }
    }

    /// How many frames can be fetched: those accepted, less the right context until the input is finished.
    pub fn num_frames_ready(&self) -> usize {
        // SAFETY: a record of this stream, that nothing writes meanwhile.
        unsafe { sys::shofrakin_num_frames_ready(&self.record) }
    }

    /// The first frame that is not in the statistics.
    pub fn num_frames_stats(&self) -> usize {
        // SAFETY: as above.
        unsafe { sys::shofrakin_num_frames_stats(&self.record) }
    }

    /// The length of a fetch's output.
    pub fn ivector_dim(&self) -> usize {
        // SAFETY: as above.
        unsafe { sys::shofrakin_ivector_dim(&self.record) }
    }

    /// What the stream holds.
    pub fn held(&self) -> Held {
        self.held
    }

    /// The model.
    pub fn info(&self) -> &IvectorInfo {
        &self.info
    }
}

impl fmt::Debug for IvectorStream {
    fn fmt(&self, f: &mut fmt::Formatter) -> fmt::Result {
        f.debug_struct("IvectorStream").field("record", &self.record).field("held", &self.held).finish_non_exhaustive()
    }
}
