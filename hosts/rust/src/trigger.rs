use crate::memory::zeros;
use crate::voice::at_most_taken;
use crate::{sys, IvectorStream, PhoneSegment, Refusal, SilenceWeighting, Voice};

/// How a round ended.
#[derive(Clone, Copy, Debug, PartialEq)]
pub enum RoundEnd {
    /// A full round: the nearest of the enrolled voices, or nobody within the limit.
    Full(Option<Voice>),
    /// No frame is ready, and none was fetched. This is no refusal.
    NoVector,
    /// Refused at a step from 1 to 7. What was done before remains done: the earlier steps, and of step 2 the pushes before the refused one.
    Refused(Refusal, usize),
}

/// What a round tells.
#[derive(Clone, Debug, PartialEq)]
pub struct Round {
    /// How it ended.
    pub end: RoundEnd,
    /// The changes that weighing gave, by input frame; none where the round ended before.
    pub changes: Vec<(usize, f32)>,
}

impl IvectorStream {
    /// The round of an utterance: 1 forget at `start`; 2 push the frames that `numbers` holds one after the other, a last one that is cut short as it
    /// stands; 3 note the path, the frames decoded being its largest end; 4 weigh from `start` up to the ready count; 5 change by what weighing gave; 6
    /// fetch the last ready frame into `out`; 7 find the nearest of the enrolled voices within `limit`. A refusal ends it with its step.
    ///
    /// Other than the calls on a stream alone it allocates: the path, the enrolled vectors and the changes as lists.
    ///
    /// A new utterance wants a fresh table. Where weighing gives more than [`MAX_CHANGES`](crate::MAX_CHANGES), step 5 is refused (16), and the table
    /// gives them no second time: they are in [`Round::changes`], for
    /// [`update_frame_weights_in_parts`](IvectorStream::update_frame_weights_in_parts).
    ///
    /// A start above 1,000,000,000 is forgotten at step 1 before step 4 refuses it (23): that stream takes no change any more, but for the empty one.
    #[allow(clippy::too_many_arguments)]
    #[rustfmt::skip]
    pub fn round<V: AsRef<[f32]>>(
        &mut self, silence: &mut SilenceWeighting, start: usize, numbers: &[f32], path: &[PhoneSegment], enrolled: &[V], limit: f32, out: &mut [f32],
    ) -> Round {
        let phones: Vec<i32> = path.iter().map(|s| s.phone).collect();
        let starts: Vec<usize> = path.iter().map(|s| s.start).collect();
        let ends: Vec<usize> = path.iter().map(|s| s.end).collect();
        let dim = self.ivector_dim();
        let enrolled = at_most_taken(enrolled);
        let mut all: Vec<f32> = enrolled.iter().flat_map(|v| v.as_ref()).copied().collect();
        // the call sees only the length of all vectors together: one more number where that would fit by chance
        if all.len() == enrolled.len() * dim && enrolled.iter().any(|v| v.as_ref().len() != dim) {
            all.push(0.0);
        }
        // as many changes as there can be: the walk begins a hundred frames before the old length at the lowest, and each decoder frame is `subsampling`
        // input frames
        let (old, table, by) = (silence.record.length.number, silence.known.len(), silence.record.subsampling);
        let wanted = (self.record.accepted + numbers.len() / self.info.base_dim()).saturating_sub(start).div_ceil(by);
        let last = wanted.max(ends.iter().copied().max().unwrap_or(0)).clamp(old, table);
        let room = (last - old.saturating_sub(100)) * by;
        // where no memory holds them they are empty, and step 4 is refused (24)
        let (mut frames, mut weights) = (zeros::<usize>(room).unwrap_or_default(), zeros::<f32>(room).unwrap_or_default());
        let m = &self.info.loaded().tables;
        // SAFETY: every pointer is a slice's with its length, initialised and aligned, every bool 0 or 1; what is written is borrowed alone; f32 and u32 have
        // the same size and alignment, and any bits are a number of either.
        let a = unsafe {
            sys::shofrakin_round(
                self.record, silence.record, start, numbers.as_ptr(), numbers.len(),
                phones.as_ptr(), phones.len(), starts.as_ptr(), starts.len(), ends.as_ptr(), ends.len(),
                m.gconsts.as_ptr(), m.gconsts.len(), m.means_invvars_t.as_ptr(), m.means_invvars_t.len(),
                m.inv_vars_t.as_ptr(), m.inv_vars_t.len(), m.sigma_inv_m.as_ptr(), m.sigma_inv_m.len(),
                m.u.as_ptr(), m.u.len(), m.lda_t.as_ptr(), m.lda_t.len(),
                m.lda_offset.as_ptr(), m.lda_offset.len(), m.global_mean_stats.as_ptr(), m.global_mean_stats.len(),
                self.frames.as_mut_ptr(), self.frames.len(), self.rows.as_mut_ptr(), self.rows.len(),
                self.waiting_frames.as_mut_ptr(), self.waiting_frames.len(), self.waiting_weights.as_mut_ptr(), self.waiting_weights.len(),
                self.cmvn_stats.as_mut_ptr(), self.cmvn_stats.len(), self.linear.as_mut_ptr(), self.linear.len(),
                self.quadratic.as_mut_ptr(), self.quadratic.len(), self.current.as_mut_ptr(), self.current.len(),
                self.scratch.as_mut_ptr(), self.scratch.len(),
                silence.silence_phones.as_ptr(), silence.silence_phones.len(),
                silence.known.as_mut_ptr(), silence.known.len(), silence.is_silence.as_mut_ptr(), silence.is_silence.len(),
                silence.current_weight.as_mut_ptr(), silence.current_weight.len(),
                frames.as_mut_ptr(), frames.len(), weights.as_mut_ptr(), weights.len(), out.as_mut_ptr().cast::<u32>(), out.len(),
                enrolled.len(), all.as_ptr().cast::<u32>(), all.len(), limit,
            )
        };
        (self.record, silence.record) = (a.stream, a.silence);
        self.held = self.counted();
        let o = a.outcome;
        let end = match Refusal::of(o.refusal) {
            Err(r) => RoundEnd::Refused(r, o.step),
            Ok(()) if o.full => RoundEnd::Full(o.found.then_some(Voice { index: o.index, distance: o.distance })),
            Ok(()) => RoundEnd::NoVector,
        };
        Round { end, changes: frames.into_iter().zip(weights).take(a.changes).collect() }
    }
}
