use crate::memory::zeros;
use crate::{sys, Refusal};

/// A number of input frames, or the number of one.
#[derive(Clone, Copy, Debug, PartialEq, Eq, PartialOrd, Ord)]
pub struct InputFrame(pub usize);

/// A number of decoder frames, or the number of one. One is `subsampling` input frames.
#[derive(Clone, Copy, Debug, PartialEq, Eq, PartialOrd, Ord)]
pub struct DecoderFrame(pub usize);

/// A phone of the best path.
#[derive(Clone, Copy, Debug, PartialEq, Eq)]
pub struct PhoneSegment {
    /// The phone.
    pub phone: i32,
    /// Its first decoder frame.
    pub start: usize,
    /// One more than its last.
    pub end: usize,
}

/// Frames that the decoder's current best path labels as silence enter the statistics at a small weight, retroactively over the last
/// hundred decoder frames when the path changes. The changes go to [`IvectorStream`](crate::IvectorStream).
#[derive(Clone, Debug)]
pub struct SilenceWeighting {
    pub(crate) record: sys::SilenceWeighting,
    pub(crate) silence_phones: Vec<i32>,
    pub(crate) known: Vec<bool>,
    pub(crate) is_silence: Vec<bool>,
    pub(crate) current_weight: Vec<f32>,
}

impl SilenceWeighting {
    /// A table with room for `table` decoder frames, of which at most 1,000,000 are used. At most 64 phones, subsampling 1..16, a finite
    /// weight: refusal 9; 8 where no memory holds the table.
    pub fn new(silence_phones: &[i32], silence_weight: f32, subsampling: usize, table: DecoderFrame) -> Result<SilenceWeighting, Refusal> {
        let n = table.0.min(1_000_000);
        // SAFETY: a slice's pointer with its length.
        let a = unsafe { sys::shofrakin_new_silence_weighting(silence_phones.as_ptr(), silence_phones.len(), silence_weight, subsampling, n) };
        Refusal::of(a.refusal)?;
        Ok(SilenceWeighting {
            record: a.silence,
            silence_phones: silence_phones.to_vec(),
            known: zeros(n)?,
            is_silence: zeros(n)?,
            current_weight: zeros(n)?,
        })
    }

    /// Whether the weighting changes anything: there are phones, and the weight is not 1.
    pub fn active(&self) -> bool {
        // SAFETY: a record of this table, that nothing writes meanwhile.
        unsafe { sys::shofrakin_silence_active(&self.record) }
    }

    /// How many decoder frames the table has in use.
    pub fn length(&self) -> DecoderFrame {
        DecoderFrame(self.record.length.number)
    }

    /// Notes which of the decoded frames are silence, from the best path's segments. Refusal 23.
    #[rustfmt::skip]
    pub fn compute_current_traceback(&mut self, path: &[PhoneSegment], num_frames_decoded: DecoderFrame) -> Result<(), Refusal> {
        let phones: Vec<i32> = path.iter().map(|s| s.phone).collect();
        let starts: Vec<usize> = path.iter().map(|s| s.start).collect();
        let ends: Vec<usize> = path.iter().map(|s| s.end).collect();
        // SAFETY: every pointer is a slice's with its length, initialised and aligned, every bool 0 or 1; what is written is borrowed alone,
        // and so is the record.
        let a = unsafe {
            sys::shofrakin_compute_current_traceback(
                &mut self.record, self.silence_phones.as_ptr(), self.silence_phones.len(),
                self.known.as_mut_ptr(), self.known.len(), self.is_silence.as_mut_ptr(), self.is_silence.len(),
                self.current_weight.as_mut_ptr(), self.current_weight.len(),
                phones.as_ptr(), phones.len(), starts.as_ptr(), starts.len(), ends.as_ptr(), ends.len(),
                sys::DecoderFrame { number: num_frames_decoded.0 },
            )
        };
        Refusal::of(a.refusal)
    }

    /// The changes of weight up to `num_frames_ready`, by input frame, decoder frame 0 beginning at `first_decoder_frame`. They are not
    /// given again. They can be more than one change call takes:
    /// [`update_frame_weights_in_parts`](crate::IvectorStream::update_frame_weights_in_parts). Refusal 23, and 8 where no memory holds the lists.
    #[rustfmt::skip]
    pub fn get_delta_weights(&mut self, num_frames_ready: InputFrame, first_decoder_frame: InputFrame) -> Result<Vec<(usize, f32)>, Refusal> {
        // the walk begins a hundred frames before the old length, and each decoder frame is `subsampling` input frames
        let (old, table, by) = (self.record.length.number, self.known.len(), self.record.subsampling);
        let wanted = num_frames_ready.0.saturating_sub(first_decoder_frame.0).div_ceil(by).min(table);
        let room = (old.max(wanted) - old.saturating_sub(100)) * by;
        let (mut frames, mut weights) = (zeros::<usize>(room)?, zeros::<f32>(room)?);
        // SAFETY: as above.
        let a = unsafe {
            sys::shofrakin_get_delta_weights(
                &mut self.record, self.known.as_mut_ptr(), self.known.len(), self.is_silence.as_mut_ptr(), self.is_silence.len(),
                self.current_weight.as_mut_ptr(), self.current_weight.len(),
                sys::InputFrame { number: num_frames_ready.0 }, sys::InputFrame { number: first_decoder_frame.0 },
                frames.as_mut_ptr(), frames.len(), weights.as_mut_ptr(), weights.len(),
            )
        };
        Refusal::of(a.refusal)?;
        Ok(frames.into_iter().zip(weights).take(a.changes).collect())
    }
}
