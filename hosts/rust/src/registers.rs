use crate::{sys, IvectorStream, Refusal};

impl IvectorStream {
    /// One step over a board's block of sixteen bytes, laid out as include/shofrakin.h has it: the command in byte 0 is done as its plain call, a push of
    /// `frame`, a finish, a forget or a fetch into `out`, and the block tells of it. A refused command is told in the block alone. A fetch that is
    /// refused leaves the last vector in `out`: bit 0 of the flags says whose it is. Refusal 10 for a block of another length.
    #[rustfmt::skip]
    pub fn registers_step(&mut self, block: &mut [u8], frame: &[f32], out: &mut [f32]) -> Result<(), Refusal> {
        let m = &self.info.loaded().tables;
        // SAFETY: every pointer is a slice's with its length, initialised and aligned; what is written is borrowed alone, and so is the record, which overlaps
        // no slice; f32 and u32 have the same size and alignment, and any bits are a number of either.
        let a = unsafe {
            sys::shofrakin_registers_step(
                &mut self.record, block.as_mut_ptr(), block.len(), frame.as_ptr(), frame.len(),
                m.gconsts.as_ptr(), m.gconsts.len(), m.means_invvars_t.as_ptr(), m.means_invvars_t.len(),
                m.inv_vars_t.as_ptr(), m.inv_vars_t.len(), m.sigma_inv_m.as_ptr(), m.sigma_inv_m.len(),
                m.u.as_ptr(), m.u.len(), m.lda_t.as_ptr(), m.lda_t.len(),
                m.lda_offset.as_ptr(), m.lda_offset.len(), m.global_mean_stats.as_ptr(), m.global_mean_stats.len(),
                self.frames.as_mut_ptr(), self.frames.len(), self.rows.as_mut_ptr(), self.rows.len(),
                self.waiting_frames.as_mut_ptr(), self.waiting_frames.len(), self.waiting_weights.as_mut_ptr(), self.waiting_weights.len(),
                self.cmvn_stats.as_mut_ptr(), self.cmvn_stats.len(), self.linear.as_mut_ptr(), self.linear.len(),
                self.quadratic.as_mut_ptr(), self.quadratic.len(), self.current.as_mut_ptr(), self.current.len(),
                self.scratch.as_mut_ptr(), self.scratch.len(), out.as_mut_ptr().cast::<u32>(), out.len(),
            )
        };
        self.held = self.counted();
        Refusal::of(a.refusal)
    }
}
