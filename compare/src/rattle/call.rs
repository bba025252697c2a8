//! A call on a stream, as the library's own, on what it is lent.
use super::model::Tables;
use super::record::Lent;
use super::rooms::Rooms;
use super::{IvectorStream, StreamAnswer};
use shofrakin::sys as c;

/// A call on a stream.
pub enum Call<'a> {
    Push(&'a [f32]),
    Finish,
    Change(&'a [usize], &'a [f32]),
    Forget(usize),
    Window(usize),
    Fetch(usize, &'a mut [u32]),
    /// A step over registers: the block, the frame buffer, the vector buffer. Its answer has a refusal alone.
    Step(&'a mut [u8], &'a [f32], &'a mut [u32]),
}

/// A call on the record where it lies, in rooms of other lengths if any.
#[rustfmt::skip]
#[inline]
pub(super) fn lend(t: &Tables, rec: &mut IvectorStream, z: &mut Rooms, call: &mut Call, l: &Lent) -> StreamAnswer {
    let (fl, rl, wf, ww) = (z.frames.by(l[8]), z.rows.by(l[9]), z.waiting_frames.by(l[10]), z.waiting_weights.by(l[11]));
    unsafe {
        match call {
            Call::Push(x) => c::shofrakin_push_frame(
                rec, x.as_ptr(), x.len(), z.frames.all.as_mut_ptr(), fl, z.rows.all.as_mut_ptr(), rl,
                z.waiting_frames.all.as_ptr(), wf, z.waiting_weights.all.as_ptr(), ww,
            ),
            Call::Finish => c::shofrakin_set_input_finished(
                rec, z.frames.all.as_ptr(), fl, z.rows.all.as_ptr(), rl,
                z.waiting_frames.all.as_ptr(), wf, z.waiting_weights.all.as_ptr(), ww,
            ),
            Call::Change(x, y) => c::shofrakin_update_frame_weights(
                rec, x.as_ptr(), x.len(), y.as_ptr(), y.len(), z.frames.all.as_ptr(), fl, z.rows.all.as_ptr(), rl,
                z.waiting_frames.all.as_mut_ptr(), wf, z.waiting_weights.all.as_mut_ptr(), ww,
            ),
            Call::Forget(n) => c::shofrakin_forget_before(
                rec, *n, z.frames.all.as_ptr(), fl, z.rows.all.as_ptr(), rl,
                z.waiting_frames.all.as_ptr(), wf, z.waiting_weights.all.as_ptr(), ww,
            ),
            Call::Window(n) => c::shofrakin_set_cmn_window(
                rec, *n, z.frames.all.as_ptr(), fl, z.rows.all.as_ptr(), rl,
                z.waiting_frames.all.as_ptr(), wf, z.waiting_weights.all.as_ptr(), ww,
            ),
            Call::Fetch(n, out) => c::shofrakin_get_frame(
                rec, *n,
                t.gconsts.all.as_ptr(), t.gconsts.by(l[0]), t.means_invvars_t.all.as_ptr(), t.means_invvars_t.by(l[1]),
                t.inv_vars_t.all.as_ptr(), t.inv_vars_t.by(l[2]), t.sigma_inv_m.all.as_ptr(), t.sigma_inv_m.by(l[3]),
                t.u.all.as_ptr(), t.u.by(l[4]), t.lda_t.all.as_ptr(), t.lda_t.by(l[5]),
                t.lda_offset.all.as_ptr(), t.lda_offset.by(l[6]), t.global_mean_stats.all.as_ptr(), t.global_mean_stats.by(l[7]),
                z.frames.all.as_ptr(), fl, z.rows.all.as_ptr(), rl,
                z.waiting_frames.all.as_mut_ptr(), wf, z.waiting_weights.all.as_mut_ptr(), ww,
                z.cmvn_stats.all.as_mut_ptr(), z.cmvn_stats.by(l[12]), z.linear.all.as_mut_ptr(), z.linear.by(l[13]),
                z.quadratic.all.as_mut_ptr(), z.quadratic.by(l[14]), z.current.all.as_mut_ptr(), z.current.by(l[15]),
                z.scratch.all.as_mut_ptr(), z.scratch.by(l[16]),
                out.as_mut_ptr(), out.len(),
            ),
            Call::Step(block, frame, out) => {
                let a = c::shofrakin_registers_step(
                    rec, block.as_mut_ptr(), block.len(), frame.as_ptr(), frame.len(),
                    t.gconsts.all.as_ptr(), t.gconsts.by(l[0]), t.means_invvars_t.all.as_ptr(), t.means_invvars_t.by(l[1]),
                    t.inv_vars_t.all.as_ptr(), t.inv_vars_t.by(l[2]), t.sigma_inv_m.all.as_ptr(), t.sigma_inv_m.by(l[3]),
                    t.u.all.as_ptr(), t.u.by(l[4]), t.lda_t.all.as_ptr(), t.lda_t.by(l[5]),
                    t.lda_offset.all.as_ptr(), t.lda_offset.by(l[6]), t.global_mean_stats.all.as_ptr(), t.global_mean_stats.by(l[7]),
                    z.frames.all.as_mut_ptr(), fl, z.rows.all.as_mut_ptr(), rl,
                    z.waiting_frames.all.as_mut_ptr(), wf, z.waiting_weights.all.as_mut_ptr(), ww,
                    z.cmvn_stats.all.as_mut_ptr(), z.cmvn_stats.by(l[12]), z.linear.all.as_mut_ptr(), z.linear.by(l[13]),
                    z.quadratic.all.as_mut_ptr(), z.quadratic.by(l[14]), z.current.all.as_mut_ptr(), z.current.by(l[15]),
                    z.scratch.all.as_mut_ptr(), z.scratch.by(l[16]),
                    out.as_mut_ptr(), out.len(),
                );
                StreamAnswer { refusal: a.refusal, frames_held: 0, rows_held: 0, not_finite: 0, nan_likelihoods: 0 }
            }
        }
    }
}
