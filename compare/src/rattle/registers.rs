//! A step over registers, beside the plain call that its command is.
use super::call::Call;
use super::record::{bits, forge};
use super::rooms::same_rooms;
use super::stream::Stream;
use crate::machine::Alter;

impl Stream {
    /// A step over registers, with forged parts if any, against the plain call that its command is. Its answer, and what is wrong: it leaves
    /// record, rooms and vector buffer as the plain call does, and nothing is written where there is none or it is refused.
    pub fn stepped(&mut self, block: &mut [u8], frame: &[f32], out: &mut [u32], al: &[Alter]) -> (usize, Option<String>) {
        let f = forge(self.rec, al);
        let mut plain = self.clone();
        let mut plain_out = out.to_vec();
        let call = crate::registers::command(block, frame, out.len());
        let mut wrong = None;
        let (mut rec, mut refused) = (f.rec, true);
        if let Some(c) = &call {
            let mut c = match c {
                crate::script::Cmd::Push(_) => Call::Push(frame),
                crate::script::Cmd::Finish => Call::Finish,
                crate::script::Cmd::Forget(n) => Call::Forget(*n as usize),
                crate::script::Cmd::Window(n) => Call::Window(*n as usize),
                crate::script::Cmd::Fetch(n, _) => Call::Fetch(*n as usize, &mut plain_out),
                _ => unreachable!(),
            };
            let (a, r) = plain.raw(&mut c, &f);
            rec = r;
            refused = a.refusal != 0;
        }
        let before = self.rooms.clone();
        let (a, left) = self.raw(&mut Call::Step(block, frame, out), &f);
        if bits(&left) != bits(&rec) {
            wrong = Some("a step leaves another record than the plain call".to_string());
        }
        if !same_rooms(&self.rooms, &plain.rooms) || out[..] != plain_out[..] {
            wrong = Some("a step leaves other rooms or another vector than the plain call".to_string());
        }
        if refused && !same_rooms(&self.rooms, &before) {
            wrong = Some("a step without a call, or with a refused one, wrote into a room".to_string());
        }
        if al.is_empty() {
            self.rec = left;
        }
        (a.refusal, wrong)
    }
}
