//! The proved library, reached through its C interface.

use peer::machine::Move;

extern "C" {
    fn chaemodul_judge(log: *const u8, log_len: usize, answer: *mut [u32; 7]) -> u32;
    fn chaemodul_run(
        schedule: *const u8,
        schedule_len: usize,
        out: *mut u8,
        out_len: usize,
        answer: *mut [u32; 3],
    ) -> u32;
    fn chaemodul_writer_start(state: *mut [u32; 25], value: u32) -> u32;
    fn chaemodul_writer_step(state: *mut [u32; 25]) -> u32;
    fn chaemodul_writer_flicker(state: *mut [u32; 25], bit: u32) -> u32;
    fn chaemodul_reader_step(state: *mut [u32; 25]) -> u32;
    fn chaemodul_reader_flicker(state: *mut [u32; 25], bit: u32) -> u32;
}

/// Fills the answer and gives back the number that the function returned.
pub fn judge(log: &[u8], answer: &mut [u32; 7]) -> u32 {
    // SAFETY: the pointers come with their true lengths and outlive the call.
    unsafe { chaemodul_judge(log.as_ptr(), log.len(), answer) }
}

/// Fills the answer and gives back the number that the function returned.
pub fn run(schedule: &[u8], out: &mut [u8], answer: &mut [u32; 3]) -> u32 {
    // SAFETY: as above, and an exclusive borrow overlaps no other.
    unsafe { chaemodul_run(schedule.as_ptr(), schedule.len(), out.as_mut_ptr(), out.len(), answer) }
}

/// Makes one move in place and gives back the number of the refusal.
pub fn make(state: &mut [u32; 25], the_move: Move) -> u32 {
    // SAFETY: the state is a whole array of 25 numbers.
    unsafe {
        match the_move {
            Move::WriterStart(value) => chaemodul_writer_start(state, value),
            Move::WriterStep => chaemodul_writer_step(state),
            Move::WriterFlicker(bit) => chaemodul_writer_flicker(state, bit),
            Move::ReaderStep => chaemodul_reader_step(state),
            Move::ReaderFlicker(bit) => chaemodul_reader_flicker(state, bit),
        }
    }
}
