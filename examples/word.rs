//! The library from Rust: one word to points, and back.
//!
//! A slice goes to the library as a pointer and a length; see include/demfizagu.h for what each function does.

extern "C" {
    fn demfizagu_sender_words() -> usize;
    fn demfizagu_receiver_words() -> usize;
    fn demfizagu_sender_open(state: *mut u64, state_len: usize, u: u32) -> u32;
    fn demfizagu_send(state: *mut u64, state_len: usize, word: u32, out: *mut i32, out_len: usize) -> u32;
    fn demfizagu_receiver_open(state: *mut u64, state_len: usize, u: u32, window: u32, start: u32) -> u32;
    fn demfizagu_hear(
        state: *mut u64,
        state_len: usize,
        piece: *const i32,
        piece_len: usize,
        out: *mut u32,
        out_len: usize,
        told: *mut u64,
        told_len: usize,
    ) -> u32;
    fn demfizagu_finish(
        state: *mut u64,
        state_len: usize,
        out: *mut u32,
        out_len: usize,
        told: *mut u64,
        told_len: usize,
    ) -> u32;
}

fn main() {
    let (u, word) = (2, 77);
    // Safety: each pointer comes with the true length of a slice that nothing else borrows.
    unsafe {
        let mut sender = vec![0u64; demfizagu_sender_words()];
        let mut points = [0i32; 4];
        assert_eq!(demfizagu_sender_open(sender.as_mut_ptr(), sender.len(), u), 0);
        assert_eq!(demfizagu_send(sender.as_mut_ptr(), sender.len(), word, points.as_mut_ptr(), 4), 0);

        let mut receiver = vec![0u64; demfizagu_receiver_words()];
        let (piece, mut out, mut told) = (points.map(|c| 128 * c), [0u32; 64], [0u64; 3]);
        let (state, len) = (receiver.as_mut_ptr(), receiver.len());
        assert_eq!(demfizagu_receiver_open(state, len, u, 64, 0), 0);
        assert_eq!(demfizagu_hear(state, len, piece.as_ptr(), 4, out.as_mut_ptr(), 64, told.as_mut_ptr(), 3), 0);
        assert_eq!(demfizagu_finish(state, len, out.as_mut_ptr(), 64, told.as_mut_ptr(), 3), 0);
        println!("word {word} went out as {points:?} and came back as {:?}", &out[..told[1] as usize]);
    }
}
