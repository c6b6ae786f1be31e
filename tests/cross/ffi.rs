//! The C functions of the static library, and nothing else: each is called with a slice as a pointer and a length.
//! This is the only file that knows how the library is reached.

/// What `demfizagu_version` gives; include/demfizagu.h says the same.
pub const VERSION: u32 = 1;

mod c {
    extern "C" {
        pub fn demfizagu_version() -> u32;
        pub fn demfizagu_sender_words() -> usize;
        pub fn demfizagu_receiver_words() -> usize;
        pub fn demfizagu_is_open(state: *const u64, state_len: usize) -> u32;
        pub fn demfizagu_pending(state: *const u64, state_len: usize) -> u32;
        pub fn demfizagu_sender_open(state: *mut u64, state_len: usize, u: u32) -> u32;
        pub fn demfizagu_sender_open_map(state: *mut u64, state_len: usize, map: u32, u: u32) -> u32;
        pub fn demfizagu_send(state: *mut u64, state_len: usize, word: u32, out: *mut i32, out_len: usize) -> u32;
        pub fn demfizagu_send_list(
            state: *mut u64,
            state_len: usize,
            words: *const u32,
            words_len: usize,
            out: *mut i32,
            out_len: usize,
            told: *mut u64,
            told_len: usize,
        ) -> u32;
        pub fn demfizagu_receiver_open(state: *mut u64, state_len: usize, u: u32, window: u32, start: u32) -> u32;
        pub fn demfizagu_receiver_open_plain(state: *mut u64, state_len: usize, u: u32) -> u32;
        pub fn demfizagu_receiver_open_map(
            state: *mut u64,
            state_len: usize,
            map: u32,
            u: u32,
            window: u32,
            start: u32,
        ) -> u32;
        pub fn demfizagu_hear(
            state: *mut u64,
            state_len: usize,
            piece: *const i32,
            piece_len: usize,
            out: *mut u32,
            out_len: usize,
            told: *mut u64,
            told_len: usize,
        ) -> u32;
        pub fn demfizagu_hear_marked(
            state: *mut u64,
            state_len: usize,
            piece: *const i32,
            piece_len: usize,
            marks: *const u8,
            marks_len: usize,
            out: *mut u32,
            out_len: usize,
            told: *mut u64,
            told_len: usize,
        ) -> u32;
        pub fn demfizagu_finish(
            state: *mut u64,
            state_len: usize,
            out: *mut u32,
            out_len: usize,
            told: *mut u64,
            told_len: usize,
        ) -> u32;
        pub fn demfizagu_record_open(u: u32, window: u32, start: u32, bytes: *mut u8, bytes_len: usize) -> u32;
        pub fn demfizagu_record_open_map(
            map: u32,
            u: u32,
            window: u32,
            start: u32,
            bytes: *mut u8,
            bytes_len: usize,
        ) -> u32;
        pub fn demfizagu_hear_recorded(
            state: *mut u64,
            state_len: usize,
            piece: *const i32,
            piece_len: usize,
            out: *mut u32,
            out_len: usize,
            bytes: *mut u8,
            bytes_len: usize,
            told: *mut u64,
            told_len: usize,
        ) -> u32;
        pub fn demfizagu_hear_marked_recorded(
            state: *mut u64,
            state_len: usize,
            piece: *const i32,
            piece_len: usize,
            marks: *const u8,
            marks_len: usize,
            out: *mut u32,
            out_len: usize,
            bytes: *mut u8,
            bytes_len: usize,
            told: *mut u64,
            told_len: usize,
        ) -> u32;
        pub fn demfizagu_finish_recorded(
            state: *mut u64,
            state_len: usize,
            out: *mut u32,
            out_len: usize,
            bytes: *mut u8,
            bytes_len: usize,
            told: *mut u64,
            told_len: usize,
        ) -> u32;
        pub fn demfizagu_sample(x: f32, y: f32, out: *mut i32, out_len: usize) -> u32;
        pub fn demfizagu_samples(
            floats: *const f32,
            floats_len: usize,
            out: *mut i32,
            out_len: usize,
            told: *mut u64,
            told_len: usize,
        ) -> u32;
        pub fn demfizagu_samples_marked(
            floats: *const f32,
            floats_len: usize,
            missing: *const u8,
            missing_len: usize,
            out: *mut i32,
            out_len: usize,
            told: *mut u64,
            told_len: usize,
        ) -> u32;
        pub fn demfizagu_check_card(
            map: u32,
            u: u32,
            coordinates: *const i32,
            coordinates_len: usize,
            states: *const u32,
            states_len: usize,
            symbols: *const u32,
            symbols_len: usize,
            numbers: *const u64,
            numbers_len: usize,
        ) -> u32;
    }
}

// Each call is sound because a Rust slice is what the library asks for: a true length, an aligned pointer that is not
// null, and no overlap with another `&mut`.

pub fn version() -> u32 {
    unsafe { c::demfizagu_version() }
}

pub fn sender_words() -> usize {
    unsafe { c::demfizagu_sender_words() }
}

pub fn receiver_words() -> usize {
    unsafe { c::demfizagu_receiver_words() }
}

pub fn is_open(state: &[u64]) -> u32 {
    unsafe { c::demfizagu_is_open(state.as_ptr(), state.len()) }
}

pub fn pending(state: &[u64]) -> u32 {
    unsafe { c::demfizagu_pending(state.as_ptr(), state.len()) }
}

pub fn sender_open(state: &mut [u64], u: u32) -> u32 {
    unsafe { c::demfizagu_sender_open(state.as_mut_ptr(), state.len(), u) }
}

pub fn sender_open_map(state: &mut [u64], map: u32, u: u32) -> u32 {
    unsafe { c::demfizagu_sender_open_map(state.as_mut_ptr(), state.len(), map, u) }
}

pub fn send(state: &mut [u64], word: u32, out: &mut [i32]) -> u32 {
    unsafe { c::demfizagu_send(state.as_mut_ptr(), state.len(), word, out.as_mut_ptr(), out.len()) }
}

pub fn send_list(state: &mut [u64], words: &[u32], out: &mut [i32], told: &mut [u64]) -> u32 {
    unsafe {
        c::demfizagu_send_list(
            state.as_mut_ptr(),
            state.len(),
            words.as_ptr(),
            words.len(),
            out.as_mut_ptr(),
            out.len(),
            told.as_mut_ptr(),
            told.len(),
        )
    }
}

pub fn receiver_open(state: &mut [u64], u: u32, window: u32, start: u32) -> u32 {
    unsafe { c::demfizagu_receiver_open(state.as_mut_ptr(), state.len(), u, window, start) }
}

pub fn receiver_open_plain(state: &mut [u64], u: u32) -> u32 {
    unsafe { c::demfizagu_receiver_open_plain(state.as_mut_ptr(), state.len(), u) }
}

pub fn receiver_open_map(state: &mut [u64], map: u32, u: u32, window: u32, start: u32) -> u32 {
    unsafe { c::demfizagu_receiver_open_map(state.as_mut_ptr(), state.len(), map, u, window, start) }
}

pub fn hear(state: &mut [u64], piece: &[i32], out: &mut [u32], told: &mut [u64]) -> u32 {
    unsafe {
        c::demfizagu_hear(
            state.as_mut_ptr(),
            state.len(),
            piece.as_ptr(),
            piece.len(),
            out.as_mut_ptr(),
            out.len(),
            told.as_mut_ptr(),
            told.len(),
        )
    }
}

pub fn hear_marked(state: &mut [u64], piece: &[i32], marks: &[u8], out: &mut [u32], told: &mut [u64]) -> u32 {
    unsafe {
        c::demfizagu_hear_marked(
            state.as_mut_ptr(),
            state.len(),
            piece.as_ptr(),
            piece.len(),
            marks.as_ptr(),
            marks.len(),
            out.as_mut_ptr(),
            out.len(),
            told.as_mut_ptr(),
            told.len(),
        )
    }
}

pub fn finish(state: &mut [u64], out: &mut [u32], told: &mut [u64]) -> u32 {
    unsafe {
        c::demfizagu_finish(state.as_mut_ptr(), state.len(), out.as_mut_ptr(), out.len(), told.as_mut_ptr(), told.len())
    }
}

pub fn record_open(u: u32, window: u32, start: u32, bytes: &mut [u8]) -> u32 {
    unsafe { c::demfizagu_record_open(u, window, start, bytes.as_mut_ptr(), bytes.len()) }
}

pub fn record_open_map(map: u32, u: u32, window: u32, start: u32, bytes: &mut [u8]) -> u32 {
    unsafe { c::demfizagu_record_open_map(map, u, window, start, bytes.as_mut_ptr(), bytes.len()) }
}

pub fn hear_recorded(state: &mut [u64], piece: &[i32], out: &mut [u32], bytes: &mut [u8], told: &mut [u64]) -> u32 {
    unsafe {
        c::demfizagu_hear_recorded(
            state.as_mut_ptr(),
            state.len(),
            piece.as_ptr(),
            piece.len(),
            out.as_mut_ptr(),
            out.len(),
            bytes.as_mut_ptr(),
            bytes.len(),
            told.as_mut_ptr(),
            told.len(),
        )
    }
}

pub fn hear_marked_recorded(
    state: &mut [u64],
    piece: &[i32],
    marks: &[u8],
    out: &mut [u32],
    bytes: &mut [u8],
    told: &mut [u64],
) -> u32 {
    unsafe {
        c::demfizagu_hear_marked_recorded(
            state.as_mut_ptr(),
            state.len(),
            piece.as_ptr(),
            piece.len(),
            marks.as_ptr(),
            marks.len(),
            out.as_mut_ptr(),
            out.len(),
            bytes.as_mut_ptr(),
            bytes.len(),
            told.as_mut_ptr(),
            told.len(),
        )
    }
}

pub fn finish_recorded(state: &mut [u64], out: &mut [u32], bytes: &mut [u8], told: &mut [u64]) -> u32 {
    unsafe {
        c::demfizagu_finish_recorded(
            state.as_mut_ptr(),
            state.len(),
            out.as_mut_ptr(),
            out.len(),
            bytes.as_mut_ptr(),
            bytes.len(),
            told.as_mut_ptr(),
            told.len(),
        )
    }
}

pub fn sample(x: f32, y: f32, out: &mut [i32]) -> u32 {
    unsafe { c::demfizagu_sample(x, y, out.as_mut_ptr(), out.len()) }
}

pub fn samples(floats: &[f32], out: &mut [i32], told: &mut [u64]) -> u32 {
    unsafe {
        c::demfizagu_samples(floats.as_ptr(), floats.len(), out.as_mut_ptr(), out.len(), told.as_mut_ptr(), told.len())
    }
}

pub fn samples_marked(floats: &[f32], missing: &[u8], out: &mut [i32], told: &mut [u64]) -> u32 {
    unsafe {
        c::demfizagu_samples_marked(
            floats.as_ptr(),
            floats.len(),
            missing.as_ptr(),
            missing.len(),
            out.as_mut_ptr(),
            out.len(),
            told.as_mut_ptr(),
            told.len(),
        )
    }
}

pub fn check_card(map: u32, u: u32, coordinates: &[i32], states: &[u32], symbols: &[u32], numbers: &[u64]) -> u32 {
    unsafe {
        c::demfizagu_check_card(
            map,
            u,
            coordinates.as_ptr(),
            coordinates.len(),
            states.as_ptr(),
            states.len(),
            symbols.as_ptr(),
            symbols.len(),
            numbers.as_ptr(),
            numbers.len(),
        )
    }
}
