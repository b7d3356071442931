//! The note by a reader, which C cannot hold: tests/compare/reading.rt.txt holds it.

extern "C" {
    fn wol_reader_refusal(memory: *const u8, len: usize, place: usize) -> u8;
    fn wol_reader_joined(
        memory: *const u8,
        len: usize,
        place: usize,
        out: *mut u8,
        out_len: usize,
        runs: &mut usize,
    ) -> usize;
}

/// What a reader made at a place does: its companion's refusal or 0, its runs joined, and how many
/// they are.
#[derive(Debug, PartialEq, Eq)]
pub struct Read {
    pub refusal: u8,
    pub joined: Vec<u8>,
    pub runs: usize,
}

/// Reads a note of at most so many bytes; more show as bytes of the output that are not there.
pub fn read(memory: &[u8], place: usize, most: usize) -> Read {
    let (at, len) = (memory.as_ptr(), memory.len());
    let mut joined = vec![0; most];
    let mut runs = 0;
    // Sound: each pointer goes with the length of its own slice.
    let (refusal, bytes) = unsafe {
        (
            wol_reader_refusal(at, len, place),
            wol_reader_joined(at, len, place, joined.as_mut_ptr(), most, &mut runs),
        )
    };
    joined.resize(bytes, 0);
    Read {
        refusal,
        joined,
        runs,
    }
}
