//! The C baseline; its loops are in C too (bench/c/runs.h).
use crate::contender::{touched, Contender, Refused, Totals};
use crate::feed::{Feed, Span};

/// The buffers of its keeper and of the keeper's copy, and the types of the batch's columns.
pub struct C {
    buffer: Vec<u8>,
    buffer_copy: Vec<u8>,
    types: Vec<TypeList>,
}

#[repr(C)]
struct TypeList {
    at: *const u32,
    count: usize,
}

impl C {
    pub fn new() -> C {
        C { buffer: vec![], buffer_copy: vec![], types: vec![] }
    }
}

extern "C" {
    fn c_check_read(version: u32, in_block: u32, bytes: *const u8, length: usize, out: *mut u64) -> u32;
    fn c_check_write_back(version: u32, in_block: u32, bytes: *const u8, length: usize, out: *mut u8, room: usize, result: *mut u64)
        -> u32;
    fn c_check_session_start(version: u32);
    fn c_check_session_give(bytes: *const u8, length: usize, tag: u64, answer: *mut u64) -> u32;
    fn c_check_keeper_start(version: u32, buffer: *mut u8, room: usize);
    fn c_check_keeper_give(bytes: *const u8, length: usize, tag: u64, out: *mut u8, room: usize, reply: *mut u64) -> u32;
    fn c_run_read(version: u32, messages: *const Span, count: usize, totals: *mut Totals);
    fn c_run_session(version: u32, messages: *const Span, count: usize, totals: *mut Totals);
    fn c_fill(version: u32, in_block: *mut u32, messages: *const Span, count: usize);
    fn c_run_write(version: u32, out: *mut u8, room: usize, totals: *mut Totals);
    fn c_run_steps(totals: *mut Totals);
    fn c_fill_values(types: *const TypeList) -> usize;
    fn c_check_value(index: usize, out: *mut u64) -> u32;
    fn c_check_written_value(index: usize, out: *mut u8, room: usize, result: *mut u64) -> u32;
    fn c_run_values(types: *const TypeList, totals: *mut Totals);
    fn c_run_write_values(out: *mut u8, room: usize, totals: *mut Totals);
    fn c_copy_session();
    fn c_run_copies(message: Span, totals: *mut Totals);
    fn c_run_keeper(messages: *const Span, count: usize, out: *mut u8, room: usize, totals: *mut Totals);
    fn c_copy_keeper(buffer: *mut u8);
    fn c_run_keeper_copy(message: Span, out: *mut u8, room: usize, totals: *mut Totals);
}

// Every pointer below is a slice's or an array's, with its length; the driver has one thread, and the messages outlive the run. C keeps
// the pointers to the two buffers, which stand until others are given. There are types for each message of a batch.
impl<'a> Contender<'a> for C {
    fn name(&self) -> &'static str {
        "C"
    }

    fn flat(&self, version: u32, in_block: bool, bytes: &[u8]) -> Result<[u64; 16], Refused> {
        let mut flat = [0; 16];
        match unsafe { c_check_read(version, in_block.into(), bytes.as_ptr(), bytes.len(), flat.as_mut_ptr()) } {
            0 => Ok(flat),
            number => Err((number, flat[0])),
        }
    }

    fn written(&self, version: u32, in_block: bool, bytes: &[u8], room: usize) -> Result<Vec<u8>, Refused> {
        let mut out = vec![0; room];
        let mut result = 0;
        let (at, length) = (bytes.as_ptr(), bytes.len());
        match unsafe { c_check_write_back(version, in_block.into(), at, length, out.as_mut_ptr(), room, &mut result) } {
            0 => {
                out.truncate(result as usize);
                Ok(out)
            }
            number => Err((number, result)),
        }
    }

    fn session_start(&mut self, version: u32) {
        unsafe { c_check_session_start(version) }
    }

    fn session_give(&mut self, bytes: &[u8], tag: u64) -> Result<[u64; 4], Refused> {
        let mut answer = [0; 4];
        match unsafe { c_check_session_give(bytes.as_ptr(), bytes.len(), tag, answer.as_mut_ptr()) } {
            0 => Ok(answer),
            number => Err((number, answer[0])),
        }
    }

    fn keeper_start(&mut self, version: u32, room: usize) {
        self.buffer = touched(room);
        self.buffer_copy = touched(room);
        unsafe { c_check_keeper_start(version, self.buffer.as_mut_ptr(), room) }
    }

    fn keeper_give(&mut self, bytes: &[u8], tag: u64, out: &mut [u8]) -> Result<[u64; 5], Refused> {
        let mut reply = [0; 5];
        match unsafe { c_check_keeper_give(bytes.as_ptr(), bytes.len(), tag, out.as_mut_ptr(), out.len(), reply.as_mut_ptr()) } {
            0 => Ok(reply),
            number => Err((number, reply[0])),
        }
    }

    fn read(&self, feed: &Feed<'a>) -> Totals {
        let mut totals = Totals::default();
        unsafe { c_run_read(feed.version, feed.spans.as_ptr(), feed.spans.len(), &mut totals) };
        totals
    }

    fn session(&self, feed: &Feed<'a>) -> Totals {
        let mut totals = Totals::default();
        unsafe { c_run_session(feed.version, feed.spans.as_ptr(), feed.spans.len(), &mut totals) };
        totals
    }

    fn fill(&mut self, version: u32, in_block: &mut bool, _: &[&'a [u8]], spans: &[Span]) {
        let mut block = u32::from(*in_block);
        unsafe { c_fill(version, &mut block, spans.as_ptr(), spans.len()) };
        *in_block = block != 0;
    }

    fn write(&self, version: u32, out: &mut [u8]) -> Totals {
        let mut totals = Totals::default();
        unsafe { c_run_write(version, out.as_mut_ptr(), out.len(), &mut totals) };
        totals
    }

    fn steps(&self) -> Totals {
        let mut totals = Totals::default();
        unsafe { c_run_steps(&mut totals) };
        totals
    }

    fn fill_values(&mut self, types: &[&'static [u32]]) -> Vec<Result<[u64; 3], Refused>> {
        self.types = types.iter().map(|types| TypeList { at: types.as_ptr(), count: types.len() }).collect();
        let value = |index| {
            let mut value = [0; 3];
            match unsafe { c_check_value(index, value.as_mut_ptr()) } {
                0 => Ok(value),
                number => Err((number, value[0])),
            }
        };
        (0..unsafe { c_fill_values(self.types.as_ptr()) }).map(value).collect()
    }

    fn values(&self) -> Totals {
        let mut totals = Totals::default();
        unsafe { c_run_values(self.types.as_ptr(), &mut totals) };
        totals
    }

    fn written_value(&self, index: usize, out: &mut [u8]) -> Result<u64, Refused> {
        let mut result = 0;
        match unsafe { c_check_written_value(index, out.as_mut_ptr(), out.len(), &mut result) } {
            0 => Ok(result),
            number => Err((number, result)),
        }
    }

    fn write_values(&self, out: &mut [u8]) -> Totals {
        let mut totals = Totals::default();
        unsafe { c_run_write_values(out.as_mut_ptr(), out.len(), &mut totals) };
        totals
    }

    fn copy_session(&mut self) {
        unsafe { c_copy_session() }
    }

    fn give_copies(&mut self, message: &[u8]) -> Totals {
        let mut totals = Totals::default();
        unsafe { c_run_copies(Span::of(message), &mut totals) };
        totals
    }

    fn keeper(&mut self, feed: &Feed<'a>, out: &mut [u8]) -> Totals {
        let mut totals = Totals::default();
        unsafe { c_run_keeper(feed.spans.as_ptr(), feed.spans.len(), out.as_mut_ptr(), out.len(), &mut totals) };
        totals
    }

    fn copy_keeper(&mut self) {
        unsafe { c_copy_keeper(self.buffer_copy.as_mut_ptr()) }
    }

    fn give_keeper_copy(&mut self, message: &[u8], out: &mut [u8]) -> Totals {
        let mut totals = Totals::default();
        unsafe { c_run_keeper_copy(Span::of(message), out.as_mut_ptr(), out.len(), &mut totals) };
        totals
    }
}
