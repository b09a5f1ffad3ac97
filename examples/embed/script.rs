//! Answers the lines of standard input, as `pcef script PROFILE.toml` does, over the library for C.
//!     script PROFILE.toml < LINES.jsonl
use std::alloc::{Layout, alloc, dealloc, handle_alloc_error};
use std::io::{self, BufRead, Write};

mod sys {
    extern "C" {
        pub fn pcef_size() -> usize;
        pub fn pcef_room(at: *mut u8);
        pub fn pcef_open(at: *mut u8, profile: *const u8, length: usize) -> u8;
        pub fn pcef_line(at: *mut u8, line: *const u8, length: usize, answer: *mut u8, room: usize) -> usize;
        pub fn pcef_judge(
            at: *mut u8,
            packets: *const super::Packet,
            packet_count: usize,
            verdicts: *mut super::Verdict,
            verdict_count: usize,
        ) -> usize;
        pub fn pcef_reports(at: *mut u8, first: u64, answer: *mut u8, room: usize) -> usize;
        pub fn pcef_forget(at: *mut u8) -> usize;
        pub fn pcef_close(at: *mut u8) -> u8;
    }
}

/// The first octets of a packet, and how many it has, as the library takes it.
#[repr(C)]
pub struct Packet {
    octets: *const u8,
    length: usize,
    whole: usize,
    up: u8,
}

/// A verdict, as the library gives it.
#[repr(C)]
#[derive(Clone, Copy, Debug, Default)]
pub struct Verdict {
    pub generation: u32,
    pub status: u8,
    pub bearer: u8,
    pub place: u8,
    pub slots: u8,
}

/// A session, which is closed when it is dropped. It may go to another thread, and is in one call at a time.
pub struct Session {
    at: *mut u8,
    layout: Layout,
}

// Safe: a handle may go from thread to thread, and `&mut self` makes each call wait for the one before it.
unsafe impl Send for Session {}

impl Session {
    /// A session of this profile, or the number of the fault.
    pub fn open(profile: &str) -> Result<Session, u8> {
        let layout = Layout::from_size_align(unsafe { sys::pcef_size() }, 16).expect("a layout");
        // Safe: the size isn't 0. The memory is this session's alone from here on, and is never moved.
        let at = unsafe { alloc(layout) };
        if at.is_null() {
            handle_alloc_error(layout);
        }
        unsafe { sys::pcef_room(at) };
        let session = Session { at, layout };
        match unsafe { sys::pcef_open(at, profile.as_ptr(), profile.len()) } {
            0 => Ok(session),
            fault => Err(fault),
        }
    }

    /// The answer to a line, which is empty where none is due; `None` for want of memory or room.
    pub fn line<'a>(&mut self, line: &[u8], room: &'a mut [u8]) -> Option<&'a [u8]> {
        let needed =
            unsafe { sys::pcef_line(self.at, line.as_ptr(), line.len(), room.as_mut_ptr(), room.len()) };
        room.get(..needed)
    }

    /// What the newest generation decides of a packet of `whole` octets that begins with these: status 10 where
    /// those beyond them decide. A packet that is at hand has `octets.len()`.
    pub fn judge(&mut self, up: bool, octets: &[u8], whole: usize) -> Verdict {
        let packet = Packet { octets: octets.as_ptr(), length: octets.len(), whole, up: u8::from(up) };
        let mut verdict = Verdict::default();
        unsafe { sys::pcef_judge(self.at, &packet, 1, &mut verdict, 1) };
        verdict
    }

    /// The reports from this number on, as a JSON array; `None` where some of them were forgotten, or for want of
    /// memory or room.
    pub fn reports<'a>(&mut self, first: u64, room: &'a mut [u8]) -> Option<&'a [u8]> {
        let needed = unsafe { sys::pcef_reports(self.at, first, room.as_mut_ptr(), room.len()) };
        room.get(..needed)
    }

    /// Forgets the reports so far, once they were handed on. Gives the number of the next one.
    pub fn forget(&mut self) -> u64 {
        // The session is open, so this is a count.
        unsafe { sys::pcef_forget(self.at) as u64 }
    }
}

impl Drop for Session {
    fn drop(&mut self) {
        unsafe {
            sys::pcef_close(self.at);
            dealloc(self.at, self.layout);
        }
    }
}

fn main() -> io::Result<()> {
    let path = std::env::args().nth(1).expect("usage: script PROFILE.toml < LINES.jsonl");
    let mut session = Session::open(&std::fs::read_to_string(path)?).expect("the profile isn't opened");
    let mut room = vec![0; 1 << 20];
    let mut next = 0;
    let mut out = io::stdout().lock();
    for line in io::stdin().lock().split(b'\n') {
        let answer = session.line(&line?, &mut room).expect("no memory, or more than the buffer holds");
        if !answer.is_empty() {
            out.write_all(answer)?;
            out.write_all(b"\n")?;
        }
        // A gateway hands these to the PCRF, and only then forgets them.
        let reports = session.reports(next, &mut room).expect("no memory, or more than the buffer holds");
        io::stderr().write_all(reports)?;
        next = session.forget();
    }
    // UDP from 198.51.100.7 port 53 to 10.0.0.2: 24 octets of 28, and 20 of them, which lack the ports.
    let front = [0x45, 0, 0, 28, 0, 0, 0, 0, 64, 17, 0, 0, 198, 51, 100, 7, 10, 0, 0, 2, 0, 53, 0x13, 0x88];
    eprintln!("\n{:?}", session.judge(false, &front, 28));
    eprintln!("{:?}", session.judge(false, &front[..20], 28));
    Ok(())
}
