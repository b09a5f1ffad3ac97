//! Installs a rule, counts a packet for a key by a worker, and shows it: the library for C from Rust, edition 2021.
//!     count PROFILE.toml
use std::alloc::{alloc, dealloc, handle_alloc_error, Layout};

mod sys {
    #[repr(C)]
    pub struct Packet {
        pub octets: *const u8,
        pub length: usize,
        pub whole: usize,
        pub up: u8,
    }

    #[repr(C)]
    #[derive(Default)]
    pub struct Verdict {
        pub generation: u32,
        pub status: u8,
        pub bearer: u8,
        pub place: u8,
        pub slots: u8,
    }

    extern "C" {
        pub fn pcef_size() -> usize;
        pub fn pcef_room(at: *mut u8);
        pub fn pcef_open(at: *mut u8, profile: *const u8, profile_length: usize) -> u8;
        pub fn pcef_line(at: *mut u8, line: *const u8, length: usize, answer: *mut u8, room: usize) -> usize;
        pub fn pcef_close(at: *mut u8) -> u8;
        pub fn pcef_worker_size() -> usize;
        pub fn pcef_worker_room(worker: *mut u8);
        pub fn pcef_attach(at: *mut u8, worker: *mut u8) -> u8;
        pub fn pcef_take(
            worker: *mut u8,
            packets: *const Packet,
            packet_count: usize,
            verdicts: *mut Verdict,
            verdict_count: usize,
        ) -> usize;
        pub fn pcef_finish(at: *mut u8, worker: *mut u8) -> u64;
        pub fn pcef_drop_worker(worker: *mut u8) -> u8;
    }
}

const LINES: [&str; 2] = [
    "{\"do\":\"install\",\"rule\":{\"name\":\"web\",\"precedence\":100,\
     \"filters\":[{\"text\":\"permit out 17 from any 53 to assigned\"}],\"qci\":9,\
     \"arp\":{\"level\":8,\"capability\":false,\"vulnerability\":true},\"gate\":\"ENABLED\",\"key\":\"vid\"}}",
    "{\"do\":\"monitor\",\"key\":\"vid\",\"grant\":1000}",
];

/// 28 octets of UDP from port 53 of 198.51.100.7 to 10.0.0.2.
const PACKET: [u8; 28] = [
    0x45, 0, 0, 28, 0, 0, 0, 0, 64, 17, 0, 0, 198, 51, 100, 7, 10, 0, 0, 2, 0, 53, 0x13, 0x88, 0, 8, 0, 0,
];

/// The least of the numbers by which a worker is refused.
const ROWS_FULL: u64 = u64::MAX - 6;

/// Memory of a handle.
struct Room {
    at: *mut u8,
    layout: Layout,
}

impl Room {
    fn new(size: usize) -> Room {
        let layout = Layout::from_size_align(size, 16).expect("a handle is small");
        // SAFETY: a handle isn't empty.
        let at = unsafe { alloc(layout) };
        if at.is_null() {
            handle_alloc_error(layout);
        }
        Room { at, layout }
    }
}

impl Drop for Room {
    fn drop(&mut self) {
        // SAFETY: it was taken by this layout.
        unsafe { dealloc(self.at, self.layout) }
    }
}

struct Session(Room);

impl Session {
    fn open(profile: &[u8]) -> Result<Session, u8> {
        // SAFETY: the room is as large as a handle, aligned to 16 and given to nobody else.
        let session = unsafe {
            let room = Room::new(sys::pcef_size());
            sys::pcef_room(room.at);
            Session(room)
        };
        // SAFETY: the handle has a room, and the profile its length.
        match unsafe { sys::pcef_open(session.0.at, profile.as_ptr(), profile.len()) } {
            0 => Ok(session),
            fault => Err(fault),
        }
    }

    fn line(&mut self, line: &str) -> String {
        let mut answer = vec![0; 65536];
        // SAFETY: the handle has a room, and both buffers have their lengths.
        let length = unsafe { sys::pcef_line(self.0.at, line.as_ptr(), line.len(), answer.as_mut_ptr(), answer.len()) };
        answer.truncate(length);
        String::from_utf8(answer).expect("answers are text")
    }
}

impl Drop for Session {
    fn drop(&mut self) {
        // SAFETY: the handle has a room, and nobody calls behind this.
        unsafe { sys::pcef_close(self.0.at) };
    }
}

/// A worker that borrows its session, so it meets no other one.
struct Worker<'a> {
    room: Room,
    session: &'a mut Session,
}

impl<'a> Worker<'a> {
    fn attach(session: &'a mut Session) -> Result<Worker<'a>, u8> {
        // SAFETY: as of a session's handle.
        let worker = unsafe {
            let room = Room::new(sys::pcef_worker_size());
            sys::pcef_worker_room(room.at);
            Worker { room, session }
        };
        // SAFETY: both handles have rooms.
        match unsafe { sys::pcef_attach(worker.session.0.at, worker.room.at) } {
            0..=15 => Ok(worker),
            why => Err(why),
        }
    }

    fn take(&mut self, up: bool, octets: &[u8]) -> sys::Verdict {
        let packet = sys::Packet { octets: octets.as_ptr(), length: octets.len(), whole: octets.len(), up: up.into() };
        let mut verdict = sys::Verdict::default();
        // SAFETY: the handle has a room, and there are one packet and one verdict.
        unsafe { sys::pcef_take(self.room.at, &packet, 1, &mut verdict, 1) };
        verdict
    }

    fn finish(self) -> Result<u64, u64> {
        // SAFETY: both handles have rooms, and the worker is this session's.
        match unsafe { sys::pcef_finish(self.session.0.at, self.room.at) } {
            next if next < ROWS_FULL => Ok(next),
            why => Err(why),
        }
    }
}

impl Drop for Worker<'_> {
    fn drop(&mut self) {
        // SAFETY: the handle has a room.
        unsafe { sys::pcef_drop_worker(self.room.at) };
    }
}

fn main() {
    let path = std::env::args().nth(1).expect("usage: count PROFILE.toml");
    let profile = std::fs::read(path).expect("the profile is read");
    let mut session = Session::open(&profile).expect("the profile is right");
    for line in LINES {
        session.line(line);
    }
    let mut worker = Worker::attach(&mut session).expect("a worker comes");
    assert_eq!(worker.take(false, &PACKET).status, 0, "the packet passes");
    worker.finish().expect("its row counts");
    println!("{}", session.line(r#"{"do":"show"}"#));
}
