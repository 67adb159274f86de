//! A server of one reply with the rotation of `ox_main`'s.
//!
//! `serve epoll PORT` and `serve all PORT` answer each request with the same reply, by two doors, at
//! PORT and the next one, and 32 slots. `epoll` asks the system what is ready where several turns
//! brought nothing; `all` asks each socket at each turn.

use std::io::{ErrorKind, Read, Write};
use std::net::{TcpListener, TcpStream};
use std::os::fd::AsRawFd;

#[repr(C, packed)]
#[derive(Clone, Copy)]
struct Event {
    events: u32,
    data: u64,
}

extern "C" {
    fn epoll_create1(flags: i32) -> i32;
    fn epoll_ctl(epoll: i32, op: i32, fd: i32, event: *mut Event) -> i32;
    fn epoll_wait(epoll: i32, events: *mut Event, most: i32, timeout: i32) -> i32;
}

const ADD: i32 = 1;
const READ: u32 = 0x1;
const WRITE: u32 = 0x4;
const FAULT: u32 = 0x18;
const CLOSED: u32 = 0x2000;
const EDGE: u32 = 1 << 31;
const SLOTS: usize = 32;
const WAIT: i32 = 10;
const REPLY: &[u8] = b"HTTP/1.1 200 OK\r\nContent-Type: application/json\r\n\
Content-Length: 64\r\n\r\n{\"blocks\":0,\"depth\":100,\"kept\":0,\"profile\":\"regtest\",\"tip\":null}";

struct Link {
    stream: TcpStream,
    heard: Vec<u8>,
    due: Vec<u8>,
    shown: usize,
    readable: bool,
    closed: bool,
}

impl Link {
    /// Answers the next request, if there is a whole one.
    fn poll(&mut self) {
        if let Some(at) = self.heard.windows(4).position(|four| four == b"\r\n\r\n") {
            self.heard.drain(..at + 4);
            self.due = REPLY.to_vec();
            self.shown = 0;
        }
    }
}

struct Server {
    doors: [TcpListener; 2],
    waits: [bool; 2],
    slots: [Option<Link>; SLOTS],
    room: Vec<u8>,
    epoll: Option<i32>,
    open: usize,
    quiet: usize,
    since: usize,
}

impl Server {
    fn new(port: u16, by_epoll: bool) -> Server {
        let door = |port| {
            let door = TcpListener::bind(("127.0.0.1", port)).unwrap();
            door.set_nonblocking(true).unwrap();
            door
        };
        let doors = [door(port), door(port + 1)];
        let epoll = by_epoll.then(|| unsafe { epoll_create1(0) });
        if let Some(epoll) = epoll {
            for (number, door) in doors.iter().enumerate() {
                add(epoll, door.as_raw_fd(), READ, number);
            }
        }
        Server {
            doors,
            waits: [true; 2],
            slots: std::array::from_fn(|_| None),
            room: vec![0; 65536],
            epoll,
            open: 0,
            quiet: 0,
            since: 0,
        }
    }

    fn run(&mut self) {
        loop {
            for door in 0..2 {
                self.door(door);
            }
            for slot in 0..SLOTS {
                self.slot(slot);
            }
        }
    }

    fn door(&mut self, door: usize) {
        let Some(free) = self.slots.iter().position(Option::is_none) else {
            return;
        };
        self.since += 1;
        if self.epoll.is_some() && !self.waits[door] {
            self.ask();
            return;
        }
        let Ok((stream, _)) = self.doors[door].accept() else {
            self.waits[door] = false;
            return;
        };
        stream.set_nonblocking(true).unwrap();
        stream.set_nodelay(true).unwrap();
        if let Some(epoll) = self.epoll {
            add(epoll, stream.as_raw_fd(), READ | WRITE | CLOSED, 2 + free);
        }
        self.quiet = 0;
        self.open += 1;
        self.slots[free] = Some(Link {
            stream,
            heard: vec![],
            due: vec![],
            shown: 0,
            readable: true,
            closed: false,
        });
    }

    fn slot(&mut self, slot: usize) {
        let Some(link) = &mut self.slots[slot] else {
            return;
        };
        self.since += 1;
        let over = if !link.due.is_empty() {
            match link.stream.write(&link.due[link.shown..]) {
                Ok(0) => true,
                Ok(n) => {
                    self.quiet = 0;
                    link.shown += n;
                    if link.shown == link.due.len() {
                        link.due.clear();
                        link.poll();
                    }
                    false
                }
                Err(fault) => fault.kind() != ErrorKind::WouldBlock,
            }
        } else if self.epoll.is_some() && !link.readable {
            self.ask();
            false
        } else {
            match link.stream.read(&mut self.room) {
                Ok(0) => true,
                Ok(n) => {
                    self.quiet = 0;
                    link.readable = n == self.room.len() || link.closed;
                    link.heard.extend_from_slice(&self.room[..n]);
                    link.poll();
                    false
                }
                Err(fault) => {
                    link.readable = false;
                    fault.kind() != ErrorKind::WouldBlock
                }
            }
        };
        if over {
            self.slots[slot] = None;
            self.open -= 1;
        }
    }

    /// Asks the system what is ready, where it is time to.
    fn ask(&mut self) {
        self.quiet += 1;
        let wait = if self.quiet > self.open + 2 {
            self.quiet = 0;
            WAIT
        } else if self.since > 64 {
            0
        } else {
            return;
        };
        self.since = 0;
        let mut events = [Event { events: 0, data: 0 }; 64];
        let epoll = self.epoll.unwrap();
        let count = unsafe { epoll_wait(epoll, events.as_mut_ptr(), 64, wait) };
        for event in &events[..count.max(0) as usize] {
            let (place, what) = (event.data as usize, event.events);
            if place < 2 {
                self.waits[place] = true;
            } else if let Some(link) = &mut self.slots[place - 2] {
                link.readable |= what & (READ | CLOSED | FAULT) != 0;
                link.closed |= what & (CLOSED | FAULT) != 0;
            }
        }
    }
}

fn add(epoll: i32, fd: i32, what: u32, place: usize) {
    let mut event = Event {
        events: what | EDGE,
        data: place as u64,
    };
    unsafe { epoll_ctl(epoll, ADD, fd, &mut event) };
}

fn main() {
    let words: Vec<String> = std::env::args().collect();
    let port = words[2].parse().unwrap();
    Server::new(port, words[1] == "epoll").run();
}
