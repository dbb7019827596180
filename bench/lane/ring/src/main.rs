//! A plain ring of packets in Rust, and the standard library's bounded channel, timed as the lane is.
use std::cell::UnsafeCell;
use std::mem::size_of;
use std::sync::atomic::{AtomicU64, Ordering};
use std::sync::mpsc::sync_channel;
use std::thread;
use std::time::Instant;

const PACKETS: u64 = 4_000_000;
const ROOM: usize = 1_024;

#[allow(dead_code)]
enum Body {
    Samples { time: Option<u64>, payload: Vec<u8> },
    Control { data: Vec<u32>, address: u32, fields: [u64; 4] },
    Words([u64; 5]),
}

#[allow(dead_code)]
struct Packet {
    vc: u8,
    eob: bool,
    eov: bool,
    seq: u16,
    dst: u16,
    mdata: Vec<u64>,
    body: Body,
}

fn numbered(number: u64) -> Packet {
    Packet {
        vc: 0,
        eob: false,
        eov: false,
        seq: (number % 65_536) as u16,
        dst: 1,
        mdata: Vec::new(),
        body: Body::Samples { time: None, payload: Vec::new() },
    }
}

/// One side stores `put`, the other `taken`; a slot is written and read by one side at a time.
struct Ring {
    put: AtomicU64,
    taken: AtomicU64,
    slots: Vec<UnsafeCell<Option<Packet>>>,
    order: Ordering,
}

unsafe impl Sync for Ring {}

impl Ring {
    fn new(order: Ordering) -> Ring {
        Ring {
            put: AtomicU64::new(0),
            taken: AtomicU64::new(0),
            slots: (0..ROOM).map(|_| UnsafeCell::new(None)).collect(),
            order,
        }
    }

    fn fill(&self, from: u64) -> u64 {
        let taken = self.taken.load(Ordering::Acquire);
        let mut put = from;
        while put < PACKETS && put - taken < ROOM as u64 {
            unsafe { *self.slots[put as usize % ROOM].get() = Some(numbered(put)) };
            put += 1;
            self.put.store(put, self.order);
        }
        put
    }

    fn drain(&self, from: u64) -> u64 {
        let put = self.put.load(Ordering::Acquire);
        let mut got = from;
        while got < put {
            let packet = unsafe { (*self.slots[got as usize % ROOM].get()).take() };
            assert!(packet.is_some_and(|p| p.seq == (got % 65_536) as u16));
            got += 1;
            self.taken.store(got, self.order);
        }
        got
    }
}

fn told(name: &str, start: Instant) {
    println!("{name}: {PACKETS} packets in {} microseconds", start.elapsed().as_micros());
}

fn time_ring(name: &str, order: Ordering) {
    let ring = Ring::new(order);
    let start = Instant::now();
    let (mut put, mut got) = (0, 0);
    while got < PACKETS {
        put = ring.fill(put);
        got = ring.drain(got);
    }
    told(&format!("{name}, one thread"), start);

    let ring = Ring::new(order);
    let start = Instant::now();
    thread::scope(|scope| {
        scope.spawn(|| {
            let mut put = 0;
            while put < PACKETS {
                put = ring.fill(put);
                thread::yield_now();
            }
        });
        let mut got = 0;
        while got < PACKETS {
            got = ring.drain(got);
            thread::yield_now();
        }
    });
    told(&format!("{name}, two threads"), start);
}

fn time_channel() {
    let (tx, rx) = sync_channel(ROOM);
    let start = Instant::now();
    for number in 0..PACKETS {
        tx.send(numbered(number)).unwrap();
        assert_eq!(rx.recv().unwrap().seq, (number % 65_536) as u16);
    }
    told("std's sync_channel, one thread", start);

    let (tx, rx) = sync_channel(ROOM);
    let start = Instant::now();
    thread::scope(|scope| {
        scope.spawn(move || {
            for number in 0..PACKETS {
                tx.send(numbered(number)).unwrap();
            }
        });
        for number in 0..PACKETS {
            assert_eq!(rx.recv().unwrap().seq, (number % 65_536) as u16);
        }
    });
    told("std's sync_channel, two threads", start);
}

fn main() {
    println!("a packet has {} bytes", size_of::<Packet>());
    time_ring("plain ring, release", Ordering::Release);
    time_ring("plain ring, sequentially consistent", Ordering::SeqCst);
    time_channel();
}
