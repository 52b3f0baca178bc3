//! A split virtqueue in plain Rust, with the same words and sequentially consistent steps as `split_ring`, for
//! bench/ring.sh to compare with. It rests on no proof: its slots are cells that two threads reach.
//!
//! Words: a mode, the size of the ring, and the number of rounds, as of crates/ring_bench.
use std::cell::UnsafeCell;
use std::collections::VecDeque;
use std::sync::atomic::{AtomicU64, Ordering::SeqCst};

#[allow(dead_code)]
struct Buffer {
    number: u16,
    bytes: Box<Vec<u8>>,
}

struct Ring {
    words: Vec<AtomicU64>,
    slots: Vec<UnsafeCell<Option<Buffer>>>,
    size: usize,
}

unsafe impl Sync for Ring {}

/// Two halves never share a cache line, so that two threads don't wait for each other's counts.
#[repr(align(128))]
#[derive(Default)]
struct Half {
    written: u16,
    taken: u16,
    left: u16,
    looks: u64,
    saw: u64,
}

impl Ring {
    fn new(size: usize) -> (Ring, Vec<Buffer>) {
        let words = (0..7 * size + 4).map(|_| AtomicU64::new(0)).collect();
        let slots = (0..size).map(|_| UnsafeCell::new(None)).collect();
        let buffers = (0..size as u16)
            .map(|number| Buffer { number, bytes: Box::new(vec![0; 512]) })
            .collect();
        (Ring { words, slots, size }, buffers)
    }

    fn store(&self, word: usize, value: u64) {
        self.words[word].store(value, SeqCst);
    }

    fn load(&self, word: usize) -> u64 {
        self.words[word].load(SeqCst)
    }

    fn place(&self, count: u16) -> usize {
        count as usize & (self.size - 1)
    }

    fn offer(&self, driver: &mut Half, buffer: Buffer, len: u32) {
        let id = buffer.number as usize;
        self.store(4 * id + 1, len as u64);
        self.store(4 * self.size + 2 + self.place(driver.written), id as u64);
        unsafe { *self.slots[id].get() = Some(buffer) };
        driver.written = driver.written.wrapping_add(1);
        self.store(4 * self.size + 1, driver.written as u64);
    }

    fn look(&self, half: &mut Half, idx: usize) {
        half.left = (self.load(idx) as u16).wrapping_sub(half.taken);
        half.looks = half.looks.wrapping_add(1);
        half.saw = half.saw.wrapping_add(half.left as u64);
    }

    fn take(&self, half: &mut Half, id: usize, len: usize) -> (Buffer, u32) {
        let len = self.load(len) as u32;
        let buffer = unsafe { (*self.slots[id].get()).take() }.unwrap();
        half.taken = half.taken.wrapping_add(1);
        half.left -= 1;
        (buffer, len)
    }

    fn fetch(&self, device: &mut Half) -> Option<(Buffer, u32)> {
        if device.left == 0 {
            self.look(device, 4 * self.size + 1);
            if device.left == 0 {
                return None;
            }
        }
        let id = self.load(4 * self.size + 2 + self.place(device.taken)) as usize;
        Some(self.take(device, id, 4 * id + 1))
    }

    fn give(&self, device: &mut Half, buffer: Buffer, len: u32) {
        let id = buffer.number as usize;
        let place = self.place(device.written);
        self.store(5 * self.size + 4 + 2 * place, id as u64);
        self.store(5 * self.size + 5 + 2 * place, len as u64);
        unsafe { *self.slots[id].get() = Some(buffer) };
        device.written = device.written.wrapping_add(1);
        self.store(5 * self.size + 3, device.written as u64);
    }

    fn reclaim(&self, driver: &mut Half) -> Option<(Buffer, u32)> {
        if driver.left == 0 {
            self.look(driver, 5 * self.size + 3);
            if driver.left == 0 {
                return None;
            }
        }
        let place = self.place(driver.taken);
        let id = self.load(5 * self.size + 4 + 2 * place) as usize;
        Some(self.take(driver, id, 5 * self.size + 5 + 2 * place))
    }
}

/// The length of a buffer in a round, which differs from round to round.
fn length(round: u32, number: u16) -> u32 {
    round.wrapping_add(number as u32) % 64
}

fn one(ring: &Ring, driver: &mut Half, device: &mut Half, mut buffers: Vec<Buffer>, rounds: u32) {
    let mut hand = buffers.pop();
    for round in 0..rounds {
        let Some(buffer) = hand else { break };
        let len = length(round, buffer.number);
        ring.offer(driver, buffer, len);
        if let Some((buffer, len)) = ring.fetch(device) {
            ring.give(device, buffer, len);
        }
        hand = ring.reclaim(driver).map(|(buffer, _)| buffer);
    }
}

fn two(ring: &Ring, driver: &mut Half, device: &mut Half, buffers: Vec<Buffer>, rounds: u32) {
    std::thread::scope(|scope| {
        scope.spawn(|| {
            let mut done = 0;
            while done < rounds {
                if let Some((buffer, len)) = ring.fetch(device) {
                    ring.give(device, buffer, len);
                    done += 1;
                }
            }
        });
        for buffer in buffers {
            let len = length(0, buffer.number);
            ring.offer(driver, buffer, len);
        }
        let mut done = 0;
        while done < rounds {
            if let Some((buffer, _)) = ring.reclaim(driver) {
                done += 1;
                let len = length(done, buffer.number);
                ring.offer(driver, buffer, len);
            }
        }
    });
}

fn batch(ring: &Ring, driver: &mut Half, device: &mut Half, buffers: Vec<Buffer>, rounds: u32, reverse: bool) {
    let mut free: VecDeque<Buffer> = buffers.into();
    let mut held = VecDeque::with_capacity(ring.size);
    for round in 0..rounds {
        while let Some(buffer) = free.pop_front() {
            let len = length(round, buffer.number);
            ring.offer(driver, buffer, len);
        }
        while let Some((buffer, _)) = ring.fetch(device) {
            held.push_back(buffer);
        }
        while let Some(buffer) = if reverse { held.pop_back() } else { held.pop_front() } {
            let len = length(round, buffer.number);
            ring.give(device, buffer, len);
        }
        while let Some((buffer, _)) = ring.reclaim(driver) {
            free.push_back(buffer);
        }
    }
}

fn each(ring: &Ring, driver: &mut Half, device: &mut Half, buffers: Vec<Buffer>, rounds: u32) {
    let mut free: VecDeque<Buffer> = buffers.into();
    for round in 0..rounds {
        while let Some(buffer) = free.pop_front() {
            let len = length(round, buffer.number);
            ring.offer(driver, buffer, len);
        }
        while let Some((buffer, _)) = ring.fetch(device) {
            let len = length(round, buffer.number);
            ring.give(device, buffer, len);
        }
        while let Some((buffer, _)) = ring.reclaim(driver) {
            free.push_back(buffer);
        }
    }
}

fn main() {
    let words: Vec<String> = std::env::args().collect();
    let size = words[2].parse().unwrap();
    let rounds = words[3].parse().unwrap();
    let (ring, mut buffers) = Ring::new(size);
    let (mut driver, mut device) = (Half::default(), Half::default());
    match words[1].as_str() {
        "two" => two(&ring, &mut driver, &mut device, buffers, rounds),
        "ping" => {
            buffers.truncate(1);
            two(&ring, &mut driver, &mut device, buffers, rounds)
        }
        "order" => batch(&ring, &mut driver, &mut device, buffers, rounds, false),
        "each" => each(&ring, &mut driver, &mut device, buffers, rounds),
        "reverse" => batch(&ring, &mut driver, &mut device, buffers, rounds, true),
        _ => one(&ring, &mut driver, &mut device, buffers, rounds),
    }
    println!("{} {} {} written {}", words[1], size, rounds, driver.written);
}
