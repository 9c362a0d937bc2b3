//! Seeded random numbers, networks and damaged files.
#![allow(dead_code)] // each test uses its part
use crate::model::{CAPACITY, Network};

pub struct Random(u64);

impl Random {
    pub fn new(seed: u64) -> Random {
        Random(seed.wrapping_mul(0x9e37_79b9_7f4a_7c15) ^ 0x1234_5678_9abc_def1)
    }

    pub fn next(&mut self) -> u64 {
        self.0 ^= self.0 << 13;
        self.0 ^= self.0 >> 7;
        self.0 ^= self.0 << 17;
        self.0.wrapping_mul(0x2545_f491_4f6c_dd1d) >> 11
    }

    pub fn below(&mut self, n: usize) -> usize {
        (self.next() % n as u64) as usize
    }

    pub fn chance(&mut self, percent: usize) -> bool {
        self.below(100) < percent
    }

    /// Small ones are common, so that ties, zeros and equal cuts are; of two, three and four groups there are as many,
    /// and the largest of each come too.
    pub fn capacity(&mut self) -> u32 {
        let top = [1 << 7, 1 << 14, 1 << 21, CAPACITY + 1][self.below(4)];
        match self.below(10) {
            0 => 0,
            1..=5 => self.below(6) as u32,
            6 => self.below(300) as u32,
            7 | 8 => self.below(top as usize) as u32,
            _ => top - 1 - self.below(3) as u32,
        }
    }

    pub fn network(&mut self, most_nodes: usize, most_links: usize) -> Network {
        let nodes = 1 + self.below(most_nodes);
        let count = if nodes == 1 { 0 } else { self.below(most_links + 1) };
        let links = (0..count)
            .map(|_| {
                let a = self.below(nodes);
                let b = (a + 1 + self.below(nodes - 1)) % nodes;
                (a, b, self.capacity())
            })
            .collect();
        Network { nodes, links }
    }

    /// A file with one to three faults, or none.
    pub fn damaged(&mut self, mut file: Vec<u8>) -> Vec<u8> {
        for _ in 0..self.below(4) {
            let at = self.below(file.len() + 1);
            match self.below(7) {
                0 => file.truncate(at),
                1 => file.insert(at, self.next() as u8),
                2 => file.push([0, 1, 127, 128, 255][self.below(5)]),
                3 if at < file.len() => file[at] = self.next() as u8,
                4 if at < file.len() => file[at] ^= 1 << self.below(8),
                5 if at < file.len() => file[at] = [0x80, 0x81, 0xff, 0x40, 0x41, 0][self.below(6)],
                6 if at < file.len() => {
                    file.remove(at);
                }
                _ => {}
            }
        }
        file
    }

    /// A few bytes, many of them of the kinds that numbers begin and end with.
    pub fn bytes(&mut self) -> Vec<u8> {
        let length = self.below(24);
        (0..length)
            .map(|_| match self.below(3) {
                0 => self.below(5) as u8,
                1 => [0x80, 0x81, 0xa4, 0xe8, 0x03, 0x04, 0x40, 0x41, 0][self.below(9)],
                _ => self.next() as u8,
            })
            .collect()
    }
}
