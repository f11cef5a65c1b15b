//! Committed values for readers. Two ways without `unsafe`: one map behind an RwLock, and two copies of
//! atomic words with an epoch per reader (the algorithm of `left_right`), whose readers never wait.

use crate::rec::{Img, ABSENT};
use std::sync::atomic::{fence, AtomicU64, AtomicUsize, Ordering::*};
use std::sync::RwLock;

pub struct Answer {
    pub value: Img,
    pub commits: u64,
    pub lsn: u64,
}

pub struct OneMap(pub RwLock<(Vec<Img>, u64, u64)>);

impl OneMap {
    pub fn new(keys: usize) -> Self {
        OneMap(RwLock::new((vec![ABSENT; keys], 0, 0)))
    }
    pub fn get(&self, k: usize) -> Answer {
        let g = self.0.read().unwrap();
        Answer {
            value: g.0[k],
            commits: g.1,
            lsn: g.2,
        }
    }
    pub fn publish(&self, writes: &[(u32, Img)], commits: u64, lsn: u64) {
        let mut g = self.0.write().unwrap();
        for (k, i) in writes {
            g.0[*k as usize] = *i;
        }
        g.1 = commits;
        g.2 = lsn;
    }
}

#[repr(align(128))]
pub struct Epoch(AtomicU64);

struct Copy {
    words: Vec<[AtomicU64; 4]>,
    commits: AtomicU64,
    lsn: AtomicU64,
}

pub struct TwoCopies {
    copies: [Copy; 2],
    active: AtomicUsize,
    epochs: Vec<Epoch>,
}

impl TwoCopies {
    pub fn new(keys: usize, readers: usize) -> Self {
        let copy = || Copy {
            words: (0..keys).map(|_| Default::default()).collect(),
            commits: AtomicU64::new(0),
            lsn: AtomicU64::new(0),
        };
        TwoCopies {
            copies: [copy(), copy()],
            active: AtomicUsize::new(0),
            epochs: (0..readers).map(|_| Epoch(AtomicU64::new(0))).collect(),
        }
    }

    #[inline]
    pub fn get(&self, reader: usize, k: usize) -> Answer {
        let e = &self.epochs[reader].0;
        let n = e.load(Relaxed);
        e.store(n + 1, SeqCst);
        fence(SeqCst);
        let c = &self.copies[self.active.load(SeqCst)];
        let mut value = ABSENT;
        for (i, w) in c.words[k].iter().enumerate() {
            value[8 * i..8 * i + 8].copy_from_slice(&w.load(Relaxed).to_ne_bytes());
        }
        let a = Answer {
            value,
            commits: c.commits.load(Relaxed),
            lsn: c.lsn.load(Relaxed),
        };
        e.store(n + 2, Release);
        a
    }

    fn apply(c: &Copy, writes: &[(u32, Img)], commits: u64, lsn: u64) {
        for (k, i) in writes {
            for (j, w) in c.words[*k as usize].iter().enumerate() {
                w.store(u64::from_ne_bytes(i[8 * j..8 * j + 8].try_into().unwrap()), Relaxed);
            }
        }
        c.commits.store(commits, Relaxed);
        c.lsn.store(lsn, Relaxed);
    }

    /// One publisher. Writes the idle copy, swaps, waits until no reader is in the old one, writes that too.
    pub fn publish(&self, writes: &[(u32, Img)], commits: u64, lsn: u64) {
        let a = self.active.load(Relaxed);
        Self::apply(&self.copies[1 - a], writes, commits, lsn);
        self.active.store(1 - a, SeqCst);
        fence(SeqCst);
        for e in &self.epochs {
            let n = e.0.load(SeqCst);
            if n & 1 == 1 {
                let mut spins = 0;
                while e.0.load(Acquire) == n {
                    spins += 1;
                    if spins > 200 {
                        std::thread::yield_now();
                    } else {
                        std::hint::spin_loop();
                    }
                }
            }
        }
        Self::apply(&self.copies[a], writes, commits, lsn);
    }
}
