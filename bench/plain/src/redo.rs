//! Redo by worker threads: by shards of pages (the near limit) and by leases through a bounded hand-off
//! (the specification's shape: lend, take, up to `turn` changes, put again or give; one lock turn an event).

use crate::store::*;
use std::collections::VecDeque;
use std::sync::{Condvar, Mutex};

/// Each worker owns a range of pages; nothing is shared.
pub fn sharded(q: &mut Queues, frames: &mut [Page], workers: usize) -> usize {
    let per = frames.len().div_ceil(workers);
    let total = q.pending;
    std::thread::scope(|s| {
        for (w, (qs, fs)) in q.q.chunks_mut(per).zip(frames.chunks_mut(per)).enumerate() {
            s.spawn(move || {
                for (i, (q, f)) in qs.iter_mut().zip(fs).enumerate() {
                    let id = (w * per + i) as u32;
                    while !q.is_empty() {
                        let k = q.len().min(BATCH);
                        for c in q.drain(..k) {
                            f.redo(id, &c);
                        }
                    }
                }
            });
        }
    });
    q.pending = 0;
    q.bits.fill(0);
    total
}

pub struct Lease {
    page: u32,
    number: u64,
    working: Page,
    batch: Vec<Change>,
    done: usize,
}

pub struct Core {
    pub q: Queues,
    pub frames: Vec<Page>,
    lent: Vec<u64>,
    number: u64,
    out: usize,
    asleep: bool,
    from: u32,
    spare: Vec<Box<Lease>>,
}

impl Core {
    pub fn new(q: Queues, frames: Vec<Page>) -> Core {
        let n = frames.len();
        Core {
            q,
            frames,
            lent: vec![0; n],
            number: 0,
            out: 0,
            asleep: false,
            from: 0,
            spare: Vec::new(),
        }
    }

    fn lend(&mut self) -> Option<Box<Lease>> {
        let n = self.frames.len() as u32;
        let mut at = self.from;
        let mut wrapped = false;
        loop {
            match self.q.next(at) {
                Some(p) if self.lent[p as usize] == 0 => {
                    at = p;
                    break;
                }
                Some(p) if p + 1 < n => at = p + 1,
                _ if wrapped => return None,
                _ => {
                    wrapped = true;
                    at = 0;
                }
            }
            if wrapped && at >= self.from {
                return None;
            }
        }
        self.from = if at + 1 < n { at + 1 } else { 0 };
        let mut l = self.spare.pop().unwrap_or_else(|| {
            Box::new(Lease {
                page: 0,
                number: 0,
                working: Page::EMPTY,
                batch: Vec::with_capacity(BATCH),
                done: 0,
            })
        });
        self.number += 1;
        let p = at as usize;
        l.page = at;
        l.number = self.number;
        l.working = self.frames[p];
        l.done = 0;
        l.batch.clear();
        let q = &self.q.q[p];
        l.batch.extend(q.iter().take(BATCH));
        self.lent[p] = self.number;
        self.out += 1;
        Some(l)
    }

    fn give(&mut self, l: Box<Lease>) {
        let p = l.page as usize;
        assert_eq!(self.lent[p], l.number);
        self.lent[p] = 0;
        self.frames[p] = l.working;
        self.q.q[p].drain(..l.done);
        self.q.taken(l.page, l.done);
        self.out -= 1;
        self.spare.push(l);
    }
}

/// The queue and the number of takers that sleep: nobody is woken (a system call) where nobody sleeps.
struct HandOff {
    q: Mutex<(VecDeque<Option<Box<Lease>>>, usize)>,
    items: Condvar,
}

impl HandOff {
    fn put(&self, l: Option<Box<Lease>>) {
        let mut g = self.q.lock().unwrap();
        g.0.push_back(l);
        let wake = g.1 > 0;
        drop(g);
        if wake {
            self.items.notify_one();
        }
    }
    fn take(&self) -> Option<Box<Lease>> {
        // A short look-out before sleeping: a sleep and a wake cost more than most leases.
        for _ in 0..40 {
            if let Ok(mut g) = self.q.try_lock() {
                if let Some(l) = g.0.pop_front() {
                    return l;
                }
            }
            for _ in 0..30 {
                std::hint::spin_loop();
            }
        }
        let mut g = self.q.lock().unwrap();
        loop {
            if let Some(l) = g.0.pop_front() {
                return l;
            }
            g.1 += 1;
            g = self.items.wait(g).unwrap();
            g.1 -= 1;
        }
    }
}

/// Runs a dispatcher (this thread) and workers until nothing is pending. At most 32 leases are out, so
/// the hand-off (capacity 64) is never full. Answers the changes redone.
pub fn leased(core: &Mutex<Core>, workers: usize, turn: usize, mut more: impl FnMut(&mut Core) -> bool) -> usize {
    let h = HandOff {
        q: Mutex::new((VecDeque::with_capacity(64), 0)),
        items: Condvar::new(),
    };
    let given = Condvar::new();
    let mut total = 0;
    std::thread::scope(|s| {
        for _ in 0..workers {
            s.spawn(|| {
                while let Some(mut l) = h.take() {
                    let k = turn.min(l.batch.len() - l.done);
                    let id = l.page;
                    let from = l.done;
                    let Lease { working, batch, .. } = &mut *l;
                    for c in &batch[from..from + k] {
                        working.redo(id, c);
                    }
                    l.done += k;
                    if l.done == l.batch.len() {
                        let mut g = core.lock().unwrap();
                        g.give(l);
                        // The dispatcher sleeps until half of its leases are back.
                        let wake = g.asleep && (g.out == 0 || g.out == 16);
                        drop(g);
                        if wake {
                            given.notify_one();
                        }
                    } else {
                        h.put(Some(l));
                    }
                }
            });
        }
        let mut g = core.lock().unwrap();
        total += g.q.pending;
        loop {
            if g.out < 32 {
                if let Some(l) = g.lend() {
                    drop(g);
                    h.put(Some(l));
                    g = core.lock().unwrap();
                    continue;
                }
            }
            if g.q.pending == 0 {
                let before = g.q.pending;
                if !more(&mut g) {
                    break;
                }
                total += g.q.pending - before;
                continue;
            }
            g.asleep = true;
            g = given.wait(g).unwrap();
            g.asleep = false;
        }
        drop(g);
        for _ in 0..workers {
            h.put(None);
        }
    });
    total
}
