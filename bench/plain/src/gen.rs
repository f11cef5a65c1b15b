//! A valid primary's log: several open transactions, some roll back whole, some to a savepoint.

use crate::rec::*;

pub struct Rng(pub u64);

impl Rng {
    #[inline]
    pub fn next(&mut self) -> u64 {
        let mut x = self.0;
        x ^= x << 13;
        x ^= x >> 7;
        x ^= x << 17;
        self.0 = x;
        x.wrapping_mul(0x2545_F491_4F6C_DD1D)
    }
    #[inline]
    pub fn below(&mut self, n: u64) -> u64 {
        ((self.next() >> 32) * n) >> 32
    }
}

#[derive(Clone, Copy, PartialEq)]
pub enum Mix {
    /// values of 1 to 8 bytes
    Small,
    /// values of 31 bytes
    Full,
    /// half small, half 31, one in 16 absent
    Mixed,
}

#[derive(Clone, Copy)]
pub struct Plan {
    pub pages: u32,
    pub bytes: usize,
    pub mix: Mix,
    /// transactions open at a time
    pub open: usize,
    /// mean updates of a transaction
    pub updates: u64,
    /// one transaction in so many rolls back (0 none)
    pub rollback: u64,
    /// one update in so many is followed by a partial rollback (0 none)
    pub partial: u64,
    /// a checkpoint pair every so many bytes (0 none)
    pub ckpt: usize,
    /// leave the open transactions open at the end
    pub leave_open: bool,
    pub seed: u64,
}

#[derive(Default)]
pub struct Counts {
    pub records: usize,
    pub updates: usize,
    pub comps: usize,
    pub commits: usize,
    pub rollbacks: usize,
}

struct T {
    id: u32,
    last: u64,
    left: u64,
    rolling: bool,
    surv: Vec<(u64, u64, u32, Img)>,
}

pub fn generate(p: &Plan) -> (Vec<u8>, Counts) {
    let mut rng = Rng(p.seed | 1);
    let keys = (p.pages * SLOTS) as u64;
    let mut now = vec![ABSENT; keys as usize];
    let mut held = vec![0u32; keys as usize];
    let mut out = Vec::with_capacity(p.bytes + 200_000);
    let mut n = Counts::default();
    encode_header(&mut out, p.pages);
    let (mut id, mut open, mut pool): (u32, Vec<T>, Vec<Vec<_>>) = (0, Vec::new(), Vec::new());
    let mut next_ckpt = if p.ckpt == 0 { usize::MAX } else { p.ckpt };
    let comp = |out: &mut Vec<u8>, t: &mut T, now: &mut Vec<Img>, held: &mut Vec<u32>| {
        let (_, prev, key, before) = t.surv.pop().unwrap();
        let lsn = out.len() as u64;
        encode_comp(out, lsn, t.last, t.id, prev, key, &before);
        t.last = lsn;
        now[key as usize] = before;
        if !t.surv.iter().rev().any(|s| s.2 == key) {
            held[key as usize] = 0;
        }
    };
    loop {
        let closing = out.len() >= p.bytes;
        if closing && (p.leave_open || open.is_empty()) {
            break;
        }
        if out.len() >= next_ckpt {
            let b = out.len() as u64;
            encode_plain(&mut out, BEGIN_CKPT, b, 0, 0);
            let e = out.len() as u64;
            encode_end_ckpt(&mut out, e, b, open.len() as u16, p.pages.min(64) as u16);
            n.records += 2;
            next_ckpt += p.ckpt;
        }
        if !closing && open.len() < p.open {
            let left = 1 + rng.below(2 * p.updates);
            // The TransID is given at the first record, so that first records rise (cause 9).
            open.push(T {
                id: 0,
                last: 0,
                left,
                rolling: false,
                surv: pool.pop().unwrap_or_default(),
            });
        }
        let i = rng.below(open.len() as u64) as usize;
        let t = &mut open[i];
        if t.rolling {
            if t.surv.is_empty() {
                let lsn = out.len() as u64;
                encode_plain(&mut out, END, lsn, t.last, t.id);
                n.records += 1;
                pool.push(open.swap_remove(i).surv);
            } else {
                comp(&mut out, t, &mut now, &mut held);
                n.comps += 1;
                n.records += 1;
            }
            continue;
        }
        if t.left == 0 || closing {
            let lsn = out.len() as u64;
            if t.id == 0 {
                id += 1;
                t.id = id;
            }
            if p.rollback != 0 && rng.below(p.rollback) == 0 {
                encode_plain(&mut out, ROLLBACK, lsn, t.last, t.id);
                t.last = lsn;
                t.rolling = true;
                n.rollbacks += 1;
                n.records += 1;
            } else {
                encode_plain(&mut out, COMMIT, lsn, t.last, t.id);
                let e = out.len() as u64;
                encode_plain(&mut out, END, e, lsn, t.id);
                n.commits += 1;
                n.records += 2;
                for s in t.surv.drain(..) {
                    held[s.2 as usize] = 0;
                }
                pool.push(open.swap_remove(i).surv);
            }
            continue;
        }
        t.left -= 1;
        let Some(key) = (0..50).map(|_| rng.below(keys) as u32).find(|k| {
            let h = held[*k as usize];
            h == 0 || h == t.id
        }) else {
            continue;
        };
        if t.id == 0 {
            id += 1;
            t.id = id;
        }
        let mut after = ABSENT;
        let full = p.mix == Mix::Full || (p.mix == Mix::Mixed && rng.next() & 1 == 0);
        let len = if full { 31 } else { 1 + rng.below(8) as usize };
        if !(p.mix == Mix::Mixed && rng.below(16) == 0) {
            after[0] = len as u8 + 1;
            for b in &mut after[1..1 + len] {
                *b = (rng.next() >> 40) as u8;
            }
        }
        let lsn = out.len() as u64;
        let before = now[key as usize];
        encode_update(&mut out, lsn, t.last, t.id, key, &before, &after);
        t.surv.push((lsn, t.last, key, before));
        t.last = lsn;
        now[key as usize] = after;
        held[key as usize] = t.id;
        n.updates += 1;
        n.records += 1;
        if p.partial != 0 && rng.below(p.partial) == 0 {
            for _ in 0..=rng.below(2) {
                if !t.surv.is_empty() {
                    comp(&mut out, t, &mut now, &mut held);
                    n.comps += 1;
                    n.records += 1;
                }
            }
        }
    }
    (out, n)
}
