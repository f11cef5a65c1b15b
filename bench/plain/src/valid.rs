//! The causes 8 to 16 for which a record may not follow, by tables that grow with the log, the transaction table and the tail's length.
//! Every check is O(1): tables are indexed by key, transactions sit in 256 reused rows behind a small
//! open-addressing map, survivor stacks keep their capacity when a row is reused.

use crate::rec::*;

pub const ACTIVE: u8 = 1;
pub const COMMITTED: u8 = 2;
pub const ROLLING: u8 = 3;
const NONE: u16 = u16::MAX;

#[derive(Clone, Copy)]
pub struct Surv {
    pub lsn: u64,
    pub prev: u64,
    pub key: u32,
    pub before: Img,
    pub after: Img,
}

pub struct Trans {
    pub id: u32,
    pub state: u8,
    pub last: u64,
    pub undo_next: u64,
    pub tail: u64,
    pub surv: Vec<Surv>,
}

/// TransID -> row, linear probing with backward shift; at most 256 of 1024 places are used.
struct IdMap {
    ids: [u32; 1024],
    rows: [u16; 1024],
}

impl IdMap {
    fn new() -> Self {
        IdMap {
            ids: [0; 1024],
            rows: [NONE; 1024],
        }
    }
    #[inline(always)]
    fn home(id: u32) -> usize {
        (id.wrapping_mul(0x9E37_79B1) >> 22) as usize
    }
    #[inline(always)]
    fn get(&self, id: u32) -> u16 {
        let mut i = Self::home(id);
        loop {
            if self.rows[i] == NONE || self.ids[i] == id {
                return self.rows[i];
            }
            i = (i + 1) & 1023;
        }
    }
    fn put(&mut self, id: u32, row: u16) {
        let mut i = Self::home(id);
        while self.rows[i] != NONE {
            i = (i + 1) & 1023;
        }
        self.ids[i] = id;
        self.rows[i] = row;
    }
    fn del(&mut self, id: u32) {
        let mut i = Self::home(id);
        while self.ids[i] != id || self.rows[i] == NONE {
            i = (i + 1) & 1023;
        }
        let mut j = i;
        loop {
            j = (j + 1) & 1023;
            if self.rows[j] == NONE {
                break;
            }
            let h = Self::home(self.ids[j]);
            if (j.wrapping_sub(h) & 1023) >= (j.wrapping_sub(i) & 1023) {
                self.ids[i] = self.ids[j];
                self.rows[i] = self.rows[j];
                i = j;
            }
        }
        self.rows[i] = NONE;
    }
}

/// What `check` found and `admit` uses again.
#[derive(Clone, Copy)]
pub struct Plan {
    row: u16,
    pub reserve: u64,
}

pub struct Validator {
    pub now: Vec<Img>,
    /// (TransID, surviving updates there) of the last transaction that held the key.
    /// A commit does not walk its keys: a stale holder is seen by its row being gone or committed.
    holder: Vec<(u32, u32)>,
    map: IdMap,
    pub rows: Vec<Trans>,
    free: Vec<u16>,
    pub unended: u32,
    pub max_trans: u32,
    pub last_begin: u64,
    pub reserve: u64,
    pub commits: u64,
    pub last_commit: u64,
    /// The view's queue, flat: writes of all commits, and per commit (trans, lsn, end of its writes).
    pub writes: Vec<(u32, Img)>,
    pub queue: Vec<(u32, u64, usize)>,
    pub keep_commits: bool,
}

impl Validator {
    pub fn new(pages: u32) -> Self {
        let keys = (pages * SLOTS) as usize;
        let mut rows = Vec::with_capacity(256);
        for _ in 0..256 {
            rows.push(Trans {
                id: 0,
                state: 0,
                last: 0,
                undo_next: 0,
                tail: 0,
                surv: Vec::new(),
            });
        }
        Validator {
            now: vec![ABSENT; keys],
            holder: vec![(0, 0); keys],
            map: IdMap::new(),
            rows,
            free: (0..256).rev().collect(),
            unended: 0,
            max_trans: 0,
            last_begin: 0,
            reserve: 0,
            commits: 0,
            last_commit: 0,
            writes: Vec::new(),
            queue: Vec::new(),
            keep_commits: true,
        }
    }

    /// The first cause in number order, or what admit needs.
    #[inline]
    pub fn check(&self, r: &Rec) -> Result<Plan, Fault> {
        if r.typ > END {
            let bad = r.trans != 0
                || if r.typ == BEGIN_CKPT {
                    r.prev != 0
                } else {
                    self.last_begin == 0 || r.prev != self.last_begin
                };
            return if bad {
                Err(Fault(16, 0))
            } else {
                Ok(Plan {
                    row: NONE,
                    reserve: self.reserve,
                })
            };
        }
        let row = self.map.get(r.trans);
        if row == NONE {
            // A first record: no state, no survivor, so 10 and 11 have no cause and 12 stands for every compensation.
            if r.prev != 0 {
                return Err(Fault(8, 0));
            }
            if r.trans <= self.max_trans {
                return Err(Fault(9, 0));
            }
            let mut reserve = self.reserve + 28;
            match r.typ {
                COMP => return Err(Fault(12, 0)),
                UPDATE => {
                    self.free_key(r)?;
                    reserve += 42 + r.before.bytes.len() as u64;
                }
                END => {
                    return Ok(Plan {
                        row,
                        reserve: self.reserve,
                    })
                }
                _ => {}
            }
            if self.unended >= 256 {
                return Err(Fault(15, 0));
            }
            return Ok(Plan { row, reserve });
        }
        let t = &self.rows[row as usize];
        if r.prev != t.last {
            return Err(Fault(8, 0));
        }
        let wrong = match t.state {
            COMMITTED => r.typ != END,
            ROLLING => matches!(r.typ, UPDATE | COMMIT | ROLLBACK),
            _ => false,
        } || (r.typ == END && t.state != COMMITTED && !t.surv.is_empty());
        if wrong {
            return Err(Fault(10, 0));
        }
        let mut reserve = self.reserve;
        match r.typ {
            UPDATE => {
                self.free_key(r)?;
                reserve += 42 + r.before.bytes.len() as u64;
            }
            COMP => {
                let Some(s) = t.surv.last() else {
                    return Err(Fault(12, 0));
                };
                if r.next != s.prev {
                    return Err(Fault(11, 0));
                }
                if r.key != s.key || !r.after.is(&s.before) {
                    return Err(Fault(12, 0));
                }
                reserve -= 42 + img_len(&s.before) as u64;
            }
            COMMIT => reserve -= t.tail,
            END => reserve -= 28,
            _ => {}
        }
        Ok(Plan { row, reserve })
    }

    #[inline(always)]
    fn free_key(&self, r: &Rec) -> Result<(), Fault> {
        let (by, count) = self.holder[r.key as usize];
        if by != r.trans && count > 0 {
            let row = self.map.get(by);
            if row != NONE && self.rows[row as usize].state != COMMITTED {
                return Err(Fault(13, by));
            }
        }
        if !r.before.is(&self.now[r.key as usize]) {
            return Err(Fault(14, 0));
        }
        Ok(())
    }

    /// Takes in a checked record; answers the row (NONE for checkpoint records and a first `end`).
    #[inline]
    pub fn admit(&mut self, r: &Rec, p: Plan) {
        self.reserve = p.reserve;
        if r.typ > END {
            self.last_begin = if r.typ == BEGIN_CKPT { r.lsn } else { 0 };
            return;
        }
        let mut row = p.row;
        if row == NONE {
            self.max_trans = r.trans;
            if r.typ == END {
                return;
            }
            row = self.free.pop().unwrap();
            self.map.put(r.trans, row);
            self.unended += 1;
            let t = &mut self.rows[row as usize];
            t.id = r.trans;
            t.state = ACTIVE;
            t.undo_next = 0;
            t.tail = 0;
            t.surv.clear();
        }
        let t = &mut self.rows[row as usize];
        t.last = r.lsn;
        match r.typ {
            UPDATE => {
                t.undo_next = r.lsn;
                t.tail += 42 + r.before.bytes.len() as u64;
                let now = &mut self.now[r.key as usize];
                let after = r.after.img();
                t.surv.push(Surv {
                    lsn: r.lsn,
                    prev: r.prev,
                    key: r.key,
                    before: *now,
                    after,
                });
                *now = after;
                let h = &mut self.holder[r.key as usize];
                *h = if h.0 == r.trans { (h.0, h.1 + 1) } else { (r.trans, 1) };
            }
            COMP => {
                t.undo_next = r.next;
                let s = t.surv.pop().unwrap();
                t.tail -= 42 + img_len(&s.before) as u64;
                self.now[r.key as usize] = s.before;
                self.holder[r.key as usize].1 -= 1;
            }
            COMMIT => {
                t.state = COMMITTED;
                self.commits += 1;
                self.last_commit = r.lsn;
                if self.keep_commits {
                    self.writes.extend(t.surv.iter().map(|s| (s.key, s.after)));
                    self.queue.push((r.trans, r.lsn, self.writes.len()));
                }
                t.surv.clear();
            }
            ROLLBACK => t.state = ROLLING,
            _ => {
                self.map.del(r.trans);
                self.free.push(row);
                self.rows[row as usize].state = 0;
                self.unended -= 1;
            }
        }
    }

    /// Rows of the table in rising TransID: (id, state, last, undo_next).
    pub fn table(&self) -> Vec<(u32, u8, u64, u64)> {
        let mut v: Vec<_> = self
            .rows
            .iter()
            .filter(|t| t.state != 0)
            .map(|t| (t.id, t.state, t.last, t.undo_next))
            .collect();
        v.sort_unstable();
        v
    }
}
