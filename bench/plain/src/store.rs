//! Devices, page blocks, page queues, dirty table, control block and checkpoints, and the engine that joins them.

use crate::rec::*;
use crate::valid::*;
use std::collections::{BinaryHeap, VecDeque};
use std::fs::{File, OpenOptions};
use std::io;
use std::os::unix::fs::FileExt;
use std::path::Path;
use std::time::Instant;

pub const BLOCK: usize = 512;
pub const BATCH: usize = 64;

#[derive(Clone, Copy)]
pub struct Change {
    pub lsn: u64,
    pub slot: u8,
    pub after: Img,
}

/// A page kept as its block: redo is one 32-byte copy and one LSN, a flush writes it as it is.
#[derive(Clone, Copy)]
#[repr(align(64))]
pub struct Page(pub [u8; BLOCK]);

impl Page {
    pub const EMPTY: Page = Page([0; BLOCK]);
    #[inline(always)]
    pub fn lsn(&self) -> u64 {
        u64_at(&self.0, 0)
    }
    #[inline(always)]
    pub fn slot(&self, s: usize) -> &Img {
        self.0[32 + 32 * s..64 + 32 * s].try_into().unwrap()
    }
    #[inline(always)]
    pub fn redo(&mut self, id: u32, c: &Change) {
        self.0[..8].copy_from_slice(&c.lsn.to_be_bytes());
        self.0[8..12].copy_from_slice(&id.to_be_bytes());
        self.0[13] = 1;
        let s = c.slot as usize;
        self.0[32 + 32 * s..64 + 32 * s].copy_from_slice(&c.after);
    }
    /// Whether a block that was read is the page's (33 where it is not).
    pub fn check(&self, id: u32) -> bool {
        let b = &self.0;
        if b.iter().all(|x| *x == 0) {
            return true;
        }
        if self.lsn() < 16 || u32_at(b, 8) != id || u16_at(b, 12) != 1 || b[14..32].iter().any(|x| *x != 0) {
            return false;
        }
        (0..15).all(|s| {
            let i = self.slot(s);
            i[0] <= 32 && i[1 + img_len(i)..].iter().all(|x| *x == 0)
        })
    }
}

/// Pending changes by page, and a bitmap of the pages that have some: the next pending page is found in O(1).
pub struct Queues {
    pub q: Vec<VecDeque<Change>>,
    pub bits: Vec<u64>,
    pub pending: usize,
}

impl Queues {
    pub fn new(pages: u32) -> Self {
        Queues {
            q: (0..pages).map(|_| VecDeque::new()).collect(),
            bits: vec![0; (pages as usize).div_ceil(64)],
            pending: 0,
        }
    }
    #[inline(always)]
    pub fn push(&mut self, page: u32, c: Change) {
        self.q[page as usize].push_back(c);
        self.bits[page as usize / 64] |= 1 << (page % 64);
        self.pending += 1;
    }
    pub fn next(&self, from: u32) -> Option<u32> {
        let mut w = from as usize / 64;
        let mut m = u64::MAX << (from % 64);
        while w < self.bits.len() {
            let x = self.bits[w] & m;
            if x != 0 {
                return Some((w * 64) as u32 + x.trailing_zeros());
            }
            w += 1;
            m = u64::MAX;
        }
        None
    }
    #[inline]
    pub fn taken(&mut self, page: u32, n: usize) {
        self.pending -= n;
        if self.q[page as usize].is_empty() {
            self.bits[page as usize / 64] &= !(1 << (page % 64));
        }
    }
}

/// Dirty page table. RecLSN moves at the sync and not at the write.
pub struct Dirty {
    pub rec: Vec<u64>,
    next: Vec<u64>,
    wrote: Vec<u32>,
    in_flight: Vec<bool>,
}

impl Dirty {
    pub fn new(pages: u32) -> Self {
        let n = pages as usize;
        Dirty {
            rec: vec![0; n],
            next: vec![0; n],
            wrote: Vec::new(),
            in_flight: vec![false; n],
        }
    }
    #[inline(always)]
    pub fn routed(&mut self, page: u32, lsn: u64) {
        let p = page as usize;
        if self.rec[p] == 0 {
            self.rec[p] = lsn;
        }
        if self.in_flight[p] && self.next[p] == 0 {
            self.next[p] = lsn;
        }
    }
    pub fn written(&mut self, page: u32, next: u64) {
        let p = page as usize;
        self.next[p] = next;
        if !self.in_flight[p] {
            self.in_flight[p] = true;
            self.wrote.push(page);
        }
    }
    pub fn synced(&mut self) {
        for p in self.wrote.drain(..) {
            self.rec[p as usize] = self.next[p as usize];
            self.in_flight[p as usize] = false;
        }
    }
}

pub struct Dev {
    pub f: File,
    pub sync: bool,
}

impl Dev {
    pub fn open(path: &Path, blocks: u64, fresh: bool, sync: bool) -> io::Result<Dev> {
        let f = OpenOptions::new()
            .read(true)
            .write(true)
            .create(fresh)
            .truncate(fresh)
            .open(path)?;
        if fresh {
            // Real zeros, so that a later fdatasync has no extents to settle.
            let z = vec![0u8; 1 << 20];
            let (mut o, n) = (0, blocks * BLOCK as u64);
            while o < n {
                let k = z.len().min((n - o) as usize);
                f.write_all_at(&z[..k], o)?;
                o += k as u64;
            }
            f.sync_all()?;
        }
        Ok(Dev { f, sync })
    }
    #[inline]
    pub fn write(&self, b: &[u8], at: u64) -> io::Result<()> {
        self.f.write_all_at(b, at)
    }
    pub fn flush(&self) -> io::Result<()> {
        if self.sync {
            self.f.sync_data()
        } else {
            Ok(())
        }
    }
}

#[derive(Default, Clone, Copy)]
pub struct Split {
    pub feed: f64,
    pub log_write: f64,
    pub log_sync: f64,
    pub mark_write: f64,
    pub ctl_sync: f64,
    pub redo: f64,
    pub flush: f64,
    pub page_sync: f64,
    pub ckpt: f64,
    pub publish: f64,
}

pub struct Config {
    pub pages: u32,
    pub log_blocks: u64,
    pub sync: bool,
    /// true: one 512-byte write per block (the specification's event); false: one write per run of blocks.
    pub by_block: bool,
}

pub struct Engine {
    pub pages: u32,
    pub log_blocks: u64,
    by_block: bool,
    log: Dev,
    ctl: Dev,
    pag: Dev,
    /// Log bytes from `base` (a block boundary) on: the unwritten ones and the partial record.
    tail: Vec<u8>,
    base: u64,
    pub end: u64,
    written: u64,
    synced: u64,
    pub ack: u64,
    mark: u64,
    phase: u8,
    seal: u64,
    region: u8,
    position: u64,
    pub val: Validator,
    pub q: Queues,
    pub dirty: Dirty,
    pub frames: Vec<Page>,
    img_lsn: Vec<u64>,
    resident: Vec<bool>,
    published: usize,
    pub view: Vec<Img>,
    pub split: Split,
    pub refusing: Option<Fault>,
}

/// Decodes and admits every whole record of `buf` from `pos` on; `end` is the LSN there.
#[inline(always)]
pub fn intake(
    buf: &[u8],
    pos: &mut usize,
    end: &mut u64,
    pages: u32,
    room: u64,
    val: &mut Validator,
    mut sink: impl FnMut(&Rec),
) -> Result<usize, Fault> {
    let mut n = 0;
    loop {
        let r = match decode(&buf[*pos..], *end, pages) {
            Ok(Some(r)) => r,
            Ok(None) => return Ok(n),
            Err(f) => return Err(Fault(f, 0)),
        };
        let p = val.check(&r)?;
        if *end + r.len as u64 + p.reserve > room {
            return Err(Fault(29, 0));
        }
        val.admit(&r, p);
        sink(&r);
        *pos += r.len;
        *end += r.len as u64;
        n += 1;
    }
}

#[inline]
fn lap(t: &mut Instant, to: &mut f64) {
    let n = Instant::now();
    *to += (n - *t).as_secs_f64();
    *t = n;
}

impl Engine {
    fn devices(dir: &Path, c: &Config, fresh: bool) -> io::Result<[Dev; 3]> {
        Ok([
            Dev::open(&dir.join("log.blk"), c.log_blocks, fresh, c.sync)?,
            Dev::open(&dir.join("control.blk"), 321, fresh, c.sync)?,
            Dev::open(&dir.join("pages.blk"), c.pages as u64, fresh, c.sync)?,
        ])
    }

    fn empty(c: &Config, [log, ctl, pag]: [Dev; 3]) -> Engine {
        let n = c.pages as usize;
        Engine {
            pages: c.pages,
            log_blocks: c.log_blocks,
            by_block: c.by_block,
            log,
            ctl,
            pag,
            tail: Vec::with_capacity(1 << 20),
            base: 0,
            end: 16,
            written: 16,
            synced: 16,
            ack: 16,
            mark: 16,
            phase: 1,
            seal: 0,
            region: 0,
            position: 0,
            val: Validator::new(c.pages),
            q: Queues::new(c.pages),
            dirty: Dirty::new(c.pages),
            frames: vec![Page::EMPTY; n],
            img_lsn: vec![0; n],
            resident: vec![true; n],
            published: 0,
            view: vec![ABSENT; n * SLOTS as usize],
            split: Split::default(),
            refusing: None,
        }
    }

    pub fn format(dir: &Path, c: &Config) -> io::Result<Engine> {
        let mut e = Engine::empty(c, Engine::devices(dir, c, true)?);
        encode_header(&mut e.tail, c.pages);
        e.log.write(&e.tail, 0)?;
        e.log.flush()?;
        e.control()?;
        e.ctl.flush()?;
        Ok(e)
    }

    fn control(&mut self) -> io::Result<()> {
        let mut b = [0u8; BLOCK];
        b[..8].copy_from_slice(b"ALSCTL01");
        b[9] = 1;
        b[10] = self.phase;
        b[11] = self.region;
        b[12..16].copy_from_slice(&self.pages.to_be_bytes());
        b[16..24].copy_from_slice(&self.mark.to_be_bytes());
        b[24..32].copy_from_slice(&self.position.to_be_bytes());
        b[32..40].copy_from_slice(&self.seal.to_be_bytes());
        self.ctl.write(&b, 0)
    }

    /// feed: every whole record is decoded where it lies, checked, taken into the tables and routed.
    /// Answers the records admitted.
    pub fn feed(&mut self, piece: &[u8]) -> Result<usize, Fault> {
        if let Some(f) = self.refusing {
            return Err(f);
        }
        self.tail.extend_from_slice(piece);
        let mut pos = (self.end - self.base) as usize;
        let room = self.log_blocks * BLOCK as u64;
        let (q, dirty) = (&mut self.q, &mut self.dirty);
        let r = intake(
            &self.tail,
            &mut pos,
            &mut self.end,
            self.pages,
            room,
            &mut self.val,
            |r| {
                if r.typ <= COMP {
                    let page = r.key / SLOTS;
                    q.push(
                        page,
                        Change {
                            lsn: r.lsn,
                            slot: (r.key % SLOTS) as u8,
                            after: r.after.img(),
                        },
                    );
                    dirty.routed(page, r.lsn);
                }
            },
        );
        if let Err(f) = r {
            self.tail.truncate(pos);
            if f.0 != 29 {
                self.refusing = Some(f);
            }
        }
        r
    }

    /// log-write until nothing is unwritten, log-sync, mark-write, ctl-sync. Answers the acknowledged LSN.
    pub fn force(&mut self) -> io::Result<u64> {
        let mut t = Instant::now();
        if self.written < self.end {
            let from = (self.written - self.base) as usize / BLOCK * BLOCK;
            let to = (self.end - self.base) as usize;
            let whole = to / BLOCK * BLOCK;
            if self.by_block {
                for o in (from..whole).step_by(BLOCK) {
                    self.log.write(&self.tail[o..o + BLOCK], self.base + o as u64)?;
                }
            } else if from < whole {
                self.log.write(&self.tail[from..whole], self.base + from as u64)?;
            }
            if whole < to {
                let mut b = [0u8; BLOCK];
                b[..to - whole].copy_from_slice(&self.tail[whole..to]);
                self.log.write(&b, self.base + whole as u64)?;
            }
            self.written = self.end;
            self.tail.drain(..whole);
            self.base += whole as u64;
        }
        lap(&mut t, &mut self.split.log_write);
        self.log.flush()?;
        self.synced = self.written;
        lap(&mut t, &mut self.split.log_sync);
        if self.synced > self.mark {
            self.mark = self.synced;
            self.control()?;
        }
        lap(&mut t, &mut self.split.mark_write);
        self.ctl.flush()?;
        self.ack = self.mark;
        lap(&mut t, &mut self.split.ctl_sync);
        Ok(self.ack)
    }

    /// Redo of all that is pending, in batches of at most 64, by this thread. Answers (changes, batches).
    pub fn drain(&mut self) -> io::Result<(usize, usize)> {
        let mut t = Instant::now();
        let (mut n, mut batches) = (0, 0);
        while self.q.pending > 0 {
            let mut from = 0;
            while let Some(p) = self.q.next(from) {
                self.load(p)?;
                let q = &mut self.q.q[p as usize];
                let k = q.len().min(BATCH);
                let page = &mut self.frames[p as usize];
                for c in q.drain(..k) {
                    page.redo(p, &c);
                }
                self.q.taken(p, k);
                n += k;
                batches += 1;
                from = p + 1;
            }
        }
        lap(&mut t, &mut self.split.redo);
        Ok((n, batches))
    }

    /// The page read on its first use after `open`; what it holds already leaves pending.
    fn load(&mut self, p: u32) -> io::Result<()> {
        let i = p as usize;
        if self.resident[i] {
            return Ok(());
        }
        let mut page = Page::EMPTY;
        self.pag.f.read_exact_at(&mut page.0, p as u64 * BLOCK as u64)?;
        if !page.check(p) || page.lsn() >= self.end.max(17) {
            return Err(io::Error::other("33 BadPage"));
        }
        let lsn = page.lsn();
        self.img_lsn[i] = lsn;
        self.frames[i] = page;
        self.resident[i] = true;
        let q = &mut self.q.q[i];
        let mut k = 0;
        while q.front().is_some_and(|c| c.lsn <= lsn) {
            q.pop_front();
            k += 1;
        }
        self.dirty.rec[i] = q.front().map_or(0, |c| c.lsn);
        self.q.taken(p, k);
        Ok(())
    }

    /// flush of each page that may be written, then sync_pages. Answers the pages written.
    pub fn flush(&mut self) -> io::Result<usize> {
        let mut t = Instant::now();
        let mut n = 0;
        let (mut run, mut first) = (Vec::with_capacity(128 * BLOCK), 0);
        for p in 0..self.pages as usize {
            let lsn = self.frames[p].lsn();
            if self.resident[p] && lsn != self.img_lsn[p] && lsn < self.ack {
                if self.by_block {
                    self.pag.write(&self.frames[p].0, (p * BLOCK) as u64)?;
                } else {
                    // Neighbours go out in one write of at most 64 KiB.
                    if !run.is_empty() && (p != first + run.len() / BLOCK || run.len() == 128 * BLOCK) {
                        self.pag.write(&run, (first * BLOCK) as u64)?;
                        run.clear();
                    }
                    if run.is_empty() {
                        first = p;
                    }
                    run.extend_from_slice(&self.frames[p].0);
                }
                self.img_lsn[p] = lsn;
                self.dirty.written(p as u32, self.q.q[p].front().map_or(0, |c| c.lsn));
                n += 1;
            }
        }
        if !run.is_empty() {
            self.pag.write(&run, (first * BLOCK) as u64)?;
        }
        lap(&mut t, &mut self.split.flush);
        self.pag.flush()?;
        self.dirty.synced();
        lap(&mut t, &mut self.split.page_sync);
        Ok(n)
    }

    /// A whole checkpoint: begin, blocks, sync, publish, sync.
    pub fn checkpoint(&mut self) -> io::Result<()> {
        let mut t = Instant::now();
        if self.ack < self.end {
            self.force()?;
            t = Instant::now();
        }
        let mut b = Vec::with_capacity(BLOCK * 107);
        b.extend_from_slice(&self.end.to_be_bytes());
        b.extend_from_slice(&self.val.max_trans.to_be_bytes());
        b.extend_from_slice(&self.val.last_begin.to_be_bytes());
        b.extend_from_slice(&self.val.commits.to_be_bytes());
        b.extend_from_slice(&self.val.last_commit.to_be_bytes());
        let rows = self.val.table();
        let dirty: Vec<_> = self.dirty.rec.iter().enumerate().filter(|(_, r)| **r != 0).collect();
        b.extend_from_slice(&(rows.len() as u16).to_be_bytes());
        b.extend_from_slice(&(dirty.len() as u16).to_be_bytes());
        for (id, state, last, undo) in rows {
            b.extend_from_slice(&id.to_be_bytes());
            b.push(state);
            b.extend_from_slice(&last.to_be_bytes());
            b.extend_from_slice(&undo.to_be_bytes());
        }
        for (p, r) in dirty {
            b.extend_from_slice(&(p as u32).to_be_bytes());
            b.extend_from_slice(&r.to_be_bytes());
        }
        b.resize(b.len().div_ceil(BLOCK) * BLOCK, 0);
        let region = if self.region == 1 { 2 } else { 1 };
        let first = if region == 1 { 1 } else { 161 };
        for (i, c) in b.chunks(BLOCK).enumerate() {
            self.ctl.write(c, ((first + i) * BLOCK) as u64)?;
        }
        self.ctl.flush()?;
        self.region = region;
        self.position = self.end;
        self.control()?;
        self.ctl.flush()?;
        lap(&mut t, &mut self.split.ckpt);
        Ok(())
    }

    /// publish_view: all commits that end at or below the acknowledged LSN.
    pub fn publish(&mut self) -> usize {
        let mut t = Instant::now();
        let v = &mut self.val;
        let from = if self.published == 0 {
            0
        } else {
            v.queue[self.published - 1].2
        };
        let n = v.queue.partition_point(|c| c.1 + 28 <= self.ack);
        if n > self.published {
            for (k, i) in &v.writes[from..v.queue[n - 1].2] {
                self.view[*k as usize] = *i;
            }
        }
        let did = n - self.published;
        self.published = n;
        lap(&mut t, &mut self.split.publish);
        did
    }

    /// open: control block, checkpoint, log up to the mark through the validator; pending from each page's row on.
    pub fn open(dir: &Path, c: &Config, use_ckpt: bool) -> io::Result<Engine> {
        let bad = |s: &str| io::Error::other(s.to_string());
        let devs = Engine::devices(dir, c, false)?;
        for d in &devs {
            d.flush()?;
        }
        let mut e = Engine::empty(c, devs);
        let mut b = [0u8; BLOCK];
        e.ctl.f.read_exact_at(&mut b, 0)?;
        if &b[..8] != b"ALSCTL01" || u32_at(&b, 12) != c.pages || b[40..].iter().any(|x| *x != 0) {
            return Err(bad("34 BadControl"));
        }
        e.phase = b[10];
        e.mark = u64_at(&b, 16);
        if use_ckpt {
            e.region = b[11];
            e.position = u64_at(&b, 24);
        }
        e.seal = u64_at(&b, 32);
        let mut head = [0u8; 40];
        let mut rows = Vec::new();
        let mut rec = vec![0u64; c.pages as usize];
        if e.region != 0 {
            let at = if e.region == 1 { 1 } else { 161 } * BLOCK as u64;
            e.ctl.f.read_exact_at(&mut head, at)?;
            let (n, m) = (u16_at(&head, 36) as usize, u16_at(&head, 38) as usize);
            if u64_at(&head, 0) != e.position || n > 256 || m > 4096 {
                return Err(bad("34 BadControl"));
            }
            let mut body = vec![0u8; 21 * n + 12 * m];
            e.ctl.f.read_exact_at(&mut body, at + 40)?;
            for r in body[..21 * n].chunks(21) {
                rows.push((u32_at(r, 0), r[4], u64_at(r, 5), u64_at(r, 13)));
            }
            for r in body[21 * n..].chunks(12) {
                rec[u32_at(r, 0) as usize] = u64_at(r, 4);
            }
        }
        e.resident.fill(false);
        let mut buf = vec![0u8; 1 << 20];
        let (mut have, mut off) = (0usize, 0u64);
        let mut seen = e.region == 0;
        e.end = 0;
        loop {
            let k = (buf.len() - have).min((e.mark - off) as usize);
            e.log.f.read_exact_at(&mut buf[have..have + k], off)?;
            off += k as u64;
            have += k;
            let mut pos = 0;
            if e.end == 0 {
                if decode_header(&buf[..have]) != Ok(Some(c.pages)) {
                    return Err(bad("1 BadHeader"));
                }
                pos = 16;
                e.end = 16;
            }
            loop {
                if !seen && e.end >= e.position {
                    let v = &e.val;
                    if e.end != e.position
                        || v.table() != rows
                        || (v.max_trans, v.last_begin) != (u32_at(&head, 8), u64_at(&head, 12))
                        || (v.commits, v.last_commit) != (u64_at(&head, 20), u64_at(&head, 28))
                    {
                        return Err(bad("34 BadControl"));
                    }
                    seen = true;
                }
                let r = match decode(&buf[pos..have], e.end, e.pages) {
                    Ok(Some(r)) => r,
                    Ok(None) => break,
                    Err(f) => return Err(bad(&format!("fault {f} at {}", e.end))),
                };
                let p = e.val.check(&r).map_err(|f| bad(&format!("fault {f:?} at {}", e.end)))?;
                e.val.admit(&r, p);
                if r.typ <= COMP {
                    let page = r.key / SLOTS;
                    let row = rec[page as usize];
                    if if row != 0 { r.lsn >= row } else { r.lsn >= e.position } {
                        e.q.push(
                            page,
                            Change {
                                lsn: r.lsn,
                                slot: (r.key % SLOTS) as u8,
                                after: r.after.img(),
                            },
                        );
                        e.dirty.routed(page, r.lsn);
                    }
                }
                pos += r.len;
                e.end += r.len as u64;
            }
            if off == e.mark {
                if pos != have {
                    return Err(bad("34 BadControl"));
                }
                break;
            }
            buf.copy_within(pos..have, 0);
            have -= pos;
        }
        if e.end + e.val.reserve > e.log_blocks * BLOCK as u64 {
            return Err(bad("29 LogFull"));
        }
        e.base = e.end / BLOCK as u64 * BLOCK as u64;
        let keep = (e.end - e.base) as usize;
        e.tail.resize(keep, 0);
        e.log.f.read_exact_at(&mut e.tail, e.base)?;
        (e.written, e.synced, e.ack) = (e.end, e.end, e.mark);
        Ok(e)
    }

    /// The takeover's seal, undo of all losers and finish, without the syncs between (see `takeover`).
    /// `chain`: walk UndoNxtLSN through the log device, else the survivor stacks in memory.
    pub fn undo_all(&mut self, chain: bool) -> io::Result<(usize, usize)> {
        let (mut comps, mut ends) = (0, 0);
        let mut ready: Vec<(u32, u64)> = self
            .val
            .rows
            .iter()
            .filter(|t| t.state == COMMITTED || (t.state != 0 && t.surv.is_empty()))
            .map(|t| (t.id, t.last))
            .collect();
        ready.sort_unstable();
        for (id, last) in ready {
            self.own(END, id, last, 0, 0, &ABSENT);
            ends += 1;
        }
        let mut heap: BinaryHeap<(u64, usize)> = self
            .val
            .rows
            .iter()
            .enumerate()
            .filter(|(_, t)| t.state != 0)
            .map(|(i, t)| (if chain { t.undo_next } else { t.surv.last().unwrap().lsn }, i))
            .collect();
        let (mut b, mut at) = ([0u8; 2 * BLOCK], u64::MAX);
        while let Some((lsn, i)) = heap.pop() {
            let t = &self.val.rows[i];
            let (id, last) = (t.id, t.last);
            let next;
            if chain {
                // One or two blocks from the device; a sweep down the log meets the same blocks again.
                let blk = lsn / BLOCK as u64 * BLOCK as u64;
                if blk != at {
                    let k = b.len().min((self.log_blocks * BLOCK as u64 - blk) as usize);
                    self.log.f.read_exact_at(&mut b[..k], blk)?;
                    at = blk;
                }
                let r = decode(&b[(lsn - blk) as usize..], lsn, self.pages).unwrap().unwrap();
                next = if r.typ == COMP {
                    r.next
                } else {
                    let (key, img, prev) = (r.key, r.before.img(), r.prev);
                    self.own(COMP, id, last, prev, key, &img);
                    comps += 1;
                    prev
                };
            } else {
                let s = *t.surv.last().unwrap();
                self.own(COMP, id, last, s.prev, s.key, &s.before);
                comps += 1;
                next = self.val.rows[i].surv.last().map_or(0, |s| s.lsn);
            }
            if next != 0 {
                heap.push((next, i));
            } else {
                let last = self.val.rows[i].last;
                self.own(END, id, last, 0, 0, &ABSENT);
                ends += 1;
            }
        }
        Ok((comps, ends))
    }

    /// Appends one record of the tail to the log text, the tables and the queues.
    #[inline]
    fn own(&mut self, typ: u8, t: u32, prev: u64, next: u64, key: u32, after: &Img) {
        let pos = self.tail.len();
        if typ == COMP {
            encode_comp(&mut self.tail, self.end, prev, t, next, key, after);
            let page = key / SLOTS;
            self.q.push(
                page,
                Change {
                    lsn: self.end,
                    slot: (key % SLOTS) as u8,
                    after: *after,
                },
            );
            self.dirty.routed(page, self.end);
        } else {
            encode_plain(&mut self.tail, typ, self.end, prev, t);
        }
        let r = decode(&self.tail[pos..], self.end, self.pages).unwrap().unwrap();
        let p = self.val.check(&r).expect("the tail is valid");
        self.val.admit(&r, p);
        self.end += r.len as u64;
    }

    /// All of a takeover: drain, force, seal, undo, force, drain, finish.
    pub fn takeover(&mut self, chain: bool) -> io::Result<(usize, usize)> {
        let partial = (self.end - self.base) as usize;
        self.tail.truncate(partial);
        self.drain()?;
        self.force()?;
        (self.phase, self.seal, self.mark) = (2, self.end, self.end);
        self.control()?;
        self.ctl.flush()?;
        let n = self.undo_all(chain)?;
        self.force()?;
        self.drain()?;
        self.phase = 3;
        self.control()?;
        self.ctl.flush()?;
        Ok(n)
    }
}
