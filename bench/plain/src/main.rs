//! The standby's jobs in plain Rust, without proofs: what the figures of `als` are put beside.
//!
//! `als-plain JOB.. [--mb N] [--reps N] [--pages P] [--open T] [--updates U] [--dir DIR] [--ram DIR]` prints a line of JSON for
//! each figure.

mod gen;
mod rec;
mod redo;
mod ship;
mod store;
#[cfg(test)]
mod tests;
mod valid;
mod view;

use gen::{generate, Mix, Plan, Rng};
use rec::*;
use std::hint::black_box;
use std::io::{Read, Write};
use std::net::{TcpListener, TcpStream};
use std::os::unix::fs::FileExt;
use std::path::{Path, PathBuf};
use std::sync::atomic::{AtomicBool, Ordering};
use std::sync::Mutex;
use std::time::{Duration, Instant};
use store::*;
use valid::Validator;

struct Opt {
    mb: usize,
    reps: usize,
    pages: u32,
    open: usize,
    updates: u64,
    dir: PathBuf,
    ram: PathBuf,
}

fn say(job: &str, case: &str, unit: &str, v: &[f64]) {
    let mut s = v.to_vec();
    s.sort_by(f64::total_cmp);
    let m = if s.len() % 2 == 1 {
        s[s.len() / 2]
    } else {
        (s[s.len() / 2 - 1] + s[s.len() / 2]) / 2.0
    };
    let (lo, hi) = (s[0], s[s.len() - 1]);
    let spread = if m == 0.0 { 0.0 } else { 100.0 * (hi - lo) / m };
    println!(
        "{{\"job\":\"{job}\",\"case\":\"{case}\",\"unit\":\"{unit}\",\"median\":{m:.6},\"min\":{lo:.6},\"max\":{hi:.6},\"spread_pct\":{spread:.1},\"reps\":{},\"load\":{:.1}}}",
        s.len(),
        load()
    );
}

/// Seconds that this thread stood ready and other programs had the cores.
fn waited() -> f64 {
    std::fs::read_to_string("/proc/thread-self/schedstat")
        .ok()
        .and_then(|s| s.split_whitespace().nth(1).and_then(|x| x.parse::<f64>().ok()))
        .map_or(0.0, |ns| ns / 1e9)
}

/// Wall time (several threads at work).
fn wall(f: impl FnOnce()) -> f64 {
    let t = Instant::now();
    f();
    t.elapsed().as_secs_f64()
}

/// Wall time of one thread's work without the waits for a core: on a shared machine the nearest to an idle one.
/// Waits for the device stay in.
fn secs(f: impl FnOnce()) -> f64 {
    let (w, t) = (waited(), Instant::now());
    f();
    let t = t.elapsed().as_secs_f64();
    (t - (waited() - w)).max(t / 1e3)
}

fn load() -> f64 {
    std::fs::read_to_string("/proc/loadavg")
        .ok()
        .and_then(|s| s.split(' ').next().and_then(|x| x.parse().ok()))
        .unwrap_or(0.0)
}

fn reps(n: usize, mut f: impl FnMut() -> f64) -> Vec<f64> {
    (0..n).map(|_| f()).collect()
}

fn plan(o: &Opt, mix: Mix) -> Plan {
    Plan {
        pages: o.pages,
        bytes: o.mb << 20,
        mix,
        open: o.open,
        updates: o.updates,
        rollback: 10,
        partial: 50,
        ckpt: 4 << 20,
        leave_open: false,
        seed: 42,
    }
}

fn mixes() -> [(&'static str, Mix); 3] {
    [("small", Mix::Small), ("full31", Mix::Full), ("mixed", Mix::Mixed)]
}

/// Cuts of the text past the header: fixed size, or random up to `k`.
fn cuts(len: usize, k: usize, random: bool) -> Vec<usize> {
    let mut rng = Rng(7);
    let (mut at, mut v) = (16, vec![16]);
    while at < len {
        at = len.min(at + if random { 1 + rng.below(k as u64) as usize } else { k });
        v.push(at);
    }
    v
}

fn limits(o: &Opt) {
    let n = 64 << 20;
    let src = vec![1u8; n];
    let mut dst = vec![2u8; n];
    let mb = n as f64 / 1e6;
    say(
        "limit",
        "memcpy 64 MiB",
        "MB/s",
        &reps(o.reps, || {
            mb / secs(|| black_box(&mut dst).copy_from_slice(black_box(&src)))
        }),
    );
    say(
        "limit",
        "memcpy 256 KiB in cache",
        "MB/s",
        &reps(o.reps, || {
            mb / secs(|| {
                for _ in 0..256 {
                    black_box(&mut dst[..1 << 18]).copy_from_slice(black_box(&src[..1 << 18]));
                }
            })
        }),
    );
    say(
        "limit",
        "sum of all bytes, one core",
        "MB/s",
        &reps(o.reps, || {
            mb / secs(|| {
                black_box(black_box(&src).iter().map(|x| *x as u64).sum::<u64>());
            })
        }),
    );
    say(
        "limit",
        "byte-at-a-time state machine, one core",
        "MB/s",
        &reps(o.reps, || {
            mb / secs(|| {
                let mut h = 0u32;
                for b in black_box(&src) {
                    h = (h ^ *b as u32).wrapping_mul(0x0100_0193);
                }
                black_box(h);
            })
        }),
    );
    for (name, mix) in mixes() {
        let (log, c) = generate(&plan(o, mix));
        let mb = log.len() as f64 / 1e6;
        let hop = reps(o.reps, || {
            mb / secs(|| {
                let (mut p, mut x) = (16, 0u64);
                while p < log.len() {
                    x ^= u64_at(&log, p + 8);
                    p += u32_at(&log, p) as usize;
                }
                black_box(x);
            })
        });
        say("limit", &format!("hop from length to length, {name}"), "MB/s", &hop);
        say(
            "limit",
            &format!("mean record, {name}"),
            "bytes",
            &[log.len() as f64 / c.records as f64],
        );
    }
    let mutex = Mutex::new(0u64);
    say(
        "limit",
        "uncontended Mutex turn",
        "ns",
        &reps(o.reps, || {
            1e9 / 5e6
                * secs(|| {
                    for _ in 0..5_000_000 {
                        *black_box(&mutex).lock().unwrap() += 1;
                    }
                })
        }),
    );
    say(
        "limit",
        "hand-off between two threads and back (sync_channel)",
        "us",
        &reps(o.reps, || {
            let (a, b) = std::sync::mpsc::sync_channel::<u64>(64);
            let (c, d) = std::sync::mpsc::sync_channel::<u64>(64);
            std::thread::scope(|s| {
                s.spawn(move || {
                    while let Ok(x) = b.recv() {
                        if c.send(x).is_err() {
                            break;
                        }
                    }
                });
                1e6 / 20_000.0
                    * wall(move || {
                        for i in 0..20_000 {
                            a.send(i).unwrap();
                            d.recv().unwrap();
                        }
                    })
            })
        }),
    );
    say(
        "limit",
        "TCP loopback round trip of 9 bytes",
        "us",
        &reps(o.reps, || {
            let l = TcpListener::bind("127.0.0.1:0").unwrap();
            let at = l.local_addr().unwrap();
            std::thread::scope(|s| {
                s.spawn(move || {
                    let (mut c, _) = l.accept().unwrap();
                    c.set_nodelay(true).unwrap();
                    let mut b = [0u8; 9];
                    while c.read_exact(&mut b).is_ok() {
                        c.write_all(&b).unwrap();
                    }
                });
                let mut c = TcpStream::connect(at).unwrap();
                c.set_nodelay(true).unwrap();
                let mut b = [0u8; 9];
                1e6 / 10_000.0
                    * wall(|| {
                        for _ in 0..10_000 {
                            c.write_all(&b).unwrap();
                            c.read_exact(&mut b).unwrap();
                        }
                    })
            })
        }),
    );
    disk(o, "disk", &o.dir);
    disk(o, "ram", &o.ram);
}

fn disk(o: &Opt, name: &str, dir: &Path) {
    let path = dir.join("limit.blk");
    let d = Dev::open(&path, 65_536, true, true).unwrap();
    let b = vec![7u8; 65_536];
    let us = |n: usize, t: f64| 1e6 * t / n as f64;
    say(
        "limit",
        &format!("{name}: write of 512 bytes, no sync"),
        "us",
        &reps(o.reps, || {
            us(
                65_536,
                secs(|| {
                    for i in 0..65_536 {
                        d.write(&b[..512], i * 512).unwrap();
                    }
                }),
            )
        }),
    );
    let mut r = [0u8; 65_536];
    say(
        "limit",
        &format!("{name}: read of 512 bytes from the page cache"),
        "us",
        &reps(o.reps, || {
            us(
                65_536,
                secs(|| {
                    for i in 0..65_536 {
                        d.f.read_exact_at(&mut r[..512], i * 512).unwrap();
                    }
                }),
            )
        }),
    );
    say(
        "limit",
        &format!("{name}: read of 64 KiB from the page cache"),
        "us",
        &reps(o.reps, || {
            us(
                512,
                secs(|| {
                    for i in 0..512 {
                        d.f.read_exact_at(&mut r, i * 65_536).unwrap();
                    }
                }),
            )
        }),
    );
    say(
        "limit",
        &format!("{name}: write of 64 KiB, no sync"),
        "us",
        &reps(o.reps, || {
            us(
                512,
                secs(|| {
                    for i in 0..512 {
                        d.write(&b, i * 65_536).unwrap();
                    }
                }),
            )
        }),
    );
    say(
        "limit",
        &format!("{name}: fdatasync with nothing to write"),
        "us",
        &reps(o.reps, || {
            d.f.sync_data().unwrap();
            us(
                200,
                secs(|| {
                    for _ in 0..200 {
                        d.f.sync_data().unwrap();
                    }
                }),
            )
        }),
    );
    say(
        "limit",
        &format!("{name}: write of 512 bytes and fdatasync"),
        "us",
        &reps(o.reps, || {
            us(
                200,
                secs(|| {
                    for _ in 0..200 {
                        d.write(&b[..512], 0).unwrap();
                        d.f.sync_data().unwrap();
                    }
                }),
            )
        }),
    );
    say(
        "limit",
        &format!("{name}: write of 64 KiB and fdatasync"),
        "us",
        &reps(o.reps, || {
            us(
                200,
                secs(|| {
                    for i in 0..200 {
                        d.write(&b, i * 65_536).unwrap();
                        d.f.sync_data().unwrap();
                    }
                }),
            )
        }),
    );
    say(
        "limit",
        &format!("{name}: 128 writes of 512 bytes and fdatasync"),
        "us",
        &reps(o.reps, || {
            us(
                200,
                secs(|| {
                    for i in 0..200 {
                        for j in 0..128 {
                            d.write(&b[..512], i * 65_536 + j * 512).unwrap();
                        }
                        d.f.sync_data().unwrap();
                    }
                }),
            )
        }),
    );
    say(
        "limit",
        &format!("{name}: sparse file, 512 bytes appended and fdatasync"),
        "us",
        &reps(o.reps, || {
            let f = std::fs::File::create(dir.join("sparse.blk")).unwrap();
            f.set_len(32 << 20).unwrap();
            us(
                200,
                secs(|| {
                    for i in 0..200 {
                        f.write_all_at(&b[..512], i * 4096).unwrap();
                        f.sync_data().unwrap();
                    }
                }),
            )
        }),
    );
    std::fs::remove_file(dir.join("sparse.blk")).ok();
    std::fs::remove_file(path).ok();
}

fn decode_only(log: &[u8], pages: u32) -> usize {
    let (mut p, mut n) = (16, 0);
    while let Ok(Some(r)) = decode(&log[p..], p as u64, pages) {
        black_box(&r);
        p += r.len;
        n += 1;
    }
    assert_eq!(p, log.len());
    n
}

/// Receiver and validator in pieces, no routing: the bytes below a partial record are dropped as they are used.
fn check_only(log: &[u8], cuts: &[usize], pages: u32, val: &mut Validator) -> usize {
    let (mut buf, mut pos, mut end, mut n) = (Vec::with_capacity(1 << 20), 0, 16, 0);
    for w in cuts.windows(2) {
        buf.extend_from_slice(&log[w[0]..w[1]]);
        n += intake(&buf, &mut pos, &mut end, pages, u64::MAX / 2, val, |_| ()).unwrap();
        if pos > 1 << 16 {
            buf.drain(..pos);
            pos = 0;
        }
    }
    assert_eq!(end, log.len() as u64);
    n
}

fn job_decode(o: &Opt) {
    for (name, mix) in mixes() {
        let (log, c) = generate(&plan(o, mix));
        let (mb, rec) = (log.len() as f64 / 1e6, c.records as f64);
        let both = |job: &str, case: &str, t: &[f64]| {
            say(job, case, "MB/s", &t.iter().map(|x| mb / x).collect::<Vec<_>>());
            say(job, case, "records/s", &t.iter().map(|x| rec / x).collect::<Vec<_>>());
        };
        both(
            "decode",
            &format!("{name}, whole text"),
            &reps(o.reps, || secs(|| assert_eq!(decode_only(&log, o.pages), c.records))),
        );
        let mut set = vec![(65_536, false, "64 KiB pieces")];
        if mix == Mix::Small {
            set.extend([
                (1, false, "1 byte pieces"),
                (100, true, "random pieces to 100"),
                (4096, true, "random pieces to 4096"),
                (200_000, true, "random pieces to 200000"),
            ]);
        }
        for (k, random, what) in set {
            let cuts = cuts(log.len(), k, random);
            let t = reps(o.reps, || {
                let mut v = Validator::new(o.pages);
                v.keep_commits = false;
                secs(|| assert_eq!(check_only(&log, &cuts, o.pages, &mut v), c.records))
            });
            both("decode+validate", &format!("{name}, {what}"), &t);
        }
        let cuts = cuts(log.len(), 65_536, false);
        // Steady: queues and view list are emptied after each 16 frames (their room is kept); growing: never.
        for (steady, what) in [(true, "emptied each MiB"), (false, "all kept, memory grows")] {
            let t = reps(o.reps, || {
                let mut v = Validator::new(o.pages);
                let (mut q, mut d) = (Queues::new(o.pages), Dirty::new(o.pages));
                let (mut buf, mut pos, mut end) = (Vec::with_capacity(1 << 20), 0, 16);
                let t = secs(|| {
                    for (i, w) in cuts.windows(2).enumerate() {
                        buf.extend_from_slice(&log[w[0]..w[1]]);
                        intake(&buf, &mut pos, &mut end, o.pages, u64::MAX / 2, &mut v, |r| {
                            if r.typ <= COMP {
                                let page = r.key / SLOTS;
                                q.push(
                                    page,
                                    Change {
                                        lsn: r.lsn,
                                        slot: (r.key % SLOTS) as u8,
                                        after: r.after.img(),
                                    },
                                );
                                d.routed(page, r.lsn);
                            }
                        })
                        .unwrap();
                        buf.drain(..pos);
                        pos = 0;
                        if steady && i % 16 == 15 {
                            q.q.iter_mut().for_each(|x| x.clear());
                            q.pending = 0;
                            v.writes.clear();
                            v.queue.clear();
                        }
                    }
                });
                black_box((&q.pending, &v.writes.len()));
                t
            });
            both(
                "decode+validate+route+view list",
                &format!("{name}, 64 KiB pieces, {what}"),
                &t,
            );
        }
    }
    for open in [1usize, 256] {
        let (log, c) = generate(&Plan {
            open,
            ..plan(o, Mix::Small)
        });
        let cuts = cuts(log.len(), 65_536, false);
        let t = reps(o.reps, || {
            let mut v = Validator::new(o.pages);
            v.keep_commits = false;
            c.records as f64 / secs(|| assert_eq!(check_only(&log, &cuts, o.pages, &mut v), c.records))
        });
        say(
            "decode+validate",
            &format!("small, 64 KiB pieces, {open} open transactions"),
            "records/s",
            &t,
        );
    }
}

fn routed(log: &[u8], pages: u32) -> Queues {
    let (mut q, mut p) = (Queues::new(pages), 16);
    while let Ok(Some(r)) = decode(&log[p..], p as u64, pages) {
        if r.typ <= COMP {
            q.push(
                r.key / SLOTS,
                Change {
                    lsn: r.lsn,
                    slot: (r.key % SLOTS) as u8,
                    after: r.after.img(),
                },
            );
        }
        p += r.len;
    }
    q
}

fn job_redo(o: &Opt) {
    for pages in [o.pages, 64] {
        let (log, _) = generate(&Plan {
            pages,
            ..plan(o, Mix::Small)
        });
        for w in [1, 2, 4] {
            let t = reps(o.reps, || {
                let mut q = routed(&log, pages);
                let mut f = vec![Page::EMPTY; pages as usize];
                let n = q.pending as f64;
                let t = wall(|| {
                    redo::sharded(&mut q, &mut f, w);
                });
                black_box(&f);
                n / t
            });
            say(
                "redo by shards",
                &format!("{pages} pages, whole log pending, {w} workers"),
                "changes/s",
                &t,
            );
        }
        for turn in [16, 64] {
            for w in [1, 2, 4] {
                let t = reps(o.reps, || {
                    let q = routed(&log, pages);
                    let n = q.pending as f64;
                    let core = Mutex::new(redo::Core::new(q, vec![Page::EMPTY; pages as usize]));
                    n / wall(|| {
                        redo::leased(&core, w, turn, |_| false);
                    })
                });
                say(
                    "redo by leases",
                    &format!("{pages} pages, whole log pending, turn {turn}, {w} workers"),
                    "changes/s",
                    &t,
                );
            }
        }
        // Live: the changes of one frame of 64 KiB pend at a time, so a batch is short.
        for w in [1, 2, 4] {
            let mut per = 0.0;
            let t = reps(o.reps, || {
                let small = &log[..log.len().min(8 << 20)];
                let core = Mutex::new(redo::Core::new(Queues::new(pages), vec![Page::EMPTY; pages as usize]));
                let (mut p, mut total, mut frames) = (16usize, 0usize, 0);
                let t = wall(|| {
                    total = redo::leased(&core, w, 16, |c| {
                        let stop = p + 65_536;
                        frames += 1;
                        while p < stop {
                            match decode(&small[p..], p as u64, pages) {
                                Ok(Some(r)) => {
                                    if r.typ <= COMP {
                                        c.q.push(
                                            r.key / SLOTS,
                                            Change {
                                                lsn: r.lsn,
                                                slot: (r.key % SLOTS) as u8,
                                                after: r.after.img(),
                                            },
                                        );
                                    }
                                    p += r.len;
                                }
                                _ => return c.q.pending > 0,
                            }
                        }
                        true
                    });
                });
                per = total as f64 / frames as f64;
                total as f64 / t
            });
            say(
                "redo by leases, live",
                &format!("{pages} pages, {per:.0} changes a frame, {w} workers"),
                "changes/s",
                &t,
            );
        }
        let t = reps(o.reps, || {
            let small = &log[..log.len().min(8 << 20)];
            let mut q = Queues::new(pages);
            let mut f = vec![Page::EMPTY; pages as usize];
            let (mut p, mut n) = (16usize, 0usize);
            let mut more = true;
            let t = secs(|| {
                while more {
                    let stop = p + 65_536;
                    while p < stop {
                        match decode(&small[p..], p as u64, pages) {
                            Ok(Some(r)) => {
                                if r.typ <= COMP {
                                    q.push(
                                        r.key / SLOTS,
                                        Change {
                                            lsn: r.lsn,
                                            slot: (r.key % SLOTS) as u8,
                                            after: r.after.img(),
                                        },
                                    );
                                }
                                p += r.len;
                            }
                            _ => {
                                more = false;
                                break;
                            }
                        }
                    }
                    let mut from = 0;
                    while let Some(id) = q.next(from) {
                        let k = q.q[id as usize].len();
                        for c in q.q[id as usize].drain(..) {
                            f[id as usize].redo(id, &c);
                        }
                        q.taken(id, k);
                        n += k;
                        from = id + 1;
                    }
                }
            });
            black_box(&f);
            n as f64 / t
        });
        say(
            "redo inline, live",
            &format!("{pages} pages, one thread, no lease"),
            "changes/s",
            &t,
        );
    }
}

fn follow_once(
    o: &Opt,
    log: &[u8],
    dir: &Path,
    sync: bool,
    by_block: bool,
    frame: usize,
    flush_every: usize,
) -> (f64, Split, usize) {
    let c = Config {
        pages: o.pages,
        log_blocks: (log.len() as u64 / 512 + 40_000).min(4_194_304),
        sync,
        by_block,
    };
    let mut e = Engine::format(dir, &c).unwrap();
    let cuts = cuts(log.len(), frame, false);
    let mut frames = 0;
    let t = secs(|| {
        for w in cuts.windows(2) {
            let t = Instant::now();
            e.feed(&log[w[0]..w[1]]).unwrap();
            e.split.feed += t.elapsed().as_secs_f64();
            e.force().unwrap();
            e.publish();
            e.drain().unwrap();
            frames += 1;
            if frames % flush_every == 0 {
                e.flush().unwrap();
                e.checkpoint().unwrap();
            }
        }
        e.flush().unwrap();
        e.checkpoint().unwrap();
    });
    assert_eq!(e.ack, log.len() as u64);
    (t, e.split, frames)
}

fn job_follow(o: &Opt) {
    let (log, _) = generate(&Plan {
        bytes: (o.mb << 20).min(32 << 20),
        ..plan(o, Mix::Small)
    });
    let short = &generate(&Plan {
        bytes: 2 << 20,
        ..plan(o, Mix::Small)
    })
    .0;
    for (case, log, dir, sync, by_block, frame, every) in [
        (
            "disk, 64 KiB frames, 512-byte writes, fdatasync, flush and checkpoint each 4 MiB",
            &log,
            &o.dir,
            true,
            true,
            65_536,
            64,
        ),
        (
            "disk, 64 KiB frames, one write a run of blocks, fdatasync, flush and checkpoint each 4 MiB",
            &log,
            &o.dir,
            true,
            false,
            65_536,
            64,
        ),
        (
            "disk, 4 KiB frames, 512-byte writes, fdatasync, flush and checkpoint each 4 MiB",
            short,
            &o.dir,
            true,
            true,
            4096,
            1024,
        ),
        (
            "disk, 64 KiB frames, 512-byte writes, no fdatasync",
            &log,
            &o.dir,
            false,
            true,
            65_536,
            64,
        ),
        (
            "ram, 64 KiB frames, 512-byte writes, fdatasync is free",
            &log,
            &o.ram,
            true,
            true,
            65_536,
            64,
        ),
        (
            "ram, 64 KiB frames, one write a run of blocks, fdatasync is free",
            &log,
            &o.ram,
            true,
            false,
            65_536,
            64,
        ),
    ] {
        let mb = log.len() as f64 / 1e6;
        let mut all = Vec::new();
        for _ in 0..o.reps {
            all.push(follow_once(o, log, dir, sync, by_block, frame, every));
        }
        say(
            "follow",
            case,
            "MB/s acknowledged",
            &all.iter().map(|x| mb / x.0).collect::<Vec<_>>(),
        );
        let frames = all[0].2 as f64;
        let part = |what: &str, f: &dyn Fn(&Split) -> f64| {
            say(
                "follow split",
                &format!("{case}: {what}"),
                "us/frame",
                &all.iter().map(|x| 1e6 * f(&x.1) / frames).collect::<Vec<_>>(),
            );
        };
        part("feed", &|s| s.feed);
        part("log write", &|s| s.log_write);
        part("log sync", &|s| s.log_sync);
        part("mark write", &|s| s.mark_write);
        part("control sync", &|s| s.ctl_sync);
        part("publish", &|s| s.publish);
        part("redo", &|s| s.redo);
        part("page writes", &|s| s.flush);
        part("page sync", &|s| s.page_sync);
        part("checkpoint", &|s| s.ckpt);
    }
}

fn job_ship(o: &Opt) {
    let (log, _) = generate(&Plan {
        bytes: (o.mb << 20).min(32 << 20),
        ..plan(o, Mix::Small)
    });
    let mb = log.len() as f64 / 1e6;
    for (case, dir, sync) in [("disk, fdatasync", &o.dir, true), ("ram", &o.ram, false)] {
        let t = reps(o.reps, || {
            let c = Config {
                pages: o.pages,
                log_blocks: log.len() as u64 / 512 + 40_000,
                sync,
                by_block: true,
            };
            let mut e = Engine::format(dir, &c).unwrap();
            let l = TcpListener::bind("127.0.0.1:0").unwrap();
            let at = l.local_addr().unwrap();
            std::thread::scope(|s| {
                let sent = s.spawn(|| ship::serve(l, &log).unwrap());
                let mut n = 0;
                let t = wall(|| {
                    ship::follow(TcpStream::connect(at).unwrap(), &mut e, |e| {
                        e.publish();
                        e.drain()?;
                        n += 1;
                        if n % 64 == 0 {
                            e.flush()?;
                        }
                        Ok(())
                    })
                    .unwrap();
                });
                assert_eq!(sent.join().unwrap(), log.len() as u64 - 16);
                assert_eq!(e.ack, log.len() as u64);
                mb / t
            })
        });
        say("ship over loopback", case, "MB/s acknowledged", &t);
    }
}

fn job_restart(o: &Opt) {
    let (log, _) = generate(&plan(o, Mix::Small));
    let mb = log.len() as f64 / 1e6;
    let c = Config {
        pages: o.pages,
        log_blocks: log.len() as u64 / 512 + 40_000,
        sync: false,
        by_block: false,
    };
    let mut e = Engine::format(&o.dir, &c).unwrap();
    for w in cuts(log.len(), 1 << 20, false).windows(2) {
        e.feed(&log[w[0]..w[1]]).unwrap();
        e.force().unwrap();
        e.drain().unwrap();
        if w[1] > log.len() / 10 * 9 && w[0] <= log.len() / 10 * 9 {
            e.flush().unwrap();
            e.checkpoint().unwrap();
        }
    }
    let frames = e.frames.clone();
    drop(e);
    // The pages stay as the checkpoint at nine tenths left them.
    for (case, ckpt) in [("checkpoint at nine tenths", true), ("no checkpoint, old pages", false)] {
        let mut v = Vec::new();
        for _ in 0..o.reps {
            if !ckpt {
                std::fs::write(o.dir.join("pages.blk"), vec![0u8; o.pages as usize * 512]).unwrap();
            }
            let mut e = None;
            let open = secs(|| e = Some(Engine::open(&o.dir, &c, ckpt).unwrap()));
            let mut e = e.unwrap();
            let pending = e.q.pending as f64;
            let mut n = 0;
            let drain = secs(|| n = e.drain().unwrap().0);
            let ready = secs(|| {
                e.publish();
            });
            let all = open + drain + ready;
            assert!(e.frames.iter().zip(&frames).all(|(a, b)| a.0 == b.0) || !e.q.q.is_empty() && ckpt);
            v.push((open, drain, ready, all, pending, n as f64));
        }
        let col = |f: &dyn Fn(&(f64, f64, f64, f64, f64, f64)) -> f64| v.iter().map(f).collect::<Vec<_>>();
        say("restart", &format!("{case}: open"), "s/MB", &col(&|x| x.0 / mb));
        say("restart", &format!("{case}: redo"), "s/MB", &col(&|x| x.1 / mb));
        say(
            "restart",
            &format!("{case}: ready (publish)"),
            "s/MB",
            &col(&|x| x.2 / mb),
        );
        say("restart", &format!("{case}: all"), "s/MB", &col(&|x| x.3 / mb));
        say("restart", &format!("{case}: all"), "MB/s", &col(&|x| mb / x.3));
        say("restart", &format!("{case}: changes redone"), "changes", &col(&|x| x.5));
    }
}

fn job_undo(o: &Opt) {
    for losers in [1usize, 16, 256] {
        let k = 200_000u64;
        // Losers alone: every transaction stays open; mean updates are past the end.
        let p = Plan {
            bytes: 40 * k as usize,
            open: losers,
            updates: 10 * k,
            rollback: 0,
            partial: 50,
            ckpt: 0,
            leave_open: true,
            ..plan(o, Mix::Small)
        };
        let (log, _) = generate(&p);
        for chain in [true, false] {
            let mut v = Vec::new();
            for _ in 0..o.reps {
                let c = Config {
                    pages: o.pages,
                    log_blocks: log.len() as u64 / 512 * 3 + 4000,
                    sync: true,
                    by_block: true,
                };
                let mut e = Engine::format(&o.dir, &c).unwrap();
                e.feed(&log[16..]).unwrap();
                e.force().unwrap();
                e.drain().unwrap();
                let mut n = 0;
                let undo = secs(|| n = e.undo_all(chain).unwrap().0);
                assert!(e.val.unended == 0 && e.val.now.iter().all(|i| *i == ABSENT));
                let mut e = Engine::open(&o.dir, &c, false).unwrap();
                let all = secs(|| {
                    e.takeover(chain).unwrap();
                });
                assert!(e.frames.iter().all(|f| (0..15).all(|s| *f.slot(s) == ABSENT)));
                v.push((n as f64 / undo, n as f64 / all, all));
            }
            let how = if chain {
                "chains read from the log device"
            } else {
                "survivor stacks in memory"
            };
            say(
                "takeover undo",
                &format!("{losers} losers, {how}"),
                "compensations/s",
                &v.iter().map(|x| x.0).collect::<Vec<_>>(),
            );
            say(
                "takeover whole",
                &format!("{losers} losers, {how}, drain, seal, force, finish"),
                "compensations/s",
                &v.iter().map(|x| x.1).collect::<Vec<_>>(),
            );
            say(
                "takeover whole",
                &format!("{losers} losers, {how}, drain, seal, force, finish"),
                "s",
                &v.iter().map(|x| x.2).collect::<Vec<_>>(),
            );
        }
    }
}

fn job_reads(o: &Opt) {
    let keys = (o.pages * SLOTS) as usize;
    let mut rng = Rng(99);
    // 150 commits of 8 writes: about what one frame of 64 KiB carries.
    let batches: Vec<Vec<(u32, Img)>> = (0..32)
        .map(|_| {
            (0..1200)
                .map(|_| {
                    let mut i = ABSENT;
                    i[0] = 9;
                    i[1..9].copy_from_slice(&rng.next().to_ne_bytes());
                    (rng.below(keys as u64) as u32, i)
                })
                .collect()
        })
        .collect();
    for two in [false, true] {
        let name = if two { "two copies" } else { "RwLock" };
        for (pace, what) in [
            (None, "publisher idle"),
            (Some(0), "publisher without pause"),
            (Some(1000), "one publish of 1200 writes a ms"),
        ] {
            for readers in [1usize, 2, 4] {
                let (mut reads, mut cost) = (Vec::new(), Vec::new());
                for _ in 0..o.reps {
                    let a = view::OneMap::new(keys);
                    let b = view::TwoCopies::new(keys, readers);
                    let stop = AtomicBool::new(false);
                    let (n, publishes, spent) = std::thread::scope(|s| {
                        let hs: Vec<_> = (0..readers)
                            .map(|r| {
                                let (a, b, stop) = (&a, &b, &stop);
                                s.spawn(move || {
                                    let mut rng = Rng(r as u64 + 5);
                                    let (mut n, mut last) = (0u64, 0);
                                    while !stop.load(Ordering::Relaxed) {
                                        for _ in 0..64 {
                                            let k = rng.below(keys as u64) as usize;
                                            let x = if two { b.get(r, k) } else { a.get(k) };
                                            assert!(x.commits >= last);
                                            last = x.commits;
                                            black_box((x.value, x.lsn));
                                        }
                                        n += 64;
                                    }
                                    n
                                })
                            })
                            .collect();
                        let t = Instant::now();
                        let (mut p, mut spent) = (0u64, 0.0);
                        while t.elapsed() < Duration::from_millis(400) {
                            let Some(us) = pace else {
                                std::thread::sleep(Duration::from_millis(10));
                                continue;
                            };
                            let w = &batches[p as usize % 32];
                            let s = Instant::now();
                            if two {
                                b.publish(w, 150 * (p + 1), p);
                            } else {
                                a.publish(w, 150 * (p + 1), p);
                            }
                            spent += s.elapsed().as_secs_f64();
                            p += 1;
                            if us > 0 {
                                std::thread::sleep(Duration::from_micros(us).saturating_sub(s.elapsed()));
                            }
                        }
                        stop.store(true, Ordering::Relaxed);
                        (hs.into_iter().map(|h| h.join().unwrap()).sum::<u64>(), p, spent)
                    });
                    reads.push(n as f64 / 0.4);
                    cost.push(1e6 * spent / publishes.max(1) as f64);
                }
                say(
                    "reads",
                    &format!("{name}, {readers} readers, {what}"),
                    "reads/s",
                    &reads,
                );
                if pace.is_some() {
                    say(
                        "publish",
                        &format!("{name}, {readers} readers, {what}"),
                        "us/publish of 150 commits",
                        &cost,
                    );
                }
            }
        }
    }
    // The list of commits, kept in both copies, costs the publisher memory and two appends a write.
    let t = reps(o.reps, || {
        let b = view::TwoCopies::new(keys, 0);
        let (mut l1, mut l2): (Vec<(u32, Img)>, Vec<(u32, Img)>) = (Vec::new(), Vec::new());
        1e6 / 2000.0
            * secs(|| {
                for p in 0..2000u64 {
                    let w = &batches[p as usize % 32];
                    l1.extend_from_slice(w);
                    l2.extend_from_slice(w);
                    b.publish(w, 150 * (p + 1), p);
                }
            })
    });
    say(
        "publish",
        "two copies, no reader, flat commit list kept in each copy",
        "us/publish of 150 commits",
        &t,
    );
    let t = reps(o.reps, || {
        let b = view::TwoCopies::new(keys, 0);
        let mut l: [Vec<(u32, Vec<(u32, Img)>)>; 2] = [Vec::new(), Vec::new()];
        1e6 / 2000.0
            * secs(|| {
                for p in 0..2000u64 {
                    let w = &batches[p as usize % 32];
                    for c in w.chunks(8) {
                        l[0].push((p as u32, c.to_vec()));
                        l[1].push((p as u32, c.to_vec()));
                    }
                    b.publish(w, 150 * (p + 1), p);
                }
            })
    });
    say(
        "publish",
        "two copies, no reader, a list of writes per commit allocated in each copy",
        "us/publish of 150 commits",
        &t,
    );
}

/// Costs of single choices, so that their weight is known (ns an operation, random keys of 4,096 pages).
fn job_choices(o: &Opt) {
    let keys = o.pages * SLOTS;
    let mut rng = Rng(1);
    let n = 2_000_000usize;
    let ks: Vec<u32> = (0..n).map(|_| rng.below(keys as u64) as u32).collect();
    let ns = |t: f64| 1e9 * t / n as f64;
    let mut img = ABSENT;
    img[0] = 9;
    let c = "Now of a key: compare and replace";
    let mut direct = vec![ABSENT; keys as usize];
    say(
        "choice",
        &format!("{c}, array by page * 15 + slot of 32-byte images"),
        "ns",
        &reps(o.reps, || {
            ns(secs(|| {
                for k in &ks {
                    let x = &mut direct[*k as usize];
                    black_box(*x == img);
                    *x = img;
                }
            }))
        }),
    );
    let mut h = std::collections::HashMap::new();
    for k in 0..keys {
        h.insert(k, ABSENT);
    }
    say(
        "choice",
        &format!("{c}, HashMap"),
        "ns",
        &reps(o.reps, || {
            ns(secs(|| {
                for k in &ks {
                    let x = h.get_mut(k).unwrap();
                    black_box(*x == img);
                    *x = img;
                }
            }))
        }),
    );
    let mut b = std::collections::BTreeMap::new();
    for k in 0..keys {
        b.insert(k, ABSENT);
    }
    say(
        "choice",
        &format!("{c}, BTreeMap"),
        "ns",
        &reps(o.reps, || {
            ns(secs(|| {
                for k in &ks {
                    let x = b.get_mut(k).unwrap();
                    black_box(*x == img);
                    *x = img;
                }
            }))
        }),
    );
    let mut sorted: Vec<(u32, Img)> = (0..keys).map(|k| (k, ABSENT)).collect();
    say(
        "choice",
        &format!("{c}, binary search in a sorted Vec"),
        "ns",
        &reps(o.reps, || {
            ns(secs(|| {
                for k in &ks {
                    let i = sorted.binary_search_by_key(k, |x| x.0).unwrap();
                    let x = &mut sorted[i].1;
                    black_box(*x == img);
                    *x = img;
                }
            }))
        }),
    );
    let mut heap: Vec<Vec<u8>> = vec![Vec::new(); keys as usize];
    say(
        "choice",
        &format!("{c}, array of Vec<u8> made anew for each record"),
        "ns",
        &reps(o.reps, || {
            ns(secs(|| {
                for k in &ks {
                    let x = &mut heap[*k as usize];
                    black_box(x[..] == img[1..9]);
                    *x = img[1..9].to_vec();
                }
            }))
        }),
    );
    // Record held by another: one holder a key, or a walk over all survivors of 16 transactions of 8.
    let surv: Vec<Vec<u32>> = (0..16)
        .map(|_| (0..8).map(|_| rng.below(keys as u64) as u32).collect())
        .collect();
    say(
        "choice",
        "RecordHeld: walk of 16 transactions with 8 survivors each",
        "ns",
        &reps(o.reps, || {
            ns(secs(|| {
                for k in &ks {
                    black_box(surv.iter().any(|v| v.contains(k)));
                }
            }))
        }),
    );
    let mut q = Queues::new(o.pages);
    q.push(
        o.pages - 1,
        Change {
            lsn: 16,
            slot: 0,
            after: ABSENT,
        },
    );
    say(
        "choice",
        "next_pending: bitmap, only the last page pending",
        "ns",
        &reps(o.reps, || {
            1e9 / 1e5
                * secs(|| {
                    for _ in 0..100_000 {
                        black_box(black_box(&q).next(0));
                    }
                })
        }),
    );
    say(
        "choice",
        "next_pending: a look at each queue, only the last page pending",
        "ns",
        &reps(o.reps, || {
            1e9 / 1e4
                * secs(|| {
                    for _ in 0..10_000 {
                        black_box(black_box(&q).q.iter().position(|x| !x.is_empty()));
                    }
                })
        }),
    );
    let rows: Vec<(u32, u8, u64, u64)> = (0..256).map(|i| (i, 1, rng.next(), rng.next())).collect();
    say(
        "choice",
        "greatest UndoNxtLSN: scan of 256 rows",
        "ns",
        &reps(o.reps, || {
            1e9 / 1e5
                * secs(|| {
                    for _ in 0..100_000 {
                        black_box(black_box(&rows).iter().map(|r| r.3).max());
                    }
                })
        }),
    );
    for depth in [64usize, 1000, 10_000] {
        say(
            "choice",
            &format!(
                "one page with {depth} pending: batches of 64 off the front of a Vec (drain to the front), a change"
            ),
            "ns",
            &reps(o.reps, || {
                let rounds = 1_000_000 / depth;
                1e9 / (rounds * depth) as f64
                    * secs(|| {
                        for _ in 0..rounds {
                            let mut v = vec![
                                Change {
                                    lsn: 16,
                                    slot: 0,
                                    after: ABSENT
                                };
                                depth
                            ];
                            while !v.is_empty() {
                                let k = v.len().min(64);
                                black_box(&v[..k]);
                                v.drain(..k);
                            }
                        }
                    })
            }),
        );
        say(
            "choice",
            &format!("one page with {depth} pending: one at a time by Vec::remove(0), a change"),
            "ns",
            &reps(o.reps, || {
                let rounds = (200_000 / depth).max(2);
                1e9 / (rounds * depth) as f64
                    * secs(|| {
                        for _ in 0..rounds {
                            let mut v = vec![
                                Change {
                                    lsn: 16,
                                    slot: 0,
                                    after: ABSENT
                                };
                                depth
                            ];
                            while !v.is_empty() {
                                black_box(v.remove(0));
                            }
                        }
                    })
            }),
        );
    }
    let (log, c) = generate(&Plan {
        bytes: 16 << 20,
        ..plan(o, Mix::Small)
    });
    say(
        "choice",
        "log append: the record spelled anew from its fields (not the bytes copied)",
        "ns",
        &reps(o.reps, || {
            let mut out = Vec::with_capacity(1 << 17);
            1e9 / c.records as f64
                * secs(|| {
                    let mut p = 16;
                    while let Ok(Some(r)) = decode(&log[p..], p as u64, o.pages) {
                        match r.typ {
                            UPDATE => {
                                encode_update(&mut out, r.lsn, r.prev, r.trans, r.key, &r.before.img(), &r.after.img())
                            }
                            COMP => encode_comp(&mut out, r.lsn, r.prev, r.trans, r.next, r.key, &r.after.img()),
                            END_CKPT => out.extend_from_slice(&log[p..p + r.len]),
                            t => encode_plain(&mut out, t, r.lsn, r.prev, r.trans),
                        }
                        p += r.len;
                        if out.len() > 1 << 16 {
                            black_box(&out);
                            out.clear();
                        }
                    }
                })
        }),
    );
    say(
        "choice",
        "one Box allocated and freed a record",
        "ns",
        &reps(o.reps, || {
            ns(secs(|| {
                for k in &ks {
                    black_box(Box::new([*k; 24]));
                }
            }))
        }),
    );
    // Page queues: a VecDeque a page, or one arena of nodes linked by page and reused last in first out.
    for (depth, what) in [(1347usize, "one frame pending"), (1_000_000, "1,000,000 pending")] {
        let rounds = (2_000_000 / depth).max(2);
        let ch = Change {
            lsn: 16,
            slot: 0,
            after: img,
        };
        let t = reps(o.reps, || {
            let mut q: Vec<std::collections::VecDeque<Change>> = (0..o.pages).map(|_| Default::default()).collect();
            let mut f = vec![Page::EMPTY; o.pages as usize];
            let mut at = 0;
            let t = secs(|| {
                for _ in 0..rounds {
                    for i in 0..depth {
                        q[(ks[(at + i) % n] / SLOTS) as usize].push_back(ch);
                    }
                    at += depth;
                    for (p, v) in q.iter_mut().enumerate() {
                        for c in v.drain(..) {
                            f[p].redo(p as u32, &c);
                        }
                    }
                }
            });
            1e9 * t / (rounds * depth) as f64
        });
        say(
            "choice",
            &format!("route and redo, VecDeque a page, {what}, a change"),
            "ns",
            &t,
        );
        let t = reps(o.reps, || {
            let mut heads = vec![(u32::MAX, u32::MAX); o.pages as usize];
            let mut arena: Vec<(Change, u32)> = Vec::new();
            let mut free = u32::MAX;
            let mut f = vec![Page::EMPTY; o.pages as usize];
            let mut at = 0;
            let t = secs(|| {
                for _ in 0..rounds {
                    for i in 0..depth {
                        let p = (ks[(at + i) % n] / SLOTS) as usize;
                        let id = if free != u32::MAX {
                            let id = free;
                            free = arena[id as usize].1;
                            arena[id as usize] = (ch, u32::MAX);
                            id
                        } else {
                            arena.push((ch, u32::MAX));
                            arena.len() as u32 - 1
                        };
                        let h = &mut heads[p];
                        if h.0 == u32::MAX {
                            h.0 = id;
                        } else {
                            arena[h.1 as usize].1 = id;
                        }
                        h.1 = id;
                    }
                    at += depth;
                    for (p, h) in heads.iter_mut().enumerate() {
                        let mut id = h.0;
                        while id != u32::MAX {
                            let node = &mut arena[id as usize];
                            f[p].redo(p as u32, &node.0);
                            let next = node.1;
                            node.1 = free;
                            free = id;
                            id = next;
                        }
                        *h = (u32::MAX, u32::MAX);
                    }
                }
            });
            1e9 * t / (rounds * depth) as f64
        });
        say(
            "choice",
            &format!("route and redo, one arena linked by page, {what}, a change"),
            "ns",
            &t,
        );
    }
}

fn main() {
    let mut o = Opt {
        mb: 64,
        reps: 5,
        pages: 4096,
        open: 16,
        updates: 8,
        dir: std::env::temp_dir().join("als-bench"),
        ram: "/dev/shm".into(),
    };
    let mut jobs = Vec::new();
    let mut out = None;
    let mut args = std::env::args().skip(1);
    while let Some(a) = args.next() {
        let mut val = || args.next().expect("a value");
        match a.as_str() {
            "--mb" => o.mb = val().parse().unwrap(),
            "--reps" => o.reps = val().parse().unwrap(),
            "--pages" => o.pages = val().parse().unwrap(),
            "--open" => o.open = val().parse().unwrap(),
            "--updates" => o.updates = val().parse().unwrap(),
            "--dir" => o.dir = val().into(),
            "--ram" => o.ram = val().into(),
            "--out" => out = Some(val()),
            _ => jobs.push(a),
        }
    }
    o.ram = o.ram.join(format!("als-bench-{}", std::process::id()));
    std::fs::create_dir_all(&o.dir).unwrap();
    std::fs::create_dir_all(&o.ram).unwrap();
    let all = [
        "limits", "decode", "redo", "follow", "ship", "restart", "undo", "reads", "choices",
    ];
    if jobs.is_empty() || jobs == ["all"] {
        jobs = all.iter().map(|s| s.to_string()).collect();
    }
    for j in &jobs {
        match j.as_str() {
            "limits" => limits(&o),
            "decode" => job_decode(&o),
            "redo" => job_redo(&o),
            "follow" => job_follow(&o),
            "ship" => job_ship(&o),
            "restart" => job_restart(&o),
            "undo" => job_undo(&o),
            "reads" => job_reads(&o),
            "choices" => job_choices(&o),
            "gen" => {
                let (log, c) = generate(&plan(&o, Mix::Small));
                eprintln!(
                    "{} bytes, {} records: {} updates, {} compensations, {} commits, {} rollbacks",
                    log.len(),
                    c.records,
                    c.updates,
                    c.comps,
                    c.commits,
                    c.rollbacks
                );
                std::fs::write(out.as_deref().expect("--out FILE"), log).unwrap();
            }
            _ => eprintln!("jobs: gen {}", all.join(" ")),
        }
    }
    std::fs::remove_dir_all(&o.ram).ok();
    for f in ["log.blk", "control.blk", "pages.blk"] {
        std::fs::remove_file(o.dir.join(f)).ok();
    }
}
