//! The specification's own rows, so that the reference is known to do the same jobs.

use crate::gen::{generate, Mix, Plan, Rng};
use crate::rec::*;
use crate::store::*;
use crate::valid::Validator;
use std::collections::HashMap;
use std::path::PathBuf;

fn img(s: &str) -> Img {
    let mut i = ABSENT;
    if s == "-" {
        return i;
    }
    let h = if s == "." { "" } else { s };
    i[0] = (h.len() / 2) as u8 + 1;
    for k in 0..h.len() / 2 {
        i[1 + k] = u8::from_str_radix(&h[2 * k..2 * k + 2], 16).unwrap();
    }
    i
}

/// A log of record lines.
fn make(pages: u32, lines: &str) -> Vec<u8> {
    let mut out = Vec::new();
    encode_header(&mut out, pages);
    let mut last: HashMap<u32, u64> = HashMap::new();
    let mut ckpt = 0;
    for l in lines.split(',').map(str::trim).filter(|l| !l.is_empty()) {
        let mut w: Vec<&str> = l.split(' ').collect();
        let forced = w
            .last()
            .and_then(|x| x.strip_prefix("prev="))
            .map(|x| x.parse::<u64>().unwrap());
        if forced.is_some() {
            w.pop();
        }
        let n = |i: usize| w[i].parse::<u64>().unwrap();
        let lsn = out.len() as u64;
        let t = if w.len() > 1 { n(1) as u32 } else { 0 };
        let prev = forced.unwrap_or(if w[0] == "ckptend" {
            ckpt
        } else {
            *last.get(&t).unwrap_or(&0)
        });
        match w[0] {
            "u" => encode_update(
                &mut out,
                lsn,
                prev,
                t,
                (n(2) * 15 + n(3)) as u32,
                &img(w[4]),
                &img(w[5]),
            ),
            "c" => encode_comp(&mut out, lsn, prev, t, n(5), (n(2) * 15 + n(3)) as u32, &img(w[4])),
            "commit" => encode_plain(&mut out, COMMIT, lsn, prev, t),
            "rollback" => encode_plain(&mut out, ROLLBACK, lsn, prev, t),
            "end" => encode_plain(&mut out, END, lsn, prev, t),
            "ckpt" => {
                encode_plain(&mut out, BEGIN_CKPT, lsn, forced.unwrap_or(0), 0);
                ckpt = lsn;
            }
            "ckptend" => encode_end_ckpt(&mut out, lsn, prev, 0, 0),
            _ => panic!("{l}"),
        }
        if t != 0 {
            last.insert(t, lsn);
        }
    }
    out
}

const A: &str = "u 1 0 0 - aa, commit 1, end 1";
const B: &str = "u 1 0 0 - aa, commit 1, u 2 0 1 - bb, u 2 0 0 aa cc";

fn dir(name: &str) -> PathBuf {
    let d = std::env::temp_dir().join(format!("als-test-{}-{name}", std::process::id()));
    std::fs::create_dir_all(&d).unwrap();
    d
}

fn engine(name: &str, log: u64) -> Engine {
    Engine::format(
        &dir(name),
        &Config {
            pages: 4,
            log_blocks: log,
            sync: false,
            by_block: true,
        },
    )
    .unwrap()
}

/// (fault, its number, end after it)
fn fault(name: &str, log: u64, text: &[u8]) -> (u8, u32, u64) {
    let mut e = engine(name, log);
    let f = e.feed(&text[16..]).unwrap_err();
    assert_eq!(e.feed(&[]).is_err(), f.0 != 29);
    (f.0, f.1, e.end)
}

fn hex(b: &[u8]) -> String {
    b.iter().map(|x| format!("{x:02x}")).collect()
}

#[test]
fn vectors() {
    let a = make(4, A);
    assert_eq!(
        hex(&a),
        "414c534c4f4730310000000400000000\
         000000240100000000000000000000100000000000000000000000010000000000ff01aa\
         0000001c030000000000000000000034000000000000001000000001\
         0000001c050000000000000000000050000000000000003400000001"
    );
}

#[test]
fn refusals() {
    let row = |n: &str, l: &str| fault(n, 32, &make(4, l));
    assert_eq!(row("8", "u 1 0 0 - aa, commit 1 prev=0"), (8, 0, 52));
    assert_eq!(row("9", "u 2 0 0 - aa, u 1 0 1 - bb"), (9, 0, 52));
    assert_eq!(row("10", "u 1 0 0 - aa, end 1"), (10, 0, 52));
    assert_eq!(row("11", "u 1 0 0 - 11, c 1 0 0 - 16"), (11, 0, 52));
    assert_eq!(row("12", "u 1 0 0 - 11, c 1 0 0 22 0"), (12, 0, 52));
    assert_eq!(row("13", "u 1 0 0 - 11, u 2 0 0 11 22"), (13, 1, 52));
    assert_eq!(row("14", "u 1 0 0 - aa, commit 1, u 2 0 0 ab cc"), (14, 0, 80));
    let many: String = (1..=257).map(|i| format!("rollback {i},")).collect();
    assert_eq!(row("15", &many), (15, 0, 7184));
    assert_eq!(row("16", "ckpt, ckptend, ckptend"), (16, 0, 76));
    let t = make(
        4096,
        "u 1 4095 14 - 00112233445566778899aabbccddeeff00112233445566778899aabbccddee",
    );
    assert_eq!(t.len(), 82);
    // The log device is full.
    let six = |v: &str| format!("u 1 0 0 - aa,u 1 0 1 - aa,u 1 0 2 - aa,u 1 0 3 - aa,u 1 0 4 - aa,u 1 0 5 - {v}");
    assert_eq!(fault("29", 1, &make(4, &six("aabb"))), (29, 0, 196));
    assert_eq!(engine("29b", 1).feed(&make(4, &six("aa"))[16..]), Ok(6));
    // The text A with one byte changed.
    for (byte, value, f, end) in [
        (19, 0x22, 2, 16),
        (19, 0x25, 2, 16),
        (20, 9, 3, 16),
        (20, 3, 2, 16),
        (21, 1, 4, 16),
        (95, 0x51, 5, 80),
        (47, 4, 6, 16),
        (48, 15, 6, 16),
        (49, 0x20, 7, 16),
        (39, 1, 8, 16),
        (43, 0, 9, 16),
        (79, 2, 8, 52),
    ] {
        let mut a = make(4, A);
        a[byte] = value;
        assert_eq!(fault(&format!("b{byte}"), 8, &a), (f, 0, end), "byte {byte}");
    }
}

fn takeover(name: &str, lines: &str, chain: bool) -> (u64, Vec<u8>, Vec<(usize, String)>) {
    let mut e = engine(name, 8);
    let t = make(4, lines);
    for b in &t[16..] {
        e.feed(&[*b]).unwrap();
    }
    let from = t.len();
    e.takeover(chain).unwrap();
    let log = std::fs::read(dir(name).join("log.blk")).unwrap()[from..e.end as usize].to_vec();
    let mut db = Vec::new();
    for p in 0..4 {
        for s in 0..15 {
            let i = e.frames[p].slot(s);
            if i[0] != 0 {
                db.push((p * 15 + s, hex(&i[1..i[0] as usize])));
            }
        }
    }
    (e.end, log, db)
}

#[test]
fn takeovers() {
    for chain in [true, false] {
        let (end, log, db) = takeover("t5", B, chain);
        assert_eq!((end, db), (294, vec![(0, "aa".into())]));
        assert_eq!(
            hex(&log[..28]),
            "0000001c050000000000000000000099000000000000003400000001"
        );
        assert_eq!(
            hex(&log[28..71]),
            "0000002b0200000000000000000000b500000000000000740000000200000000000000500000000000\
             01aa"
        );
        let (end, _, db) = takeover("t6", "u 1 0 0 - 11, c 1 0 0 - 0, u 2 0 0 - 22, commit 2", chain);
        assert_eq!((end, db), (214, vec![(0, "22".into())]));
        let (end, _, db) = takeover("t7", "u 1 0 0 - 11, u 1 0 1 - 22, c 1 0 1 - 16, u 1 0 2 - 33", chain);
        assert_eq!((end, db), (278, vec![]));
        let mut l = "u 1 0 0 - 11,".to_string();
        for k in 0..10 {
            l += &format!(
                "u 1 0 1 - 22, c 1 0 1 - {},",
                16 + if k == 0 { 0 } else { 36 + 78 * k - 42 }
            );
        }
        let t = make(4, &l);
        assert_eq!(t.len(), 832);
        let (end, _, _) = takeover("t11", &l, chain);
        assert_eq!(end, 902);
        assert_eq!(takeover("t1", A, chain).0, 108);
        assert_eq!(takeover("t3", "", chain).0, 16);
    }
}

#[test]
fn generated_logs_are_valid_and_folds_agree() {
    for (k, mix) in [Mix::Small, Mix::Full, Mix::Mixed].into_iter().enumerate() {
        let p = Plan {
            pages: 64,
            bytes: 1 << 20,
            mix,
            open: 20,
            updates: 6,
            rollback: 7,
            partial: 10,
            ckpt: 1 << 17,
            leave_open: true,
            seed: 3,
        };
        let (log, n) = generate(&p);
        let d = dir(&format!("g{k}"));
        let c = Config {
            pages: 64,
            log_blocks: 8192,
            sync: false,
            by_block: true,
        };
        let mut e = Engine::format(&d, &c).unwrap();
        let (mut at, mut rng, mut records) = (16, Rng(9), 0);
        while at < log.len() {
            let k = (1 + rng.below(9000) as usize).min(log.len() - at);
            records += e.feed(&log[at..at + k]).unwrap();
            at += k;
            e.force().unwrap();
            e.publish();
            if rng.below(3) == 0 {
                e.drain().unwrap();
                e.flush().unwrap();
                if rng.below(3) == 0 {
                    e.checkpoint().unwrap();
                }
            }
        }
        assert_eq!(records, n.records);
        assert_eq!(std::fs::read(d.join("log.blk")).unwrap()[..log.len()], log);
        // From scratch: pages by repeating history, committed values as the commits leave them.
        let mut won = vec![ABSENT; 64 * 15];
        let mut surv: HashMap<u32, Vec<(u32, Img)>> = HashMap::new();
        let mut pages = vec![Page::EMPTY; 64];
        let mut at = 16;
        while let Ok(Some(r)) = decode(&log[at..], at as u64, 64) {
            let c = Change {
                lsn: r.lsn,
                slot: (r.key % 15) as u8,
                after: r.after.img(),
            };
            match r.typ {
                UPDATE => surv.entry(r.trans).or_default().push((r.key, c.after)),
                COMP => drop(surv.get_mut(&r.trans).unwrap().pop()),
                COMMIT => {
                    for (k, i) in surv.remove(&r.trans).unwrap_or_default() {
                        won[k as usize] = i;
                    }
                }
                _ => {}
            }
            if r.typ <= COMP {
                pages[r.key as usize / 15].redo(r.key / 15, &c);
            }
            at += r.len;
        }
        e.drain().unwrap();
        assert!(e.frames.iter().zip(&pages).all(|(a, b)| a.0 == b.0));
        assert!(e.view == won);
        let table = e.val.table();
        for use_ckpt in [true, false] {
            let mut f = Engine::open(&d, &c, use_ckpt).unwrap();
            assert_eq!(f.val.table(), table);
            f.drain().unwrap();
            f.publish();
            assert!(f.view == won);
            for i in 0..64 {
                assert!(f.frames[i].0 == pages[i].0 || (use_ckpt && f.frames[i].0 == [0; 512]));
            }
            if !use_ckpt {
                f.takeover(true).unwrap();
                assert!((0..64 * 15).all(|k| f.frames[k / 15].slot(k % 15) == &won[k]));
                assert_eq!(f.val.unended, 0);
            }
        }
        // Leases and shards give the same pages.
        for w in [1, 3] {
            let mut q = Queues::new(64);
            let mut at = 16;
            while let Ok(Some(r)) = decode(&log[at..], at as u64, 64) {
                if r.typ <= COMP {
                    q.push(
                        r.key / 15,
                        Change {
                            lsn: r.lsn,
                            slot: (r.key % 15) as u8,
                            after: r.after.img(),
                        },
                    );
                }
                at += r.len;
            }
            let mut q2 = Queues::new(64);
            for p in 0..64 {
                for c in &q.q[p] {
                    q2.push(p as u32, *c);
                }
            }
            let mut fr = vec![Page::EMPTY; 64];
            crate::redo::sharded(&mut q, &mut fr, w);
            assert!(fr.iter().zip(&pages).all(|(a, b)| a.0 == b.0));
            let core = std::sync::Mutex::new(crate::redo::Core::new(q2, vec![Page::EMPTY; 64]));
            crate::redo::leased(&core, w, 16, |_| false);
            assert!(core
                .into_inner()
                .unwrap()
                .frames
                .iter()
                .zip(&pages)
                .all(|(a, b)| a.0 == b.0));
        }
        let v = Validator::new(64);
        assert_eq!(v.reserve, 0);
        std::fs::remove_dir_all(d).unwrap();
    }
}
