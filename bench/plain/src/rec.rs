//! The bytes of the log (docs/FORMATS.md): decoding in order, spelling. Nothing here allocates per record.

/// An image in the form of a page's slot: byte 0 is 0 for absent, else length + 1;
/// then the value; the rest zero. One form for the tables, the queues and the pages.
pub type Img = [u8; 32];
pub const ABSENT: Img = [0; 32];

pub const UPDATE: u8 = 1;
pub const COMP: u8 = 2;
pub const COMMIT: u8 = 3;
pub const ROLLBACK: u8 = 4;
pub const END: u8 = 5;
pub const BEGIN_CKPT: u8 = 6;
pub const END_CKPT: u8 = 7;

pub const SLOTS: u32 = 15;

/// The number of a fault (docs/FAULTS.md), and what it carries (13 alone).
#[derive(Clone, Copy, PartialEq, Eq, Debug)]
pub struct Fault(pub u8, pub u32);

/// An image inside the log text. `tag` is 0 for absent, else length + 1.
#[derive(Clone, Copy)]
pub struct Val<'a> {
    pub tag: u8,
    pub bytes: &'a [u8],
}

impl Val<'_> {
    #[inline(always)]
    pub fn img(&self) -> Img {
        let mut i = ABSENT;
        i[0] = self.tag;
        i[1..1 + self.bytes.len()].copy_from_slice(self.bytes);
        i
    }
    #[inline(always)]
    pub fn is(&self, i: &Img) -> bool {
        i[0] == self.tag && &i[1..1 + self.bytes.len()] == self.bytes
    }
}

/// A record as it lies in the buffer; `key` is page * 15 + slot.
#[derive(Clone, Copy)]
pub struct Rec<'a> {
    pub len: usize,
    pub typ: u8,
    pub lsn: u64,
    pub prev: u64,
    pub trans: u32,
    pub next: u64,
    pub key: u32,
    pub before: Val<'a>,
    pub after: Val<'a>,
}

#[inline(always)]
pub fn u16_at(b: &[u8], o: usize) -> u16 {
    u16::from_be_bytes(b[o..o + 2].try_into().unwrap())
}
#[inline(always)]
pub fn u32_at(b: &[u8], o: usize) -> u32 {
    u32::from_be_bytes(b[o..o + 4].try_into().unwrap())
}
#[inline(always)]
pub fn u64_at(b: &[u8], o: usize) -> u64 {
    u64::from_be_bytes(b[o..o + 8].try_into().unwrap())
}

/// Length range by type; index 0 and 8 stand for the types not in the table.
const RANGE: [(u32, u32); 9] = [
    (28, 54_560),
    (35, 97),
    (42, 73),
    (28, 28),
    (28, 28),
    (28, 28),
    (28, 28),
    (32, 54_560),
    (28, 54_560),
];

#[inline(always)]
fn tag(len: u8) -> Result<(u8, usize), u8> {
    if len == 255 {
        Ok((0, 0))
    } else if len > 31 {
        Err(7)
    } else {
        Ok((len + 1, len as usize))
    }
}

/// Decodes a record: None where more bytes are needed, else the record or its shape fault.
#[inline(always)]
pub fn decode(b: &[u8], at: u64, pages: u32) -> Result<Option<Rec<'_>>, u8> {
    let Some(h) = b.first_chunk::<28>() else {
        return Ok(None);
    };
    let len = u32_at(h, 0);
    let typ = h[4];
    let (lo, hi) = RANGE[(typ as usize).min(8)];
    if len < lo || len > hi {
        return Err(2);
    }
    if typ == 0 || typ > 7 {
        return Err(3);
    }
    if h[5] | h[6] | h[7] != 0 {
        return Err(4);
    }
    let lsn = u64_at(h, 8);
    if lsn != at {
        return Err(5);
    }
    let len = len as usize;
    if b.len() < len {
        return Ok(None);
    }
    let r = &b[..len];
    let none = Val { tag: 0, bytes: &[] };
    let mut rec = Rec {
        len,
        typ,
        lsn,
        prev: u64_at(h, 16),
        trans: u32_at(h, 24),
        next: 0,
        key: 0,
        before: none,
        after: none,
    };
    match typ {
        UPDATE => {
            let page = u32_at(r, 28);
            let slot = r[32];
            if page >= pages || slot > 14 {
                return Err(6);
            }
            let (bt, bl) = tag(r[33])?;
            let (at, al) = tag(r[34])?;
            if len != 35 + bl + al {
                return Err(2);
            }
            rec.key = page * SLOTS + slot as u32;
            rec.before = Val {
                tag: bt,
                bytes: &r[35..35 + bl],
            };
            rec.after = Val {
                tag: at,
                bytes: &r[35 + bl..],
            };
        }
        COMP => {
            let page = u32_at(r, 36);
            let slot = r[40];
            if page >= pages || slot > 14 {
                return Err(6);
            }
            let (at, al) = tag(r[41])?;
            if len != 42 + al {
                return Err(2);
            }
            rec.next = u64_at(r, 28);
            rec.key = page * SLOTS + slot as u32;
            rec.after = Val {
                tag: at,
                bytes: &r[42..],
            };
        }
        END_CKPT => {
            let n = u16_at(r, 28) as usize;
            let m = u16_at(r, 30) as usize;
            if n > 256 || m > 4096 || len != 32 + 21 * n + 12 * m {
                return Err(2);
            }
        }
        _ => {}
    }
    Ok(Some(rec))
}

/// The page count of a header, or None where fewer than 16 bytes are there.
pub fn decode_header(b: &[u8]) -> Result<Option<u32>, u8> {
    if b.len() < 16 {
        return Ok(None);
    }
    let pages = u32_at(b, 8);
    if &b[..8] != b"ALSLOG01" || !(1..=4096).contains(&pages) || u32_at(b, 12) != 0 {
        return Err(1);
    }
    Ok(Some(pages))
}

pub fn encode_header(out: &mut Vec<u8>, pages: u32) {
    out.extend_from_slice(b"ALSLOG01");
    out.extend_from_slice(&pages.to_be_bytes());
    out.extend_from_slice(&[0; 4]);
}

#[inline]
fn head(out: &mut Vec<u8>, len: usize, typ: u8, lsn: u64, prev: u64, trans: u32) {
    let mut h = [0u8; 28];
    h[..4].copy_from_slice(&(len as u32).to_be_bytes());
    h[4] = typ;
    h[8..16].copy_from_slice(&lsn.to_be_bytes());
    h[16..24].copy_from_slice(&prev.to_be_bytes());
    h[24..].copy_from_slice(&trans.to_be_bytes());
    out.extend_from_slice(&h);
}

#[inline]
fn len_byte(i: &Img) -> u8 {
    i[0].wrapping_sub(1)
}
#[inline]
pub fn img_len(i: &Img) -> usize {
    (i[0] as usize).saturating_sub(1)
}

pub fn encode_update(out: &mut Vec<u8>, lsn: u64, prev: u64, t: u32, key: u32, before: &Img, after: &Img) {
    let (bl, al) = (img_len(before), img_len(after));
    head(out, 35 + bl + al, UPDATE, lsn, prev, t);
    out.extend_from_slice(&(key / SLOTS).to_be_bytes());
    out.extend_from_slice(&[(key % SLOTS) as u8, len_byte(before), len_byte(after)]);
    out.extend_from_slice(&before[1..1 + bl]);
    out.extend_from_slice(&after[1..1 + al]);
}

pub fn encode_comp(out: &mut Vec<u8>, lsn: u64, prev: u64, t: u32, next: u64, key: u32, after: &Img) {
    let al = img_len(after);
    head(out, 42 + al, COMP, lsn, prev, t);
    out.extend_from_slice(&next.to_be_bytes());
    out.extend_from_slice(&(key / SLOTS).to_be_bytes());
    out.extend_from_slice(&[(key % SLOTS) as u8, len_byte(after)]);
    out.extend_from_slice(&after[1..1 + al]);
}

pub fn encode_plain(out: &mut Vec<u8>, typ: u8, lsn: u64, prev: u64, t: u32) {
    head(out, 28, typ, lsn, prev, t);
}

/// end_chkpt whose rows are numbers only (they are kept and not checked).
pub fn encode_end_ckpt(out: &mut Vec<u8>, lsn: u64, prev: u64, n: u16, m: u16) {
    let body = 21 * n as usize + 12 * m as usize;
    head(out, 32 + body, END_CKPT, lsn, prev, 0);
    out.extend_from_slice(&n.to_be_bytes());
    out.extend_from_slice(&m.to_be_bytes());
    out.resize(out.len() + body, 0);
}
