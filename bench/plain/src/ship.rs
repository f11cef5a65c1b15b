//! A session over a connection of this machine: the question, then a frame and its answer in turn, and an empty frame last.

use crate::rec::*;
use crate::store::*;
use std::io::{self, BufReader, Read, Write};
use std::net::{TcpListener, TcpStream};

pub fn serve(l: TcpListener, log: &[u8]) -> io::Result<u64> {
    let (mut s, _) = l.accept()?;
    s.set_nodelay(true)?;
    let mut r = [0u8; 25];
    s.read_exact(&mut r)?;
    let mut at = u64_at(&r, 1) as usize;
    let mut sent = 0;
    let mut f = Vec::with_capacity(65_536 + 13);
    loop {
        let k = (log.len() - at).min(65_536);
        f.clear();
        f.push(b'D');
        f.extend_from_slice(&(at as u64).to_be_bytes());
        f.extend_from_slice(&(k as u32).to_be_bytes());
        f.extend_from_slice(&log[at..at + k]);
        s.write_all(&f)?;
        let mut a = [0u8; 9];
        s.read_exact(&mut a)?;
        at += k;
        sent += k as u64;
        if k == 0 {
            return Ok(sent);
        }
    }
}

pub fn follow(s: TcpStream, e: &mut Engine, mut each: impl FnMut(&mut Engine) -> io::Result<()>) -> io::Result<()> {
    s.set_nodelay(true)?;
    let mut w = s.try_clone()?;
    let mut r = BufReader::with_capacity(1 << 17, s);
    let mut hello = vec![b'R'];
    hello.extend_from_slice(&e.end.to_be_bytes());
    encode_header(&mut hello, e.pages);
    w.write_all(&hello)?;
    let mut buf = vec![0u8; 65_536];
    loop {
        let mut h = [0u8; 13];
        r.read_exact(&mut h)?;
        let k = u32_at(&h, 9) as usize;
        r.read_exact(&mut buf[..k])?;
        e.feed(&buf[..k]).map_err(|f| io::Error::other(format!("{f:?}")))?;
        let ack = e.force()?;
        let mut a = [b'A'; 9];
        a[1..].copy_from_slice(&ack.to_be_bytes());
        w.write_all(&a)?;
        each(e)?;
        if k == 0 {
            return Ok(());
        }
    }
}
