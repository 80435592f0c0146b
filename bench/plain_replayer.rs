//! A plain replayer of recorded io_uring submissions without contracts or proofs: what the proved
//! one is measured against. std only, one thread, no unsafe code:
//!
//!     rustc -O -C target-cpu=x86-64-v2 plain_replayer.rs
//!     plain_replayer serial [--sums] | check    < TRACE
//!
//! It prints what docs/FORMAT.md says, with the statuses of the README.
//!
//! How: the trace is read once into memory and never copied; every step is eight bytes that say
//! where its entry lies. Names are slices of the trace in one hash map per directory. A file or
//! buffer is a vector for its dense beginning and a hash map of pages for what lies far behind it.
//! A READ copies all its bytes, into one buffer that is used again; a reply keeps the 32 that a
//! report shows.

use std::fs::File as Handle;
use std::io::{Read, Write};
use std::os::fd::AsFd;

include!("replayer.rs");

type Dense = Vec<u8>;

fn dense_from(b: &[u8]) -> Dense {
    b.to_vec()
}

/// The bytes of the data that are shown stand in `Replies::heads` from `head` on.
struct Kept {
    reply: Reply,
    head: u32,
}

/// The replies by place; a Fill's is never shown.
struct Replies {
    list: Vec<Kept>,
    heads: Vec<u8>,
    scratch: Box<[u8]>,
}

impl Replies {
    /// Copies all of the data, of which the report's part is kept.
    fn read(&mut self, src: &Bytes, lo: u64, n: u64) -> u8 {
        if n > 32 {
            let scratch = &mut self.scratch;
            src.runs(lo, lo + n, |r| {
                if let Run::Data(d) = r {
                    for c in d.chunks(scratch.len()) {
                        scratch[..c.len()].copy_from_slice(c);
                    }
                }
            });
            std::hint::black_box(scratch);
        }
        let heads = &mut self.heads;
        src.runs(lo, lo + n.min(32), |r| match r {
            Run::Data(d) => heads.extend_from_slice(d),
            Run::Zeros(n) => heads.resize(heads.len() + n as usize, 0),
        });
        n.min(33) as u8
    }

    fn reply(&mut self, k: u32, reply: Reply) {
        while self.list.len() < k as usize {
            self.list.push(Kept { reply: Reply { user_data: 0, res: 0, shown: 0, posted: false }, head: 0 });
        }
        let head = (self.heads.len() - usize::from(reply.shown.min(32))) as u32;
        self.list.push(Kept { reply, head });
    }
}

fn put_line(o: &mut Vec<u8>, k: u32, y: &Kept, heads: &[u8]) {
    let Reply { user_data, res, shown, posted } = y.reply;
    put_num(o, k.into());
    put!(o, " user=", user_data; " res=");
    if res < 0 {
        o.push(b'-');
    }
    put_num(o, res.unsigned_abs().into());
    o.extend_from_slice(if posted { b" posted" } else { b" silent" });
    if shown > 0 {
        o.extend_from_slice(b" data=");
        let head = y.head as usize;
        put_hex(o, &heads[head..head + usize::from(shown.min(32))]);
        if shown > 32 {
            o.push(b'+');
        }
    }
    o.push(b'\n');
}

fn report(steps: &[Step], w: &World, replies: &Replies, sums: bool) -> Vec<u8> {
    let mut o = Vec::with_capacity(64 * steps.len() + 2 * replies.heads.len() + 4096);
    o.extend_from_slice(b"uring-report 1\n");
    let mut by_ring = vec![Vec::new(); w.rings.len()];
    for (k, s) in steps.iter().enumerate().filter(|(_, s)| s.bits & FILL == 0) {
        by_ring[usize::from(s.ring)].push(k as u32);
    }
    for (r, places) in by_ring.iter().enumerate() {
        put!(&mut o, "ring ", r as u64; "\n");
        for &k in places {
            put_line(&mut o, k, &replies.list[k as usize], &replies.heads);
        }
    }
    put_state(&mut o, w, sums);
    o
}

fn answer(text: Vec<u8>, mode: Mode) -> Result<Vec<Vec<u8>>, Fault> {
    let text = &*text.leak();
    let (mut r, head, w) = read_start(text)?;
    let mut steps: Vec<Step> = Vec::with_capacity((text.len() / 68).min(MAX_PLACES));
    for _ in 0..head.records {
        let places = steps.len();
        read_record(&mut r, &head, w, places, &mut steps)?;
    }
    read_end(&r)?;
    let Mode::Serial { sums } = mode else {
        return Ok(accepted(steps.len(), w));
    };
    let list = Vec::with_capacity(steps.len());
    let mut replies = Replies { list, heads: Vec::new(), scratch: vec![0; 1 << 18].into_boxed_slice() };
    replay(&head, w, text, &steps, 0, &mut replies);
    Ok(vec![report(&steps, w, &replies, sums)])
}

fn read_all() -> std::io::Result<Vec<u8>> {
    let input = Handle::from(std::io::stdin().as_fd().try_clone_to_owned()?);
    let hint = input.metadata().map_or(0, |m| m.len() as usize);
    let mut text = Vec::with_capacity(hint.min(MAX_TEXT) + 64);
    input.take(MAX_TEXT as u64 + 1).read_to_end(&mut text)?;
    Ok(text)
}

fn write_all(parts: &[Vec<u8>]) -> std::io::Result<()> {
    let mut output = Handle::from(std::io::stdout().as_fd().try_clone_to_owned()?);
    parts.iter().try_for_each(|part| output.write_all(part))
}
