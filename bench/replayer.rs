// What both replayers of this folder share: the words of the format, the world and what each entry does to it, and the parts of the
// report that follow the replies. `plain_replayer.rs` and `better_replayer.rs` include it as text, so that each is one crate
// with one module, compiled as one. Versions 1 and 2 of the format.
//
// What the file that includes this one defines:
//
//     type Dense                  the bytes at the beginning of a file or buffer, and `dense_from` makes them of a part of the trace
//     struct Replies              `read` keeps what a report shows of bytes that were read, `reply` takes a place's reply
//     fn read_all, fn write_all   the trace, and the parts of the answer
//     fn answer                   reads and replays a trace, or checks it

use std::cmp::Ordering;
use std::collections::HashMap;
use std::convert::TryInto;
use std::hash::{BuildHasherDefault, Hash, Hasher};
use std::process::ExitCode;


const MAX_TEXT: usize = 1 << 30;
const MAX_FILE: u64 = 1 << 40;
const MAX_PLACES: usize = 1 << 20;
const XFER: u64 = 0x7fff_f000;
const TOP: u64 = 1 << 63;

const EPERM: i32 = 1;
const ENOENT: i32 = 2;
const EBADF: i32 = 9;
const EFAULT: i32 = 14;
const EEXIST: i32 = 17;
const ENOTDIR: i32 = 20;
const EISDIR: i32 = 21;
const EINVAL: i32 = 22;
const EMFILE: i32 = 24;
const EFBIG: i32 = 27;
const ENAMETOOLONG: i32 = 36;
const ENOTEMPTY: i32 = 39;
const EOPNOTSUPP: i32 = 95;
const ECANCELED: i32 = 125;

const NOP: u8 = 0;
const READV: u8 = 1;
const WRITEV: u8 = 2;
const FSYNC: u8 = 3;
const READ_FIXED: u8 = 4;
const WRITE_FIXED: u8 = 5;
const FALLOCATE: u8 = 17;
const OPENAT: u8 = 18;
const CLOSE: u8 = 19;
const READ: u8 = 22;
const WRITE: u8 = 23;
const RENAMEAT: u8 = 35;
const UNLINKAT: u8 = 36;
const MKDIRAT: u8 = 37;
const LINKAT: u8 = 39;
const FTRUNCATE: u8 = 55;

const FIXED_FILE: u8 = 1;
const IO_LINK: u8 = 4;
const IO_HARDLINK: u8 = 8;
const BUFFER_SELECT: u8 = 32;
const SKIP: u8 = 64;
const BIT7: u8 = 128;

const O_CREAT: u32 = 0x40;
const O_EXCL: u32 = 0x80;
const O_TRUNC: u32 = 0x200;
const O_APPEND: u32 = 0x400;
const O_DIRECTORY: u32 = 0x1_0000;
const O_CLOEXEC: u32 = 0x8_0000;
const O_ALL: u32 = 0x1f_dfc3;

// ---- numbers and hashing -------------------------------------------------------------------

fn u16_at(b: &[u8], o: usize) -> u16 {
    u16::from_le_bytes(b[o..o + 2].try_into().unwrap())
}
fn u32_at(b: &[u8], o: usize) -> u32 {
    u32::from_le_bytes(b[o..o + 4].try_into().unwrap())
}
fn u64_at(b: &[u8], o: usize) -> u64 {
    u64::from_le_bytes(b[o..o + 8].try_into().unwrap())
}

/// A submission entry, read where it lies.
#[derive(Clone, Copy)]
struct Sqe<'t>(&'t [u8; 64]);

impl<'t> Sqe<'t> {
    fn at(text: &'t [u8], at: usize) -> Self {
        Sqe(text[at..at + 64].try_into().unwrap())
    }
    fn opcode(self) -> u8 {
        self.0[0]
    }
    fn flags(self) -> u8 {
        self.0[1]
    }
    fn fd(self) -> i32 {
        u32_at(self.0, 4) as i32
    }
    fn off(self) -> u64 {
        u64_at(self.0, 8)
    }
    fn addr(self) -> u64 {
        u64_at(self.0, 16)
    }
    fn len(self) -> u32 {
        u32_at(self.0, 24)
    }
    fn op_flags(self) -> u32 {
        u32_at(self.0, 28)
    }
    fn user_data(self) -> u64 {
        u64_at(self.0, 32)
    }
    fn buf_index(self) -> usize {
        u16_at(self.0, 40) as usize
    }
    fn personality(self) -> u16 {
        u16_at(self.0, 42)
    }
    fn file_index(self) -> u32 {
        u32_at(self.0, 44)
    }
}

#[derive(Default)]
struct Quick(u64);

impl Quick {
    fn add(&mut self, x: u64) {
        let m = u128::from(self.0 ^ x) * 0x9e37_79b9_7f4a_7c15;
        self.0 = (m as u64) ^ (m >> 64) as u64;
    }
}

impl Hasher for Quick {
    fn write(&mut self, b: &[u8]) {
        let mut c = b.chunks_exact(8);
        for x in &mut c {
            self.add(u64_at(x, 0));
        }
        let r = c.remainder();
        if !r.is_empty() {
            let mut t = [0; 8];
            t[..r.len()].copy_from_slice(r);
            self.add(u64::from_le_bytes(t));
        }
    }
    fn write_u64(&mut self, x: u64) {
        self.add(x);
    }
    fn finish(&self) -> u64 {
        self.0
    }
}

/// A name, its first 16 bytes by value: most look-ups then never touch the trace. Names hold no zeros.
#[derive(Clone, Copy, PartialEq, Eq)]
struct Name<'t> {
    head: [u64; 2],
    rest: &'t [u8],
}

impl<'t> Name<'t> {
    fn new(b: &'t [u8]) -> Self {
        let n = b.len().min(16);
        let mut t = [0; 16];
        t[..n].copy_from_slice(&b[..n]);
        Name { head: [u64_at(&t, 0), u64_at(&t, 8)], rest: &b[n..] }
    }
    fn bytes(&self) -> Vec<u8> {
        let mut v = self.head.map(u64::to_le_bytes).concat();
        while v.last() == Some(&0) {
            v.pop();
        }
        v.extend_from_slice(self.rest);
        v
    }
}

impl Hash for Name<'_> {
    fn hash<H: Hasher>(&self, h: &mut H) {
        h.write_u64(self.head[0]);
        h.write_u64(self.head[1]);
        if !self.rest.is_empty() {
            h.write(self.rest);
        }
    }
}

type QuickMap<K, V> = HashMap<K, V, BuildHasherDefault<Quick>>;

// ---- bytes of files and buffers ------------------------------------------------------------

const PAGE: u64 = 4096;
type Pages = QuickMap<u64, Box<[u8; PAGE as usize]>>;

/// A list of `size` bytes. Those below `dense.len()` stand there; a byte behind them is its
/// page's, or 0. No page begins below `dense.len()`, and stored bytes past the size are 0.
#[derive(Default)]
struct Bytes {
    size: u64,
    dense: Dense,
    far: Option<Box<Pages>>,
}

enum Run<'a> {
    Data(&'a [u8]),
    Zeros(u64),
}

impl Bytes {
    /// The bytes from `lo` to `hi`, in order.
    fn runs<'a>(&'a self, lo: u64, hi: u64, mut f: impl FnMut(Run<'a>)) {
        let edge = self.dense.len() as u64;
        if lo < edge {
            f(Run::Data(&self.dense[lo as usize..hi.min(edge) as usize]));
        }
        let lo = lo.max(edge);
        if lo >= hi {
            return;
        }
        let Some(far) = &self.far else {
            return f(Run::Zeros(hi - lo));
        };
        let mut at = lo;
        let mut page = |p: u64, data: &'a [u8; PAGE as usize]| {
            let (a, b) = (at.max(p * PAGE), hi.min((p + 1) * PAGE));
            if a > at {
                f(Run::Zeros(a - at));
            }
            f(Run::Data(&data[(a - p * PAGE) as usize..(b - p * PAGE) as usize]));
            at = b;
        };
        let (first, last) = (lo / PAGE, (hi - 1) / PAGE);
        if last - first < 4 * far.len() as u64 {
            for p in first..=last {
                if let Some(d) = far.get(&p) {
                    page(p, d);
                }
            }
        } else {
            let mut keys: Vec<u64> = far.keys().copied().filter(|p| (first..=last).contains(p)).collect();
            keys.sort_unstable();
            for p in keys {
                page(p, &far[&p]);
            }
        }
        if at < hi {
            f(Run::Zeros(hi - at));
        }
    }

    fn write(&mut self, at: u64, src: &[u8]) {
        let end = at + src.len() as u64;
        self.size = self.size.max(end);
        if end <= self.dense.len() as u64 {
            self.dense[at as usize..end as usize].copy_from_slice(src);
        } else if !src.is_empty() {
            self.write_behind(at, src);
        }
    }

    #[cold]
    fn write_behind(&mut self, at: u64, src: &[u8]) {
        let edge = self.dense.len() as u64;
        let end = at + src.len() as u64;
        if at <= edge + edge.min(1 << 20) + 4 * PAGE {
            if let Some(far) = &mut self.far {
                for p in edge / PAGE..=(end - 1) / PAGE {
                    if let Some(d) = far.remove(&p) {
                        self.dense.resize((p * PAGE) as usize, 0);
                        self.dense.extend_from_slice(&d[..]);
                    }
                }
            }
            if at > self.dense.len() as u64 {
                self.dense.resize(at as usize, 0);
            }
            let here = (self.dense.len() - at as usize).min(src.len());
            self.dense[at as usize..at as usize + here].copy_from_slice(&src[..here]);
            self.dense.extend_from_slice(&src[here..]);
            return;
        }
        let far = self.far.get_or_insert_default();
        let (mut at, mut src) = (at, src);
        while !src.is_empty() {
            let lo = (at % PAGE) as usize;
            let n = src.len().min(PAGE as usize - lo);
            let page = far.entry(at / PAGE).or_insert_with(|| Box::new([0; PAGE as usize]));
            page[lo..lo + n].copy_from_slice(&src[..n]);
            at += n as u64;
            src = &src[n..];
        }
    }

    /// Zeros from `lo` to `hi`, without a change of the size.
    fn zero(&mut self, lo: u64, hi: u64) {
        let edge = self.dense.len() as u64;
        if lo >= hi {
            return;
        }
        if lo < edge {
            if hi < edge {
                self.dense[lo as usize..hi as usize].fill(0);
            } else {
                self.dense.truncate(lo as usize);
            }
        }
        let Some(far) = &mut self.far else { return };
        let clear = |p: u64, d: &mut [u8; PAGE as usize]| {
            let (a, b) = (lo.max(p * PAGE), hi.min((p + 1) * PAGE));
            if a < b {
                d[(a - p * PAGE) as usize..(b - p * PAGE) as usize].fill(0);
            }
            b.saturating_sub(a) < PAGE
        };
        let (first, last) = (lo / PAGE, (hi - 1) / PAGE);
        if last - first < far.len() as u64 {
            for p in first..=last {
                if far.get_mut(&p).is_some_and(|d| !clear(p, d)) {
                    far.remove(&p);
                }
            }
        } else {
            far.retain(|p, d| clear(*p, d));
        }
        if far.is_empty() {
            self.far = None;
        }
    }

    fn set_len(&mut self, n: u64) {
        if n < self.size {
            self.zero(n, self.size.max(self.dense.len() as u64));
        }
        self.size = n;
    }

    /// Writes `src[lo..hi]` at `at`.
    fn write_from(&mut self, mut at: u64, src: &Bytes, lo: u64, hi: u64) {
        src.runs(lo, hi, |r| match r {
            Run::Data(d) => {
                self.write(at, d);
                at += d.len() as u64;
            }
            Run::Zeros(n) => {
                self.size = self.size.max(at + n);
                self.zero(at, at + n);
                at += n;
            }
        });
    }

    fn sum(&self) -> [u8; 32] {
        let mut h = Sha256::new();
        self.runs(0, self.size, |r| match r {
            Run::Data(d) => h.update(d),
            Run::Zeros(mut n) => {
                let z = [0; PAGE as usize];
                while n > 0 {
                    let m = n.min(PAGE);
                    h.update(&z[..m as usize]);
                    n -= m;
                }
            }
        });
        h.finish()
    }
}

// ---- SHA-256 -------------------------------------------------------------------------------

const K: [u32; 64] = [
    0x428a2f98, 0x71374491, 0xb5c0fbcf, 0xe9b5dba5, 0x3956c25b, 0x59f111f1, 0x923f82a4, 0xab1c5ed5,
    0xd807aa98, 0x12835b01, 0x243185be, 0x550c7dc3, 0x72be5d74, 0x80deb1fe, 0x9bdc06a7, 0xc19bf174,
    0xe49b69c1, 0xefbe4786, 0x0fc19dc6, 0x240ca1cc, 0x2de92c6f, 0x4a7484aa, 0x5cb0a9dc, 0x76f988da,
    0x983e5152, 0xa831c66d, 0xb00327c8, 0xbf597fc7, 0xc6e00bf3, 0xd5a79147, 0x06ca6351, 0x14292967,
    0x27b70a85, 0x2e1b2138, 0x4d2c6dfc, 0x53380d13, 0x650a7354, 0x766a0abb, 0x81c2c92e, 0x92722c85,
    0xa2bfe8a1, 0xa81a664b, 0xc24b8b70, 0xc76c51a3, 0xd192e819, 0xd6990624, 0xf40e3585, 0x106aa070,
    0x19a4c116, 0x1e376c08, 0x2748774c, 0x34b0bcb5, 0x391c0cb3, 0x4ed8aa4a, 0x5b9cca4f, 0x682e6ff3,
    0x748f82ee, 0x78a5636f, 0x84c87814, 0x8cc70208, 0x90befffa, 0xa4506ceb, 0xbef9a3f7, 0xc67178f2,
];

struct Sha256 {
    h: [u32; 8],
    block: [u8; 64],
    held: usize,
    total: u64,
}

impl Sha256 {
    fn new() -> Self {
        let h = [
            0x6a09e667, 0xbb67ae85, 0x3c6ef372, 0xa54ff53a, 0x510e527f, 0x9b05688c, 0x1f83d9ab, 0x5be0cd19,
        ];
        Sha256 { h, block: [0; 64], held: 0, total: 0 }
    }

    fn compress(h: &mut [u32; 8], block: &[u8; 64]) {
        let mut w = [0u32; 64];
        for (x, b) in w.iter_mut().zip(block.chunks_exact(4)) {
            *x = u32::from_be_bytes(b.try_into().unwrap());
        }
        for i in 16..64 {
            let (a, b) = (w[i - 15], w[i - 2]);
            let s0 = a.rotate_right(7) ^ a.rotate_right(18) ^ (a >> 3);
            let s1 = b.rotate_right(17) ^ b.rotate_right(19) ^ (b >> 10);
            w[i] = w[i - 16].wrapping_add(s0).wrapping_add(w[i - 7]).wrapping_add(s1);
        }
        let mut v = *h;
        for i in 0..64 {
            let [a, b, c, d, e, f, g, z] = v;
            let s1 = e.rotate_right(6) ^ e.rotate_right(11) ^ e.rotate_right(25);
            let t1 = z.wrapping_add(s1).wrapping_add((e & f) ^ (!e & g)).wrapping_add(K[i]).wrapping_add(w[i]);
            let s0 = a.rotate_right(2) ^ a.rotate_right(13) ^ a.rotate_right(22);
            let t2 = s0.wrapping_add((a & b) ^ (a & c) ^ (b & c));
            v = [t1.wrapping_add(t2), a, b, c, d.wrapping_add(t1), e, f, g];
        }
        for (x, y) in h.iter_mut().zip(v) {
            *x = x.wrapping_add(y);
        }
    }

    fn update(&mut self, mut d: &[u8]) {
        self.total += d.len() as u64;
        if self.held > 0 {
            let n = d.len().min(64 - self.held);
            self.block[self.held..self.held + n].copy_from_slice(&d[..n]);
            self.held += n;
            d = &d[n..];
            if self.held < 64 {
                return;
            }
            Self::compress(&mut self.h, &self.block);
            self.held = 0;
        }
        let mut blocks = d.chunks_exact(64);
        for b in &mut blocks {
            Self::compress(&mut self.h, b.try_into().unwrap());
        }
        let r = blocks.remainder();
        self.block[..r.len()].copy_from_slice(r);
        self.held = r.len();
    }

    fn finish(mut self) -> [u8; 32] {
        let bits = self.total * 8;
        self.update(&[0x80]);
        while self.held != 56 {
            self.update(&[0]);
        }
        self.update(&bits.to_be_bytes());
        let mut out = [0; 32];
        for (o, x) in out.chunks_exact_mut(4).zip(self.h) {
            o.copy_from_slice(&x.to_be_bytes());
        }
        out
    }
}

/// `put!(o, "text", number, ..)`: texts and numbers, one after the other.
macro_rules! put {
    ($o:expr $(, $t:literal, $n:expr)* $(; $e:literal)?) => {{
        $($o.extend_from_slice($t.as_bytes()); put_num($o, u64::from($n));)*
        $($o.extend_from_slice($e.as_bytes());)?
    }};
}

// ---- the world -----------------------------------------------------------------------------

struct Dir<'t> {
    number: u32,
    parent: u32,
    names: QuickMap<Name<'t>, u32>,
}

struct File {
    number: u32,
    bytes: Bytes,
}

/// Nodes and descriptions stand in the order in which they were made and carry their numbers.
enum Node<'t> {
    Dir(Dir<'t>),
    File(File),
}

struct Desc {
    number: u32,
    node: u32,
    pos: u64,
    access: u8,
    append: bool,
}

struct Buffer {
    addr: u64,
    bytes: Bytes,
}

/// A slot is 0 where it is empty, else one more than its description's place in `descs`.
struct Ring {
    slots: Vec<u32>,
    buffers: Vec<Buffer>,
}

struct World<'t> {
    nodes: Vec<Node<'t>>,
    descs: Vec<Desc>,
    table: Vec<u32>,
    /// No number of the table below this one is free.
    low: usize,
    rings: Vec<Ring>,
}

impl<'t> World<'t> {
    fn dir(&mut self, n: u32) -> &mut Dir<'t> {
        match &mut self.nodes[n as usize] {
            Node::Dir(d) => d,
            Node::File(_) => unreachable!("a directory"),
        }
    }
    fn dir_ref(&self, n: u32) -> &Dir<'t> {
        match &self.nodes[n as usize] {
            Node::Dir(d) => d,
            Node::File(_) => unreachable!("a directory"),
        }
    }
    fn file(&mut self, n: u32) -> Option<&mut Bytes> {
        match &mut self.nodes[n as usize] {
            Node::Dir(_) => None,
            Node::File(f) => Some(&mut f.bytes),
        }
    }
    fn is_dir(&self, n: u32) -> bool {
        matches!(self.nodes[n as usize], Node::Dir(_))
    }
    fn number(&self, n: u32) -> u32 {
        match &self.nodes[n as usize] {
            Node::Dir(d) => d.number,
            Node::File(f) => f.number,
        }
    }
    fn add_dir(&mut self, number: u32, parent: u32) -> u32 {
        self.nodes.push(Node::Dir(Dir { number, parent, names: QuickMap::default() }));
        self.nodes.len() as u32 - 1
    }
    fn add_file(&mut self, number: u32, bytes: Bytes) -> u32 {
        self.nodes.push(Node::File(File { number, bytes }));
        self.nodes.len() as u32 - 1
    }
    fn set_name(&mut self, parent: u32, name: Name<'t>, node: u32) {
        self.dir(parent).names.insert(name, node);
        if let Node::Dir(d) = &mut self.nodes[node as usize] {
            d.parent = parent;
        }
    }
    fn is_or_above(&self, top: u32, mut d: u32) -> bool {
        while d != top && d != 0 {
            d = self.dir_ref(d).parent;
        }
        d == top
    }

    fn walk(&self, dirfd: i32, path: &'t [u8]) -> Result<Place<'t>, i32> {
        if path[0] != b'/' && dirfd != -100 {
            return Err(EBADF);
        }
        let (mut parent, mut i) = (0, 0);
        loop {
            while path[i] == b'/' {
                i += 1;
            }
            let end = path[i..].iter().position(|&b| b == b'/').map_or(path.len(), |n| i + n);
            if end - i > 255 {
                return Err(ENAMETOOLONG);
            }
            let name = Name::new(&path[i..end]);
            let node = self.dir_ref(parent).names.get(&name).copied();
            if end == path.len() {
                return Ok(Place { parent, name, node });
            }
            parent = node.ok_or(ENOENT)?;
            if !self.is_dir(parent) {
                return Err(ENOTDIR);
            }
            i = end;
        }
    }

    /// Which of `descs` the entry's fd names.
    fn desc(&self, ring: usize, e: Sqe) -> Result<usize, i32> {
        let list = if e.flags() & FIXED_FILE != 0 { &self.rings[ring].slots } else { &self.table };
        match list.get(e.fd() as usize) {
            Some(&d) if d != 0 => Ok(d as usize - 1),
            _ => Err(EBADF),
        }
    }
}

struct Place<'t> {
    parent: u32,
    name: Name<'t>,
    node: Option<u32>,
}

// ---- reading -------------------------------------------------------------------------------

type Fault = (&'static str, usize);

const FILL: u8 = 1;
const HEAD: u8 = 2;
const LAST: u8 = 4;
const DOOMED: u8 = 8;
const POSTED: u8 = 16;

/// `at` is where the entry or the Fill's record begins; `errno` is the entry's own fault.
struct Step {
    at: u32,
    ring: u8,
    bits: u8,
    errno: u8,
}

/// The counts at the beginning of a trace.
struct Head {
    version: u32,
    items: u32,
    descriptions: u32,
    rings: usize,
    records: u64,
    table: u64,
}

struct In<'t> {
    b: &'t [u8],
    at: usize,
}

impl<'t> In<'t> {
    fn take(&mut self, n: usize) -> Result<&'t [u8], Fault> {
        if n > self.b.len() - self.at {
            return Err(("Short", self.b.len()));
        }
        self.at += n;
        Ok(&self.b[self.at - n..self.at])
    }
    fn num(&mut self, w: usize) -> Result<u64, Fault> {
        let mut t = [0; 8];
        t[..w].copy_from_slice(self.take(w)?);
        Ok(u64::from_le_bytes(t))
    }
    fn upto(&mut self, w: usize, hi: u64) -> Result<u64, Fault> {
        self.within(w, 0, hi, "Limit")
    }
    fn within(&mut self, w: usize, lo: u64, hi: u64, kind: &'static str) -> Result<u64, Fault> {
        let at = self.at;
        let v = self.num(w)?;
        if v < lo || v > hi { Err((kind, at)) } else { Ok(v) }
    }
}

fn path_ok(p: &[u8]) -> bool {
    (1..=4095).contains(&p.len())
        && p[0] == b'/'
        && p[1..].split(|&b| b == b'/').all(|c| {
            (1..=255).contains(&c.len()) && c != b"." && c != b".." && !c.contains(&0)
        })
}

/// The sum of a READV's or WRITEV's lengths; none where it is refused. Its count is at most 1,024.
fn vector_sum(side: &[u8], count: u32) -> Option<u64> {
    let mut sum = 0u64;
    for v in side[..8 * count as usize].chunks_exact(8) {
        let n = u64_at(v, 0);
        if n >= TOP || sum + n >= TOP {
            return None;
        }
        sum += n;
    }
    Some(sum)
}

fn fits(e: Sqe, side: &[u8]) -> bool {
    let n = side.len() as u64;
    match e.opcode() {
        READV | WRITEV => {
            if e.len() > 1024 {
                return n == 0;
            }
            let v = 8 * u64::from(e.len());
            if n < v || e.opcode() == READV {
                return n == v;
            }
            n == v + vector_sum(side, e.len()).map_or(0, |s| s.min(XFER))
        }
        WRITE => n == u64::from(e.len()).min(XFER),
        OPENAT | UNLINKAT | MKDIRAT => !side.contains(&0),
        RENAMEAT | LINKAT => n >= 2 && n >= 2 + u64::from(u16_at(side, 0)) && !side[2..].contains(&0),
        _ => n == 0,
    }
}

fn two_paths(side: &[u8]) -> (&[u8], &[u8]) {
    side[2..].split_at(u16_at(side, 0) as usize)
}

fn path_errno(p: &[u8]) -> i32 {
    if p.is_empty() {
        ENOENT
    } else if p.len() > 4095 {
        ENAMETOOLONG
    } else if p[p.len() - 1] == b'/' || p.split(|&b| b == b'/').any(|c| c == b"." || c == b"..") {
        EINVAL
    } else {
        0
    }
}

/// The errno of an entry by itself, or 0.
fn check(e: Sqe, side: &[u8], version: u32) -> i32 {
    let op = e.opcode();
    let known = matches!(op, NOP..=WRITE_FIXED | FALLOCATE..=CLOSE | READ | WRITE | RENAMEAT..=MKDIRAT | LINKAT | FTRUNCATE);
    if !known || e.flags() & BIT7 != 0 || e.personality() != 0 {
        return EINVAL;
    }
    if e.flags() & BUFFER_SELECT != 0 {
        return EOPNOTSUPP;
    }
    let fl = e.op_flags();
    if matches!(op, OPENAT | CLOSE | RENAMEAT..=MKDIRAT | LINKAT) && e.flags() & FIXED_FILE != 0 {
        return EBADF;
    }
    let bad = match op {
        READV | WRITEV | READ_FIXED | WRITE_FIXED | READ | WRITE => {
            if fl != 0 {
                return EOPNOTSUPP;
            }
            op <= WRITEV && (e.len() > 1024 || vector_sum(side, e.len()).is_none())
        }
        FSYNC => fl > 1,
        OPENAT => {
            fl & 3 == 3
                || fl & !O_ALL != 0
                || fl & O_CREAT != 0 && fl & O_DIRECTORY != 0
                || fl & O_CLOEXEC != 0 && e.file_index() != 0
                || e.file_index() == u32::MAX
        }
        CLOSE => e.file_index() != 0 && e.fd() != 0 || e.file_index() == u32::MAX,
        RENAMEAT => fl > version,
        LINKAT => fl != 0 && fl != 0x400,
        UNLINKAT => fl != 0 && fl != 0x200,
        _ => false,
    };
    if bad {
        return EINVAL;
    }
    match op {
        OPENAT | UNLINKAT | MKDIRAT => path_errno(side),
        RENAMEAT | LINKAT => {
            let (old, new) = two_paths(side);
            match path_errno(old) {
                0 => path_errno(new),
                e => e,
            }
        }
        _ => 0,
    }
}

fn side_at(text: &[u8], at: usize) -> &[u8] {
    let n = u32_at(text, at + 64) as usize;
    &text[at + 68..at + 68 + n]
}

/// Chains and doom of one Enter record's steps.
fn link(text: &[u8], steps: &mut [Step]) {
    let mut i = 0;
    while i < steps.len() {
        let mut j = i;
        while j + 1 < steps.len() && text[steps[j].at as usize + 1] & (IO_LINK | IO_HARDLINK) != 0 {
            j += 1;
        }
        let chain = &mut steps[i..=j];
        if chain.iter().any(|s| s.errno != 0) {
            let loud = if text[chain[0].at as usize + 1] & SKIP == 0 { POSTED } else { 0 };
            for s in &mut *chain {
                s.bits = DOOMED | loud;
                if s.errno == 0 {
                    s.errno = ECANCELED as u8;
                }
            }
            chain[0].bits |= POSTED;
        }
        chain[0].bits |= HEAD;
        chain[j - i].bits |= LAST;
        i = j + 1;
    }
}

fn read_head(text: &[u8]) -> Result<(In<'_>, Head), Fault> {
    if text.len() > MAX_TEXT {
        return Err(("Limit", MAX_TEXT));
    }
    let mut r = In { b: text, at: 0 };
    if r.take(8)? != b"URINGTRC" {
        return Err(("Magic", 0));
    }
    let version = r.within(4, 1, 2, "Version")? as u32;
    let items = r.upto(4, 65_535)? as u32;
    let descriptions = r.upto(4, 65_535)? as u32;
    let rings = r.upto(4, 64)? as usize;
    let records = r.upto(4, 1_048_576)?;
    let table = r.upto(4, if version == 1 { 0 } else { 1024 })?;
    Ok((r, Head { version, items, descriptions, rings, records, table }))
}

/// The tree of the items, and the node of each item.
fn read_items<'t>(r: &mut In<'t>, head: &Head, w: &mut World<'t>) -> Result<Vec<Option<u32>>, Fault> {
    w.add_dir(0, 0);
    let mut item_nodes: Vec<Option<u32>> = vec![Some(0)];
    for number in 1..=head.items {
        let kind = r.within(1, 1, 3, "Limit")?;
        let n = r.num(2)? as usize;
        let at = r.at;
        let path = r.take(n)?;
        if !path_ok(path) {
            return Err(("Path", at));
        }
        let place = w.walk(-100, path).map_err(|_| ("NoParent", at))?;
        if place.node.is_some() {
            return Err(("Exists", at));
        }
        let node = match kind {
            1 => w.add_dir(number, place.parent),
            2 => {
                let size = r.upto(8, MAX_FILE)?;
                let stored = r.upto(4, size)? as usize;
                let dense = dense_from(r.take(stored)?);
                w.add_file(number, Bytes { size, dense, far: None })
            }
            _ => {
                let at = r.at;
                let of = r.num(4)? as usize;
                match item_nodes.get(of) {
                    Some(&Some(n)) if !w.is_dir(n) => n,
                    _ => return Err(("Reference", at)),
                }
            }
        };
        w.set_name(place.parent, place.name, node);
        item_nodes.push(if kind == 3 { None } else { Some(node) });
    }
    Ok(item_nodes)
}

fn read_descriptions(r: &mut In, head: &Head, w: &mut World, item_nodes: &[Option<u32>]) -> Result<(), Fault> {
    for number in 0..head.descriptions {
        let at = r.at;
        let Some(&Some(node)) = item_nodes.get(r.num(4)? as usize) else {
            return Err(("Reference", at));
        };
        let access = r.upto(1, if w.is_dir(node) { 0 } else { 2 })? as u8;
        let append = r.upto(1, 1)? == 1;
        let pos = r.upto(8, TOP - 1)?;
        w.descs.push(Desc { number, node, pos, access, append });
    }
    for _ in 0..head.table {
        w.table.push(r.within(4, 0, head.descriptions.into(), "Reference")? as u32);
    }
    Ok(())
}

fn read_rings(r: &mut In, head: &Head, w: &mut World) -> Result<(), Fault> {
    for _ in 0..head.rings {
        let mut ring = Ring { slots: Vec::new(), buffers: Vec::new() };
        for _ in 0..r.upto(2, 1024)? {
            ring.slots.push(r.within(4, 0, head.descriptions.into(), "Reference")? as u32);
        }
        for _ in 0..r.upto(2, 1024)? {
            let addr_at = r.at;
            let addr = r.num(8)?;
            let at = r.at;
            let size = r.upto(4, 1 << 30)?;
            let end = addr.checked_add(size).ok_or(("Limit", at))?;
            let meets = |b: &Buffer| addr.max(b.addr) < end.min(b.addr + b.bytes.size);
            if ring.buffers.iter().any(meets) {
                return Err(("Overlap", addr_at));
            }
            ring.buffers.push(Buffer { addr, bytes: Bytes { size, ..Bytes::default() } });
        }
        w.rings.push(ring);
    }
    Ok(())
}

/// All that stands before the records. The world is never freed: the system takes the memory back faster than destructors would.
fn read_start(text: &[u8]) -> Result<(In<'_>, Head, &mut World<'_>), Fault> {
    let (mut r, head) = read_head(text)?;
    let w = World { nodes: Vec::new(), descs: Vec::new(), table: Vec::new(), low: 0, rings: Vec::new() };
    let w = Box::leak(Box::new(w));
    let item_nodes = read_items(&mut r, &head, w)?;
    read_descriptions(&mut r, &head, w, &item_nodes)?;
    read_rings(&mut r, &head, w)?;
    Ok((r, head, w))
}

/// Puts the steps of a record behind those that are there; `places` is how many places come before it.
fn read_record(r: &mut In, head: &Head, w: &World, places: usize, steps: &mut Vec<Step>) -> Result<(), Fault> {
    let record = r.at;
    let kind = r.within(1, 1, 2, "Limit")?;
    if kind == 2 && places + 1 > MAX_PLACES {
        return Err(("Limit", record));
    }
    let at = r.at;
    let ring = r.num(1)? as u8;
    let buffers = &w.rings.get(usize::from(ring)).ok_or(("Reference", at))?.buffers;
    if kind == 1 {
        let first = steps.len();
        read_entries(r, head, places, ring, steps)?;
        link(r.b, &mut steps[first..]);
    } else {
        read_fill(r, buffers)?;
        steps.push(Step { at: record as u32, ring, bits: FILL, errno: 0 });
    }
    Ok(())
}

fn read_entries(r: &mut In, head: &Head, places: usize, ring: u8, steps: &mut Vec<Step>) -> Result<(), Fault> {
    let at = r.at;
    let count = r.upto(2, 32_768)? as usize;
    if places + count > MAX_PLACES {
        return Err(("Limit", at));
    }
    for _ in 0..count {
        let at = r.at;
        let n = u32_at(r.take(68)?, 64) as usize;
        let e = Sqe::at(r.b, at);
        let side = r.take(n)?;
        if !fits(e, side) {
            return Err(("Side", at + 64));
        }
        steps.push(Step { at: at as u32, ring, bits: 0, errno: check(e, side, head.version) as u8 });
    }
    Ok(())
}

fn read_fill(r: &mut In, buffers: &[Buffer]) -> Result<(), Fault> {
    let at = r.at;
    let buffer = r.num(2)? as usize;
    let size = buffers.get(buffer).ok_or(("Reference", at))?.bytes.size;
    let at = r.at;
    let offset = r.num(4)?;
    let n = r.num(4)?;
    if offset + n > size {
        return Err(("Reference", at));
    }
    r.take(n as usize)?;
    Ok(())
}

fn read_end(r: &In) -> Result<(), Fault> {
    if r.at == r.b.len() { Ok(()) } else { Err(("Trailing", r.at)) }
}

// ---- meaning -------------------------------------------------------------------------------

/// A result, how many bytes of it are shown, and whether it counts as a failure.
type Outcome = Result<(i32, u8, bool), i32>;

fn done(res: i32) -> Outcome {
    Ok((res, 0, false))
}

fn transfer<'t>(w: &mut World<'t>, e: Sqe<'t>, side: &'t [u8], ring: usize, out: &mut Replies) -> Outcome {
    let op = e.opcode();
    let reading = matches!(op, READV | READ_FIXED | READ);
    let d = w.desc(ring, e)?;
    let World { nodes, descs, rings, .. } = w;
    let desc = &mut descs[d];
    if desc.access == if reading { 1 } else { 0 } {
        return Err(EBADF);
    }
    let Node::File(File { bytes: file, .. }) = &mut nodes[desc.node as usize] else {
        return Err(EISDIR);
    };
    let len = u64::from(e.len());
    let mut buffer = None;
    if matches!(op, READ_FIXED | WRITE_FIXED) {
        let b = rings[ring].buffers.get_mut(e.buf_index()).filter(|b| b.bytes.size > 0).ok_or(EFAULT)?;
        let lo = e.addr().checked_sub(b.addr).ok_or(EFAULT)?;
        if lo > b.bytes.size || len > b.bytes.size - lo {
            return Err(EFAULT);
        }
        buffer = Some((&mut b.bytes, lo));
    }
    let off = e.off();
    if (TOP..u64::MAX).contains(&off) {
        return Err(EINVAL);
    }
    let sum = if op <= WRITEV { vector_sum(side, e.len()).unwrap_or(0) } else { len };
    let asked = sum.min(XFER);
    if asked == 0 {
        return done(0);
    }
    let mut at = if off == u64::MAX { desc.pos } else { off };
    let moved;
    let mut shown = 0;
    if reading {
        moved = asked.min(file.size.saturating_sub(at));
        if moved > 0 {
            match buffer {
                Some((b, lo)) => b.write_from(lo, file, at, at + moved),
                None => shown = out.read(file, at, moved),
            }
        }
    } else {
        if desc.append {
            at = file.size;
        }
        if at >= MAX_FILE {
            return Err(EFBIG);
        }
        moved = asked.min(MAX_FILE - at);
        match buffer {
            Some((b, lo)) => file.write_from(at, b, lo, lo + moved),
            None => {
                let data = if op == WRITE { side } else { &side[8 * e.len() as usize..] };
                file.write(at, &data[..moved as usize]);
            }
        }
    }
    if off == u64::MAX {
        desc.pos = at + moved;
    }
    Ok((moved as i32, shown, moved != asked))
}

fn fallocate(w: &mut World, e: Sqe, ring: usize) -> Outcome {
    let d = w.desc(ring, e)?;
    let (off, len, mode) = (e.off(), e.addr(), e.len());
    if off >= TOP || len == 0 || len >= TOP {
        return Err(EINVAL);
    }
    if !matches!(mode, 0 | 1 | 3 | 0x10 | 0x11) {
        return Err(EOPNOTSUPP);
    }
    let Desc { access, node, .. } = w.descs[d];
    if access == 0 {
        return Err(EBADF);
    }
    let end = off + len;
    if end > MAX_FILE {
        return Err(EFBIG);
    }
    let file = w.file(node).ok_or(EBADF)?;
    if matches!(mode, 0 | 0x10) && end > file.size {
        file.size = end;
    }
    if matches!(mode, 3 | 0x10 | 0x11) {
        file.zero(off.min(file.size), end.min(file.size));
    }
    done(0)
}

fn ftruncate(w: &mut World, e: Sqe, ring: usize) -> Outcome {
    let d = w.desc(ring, e)?;
    if e.off() >= TOP {
        return Err(EINVAL);
    }
    let Desc { access, node, .. } = w.descs[d];
    if access == 0 {
        return Err(EINVAL);
    }
    if e.off() > MAX_FILE {
        return Err(EFBIG);
    }
    w.file(node).ok_or(EINVAL)?.set_len(e.off());
    done(0)
}

fn openat<'t>(head: &Head, w: &mut World<'t>, k: u32, e: Sqe<'t>, path: &'t [u8], ring: usize) -> Outcome {
    let fl = e.op_flags();
    let index = e.file_index() as usize;
    if index == 0 {
        while w.low < w.table.len() && w.table[w.low] != 0 {
            w.low += 1;
        }
        if head.version == 1 || w.low == w.table.len() {
            return Err(EMFILE);
        }
    } else if index > w.rings[ring].slots.len() {
        return Err(EINVAL);
    }
    let p = w.walk(e.fd(), path)?;
    let node = match p.node {
        Some(_) if fl & O_CREAT != 0 && fl & O_EXCL != 0 => return Err(EEXIST),
        Some(n) => {
            match w.file(n) {
                None if fl & (O_CREAT | O_TRUNC | 3) != 0 => return Err(EISDIR),
                None => {}
                Some(_) if fl & O_DIRECTORY != 0 => return Err(ENOTDIR),
                Some(f) => {
                    if fl & O_TRUNC != 0 {
                        f.set_len(0);
                    }
                }
            }
            n
        }
        None if fl & O_CREAT == 0 => return Err(ENOENT),
        None => {
            let n = w.add_file(head.items + 1 + k, Bytes::default());
            w.set_name(p.parent, p.name, n);
            n
        }
    };
    let (access, append) = ((fl & 3) as u8, fl & O_APPEND != 0);
    w.descs.push(Desc { number: head.descriptions + k, node, pos: 0, access, append });
    let d = w.descs.len() as u32;
    if index == 0 {
        w.table[w.low] = d;
        return done(w.low as i32);
    }
    w.rings[ring].slots[index - 1] = d;
    done(0)
}

fn close(w: &mut World, e: Sqe, ring: usize) -> Outcome {
    if e.file_index() == 0 {
        let n = e.fd() as usize;
        let d = w.table.get_mut(n).filter(|d| **d != 0).ok_or(EBADF)?;
        *d = 0;
        w.low = w.low.min(n);
        return done(0);
    }
    let d = w.rings[ring].slots.get_mut(e.file_index() as usize - 1).ok_or(EINVAL)?;
    if std::mem::take(d) == 0 { Err(EBADF) } else { done(0) }
}

fn unlinkat<'t>(w: &mut World<'t>, e: Sqe<'t>, path: &'t [u8]) -> Outcome {
    let p = w.walk(e.fd(), path)?;
    let n = p.node.ok_or(ENOENT)?;
    match (&w.nodes[n as usize], e.op_flags()) {
        (Node::Dir(_), 0) => return Err(EISDIR),
        (Node::File(_), 0) => {}
        (Node::File(_), _) => return Err(ENOTDIR),
        (Node::Dir(d), _) if !d.names.is_empty() => return Err(ENOTEMPTY),
        _ => {}
    }
    w.dir(p.parent).names.remove(&p.name);
    done(0)
}

fn mkdirat<'t>(head: &Head, w: &mut World<'t>, k: u32, e: Sqe<'t>, path: &'t [u8]) -> Outcome {
    let p = w.walk(e.fd(), path)?;
    if p.node.is_some() {
        return Err(EEXIST);
    }
    let n = w.add_dir(head.items + 1 + k, p.parent);
    w.set_name(p.parent, p.name, n);
    done(0)
}

fn linkat<'t>(w: &mut World<'t>, e: Sqe<'t>, side: &'t [u8]) -> Outcome {
    let (old, new) = two_paths(side);
    let a = w.walk(e.fd(), old)?;
    let b = w.walk(e.len() as i32, new)?;
    let n = a.node.ok_or(ENOENT)?;
    if b.node.is_some() {
        return Err(EEXIST);
    }
    if w.is_dir(n) {
        return Err(EPERM);
    }
    w.set_name(b.parent, b.name, n);
    done(0)
}

fn renameat<'t>(w: &mut World<'t>, e: Sqe<'t>, side: &'t [u8]) -> Outcome {
    let (old, new) = two_paths(side);
    let a = w.walk(e.fd(), old)?;
    let b = w.walk(e.len() as i32, new)?;
    let o = a.node.ok_or(ENOENT)?;
    let above = |w: &World, n: u32, d: u32| w.is_dir(n) && w.is_or_above(n, d);
    if e.op_flags() == 2 {
        let n = b.node.ok_or(ENOENT)?;
        if above(w, o, b.parent) || above(w, n, a.parent) {
            return Err(EINVAL);
        }
        if o != n {
            w.set_name(a.parent, a.name, n);
            w.set_name(b.parent, b.name, o);
        }
        return done(0);
    }
    if e.op_flags() == 1 && b.node.is_some() {
        return Err(EEXIST);
    }
    if above(w, o, b.parent) {
        return Err(EINVAL);
    }
    if let Some(n) = b.node {
        if n == o {
            return done(0);
        }
        match (&w.nodes[o as usize], &w.nodes[n as usize]) {
            (Node::Dir(_), Node::File(_)) => return Err(ENOTDIR),
            (Node::File(_), Node::Dir(_)) => return Err(EISDIR),
            (Node::Dir(_), Node::Dir(d)) if !d.names.is_empty() => return Err(ENOTEMPTY),
            _ => {}
        }
    }
    w.dir(a.parent).names.remove(&a.name);
    w.set_name(b.parent, b.name, o);
    done(0)
}

/// What the entry at a place answers. `shown` is how many bytes of data the report shows; 33 says 32 and more.
struct Reply {
    user_data: u64,
    res: i32,
    shown: u8,
    posted: bool,
}

/// What an entry does where its chain runs.
fn perform<'t>(head: &Head, w: &mut World<'t>, k: u32, text: &'t [u8], s: &Step, out: &mut Replies) -> Outcome {
    let e = Sqe::at(text, s.at as usize);
    let side = side_at(text, s.at as usize);
    let ring = usize::from(s.ring);
    match e.opcode() {
        READV | WRITEV | READ_FIXED | WRITE_FIXED | READ | WRITE => transfer(w, e, side, ring, out),
        FSYNC => w.desc(ring, e).and(done(0)),
        FALLOCATE => fallocate(w, e, ring),
        FTRUNCATE => ftruncate(w, e, ring),
        OPENAT => openat(head, w, k, e, side, ring),
        CLOSE => close(w, e, ring),
        UNLINKAT => unlinkat(w, e, side),
        MKDIRAT => mkdirat(head, w, k, e, side),
        LINKAT => linkat(w, e, side),
        RENAMEAT => renameat(w, e, side),
        _ => done(0),
    }
}

/// A Fill's bytes go into its buffer.
fn fill(w: &mut World, text: &[u8], s: &Step) {
    let at = s.at as usize;
    let buffer = &mut w.rings[usize::from(s.ring)].buffers[u16_at(text, at + 2) as usize];
    let n = u32_at(text, at + 8) as usize;
    buffer.bytes.write(u32_at(text, at + 4).into(), &text[at + 12..at + 12 + n]);
}

/// Runs whole records, of which the first step has the place `first`.
fn replay<'t>(head: &Head, w: &mut World<'t>, text: &'t [u8], steps: &[Step], first: usize, out: &mut Replies) {
    // None: the chain runs; else whether what it cancels is posted
    let mut broken: Option<bool> = None;
    for (i, s) in steps.iter().enumerate() {
        let k = (first + i) as u32;
        if s.bits & FILL != 0 {
            fill(w, text, s);
            continue;
        }
        if s.bits & HEAD != 0 {
            broken = None;
        }
        let e = Sqe::at(text, s.at as usize);
        let user_data = e.user_data();
        if s.bits & DOOMED != 0 {
            let (res, posted) = (-i32::from(s.errno), s.bits & POSTED != 0);
            out.reply(k, Reply { user_data, res, shown: 0, posted });
            continue;
        }
        if let Some(posted) = broken {
            out.reply(k, Reply { user_data, res: -ECANCELED, shown: 0, posted });
            continue;
        }
        let (res, shown, failed) = perform(head, w, k, text, s, out).unwrap_or_else(|errno| (-errno, 0, true));
        let loud = e.flags() & SKIP == 0;
        if failed && e.flags() & IO_HARDLINK == 0 && s.bits & LAST == 0 {
            broken = Some(loud);
        }
        out.reply(k, Reply { user_data, res, shown, posted: loud || failed });
    }
}

// ---- the report ----------------------------------------------------------------------------

const HEX: [[u8; 2]; 256] = {
    let (digits, mut h, mut i) = (b"0123456789abcdef", [[0; 2]; 256], 0);
    while i < 256 {
        h[i] = [digits[i / 16], digits[i % 16]];
        i += 1;
    }
    h
};

fn put_hex(o: &mut Vec<u8>, b: &[u8]) {
    let mut t = [0; 64];
    for c in b.chunks(32) {
        for (y, x) in t.chunks_exact_mut(2).zip(c) {
            y.copy_from_slice(&HEX[usize::from(*x)]);
        }
        o.extend_from_slice(&t[..2 * c.len()]);
    }
}

const PAIRS: [[u8; 2]; 100] = {
    let mut p = [[0; 2]; 100];
    let mut i = 0;
    while i < 100 {
        p[i] = [b'0' + (i / 10) as u8, b'0' + (i % 10) as u8];
        i += 1;
    }
    p
};

fn put_num(o: &mut Vec<u8>, mut n: u64) {
    let mut t = [0; 20];
    let mut i = 20;
    while n >= 100 {
        i -= 2;
        t[i..i + 2].copy_from_slice(&PAIRS[(n % 100) as usize]);
        n /= 100;
    }
    i -= 2;
    t[i..i + 2].copy_from_slice(&PAIRS[n as usize]);
    o.extend_from_slice(&t[i + usize::from(n < 10)..]);
}

/// The order of full paths: of names, each perhaps with the slash that a directory's content has.
fn before(a: (&[u8], bool), b: (&[u8], bool)) -> Ordering {
    let n = a.0.len().min(b.0.len());
    let next = |x: (&[u8], bool)| x.0.get(n).map_or(if x.1 { i32::from(b'/') } else { -1 }, |&c| c.into());
    a.0[..n].cmp(&b.0[..n]).then_with(|| next(a).cmp(&next(b)))
}

/// A directory's names and, as lines of their own, its directories' contents; the last comes first.
fn lines(w: &World, d: u32) -> Vec<(Vec<u8>, bool, u32)> {
    let names = &w.dir_ref(d).names;
    let mut l = Vec::with_capacity(names.len());
    for (name, &n) in names {
        let name = name.bytes();
        if matches!(&w.nodes[n as usize], Node::Dir(d) if !d.names.is_empty()) {
            l.push((name.clone(), true, n));
        }
        l.push((name, false, n));
    }
    l.sort_unstable_by(|a, b| before((&b.0, b.1), (&a.0, a.1)));
    l
}

fn put_tree(o: &mut Vec<u8>, w: &World, sums: bool) {
    let mut path = Vec::new();
    let mut todo = vec![(0, lines(w, 0))];
    while let Some((prefix, list)) = todo.last_mut() {
        path.truncate(*prefix);
        let Some((name, inside, n)) = list.pop() else {
            todo.pop();
            continue;
        };
        path.push(b'/');
        for b in name {
            if (0x21..=0x7e).contains(&b) && b != b'\\' {
                path.push(b);
            } else {
                path.extend_from_slice(b"\\x");
                put_hex(&mut path, &[b]);
            }
        }
        if inside {
            let list = lines(w, n);
            todo.push((path.len(), list));
            continue;
        }
        match &w.nodes[n as usize] {
            Node::Dir(_) => {
                o.extend_from_slice(b"dir ");
                o.extend_from_slice(&path);
            }
            Node::File(f) => {
                o.extend_from_slice(b"file ");
                o.extend_from_slice(&path);
                put!(o, " node=", f.number, " size=", f.bytes.size);
                if sums {
                    o.extend_from_slice(b" sum=");
                    if f.bytes.size > 16_777_216 {
                        o.extend_from_slice(b"large");
                    } else {
                        put_hex(o, &f.bytes.sum());
                    }
                }
            }
        }
        o.push(b'\n');
    }
}

/// What a report says behind the replies.
fn put_state(o: &mut Vec<u8>, w: &World, sums: bool) {
    o.extend_from_slice(b"tree\n");
    put_tree(o, w, sums);
    o.extend_from_slice(b"slots\n");
    let full = |o: &mut Vec<u8>, d: u32| {
        let d = &w.descs[d as usize - 1];
        put!(o, " desc=", d.number, " node=", w.number(d.node), " pos=", d.pos; "\n");
    };
    for (r, ring) in w.rings.iter().enumerate() {
        for (s, &d) in ring.slots.iter().enumerate().filter(|x| *x.1 != 0) {
            put!(o, "slot ", r as u64, " ", s as u64);
            full(o, d);
        }
    }
    for (n, &d) in w.table.iter().enumerate().filter(|x| *x.1 != 0) {
        put!(o, "descriptor ", n as u64);
        full(o, d);
    }
    o.extend_from_slice(b"buffers\n");
    for (r, ring) in w.rings.iter().enumerate() {
        for (b, buffer) in ring.buffers.iter().enumerate().filter(|x| x.1.bytes.size > 0) {
            put!(o, "buffer ", r as u64, " ", b as u64, " len=", buffer.bytes.size);
            if sums {
                o.extend_from_slice(b" sum=");
                put_hex(o, &buffer.bytes.sum());
            }
            o.push(b'\n');
        }
    }
    o.extend_from_slice(b"end\n");
}

// ---- the program ---------------------------------------------------------------------------

const HELP: &str = "usage: replayer serial [--sums] | check    (the trace on standard input)";

#[derive(Clone, Copy)]
enum Mode {
    Check,
    Serial { sums: bool },
}

fn mode_of(words: &[&str]) -> Option<Mode> {
    match words {
        ["check"] => Some(Mode::Check),
        ["serial"] => Some(Mode::Serial { sums: false }),
        ["serial", "--sums"] => Some(Mode::Serial { sums: true }),
        _ => None,
    }
}

fn accepted(places: usize, w: &World) -> Vec<Vec<u8>> {
    vec![format!("ok {places} places {} rings\n", w.rings.len()).into_bytes()]
}

fn main() -> ExitCode {
    let words: Vec<String> = std::env::args_os().skip(1).map(|w| w.to_string_lossy().into_owned()).collect();
    let words: Vec<&str> = words.iter().map(String::as_str).collect();
    let Some(mode) = mode_of(&words) else {
        eprintln!("{HELP}");
        return ExitCode::from(2);
    };
    let Ok(text) = read_all() else {
        eprintln!("fault: read");
        return ExitCode::from(3);
    };
    let parts = match answer(text, mode) {
        Ok(parts) => parts,
        Err((kind, at)) => {
            eprintln!("trace refused: {kind} at {at}");
            return ExitCode::from(1);
        }
    };
    let written = write_all(&parts);
    if written.is_err() {
        eprintln!("fault: write");
    }
    // the system takes the memory back faster than the destructors would
    std::process::exit(if written.is_ok() { 0 } else { 3 })
}
