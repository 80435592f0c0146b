//! A replayer of recorded io_uring submissions without contracts or proofs that spares no effort for speed: how quick such a
//! program can be. std only, one thread, x86-64 Linux:
//!
//!     rustc -O -C target-cpu=x86-64-v2 better_replayer.rs
//!     better_replayer serial [--sums] | check    < TRACE
//!
//! It prints what `plain_replayer.rs` prints.
//!
//! How: the trace lies in memory of huge pages. Each record is read, checked, run and reported while it is in the cache, and a
//! reply becomes a line of its ring's text at once. The bytes of a file stay in the trace, and are written there. A READ copies
//! the 32 bytes that a report shows.
//!
//! What it does not do:
//!
//! - A READ does not copy the bytes that no report shows, so it keeps no reply that a comparison could look at.
//! - It does not check a trace as a whole first: a refused one has been run up to its fault.
//! - It has no rounds and no threads.
//! - It does not keep to Rust's rules on references: a file's bytes are written in the trace while a shared reference to the
//!   trace lives. These bytes are read by way of the file alone.
//! - It does not check bounds where it writes a line: room for the longest line is made for each entry.
//! - It does not answer out of memory: it aborts.

use std::arch::x86_64::{__m128i, _mm_and_si128, _mm_loadu_si128, _mm_set1_epi8, _mm_shuffle_epi8};
use std::arch::x86_64::{_mm_srli_epi16, _mm_storeu_si128, _mm_unpackhi_epi8, _mm_unpacklo_epi8};
use std::fs::File as Handle;
use std::io::{IoSlice, Read, Write};
use std::mem::ManuallyDrop;
use std::ops::{Deref, DerefMut};
use std::os::fd::AsFd;
use std::ptr::{NonNull, null_mut};

include!("replayer.rs");

// ---- bytes that lie in the trace -----------------------------------------------------------

/// Bytes that lie in the trace, where they may be written, or in a vector.
struct Dense {
    start: NonNull<u8>,
    len: usize,
    /// Of the vector; 0 where they lie in the trace.
    capacity: usize,
}

impl Default for Dense {
    fn default() -> Self {
        Dense { start: NonNull::dangling(), len: 0, capacity: 0 }
    }
}

fn dense_from(b: &[u8]) -> Dense {
    Dense { start: NonNull::from(b).cast(), len: b.len(), capacity: 0 }
}

impl Dense {
    /// Changes them as a vector, which they are from then on.
    fn as_vector(&mut self, change: impl FnOnce(&mut Vec<u8>)) {
        let mut v = if self.capacity > 0 {
            // SAFETY: these are the parts of the vector below, which was not dropped.
            unsafe { Vec::from_raw_parts(self.start.as_ptr(), self.len, self.capacity) }
        } else {
            let mut v = Vec::with_capacity(2 * self.len + PAGE as usize);
            v.extend_from_slice(self);
            v
        };
        change(&mut v);
        let mut v = ManuallyDrop::new(v);
        *self = Dense { start: NonNull::from(v.as_mut_slice()).cast(), len: v.len(), capacity: v.capacity() };
    }
    fn resize(&mut self, n: usize, b: u8) {
        self.as_vector(|v| v.resize(n, b));
    }
    fn extend_from_slice(&mut self, x: &[u8]) {
        self.as_vector(|v| v.extend_from_slice(x));
    }
    fn truncate(&mut self, n: usize) {
        self.len = self.len.min(n);
    }
}

impl Deref for Dense {
    type Target = [u8];
    fn deref(&self) -> &[u8] {
        // SAFETY: so many bytes of the trace or of the vector begin there.
        unsafe { std::slice::from_raw_parts(self.start.as_ptr(), self.len) }
    }
}

impl DerefMut for Dense {
    fn deref_mut(&mut self) -> &mut [u8] {
        // SAFETY: as above; see the head of this file on the trace.
        unsafe { std::slice::from_raw_parts_mut(self.start.as_ptr(), self.len) }
    }
}

// ---- lines ---------------------------------------------------------------------------------

/// No line of a reply is longer, with the bytes behind it that storing 16 at a time touches.
const LINE: usize = 160;
const SHOWN: usize = 32;

/// Where lines go: the text of one ring. `head` has the bytes that the last READ shows.
struct Replies<'o> {
    head: [u8; SHOWN],
    text: &'o mut Vec<u8>,
}

impl Replies<'_> {
    fn read(&mut self, src: &Bytes, lo: u64, n: u64) -> u8 {
        let m = n.min(SHOWN as u64) as usize;
        if lo + m as u64 <= src.dense.len() as u64 {
            self.head[..m].copy_from_slice(&src.dense[lo as usize..lo as usize + m]);
        } else {
            self.read_behind(src, lo, m as u64);
        }
        n.min(33) as u8
    }

    fn read_behind(&mut self, src: &Bytes, lo: u64, m: u64) {
        let mut at = 0;
        src.runs(lo, lo + m, |r| match r {
            Run::Data(d) => {
                self.head[at..at + d.len()].copy_from_slice(d);
                at += d.len();
            }
            Run::Zeros(n) => {
                self.head[at..at + n as usize].fill(0);
                at += n as usize;
            }
        });
    }

    /// A line, straight into room that is there: `answer` makes `LINE` bytes for each entry of a record.
    #[inline(always)]
    fn reply(&mut self, k: u32, reply: Reply) {
        let Reply { user_data, res, shown, posted } = reply;
        debug_assert!(self.text.capacity() - self.text.len() >= LINE);
        // SAFETY: the longest line has 128 bytes, and no store goes more than 16 beyond it.
        unsafe {
            let start = self.text.as_mut_ptr();
            let mut p = start.add(self.text.len());
            p = number(p, k.into());
            p.cast::<[u8; 8]>().write(*b" user=  ");
            p = number(p.add(6), user_data);
            p.cast::<[u8; 8]>().write(*b" res=-  ");
            p = number(p.add(5 + usize::from(res < 0)), res.unsigned_abs().into());
            p.cast::<[u8; 8]>().write(if posted { *b" posted " } else { *b" silent " });
            p = p.add(7);
            if shown > 0 {
                p = data(p, &self.head, usize::from(shown));
            }
            *p = b'\n';
            self.text.set_len(p.offset_from(start) as usize + 1);
        }
    }
}

/// ` data=` and the hexadecimal digits of what is shown; returns the end.
///
/// # Safety
///
/// 71 bytes from `p` on may be written.
#[inline(always)]
unsafe fn data(mut p: *mut u8, head: &[u8; SHOWN], shown: usize) -> *mut u8 {
    unsafe {
        p.cast::<[u8; 6]>().write(*b" data=");
        p = p.add(6);
        let digits = _mm_loadu_si128(b"0123456789abcdef".as_ptr().cast());
        let low_bits = _mm_set1_epi8(15);
        for i in 0..2 {
            let bytes = _mm_loadu_si128(head.as_ptr().add(16 * i).cast());
            let high = _mm_shuffle_epi8(digits, _mm_and_si128(_mm_srli_epi16(bytes, 4), low_bits));
            let low = _mm_shuffle_epi8(digits, _mm_and_si128(bytes, low_bits));
            let to = p.add(32 * i).cast::<__m128i>();
            _mm_storeu_si128(to, _mm_unpacklo_epi8(high, low));
            _mm_storeu_si128(to.add(1), _mm_unpackhi_epi8(high, low));
        }
        p = p.add(2 * shown.min(SHOWN));
        if shown > SHOWN {
            *p = b'+';
            p = p.add(1);
        }
        p
    }
}

/// A number in decimal digits; returns the end.
///
/// # Safety
///
/// 20 bytes from `p` on may be written.
#[inline(always)]
unsafe fn number(p: *mut u8, n: u64) -> *mut u8 {
    unsafe {
        if n < 10 {
            *p = b'0' + n as u8;
            return p.add(1);
        }
        let len = digits_of(n);
        let (mut at, mut n) = (len, n);
        while n >= 100 {
            at -= 2;
            p.add(at).cast::<[u8; 2]>().write(PAIRS[(n % 100) as usize]);
            n /= 100;
        }
        if n >= 10 {
            p.cast::<[u8; 2]>().write(PAIRS[n as usize]);
        } else {
            *p = b'0' + n as u8;
        }
        p.add(len)
    }
}

/// How many digits a number of two or more has.
#[inline(always)]
fn digits_of(n: u64) -> usize {
    let (mut len, mut limit) = (2, 100_u64);
    while len < 19 && n >= limit {
        len += 1;
        limit = limit.wrapping_mul(10);
    }
    if n >= 10_000_000_000_000_000_000 { 20 } else { len }
}

// ---- record by record ----------------------------------------------------------------------

fn answer(text: &[u8], mode: Mode) -> Result<Vec<Vec<u8>>, Fault> {
    let (mut r, head, w) = read_start(text)?;
    let mut steps: Vec<Step> = Vec::with_capacity(32_768);
    let mut places = 0;
    let mut lines = match mode {
        Mode::Check => Vec::new(),
        Mode::Serial { .. } => rooms(text.len(), head.rings),
    };
    for _ in 0..head.records {
        steps.clear();
        read_record(&mut r, &head, w, places, &mut steps)?;
        if let (Mode::Serial { .. }, Some(step)) = (mode, steps.first()) {
            let text_of_ring = &mut lines[usize::from(step.ring)];
            text_of_ring.reserve(LINE * steps.len());
            let mut replies = Replies { head: [0; SHOWN], text: text_of_ring };
            replay(&head, w, text, &steps, places, &mut replies);
        }
        places += steps.len();
    }
    read_end(&r)?;
    let Mode::Serial { sums } = mode else {
        return Ok(accepted(places, w));
    };
    lines.insert(0, b"uring-report 1\n".to_vec());
    let mut state = Vec::new();
    put_state(&mut state, w, sums);
    lines.push(state);
    Ok(lines)
}

/// The text of each ring, with room for what it will about need.
fn rooms(length: usize, rings: usize) -> Vec<Vec<u8>> {
    let each = (length / 2 / rings.max(1)).min(1 << 26) + 64;
    let text = |ring: usize| {
        let mut o = Vec::with_capacity(each);
        put!(&mut o, "ring ", ring as u64; "\n");
        o
    };
    (0..rings).map(text).collect()
}

// ---- the system ----------------------------------------------------------------------------

unsafe extern "C" {
    fn mmap(address: *mut u8, length: usize, protection: i32, flags: i32, fd: i32, offset: i64) -> *mut u8;
    fn madvise(address: *mut u8, length: usize, advice: i32) -> i32;
}

const PROT_READ_WRITE: i32 = 1 | 2;
const MAP_PRIVATE_ANONYMOUS_NORESERVE: i32 = 2 | 0x20 | 0x4000;
const MADV_HUGEPAGE: i32 = 14;
const HUGE: usize = 2 << 20;

/// Zeros that begin at a huge page, and are huge pages where the system gives them.
fn huge_zeros(length: usize) -> std::io::Result<&'static mut [u8]> {
    let room = length.next_multiple_of(HUGE) + HUGE;
    // SAFETY: a new mapping, never unmapped; the slice lies in it.
    unsafe {
        let start = mmap(null_mut(), room, PROT_READ_WRITE, MAP_PRIVATE_ANONYMOUS_NORESERVE, -1, 0);
        if start as isize == -1 {
            return Err(std::io::Error::last_os_error());
        }
        let aligned = start.add(start.align_offset(HUGE));
        madvise(aligned, room - HUGE, MADV_HUGEPAGE);
        Ok(std::slice::from_raw_parts_mut(aligned, length))
    }
}

fn read_all() -> std::io::Result<&'static [u8]> {
    let mut input = Handle::from(std::io::stdin().as_fd().try_clone_to_owned()?);
    let about = input.metadata()?;
    let most = if about.is_file() { about.len() as usize } else { MAX_TEXT };
    let all = huge_zeros(most.min(MAX_TEXT) + 1)?;
    let mut n = 0;
    loop {
        let end = (n + (1 << 20)).min(all.len());
        match input.read(&mut all[n..end])? {
            0 => return Ok(&all[..n]),
            m => n += m,
        }
    }
}

fn write_all(parts: &[Vec<u8>]) -> std::io::Result<()> {
    let mut output = Handle::from(std::io::stdout().as_fd().try_clone_to_owned()?);
    let mut slices: Vec<IoSlice> = parts.iter().map(|part| IoSlice::new(part)).collect();
    let mut left = &mut slices[..];
    while !left.is_empty() {
        let n = output.write_vectored(left)?;
        IoSlice::advance_slices(&mut left, n);
    }
    Ok(())
}
