//! The view of all pieces of one rank, made in one sweep over the pieces by first call.
//!
//! Sorted by first place, all that earlier pieces cover at or past the start of the next piece is one gapless
//! stretch up to the greatest end so far. So each piece is compared with the piece that first gave the cell
//! (which decides: a place is a Contradiction just where some fact differs from the first one), and what it
//! has past that end becomes a new run. Records are never copied.

use crate::input::NONE;
use crate::text::*;

#[derive(Clone, Copy)]
pub struct Part {
    pub arena: u32,
    pub first: u64,
    pub span: Span,
}

/// Calls `first ..` kept as `n` records of an arena.
#[derive(Clone, Copy)]
pub struct Run {
    pub first: u64,
    pub arena: u32,
    pub start: usize,
    pub n: usize,
    /// The last call has no Return.
    pub open: bool,
}

#[derive(Default)]
pub struct View {
    /// Runs that hold the calls of the readable prefix, without a gap from call 0 (and maybe more calls).
    pub runs: Vec<Run>,
    pub prefix: u64,
    pub beyond: bool,
    /// The place at the prefix is the Enter of a call that isn't read.
    pub unread: bool,
    pub conflicts: Vec<u64>,
}

pub fn same_enter(x: &Arena, i: usize, y: &Arena, k: usize) -> bool {
    let (tx, ty) = (&x.times[i], &y.times[k]);
    let (a, b) = (&x.ops[i], &y.ops[k]);
    if tx[0] != ty[0] || tx[1] != ty[1] || a.kind != b.kind || a.mode != b.mode {
        return false;
    }
    if (a.peer, a.tag, a.comm, a.count) != (b.peer, b.tag, b.comm, b.count) {
        return false;
    }
    match a.kind {
        WAITALL | WAITANY | WAITSOME | TESTALL | TESTANY | TESTSOME | STARTALL => {
            let n = a.count as usize;
            x.lists[a.a as usize..][..n] == y.lists[b.a as usize..][..n]
        }
        SENDRECV => a.a == b.a && x.envs[a.aux as usize] == y.envs[b.aux as usize],
        _ => a.a == b.a,
    }
}

/// Whether the outcomes are the same, where the Enters are.
pub fn same_return(x: &Arena, i: usize, y: &Arena, k: usize) -> bool {
    let (tx, ty) = (&x.times[i], &y.times[k]);
    let (a, b) = (&x.ops[i], &y.ops[k]);
    if tx[2] != ty[2] || tx[3] != ty[3] {
        return false;
    }
    if a.kind != b.kind {
        return outs(x, a) == outs(y, b);
    }
    match a.kind {
        TESTALL if a.aux != b.aux => false,
        TESTALL if a.aux == 0 => true,
        WAITALL | TESTALL => {
            // Of equal requests the lists of told sources have one length; others differ unless both tell nothing.
            if a.count != b.count {
                return false;
            }
            match (a.out, b.out) {
                (-1, -1) => true,
                (-1, _) | (_, -1) => false,
                (s, t) => x.told[s as usize..][..a.count as usize] == y.told[t as usize..][..b.count as usize],
            }
        }
        WAITSOME | TESTSOME => {
            let n = 2 * a.aux as usize;
            a.aux == b.aux && x.told[a.out as usize..][..n] == y.told[b.out as usize..][..n]
        }
        SENDRECV => a.out == b.out,
        WAITANY | TEST | TESTANY | IMPROBE | IPROBE | ICOLLECTIVE => (a.out, a.aux) == (b.out, b.aux),
        _ => a.out == b.out,
    }
}

/// The outcome of a call, for two calls of unlike kinds.
#[derive(PartialEq)]
enum Outs<'a> {
    Nothing,
    Posted(i64),
    Status(i64),
    /// How many; none are listed where none tells anything.
    Statuses(u32, &'a [u32]),
    Index(i64, u32),
    Several(&'a [u32]),
    Flag(i64, u32),
}

fn outs<'a>(x: &'a Arena, a: &Op) -> Outs<'a> {
    match a.kind {
        ICOLLECTIVE if a.aux == NOTHING_POSTED => Outs::Nothing,
        IPROBE if a.out < 0 => Outs::Nothing,
        ISEND | IRECV | SENDINIT | RECVINIT | IMRECV | ICOLLECTIVE => Outs::Posted(a.out),
        RECV | SENDRECV | WAIT | PROBE | MPROBE => Outs::Status(a.out),
        TESTALL if a.aux == 0 => Outs::Flag(0, NONE),
        WAITALL | TESTALL if a.out < 0 => Outs::Statuses(a.count, &[]),
        WAITALL | TESTALL => Outs::Statuses(a.count, &x.told[a.out as usize..][..a.count as usize]),
        WAITANY | TESTANY => Outs::Index(a.out, a.aux),
        WAITSOME | TESTSOME => Outs::Several(&x.told[a.out as usize..][..2 * a.aux as usize]),
        TEST | IMPROBE | IPROBE => Outs::Flag(a.out, a.aux),
        _ => Outs::Nothing,
    }
}

fn sort(parts: &mut [Part]) {
    parts.sort_by_key(|p| (p.first, std::cmp::Reverse(p.span.n)));
}

/// Whether two parts tell of one call.
pub fn overlap(parts: &mut [Part]) -> bool {
    sort(parts);
    parts.windows(2).any(|w| w[0].first + w[0].span.n as u64 > w[1].first)
}

pub fn view(arenas: &[Arena], parts: &mut [Part]) -> View {
    sort(parts);
    let mut v = View::default();
    let mut end = 0u64;
    for p in parts.iter() {
        let n = p.span.n as u64;
        if n == 0 {
            continue;
        }
        let s = 2 * p.first;
        let e = s + 2 * n - p.span.open as u64;
        let mine = &arenas[p.arena as usize];
        let mut from = p.first;
        if s < end {
            let stop = e.min(end);
            // Calls first .. whose Enter is covered by both.
            let last = stop.div_ceil(2);
            let mut r = v.runs.partition_point(|r| r.first <= p.first) - 1;
            let mut c = p.first;
            while c < last {
                let run = v.runs[r];
                let other = &arenas[run.arena as usize];
                let to = last.min(run.first + run.n as u64);
                while c < to {
                    let i = p.span.start + (c - p.first) as usize;
                    let k = run.start + (c - run.first) as usize;
                    if !same_enter(mine, i, other, k) {
                        v.conflicts.push(2 * c);
                    }
                    if 2 * c + 1 < stop && !same_return(mine, i, other, k) {
                        v.conflicts.push(2 * c + 1);
                    }
                    c += 1;
                }
                r += 1;
            }
            if e <= end {
                continue;
            }
            if end % 2 == 1 {
                // The last call covered had no Return; this piece has it too, and more.
                let l = v.runs.last_mut().unwrap();
                l.n -= 1;
                l.open = false;
                if l.n == 0 {
                    v.runs.pop();
                }
            }
            from = end / 2;
        }
        v.runs.push(Run {
            first: from,
            arena: p.arena,
            start: p.span.start + (from - p.first) as usize,
            n: (n - (from - p.first)) as usize,
            open: p.span.open,
        });
        end = e;
    }
    v.conflicts.sort_unstable();
    v.conflicts.dedup();
    // The gapless stretch from place 0.
    let mut to = 0u64;
    let mut stretch = 0;
    let mut keep = 0;
    for r in v.runs.iter() {
        if r.first != to {
            break;
        }
        to = r.first + r.n as u64;
        stretch = 2 * to - r.open as u64;
        keep += 1;
        if r.open {
            break;
        }
    }
    v.runs.truncate(keep);
    let clash = v.conflicts.first().copied().unwrap_or(u64::MAX);
    v.prefix = stretch.min(clash);
    // Of that, what comes before the first call that isn't read.
    for r in &v.runs {
        let list = &arenas[r.arena as usize].unread;
        if let Some(i) = list.get(list.partition_point(|i| *i < r.start))
            && *i < r.start + r.n
        {
            let place = 2 * (r.first + (*i - r.start) as u64);
            if place < v.prefix {
                v.unread = true;
                v.prefix = place;
            }
            break;
        }
    }
    v.beyond = end > v.prefix;
    v
}
