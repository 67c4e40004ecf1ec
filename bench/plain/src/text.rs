//! Trace text to typed calls, in one pass over the bytes (04 sections 1 and 2).
//!
//! Lines that look the way `dumpi2ascii` writes them go through `fast`, which reads each byte about once;
//! every other line goes through `general`, which is the grammar written out. `fast` answers None, having
//! changed nothing, whenever it is not sure.

use crate::profile::Profile;
use crate::input::{ANY, NONE, NULL, WORLD};
use crate::kinds::*;
use crate::shape::Shapes;
use std::collections::HashMap;
use std::io::Read;
use std::sync::LazyLock;

pub const MAX_LINE: usize = 65_536;
pub const MAX_LINES: u64 = 16_777_216;
pub const MAX_CALLS: u64 = 1_000_000;

#[derive(Debug, PartialEq, Eq, Clone)]
pub enum Fault {
    /// F1 to F11 with its line.
    Text(u8, u64),
    Missing(&'static str, u64),
    Wrong(&'static str, u64),
}

pub const TEXT_NAMES: [&str; 12] = [
    "", "Read", "LineTooLong", "BadStamp", "OtherThread", "ReturnOutside", "NotReturned", "NameDiffers",
    "BadParameter", "Truncated", "TooManyCalls", "TooManyLines",
];

// Kinds of call.
pub const LOCAL: u8 = 0;
pub const FINALIZE: u8 = 1;
pub const SEND: u8 = 2;
pub const ISEND: u8 = 3;
pub const RECV: u8 = 4;
pub const IRECV: u8 = 5;
pub const SENDRECV: u8 = 6;
pub const WAIT: u8 = 7;
pub const WAITALL: u8 = 8;
pub const WAITANY: u8 = 9;
pub const WAITSOME: u8 = 10;
pub const TEST: u8 = 11;
pub const COLLECTIVE: u8 = 12;
pub const PROBE: u8 = 13;
// With objects.
pub const IPROBE: u8 = 14;
// With completions.
pub const TESTALL: u8 = 15;
pub const TESTANY: u8 = 16;
pub const TESTSOME: u8 = 17;
pub const CANCEL: u8 = 18;
pub const FREE: u8 = 19;
pub const UNREAD: u8 = 20;
// With persistent requests.
pub const SENDINIT: u8 = 21;
pub const RECVINIT: u8 = 22;
pub const START: u8 = 23;
pub const STARTALL: u8 = 24;
pub const MPROBE: u8 = 25;
pub const IMPROBE: u8 = 26;
pub const IMRECV: u8 = 27;
// With collectives.
pub const ICOLLECTIVE: u8 = 28;
// Rows that read other parameters than their kind's.
const ROOTED: u8 = 29;
const IROOTED: u8 = 30;
const REPLACE: u8 = 31;
/// Of the calls that are read leniently, by `NAMINGS`: the blocking ones, and as many nonblocking ones.
const LENIENT: u8 = 32;
const ILENIENT: u8 = LENIENT + NAMINGS.len() as u8;
const NROWS: usize = ILENIENT as usize + NAMINGS.len();

/// In `aux` of an Icollective that brought no request that can be read.
pub const NOTHING_POSTED: u32 = 1;

/// A told source that says Cancelled.
pub const CANCELLED: u32 = u32::MAX - 1;
/// The number of a request that is named MPI_REQUEST_NULL.
pub const NULL_REQUEST: i64 = i64::MIN;

/// One call with its outcome; the stamps stand in an array of their own.
///
/// | kind | a | out | peer, tag, comm | count | aux | mode |
/// |---|---|---|---|---|---|---|
/// | sends, receives | datatype | request (posts), told (NONE is -1) (Recv) | envelope | count | | mode |
/// | Sendrecv | datatype sent | told or -1 | sent envelope | count sent | index in `envs` | |
/// | Wait, Test | request | told or -1; flag | | | told (Test) | |
/// | Waitall | start in `lists` | start in `told` or -1 | | length | | |
/// | Waitany | start in `lists` | position or -1 | | length | told | |
/// | Waitsome | start in `lists` | start in `told` of pairs | | length | number of pairs | |
/// | Collective | | | root in peer, comm | | | kind |
/// | Probe | | told or -1 | peer, tag, comm | | | |
/// | Testall | as Waitall, | where its flag is set | | length | flag | |
/// | Testany, Testsome | as Waitany, Waitsome | | | | | |
/// | Cancel, Free, Start | request | | | | | |
/// | Startall | start in `lists` | | | length | | |
/// | inits | as Isend, Irecv | | | | | |
/// | Mprobe | as Probe | | | | | |
/// | Improbe | | flag | peer, tag, comm | | told | |
/// | Imrecv | | request | | | | |
/// | Icollective | | request | root in peer, comm | | NOTHING_POSTED | kind (Ibarrier: 0) |
/// | Iprobe | | flag; -1: not told | peer, tag, comm | | told | |
#[derive(Clone, Copy, PartialEq, Eq, Debug)]
#[repr(C)]
pub struct Op {
    pub a: i64,
    pub out: i64,
    pub peer: u32,
    pub tag: u32,
    pub comm: u32,
    pub count: u32,
    pub aux: u32,
    pub kind: u8,
    pub mode: u8,
}

#[derive(Clone, Copy, PartialEq, Eq, Debug)]
pub struct Env {
    pub datatype: i64,
    pub peer: u32,
    pub tag: u32,
    pub count: u32,
}

#[derive(Default)]
pub struct Arena {
    /// Wall and CPU time of Enter, wall and CPU time of Return; none where no two pieces can tell of one call.
    pub times: Vec<[u64; 4]>,
    /// Wall time of the last Enter.
    pub last_wall: u64,
    pub ops: Vec<Op>,
    pub lists: Vec<i64>,
    pub told: Vec<u32>,
    pub envs: Vec<Env>,
    /// Where in `ops` the calls stand that the profile can't read, rising.
    pub unread: Vec<usize>,
}

impl Arena {
    pub fn clear(&mut self) {
        self.times.clear();
        self.ops.clear();
        self.lists.clear();
        self.told.clear();
        self.envs.clear();
        self.unread.clear();
    }
}

/// The calls of one text: `n` calls from `start` in the arena, the last without a Return where `open`.
#[derive(Clone, Copy, Debug, PartialEq, Eq)]
pub struct Span {
    pub start: usize,
    pub n: usize,
    pub open: bool,
}

pub(crate) const COUNT: usize = 0;
pub(crate) const DATATYPE: usize = 1;
pub(crate) const DEST: usize = 2;
pub(crate) const TAG: usize = 3;
pub const COMM: usize = 4;
pub(crate) const REQUEST: usize = 5;
pub(crate) const SOURCE: usize = 6;
pub(crate) const STATUS: usize = 7;
const SENDCOUNT: usize = 8;
const SENDTYPE: usize = 9;
const SENDTAG: usize = 10;
const RECVCOUNT: usize = 11;
const RECVTYPE: usize = 12;
const RECVTAG: usize = 13;
pub(crate) const REQUESTS: usize = 14;
pub(crate) const STATUSES: usize = 15;
const INDEX: usize = 16;
pub(crate) const INDICES: usize = 17;
const FLAG: usize = 18;
const ROOT: usize = 19;
pub const OLDCOMM: usize = 20;
pub const COMM_OLD: usize = 21;
pub const LOCAL_COMM: usize = 22;
pub const WIN: usize = 23;
pub const FH: usize = 24;
pub const FILE_ID: usize = 25;
pub const INTERCOMM: usize = 26;
pub(crate) const NP: usize = 27;
const PARAMS: [&str; NP] = [
    "count", "datatype", "dest", "tag", "comm", "request", "source", "status", "sendcount", "sendtype", "sendtag",
    "recvcount", "recvtype", "recvtag", "requests", "statuses", "index", "indices", "flag", "root",
    "oldcomm", "comm_old", "local_comm", "win", "fh", "file", "intercomm",
];
/// Parameters that are not one number.
const LISTED: u32 = 1 << STATUS | 1 << REQUESTS | 1 << STATUSES | 1 << INDICES;

pub(crate) struct Row {
    kind: u8,
    entry: &'static [usize],
    /// Outcome parameters that can be missing.
    out: &'static [usize],
    /// All names that the row reads.
    pub(crate) want: u32,
    /// Where an entry parameter can't be read the call is Local.
    lenient: bool,
}

const fn mask(v: &[usize]) -> u32 {
    let mut m = 0;
    let mut i = 0;
    while i < v.len() {
        m |= 1 << v[i];
        i += 1;
    }
    m
}
const fn row(kind: u8, entry: &'static [usize], out: &'static [usize], quiet: &[usize]) -> Row {
    Row { kind, entry, out, want: mask(entry) | mask(out) | mask(quiet), lenient: false }
}
/// Of a collective call `entry` has what may name its object.
const fn lenient(kind: u8, entry: &'static [usize], quiet: &[usize]) -> Row {
    Row { kind, entry, out: &[], want: mask(entry) | mask(quiet), lenient: true }
}
pub(crate) static ROWS: [Row; NROWS] = [
    row(LOCAL, &[], &[], &[]),
    row(FINALIZE, &[], &[], &[]),
    row(SEND, &[COUNT, DATATYPE, DEST, TAG, COMM], &[], &[]),
    row(ISEND, &[COUNT, DATATYPE, DEST, TAG, COMM], &[REQUEST], &[]),
    row(RECV, &[COUNT, DATATYPE, SOURCE, TAG, COMM], &[], &[STATUS]),
    row(IRECV, &[COUNT, DATATYPE, SOURCE, TAG, COMM], &[REQUEST], &[]),
    row(
        SENDRECV,
        &[SENDCOUNT, SENDTYPE, DEST, SENDTAG, RECVCOUNT, RECVTYPE, SOURCE, RECVTAG, COMM],
        &[],
        &[STATUS],
    ),
    row(WAIT, &[REQUEST], &[], &[STATUS]),
    row(WAITALL, &[REQUESTS], &[], &[STATUSES]),
    row(WAITANY, &[REQUESTS], &[INDEX], &[STATUS]),
    row(WAITSOME, &[REQUESTS], &[], &[INDICES, STATUSES]),
    row(TEST, &[REQUEST], &[FLAG], &[STATUS]),
    row(COLLECTIVE, &[COMM], &[], &[]),
    row(PROBE, &[SOURCE, TAG, COMM], &[], &[STATUS]),
    lenient(IPROBE, &[SOURCE, TAG, COMM], &[FLAG, STATUS]),
    row(TESTALL, &[REQUESTS], &[FLAG], &[STATUSES]),
    row(TESTANY, &[REQUESTS], &[FLAG], &[INDEX, STATUS]),
    row(TESTSOME, &[REQUESTS], &[], &[INDICES, STATUSES]),
    row(CANCEL, &[REQUEST], &[], &[]),
    row(FREE, &[REQUEST], &[], &[]),
    row(UNREAD, &[], &[], &[]),
    row(SENDINIT, &[COUNT, DATATYPE, DEST, TAG, COMM], &[REQUEST], &[]),
    row(RECVINIT, &[COUNT, DATATYPE, SOURCE, TAG, COMM], &[REQUEST], &[]),
    row(START, &[REQUEST], &[], &[]),
    row(STARTALL, &[REQUESTS], &[], &[]),
    row(MPROBE, &[SOURCE, TAG, COMM], &[], &[STATUS]),
    row(IMPROBE, &[SOURCE, TAG, COMM], &[FLAG], &[STATUS]),
    row(IMRECV, &[], &[REQUEST], &[]),
    row(ICOLLECTIVE, &[COMM], &[REQUEST], &[]),
    row(COLLECTIVE, &[ROOT, COMM], &[], &[]),
    row(ICOLLECTIVE, &[ROOT, COMM], &[REQUEST], &[]),
    row(SENDRECV, &[COUNT, DATATYPE, DEST, SENDTAG, SOURCE, RECVTAG, COMM], &[], &[STATUS]),
    lenient(COLLECTIVE, NAMINGS[0], &[]),
    lenient(COLLECTIVE, NAMINGS[1], &[]),
    lenient(COLLECTIVE, NAMINGS[2], &[]),
    lenient(COLLECTIVE, NAMINGS[3], &[]),
    lenient(COLLECTIVE, NAMINGS[4], &[]),
    lenient(COLLECTIVE, NAMINGS[5], &[]),
    lenient(COLLECTIVE, NAMINGS[6], &[]),
    lenient(ICOLLECTIVE, NAMINGS[0], &[REQUEST]),
    lenient(ICOLLECTIVE, NAMINGS[1], &[REQUEST]),
    lenient(ICOLLECTIVE, NAMINGS[2], &[REQUEST]),
    lenient(ICOLLECTIVE, NAMINGS[3], &[REQUEST]),
    lenient(ICOLLECTIVE, NAMINGS[4], &[REQUEST]),
    lenient(ICOLLECTIVE, NAMINGS[5], &[REQUEST]),
    lenient(ICOLLECTIVE, NAMINGS[6], &[REQUEST]),
];

/// Row and mode of the functions by name, without `MPI_`, each from a profile on, rising; the mode of a collective call
/// is its kind.
type Functions = HashMap<Vec<u8>, Vec<(Profile, u8, u8)>>;

/// Row and mode of a function's name in a profile.
#[inline(never)]
fn function(name: &[u8], profile: Profile) -> (u8, u8) {
    static FUNCTIONS: LazyLock<Functions> = LazyLock::new(functions);
    let Some(list) = name.strip_prefix(b"MPI_").and_then(|n| FUNCTIONS.get(n)) else { return (LOCAL, 0) };
    list.iter().rev().find(|f| f.0 <= profile).map_or((LOCAL, 0), |f| (f.1, f.2))
}

fn functions() -> Functions {
    let mut all = Functions::new();
    let mut add = |name: &str, since: Profile, row: u8, mode: u8| {
        let list = all.entry(name.as_bytes().to_vec()).or_default();
        list.push((since, row, mode));
        list.sort_unstable();
    };
    for (name, row, mode) in [
        ("Send", SEND, 0),
        ("Ssend", SEND, 1),
        ("Bsend", SEND, 2),
        ("Rsend", SEND, 3),
        ("Isend", ISEND, 0),
        ("Issend", ISEND, 1),
        ("Ibsend", ISEND, 2),
        ("Irsend", ISEND, 3),
        ("Recv", RECV, 0),
        ("Irecv", IRECV, 0),
        ("Sendrecv", SENDRECV, 0),
        ("Wait", WAIT, 0),
        ("Waitall", WAITALL, 0),
        ("Waitany", WAITANY, 0),
        ("Waitsome", WAITSOME, 0),
        ("Test", TEST, 0),
        ("Probe", PROBE, 0),
        ("Finalize", FINALIZE, 0),
    ] {
        add(name, Profile::First, row, mode);
    }
    for (name, row) in
        [("Testall", TESTALL), ("Testany", TESTANY), ("Testsome", TESTSOME), ("Cancel", CANCEL), ("Request_free", FREE)]
    {
        add(name, Profile::Completions, row, 0);
    }
    for name in [
        "Isendrecv", "Isendrecv_replace", "Psend_init", "Precv_init", "Start", "Startall", "Mprobe", "Improbe",
        "Sendrecv_replace", "Send_c", "Ssend_c", "Bsend_c", "Rsend_c", "Isend_c", "Issend_c", "Ibsend_c", "Irsend_c",
        "Recv_c", "Irecv_c", "Sendrecv_c", "Sendrecv_replace_c", "Isendrecv_c", "Isendrecv_replace_c", "Send_init_c",
        "Ssend_init_c", "Bsend_init_c", "Rsend_init_c", "Recv_init_c",
    ] {
        add(name, Profile::Completions, UNREAD, 0);
    }
    for (name, row, mode) in [
        ("Send_init", SENDINIT, 0),
        ("Ssend_init", SENDINIT, 1),
        ("Bsend_init", SENDINIT, 2),
        ("Rsend_init", SENDINIT, 3),
        ("Recv_init", RECVINIT, 0),
        ("Start", START, 0),
        ("Startall", STARTALL, 0),
        ("Mprobe", MPROBE, 0),
        ("Improbe", IMPROBE, 0),
        ("Imrecv", IMRECV, 0),
        ("Imrecv_c", IMRECV, 0),
        ("Sendrecv_replace", REPLACE, 0),
    ] {
        add(name, Profile::Persistent, row, mode);
    }
    add("Iprobe", Profile::Objects, IPROBE, 0);
    for (k, kind) in KINDS.iter().enumerate() {
        let k = k as u8;
        let naming = NAMINGS.iter().position(|n| *n == kind.names).unwrap_or(0) as u8;
        for (word, nonblocking) in [(kind.word, false), (kind.begun, true)] {
            let row = match (nonblocking, is_rooted(k)) {
                (false, _) if k >= FIRST_LENIENT => LENIENT + naming,
                (true, _) if k >= FIRST_LENIENT => ILENIENT + naming,
                (false, true) => ROOTED,
                (true, true) => IROOTED,
                (false, false) => COLLECTIVE,
                (true, false) => ICOLLECTIVE,
            };
            if let Some(first) = word.chars().next() {
                let name = first.to_ascii_uppercase().to_string() + &word[1..];
                add(&name, since(k, nonblocking), row, k);
                if let Some(since) = large_since(k, nonblocking) {
                    add(&(name + "_c"), since, row, k);
                }
            }
        }
    }
    all
}

pub(crate) fn parameter(name: &[u8]) -> Option<usize> {
    Some(match name {
        b"count" => COUNT,
        b"datatype" => DATATYPE,
        b"dest" => DEST,
        b"tag" => TAG,
        b"comm" => COMM,
        b"request" => REQUEST,
        b"source" => SOURCE,
        b"status" => STATUS,
        b"sendcount" => SENDCOUNT,
        b"sendtype" => SENDTYPE,
        b"sendtag" => SENDTAG,
        b"recvcount" => RECVCOUNT,
        b"recvtype" => RECVTYPE,
        b"recvtag" => RECVTAG,
        b"requests" => REQUESTS,
        b"statuses" => STATUSES,
        b"index" => INDEX,
        b"indices" => INDICES,
        b"flag" => FLAG,
        b"root" => ROOT,
        b"oldcomm" => OLDCOMM,
        b"comm_old" => COMM_OLD,
        b"local_comm" => LOCAL_COMM,
        b"win" => WIN,
        b"fh" => FH,
        b"file" => FILE_ID,
        b"intercomm" => INTERCOMM,
        _ => return None,
    })
}

// Names of a number.
pub(crate) const OTHER: u8 = 0;
const ANY_SOURCE: u8 = 1;
const ANY_TAG: u8 = 2;
const PROC_NULL: u8 = 3;
const COMM_WORLD: u8 = 4;
// Read with completions and collectives.
const REQUEST_NULL: u8 = 5;
const NO_ROOT: u8 = 6;

fn noted(n: &[u8]) -> u8 {
    match n {
        b"MPI_ANY_SOURCE" => ANY_SOURCE,
        b"MPI_ANY_TAG" => ANY_TAG,
        b"MPI_PROC_NULL" => PROC_NULL,
        b"MPI_COMM_WORLD" => COMM_WORLD,
        b"MPI_REQUEST_NULL" => REQUEST_NULL,
        b"MPI_ROOT" => NO_ROOT,
        _ => OTHER,
    }
}

/// `parse_time`: None for X1 to X3.
pub fn time(b: &[u8]) -> Option<u64> {
    let (t, i) = time_at(b, 0)?;
    if i == b.len() { Some(t) } else { None }
}

/// The longest time from `i` on, and where it ends.
fn time_at(b: &[u8], mut i: usize) -> Option<(u64, usize)> {
    let s = i;
    let mut n: u64 = 0;
    while i < b.len() && b[i].is_ascii_digit() {
        n = n.saturating_mul(10).saturating_add((b[i] - b'0') as u64);
        i += 1;
    }
    if i == s || n > 9_999_999_999 {
        return None;
    }
    let mut t = n * 1_000_000_000;
    if i < b.len() && b[i] == b'.' {
        i += 1;
        let s = i;
        let mut unit = 100_000_000;
        while i < b.len() && b[i].is_ascii_digit() {
            t += (b[i] - b'0') as u64 * unit;
            unit /= 10;
            i += 1;
        }
        if i == s {
            return None;
        }
    }
    Some((t, i))
}

pub(crate) fn is_word(c: u8) -> bool {
    c.is_ascii_alphanumeric() || c == b'_'
}

/// What a value holds: numbers with their names, or the told source of each group.
#[derive(Default)]
pub struct Parsed {
    pub nums: Vec<(i64, u8)>,
    pub told: Vec<u32>,
    pub groups: bool,
    /// Whether a field `cancelled` is read (with completions).
    pub cancels: bool,
}

/// `parse_value`; false is X4. A single number and a list of one are read alike everywhere.
pub fn value(b: &[u8], out: &mut Parsed) -> bool {
    out.nums.clear();
    out.told.clear();
    out.groups = false;
    let mut v = Val { b, i: 0, out };
    v.core().is_some() && {
        v.sp();
        if v.peek() == b'(' {
            v.note().is_some() && v.end()
        } else {
            v.end()
        }
    }
}

struct Val<'a> {
    b: &'a [u8],
    i: usize,
    out: &'a mut Parsed,
}

impl Val<'_> {
    #[inline]
    fn peek(&self) -> u8 {
        // No byte of the grammar is a line feed.
        if self.i < self.b.len() { self.b[self.i] } else { b'\n' }
    }
    #[inline]
    fn sp(&mut self) {
        while self.peek() == b' ' {
            self.i += 1;
        }
    }
    fn end(&mut self) -> bool {
        self.sp();
        self.i == self.b.len()
    }
    fn note(&mut self) -> Option<(usize, usize)> {
        self.i += 1;
        let s = self.i;
        loop {
            match self.b.get(self.i)? {
                b')' => {
                    self.i += 1;
                    return Some((s, self.i - 1));
                }
                b'(' => return None,
                _ => self.i += 1,
            }
        }
    }
    #[inline]
    fn num(&mut self) -> Option<(i64, u8)> {
        let neg = self.peek() == b'-';
        if neg {
            self.i += 1;
        }
        let s = self.i;
        let mut n: u64 = 0;
        let mut big = false;
        while self.i < self.b.len() {
            let d = self.b[self.i].wrapping_sub(b'0');
            if d > 9 {
                break;
            }
            if self.i - s < 18 {
                n = n * 10 + d as u64;
            } else {
                match n.checked_mul(10).and_then(|n| n.checked_add(d as u64)) {
                    Some(m) => n = m,
                    None => big = true,
                }
            }
            self.i += 1;
        }
        if self.i == s || big {
            return None;
        }
        let x = if neg {
            if n > 1 << 63 {
                return None;
            }
            (n as i64).wrapping_neg()
        } else {
            i64::try_from(n).ok()?
        };
        let at = self.i;
        self.sp();
        if self.peek() == b'(' {
            let (s, e) = self.note()?;
            return Some((x, noted(&self.b[s..e])));
        }
        self.i = at;
        Some((x, OTHER))
    }
    fn core(&mut self) -> Option<()> {
        self.sp();
        match self.peek() {
            b'-' | b'0'..=b'9' => {
                let n = self.num()?;
                self.out.nums.push(n);
                Some(())
            }
            b'{' => self.list(),
            b'[' => {
                // `[` digits `]` before a list or group, or else one number or a list.
                let mut k = self.i + 1;
                let at = |k: usize| self.b.get(k).copied().unwrap_or(b'\n');
                while at(k) == b' ' {
                    k += 1;
                }
                let s = k;
                while at(k).is_ascii_digit() {
                    k += 1;
                }
                if k > s {
                    while at(k) == b' ' {
                        k += 1;
                    }
                    if at(k) == b']' {
                        k += 1;
                        while at(k) == b' ' {
                            k += 1;
                        }
                        if at(k) == b'{' || at(k) == b'[' {
                            self.i = k;
                        }
                    }
                }
                self.list()
            }
            _ => None,
        }
    }
    /// A list or a group, from its opening bracket or brace.
    fn list(&mut self) -> Option<()> {
        let close = if self.peek() == b'{' { b'}' } else { b']' };
        if close == b'}' {
            let mut k = self.i + 1;
            while k < self.b.len() && self.b[k] == b' ' {
                k += 1;
            }
            let s = k;
            while k < self.b.len() && is_word(self.b[k]) {
                k += 1;
            }
            if k > s {
                while k < self.b.len() && self.b[k] == b' ' {
                    k += 1;
                }
                if k < self.b.len() && self.b[k] == b'=' {
                    self.out.groups = true;
                    return self.group();
                }
            }
        }
        self.i += 1;
        self.sp();
        if self.peek() == close {
            self.i += 1;
            return Some(());
        }
        self.out.groups = self.peek() == b'{';
        loop {
            if self.out.groups {
                if self.peek() != b'{' {
                    return None;
                }
                self.group()?;
            } else if self.peek() == b'[' {
                self.i += 1;
                self.sp();
                let n = self.num()?;
                self.sp();
                if self.peek() != b']' {
                    return None;
                }
                self.i += 1;
                self.out.nums.push(n);
            } else {
                let n = self.num()?;
                self.out.nums.push(n);
            }
            self.sp();
            match self.peek() {
                b',' => {
                    self.i += 1;
                    self.sp();
                }
                c if c == close => {
                    self.i += 1;
                    return Some(());
                }
                _ => return None,
            }
        }
    }
    fn group(&mut self) -> Option<()> {
        self.i += 1;
        let mut told = NONE;
        let mut met = false;
        let mut gone = None;
        loop {
            self.sp();
            let s = self.i;
            while self.i < self.b.len() && is_word(self.b[self.i]) {
                self.i += 1;
            }
            let e = self.i;
            self.sp();
            if s == e || self.peek() != b'=' {
                return None;
            }
            self.i += 1;
            self.sp();
            let (x, name) = self.num()?;
            if !met && &self.b[s..e] == b"source" {
                met = true;
                if (0..=i32::MAX as i64).contains(&x) && name != ANY_SOURCE && name != PROC_NULL {
                    told = x as u32;
                }
            }
            if gone.is_none() && &self.b[s..e] == b"cancelled" {
                gone = Some(self.out.cancels && x != 0);
            }
            self.sp();
            match self.peek() {
                b',' => self.i += 1,
                b'}' => {
                    self.i += 1;
                    self.out.told.push(if gone == Some(true) { CANCELLED } else { told });
                    return Some(());
                }
                _ => return None,
            }
        }
    }
}

pub(crate) fn trim(mut s: &[u8]) -> &[u8] {
    while let [b' ' | b'\t', r @ ..] = s {
        s = r;
    }
    while let [r @ .., b' ' | b'\t'] = s {
        s = r;
    }
    s
}

/// Where the line feed stands, at or after `p`; there is one.
#[cfg(target_arch = "x86_64")]
#[inline(always)]
pub(crate) unsafe fn line_feed(b: *const u8, mut p: usize) -> usize {
    use std::arch::x86_64::*;
    unsafe {
        let nl = _mm_set1_epi8(b'\n' as i8);
        loop {
            let x = _mm_loadu_si128(b.add(p) as *const __m128i);
            let m = _mm_movemask_epi8(_mm_cmpeq_epi8(x, nl)) as u32;
            if m != 0 {
                return p + m.trailing_zeros() as usize;
            }
            p += 16;
        }
    }
}

/// In 32 bytes from `p`: where `=`, line feeds, and spaces or tabs stand.
#[cfg(target_arch = "x86_64")]
#[inline(always)]
unsafe fn marks(b: *const u8, p: usize) -> (u32, u32, u32) {
    use std::arch::x86_64::*;
    unsafe {
        let x = _mm_loadu_si128(b.add(p) as *const __m128i);
        let y = _mm_loadu_si128(b.add(p + 16) as *const __m128i);
        let two = |c: u8| {
            let c = _mm_set1_epi8(c as i8);
            let l = _mm_movemask_epi8(_mm_cmpeq_epi8(x, c)) as u32;
            let h = _mm_movemask_epi8(_mm_cmpeq_epi8(y, c)) as u32;
            l | h << 16
        };
        (two(b'='), two(b'\n'), two(b' ') | two(b'\t'))
    }
}

#[cfg(not(target_arch = "x86_64"))]
#[inline(always)]
pub(crate) unsafe fn line_feed(b: *const u8, mut p: usize) -> usize {
    const ONES: u64 = 0x0101_0101_0101_0101;
    loop {
        let x = u64::from_le(unsafe { (b.add(p) as *const u64).read_unaligned() }) ^ 0x0A * ONES;
        // The lowest bit that is set stands in the first byte that is 0 now.
        let m = x.wrapping_sub(ONES) & !x & 0x80 * ONES;
        if m != 0 {
            return p + m.trailing_zeros() as usize / 8;
        }
        p += 8;
    }
}
#[cfg(not(target_arch = "x86_64"))]
unsafe fn marks(b: *const u8, p: usize) -> (u32, u32, u32) {
    let mut r = (0, 0, 0);
    for i in 0..32 {
        match unsafe { *b.add(p + i) } {
            b'=' => r.0 |= 1 << i,
            b'\n' => r.1 |= 1 << i,
            b' ' | b'\t' => r.2 |= 1 << i,
            _ => {}
        }
    }
    r
}

#[inline(always)]
unsafe fn at<const N: usize>(b: *const u8, p: usize, lit: &[u8; N]) -> bool {
    unsafe { *(b.add(p) as *const [u8; N]) == *lit }
}

pub(crate) const TENS: [u64; 10] = [1, 10, 100, 1000, 10_000, 100_000, 1_000_000, 10_000_000, 100_000_000, 1_000_000_000];

/// Eight digits at `p`, if they are.
#[inline(always)]
unsafe fn eight(b: *const u8, p: usize) -> Option<u64> {
    let x = u64::from_le(unsafe { (b.add(p) as *const u64).read_unaligned() });
    let y = x ^ 0x3030_3030_3030_3030;
    if (y | y.wrapping_add(0x7676_7676_7676_7676)) & 0x8080_8080_8080_8080 != 0 {
        return None;
    }
    let y = y.wrapping_mul(10).wrapping_add(y >> 8) & 0x00FF_00FF_00FF_00FF;
    let y = (y.wrapping_mul(100).wrapping_add(y >> 16)) & 0x0000_FFFF_0000_FFFF;
    Some((y.wrapping_mul(10_000).wrapping_add(y >> 32)) & 0xFFFF_FFFF)
}

/// A time at `p` of at most ten digits before the point, and where it ends. Every byte is below a line feed's
/// distance, as no digit or point is one.
#[inline(always)]
unsafe fn quick_time(b: *const u8, mut p: usize) -> Option<(u64, usize)> {
    unsafe {
        let s = p;
        let mut n = 0u64;
        if let Some(e) = eight(b, p) {
            n = e;
            p += 8;
        }
        while (*b.add(p)).wrapping_sub(b'0') < 10 {
            n = n * 10 + (*b.add(p) - b'0') as u64;
            p += 1;
            if p - s > 10 {
                return None;
            }
        }
        if p == s {
            return None;
        }
        n *= 1_000_000_000;
        if *b.add(p) == b'.' {
            p += 1;
            let s = p;
            let mut f = 0;
            if let Some(e) = eight(b, p) {
                f = e;
                p += 8;
            }
            while (*b.add(p)).wrapping_sub(b'0') < 10 {
                if p - s < 9 {
                    f = f * 10 + (*b.add(p) - b'0') as u64;
                } else if p - s > 100 {
                    return None;
                }
                p += 1;
            }
            if p == s {
                return None;
            }
            let d = (p - s).min(9);
            n += f * TENS[9 - d];
        }
        Some((n, p))
    }
}

/// `[N] ` before a list, if it stands there.
#[inline(always)]
pub(crate) unsafe fn quick_count(b: *const u8, mut p: usize) -> usize {
    unsafe {
        if *b.add(p) == b'[' && (*b.add(p + 1)).wrapping_sub(b'0') < 10 {
            let mut k = p + 1;
            while (*b.add(k)).wrapping_sub(b'0') < 10 {
                k += 1;
            }
            if at(b, k, b"] {") {
                p = k + 2;
            }
        }
        p
    }
}

/// How many of the 16 bytes at `p` come before the first that is no letter, digit or `_`.
#[cfg(target_arch = "x86_64")]
#[inline(always)]
unsafe fn word_len(b: *const u8, p: usize) -> usize {
    use std::arch::x86_64::*;
    unsafe {
        let x = _mm_loadu_si128(b.add(p) as *const __m128i);
        // Signed compares: bytes from 128 on are below all.
        let between = |x, l: u8, h: u8| {
            _mm_and_si128(_mm_cmpgt_epi8(x, _mm_set1_epi8(l as i8 - 1)), _mm_cmpgt_epi8(_mm_set1_epi8(h as i8 + 1), x))
        };
        let small = _mm_or_si128(x, _mm_set1_epi8(0x20));
        let ok = _mm_or_si128(
            _mm_or_si128(between(small, b'a', b'z'), between(x, b'0', b'9')),
            _mm_cmpeq_epi8(x, _mm_set1_epi8(b'_' as i8)),
        );
        (!_mm_movemask_epi8(ok)).trailing_zeros() as usize
    }
}
#[cfg(not(target_arch = "x86_64"))]
unsafe fn word_len(b: *const u8, p: usize) -> usize {
    (0..16).position(|i| !is_word(unsafe { *b.add(p + i) })).unwrap_or(16)
}

/// Groups as they are usually written, up to the line feed whose place is the answer.
#[inline(always)]
unsafe fn quick_groups(b: *const u8, p: usize, told: &mut Vec<u32>) -> Option<usize> {
    unsafe {
        told.clear();
        let mut p = quick_count(b, p);
        if !at(b, p, b"{{") {
            return None;
        }
        p += 1;
        loop {
            // From the brace of a group on.
            p += 1;
            let mut mine = NONE;
            let mut met = false;
            loop {
                let n = word_len(b, p);
                if n == 0 || n >= 16 || *b.add(p + n) != b'=' {
                    return None;
                }
                let source = n == 6 && !met && at(b, p, b"source");
                let word = p;
                p += n + 1;
                let s = p;
                let neg = *b.add(p) == b'-';
                p += neg as usize;
                let d = p;
                let mut x = 0u64;
                while (*b.add(p)).wrapping_sub(b'0') < 10 {
                    x = x.wrapping_mul(10).wrapping_add((*b.add(p) - b'0') as u64);
                    p += 1;
                }
                if p == d || p - s > 18 {
                    return None;
                }
                if source {
                    met = true;
                    if (!neg || x == 0) && x <= i32::MAX as u64 {
                        mine = x as u32;
                    }
                } else if x != 0 && n == 9 && at(b, word, b"cancelled") {
                    // The grammar has it.
                    return None;
                }
                match *b.add(p) {
                    b',' => p += 1 + (*b.add(p + 1) == b' ') as usize,
                    b'}' => break,
                    _ => return None,
                }
            }
            told.push(mine);
            p += 1;
            match *b.add(p) {
                b',' => p += 1 + (*b.add(p + 1) == b' ') as usize,
                b'}' if *b.add(p + 1) == b'\n' => return Some(p + 1),
                _ => return None,
            }
            if *b.add(p) != b'{' {
                return None;
            }
        }
    }
}

/// A list of numbers as it is usually written, up to the line feed whose place is the answer.
#[inline(always)]
unsafe fn quick_numbers(b: *const u8, p: usize, out: &mut Vec<i64>) -> Option<usize> {
    unsafe {
        out.clear();
        let mut p = quick_count(b, p);
        if *b.add(p) != b'{' {
            return None;
        }
        loop {
            p += 1;
            p += (*b.add(p) == b' ') as usize;
            let s = p;
            let neg = *b.add(p) == b'-';
            p += neg as usize;
            let d = p;
            let mut x = 0i64;
            while (*b.add(p)).wrapping_sub(b'0') < 10 {
                x = x.wrapping_mul(10).wrapping_add((*b.add(p) - b'0') as i64);
                p += 1;
            }
            if p == d || p - s > 18 {
                return None;
            }
            out.push(if neg { -x } else { x });
            match *b.add(p) {
                b',' => {}
                b'}' if *b.add(p + 1) == b'\n' => return Some(p + 1),
                _ => return None,
            }
        }
    }
}

const IGNORED: u8 = 0xFF;

/// Reads texts.
pub struct Parser {
    pub arena: Arena,
    pub fast: bool,
    /// Whether all times are kept.
    pub keep: bool,
    pub(crate) profile: Profile,
    /// A line in another thread ended the reading (with completions).
    pub(crate) closed: bool,
    pub(crate) line: u64,
    pub(crate) calls: u64,
    pub(crate) inside: bool,
    pub(crate) entered: u64,
    pub(crate) name: Vec<u8>,
    pub(crate) row: u8,
    pub(crate) mode: u8,
    pub(crate) want: u32,
    pub(crate) seen: u32,
    pub(crate) wrong: u32,
    pub(crate) val: [i64; NP],
    pub(crate) nam: [u8; NP],
    pub(crate) enter: (u64, u64),
    pub(crate) status: u32,
    pub(crate) requests: Vec<i64>,
    pub(crate) indices: Vec<i64>,
    pub(crate) statuses: Vec<u32>,
    pub(crate) parsed: Parsed,
    pub(crate) buf: Vec<u8>,
    pub(crate) back: (u64, u64),
    pub(crate) shapes: Shapes,
    pub read_ns: u64,
    pub bytes: u64,
}

/// Set in the answer of `quick_inside` where the line ended the call.
pub(crate) const RETURNED: usize = 1 << (usize::BITS - 1);

const CHUNK: usize = 256 * 1024;

/// Whether a line has its line feed; where not, whether the text may be cut there.
#[derive(Clone, Copy, PartialEq)]
enum Ended {
    Yes,
    No,
    Cut,
}

pub(crate) enum Stamp {
    No,
    Bad,
    /// Returning, wall, cpu, and whether the thread is another than 0.
    Is(bool, u64, u64, bool),
}

impl Parser {
    pub fn new(profile: Profile) -> Self {
        Parser {
            arena: Arena::default(),
            fast: true,
            keep: true,
            profile,
            closed: false,
            line: 0,
            calls: 0,
            inside: false,
            entered: 0,
            name: Vec::new(),
            row: 0,
            mode: 0,
            want: 0,
            seen: 0,
            wrong: 0,
            val: [0; NP],
            nam: [0; NP],
            enter: (0, 0),
            status: NONE,
            requests: Vec::new(),
            indices: Vec::new(),
            statuses: Vec::new(),
            parsed: Parsed { cancels: profile >= Profile::Completions, ..Parsed::default() },
            buf: vec![0; CHUNK + 256],
            back: (0, 0),
            shapes: Shapes::new(),
            read_ns: 0,
            bytes: 0,
        }
    }

    #[inline(always)]
    fn max_calls(&self) -> u64 {
        if self.profile < Profile::Collectives { MAX_CALLS } else { u64::MAX }
    }

    /// Reads a whole text into the arena; where it may be cut, its last line and call may be dropped.
    pub fn text<R: Read>(&mut self, r: &mut R, cut: bool) -> Result<Span, Fault> {
        self.line = 0;
        self.calls = 0;
        self.inside = false;
        self.closed = false;
        self.enter = (0, 0);
        let start = self.arena.ops.len();
        let mut buf = std::mem::take(&mut self.buf);
        let res = self.all(r, &mut buf, cut);
        self.buf = buf;
        let open = res?;
        Ok(Span { start, n: self.arena.ops.len() - start, open })
    }

    fn all<R: Read>(&mut self, r: &mut R, buf: &mut [u8], cut: bool) -> Result<bool, Fault> {
        let cap = buf.len() - 256;
        let (mut s, mut e) = (0, 0);
        loop {
            if s > 0 {
                buf.copy_within(s..e, 0);
                e -= s;
                s = 0;
            }
            let t = std::time::Instant::now();
            let n = loop {
                match r.read(&mut buf[e..cap]) {
                    Ok(n) => break n,
                    Err(x) if x.kind() == std::io::ErrorKind::Interrupted => {}
                    Err(_) => return Err(Fault::Text(1, self.line + 1)),
                }
            };
            self.read_ns += t.elapsed().as_nanos() as u64;
            self.bytes += n as u64;
            if n == 0 {
                break;
            }
            if let Some(k) = buf[e..e + n].iter().rposition(|c| *c == b'\n') {
                let end = e + k + 1;
                self.lines(&buf[..], end)?;
                if self.closed {
                    return Ok(true);
                }
                s = end;
            }
            e += n;
            if e - s > MAX_LINE {
                return Err(Fault::Text(2, self.line + 1));
            }
        }
        let mut dropped = false;
        if e > s {
            dropped = self.general(&buf[s..e], if cut { Ended::Cut } else { Ended::No })?;
            if self.closed {
                return Ok(true);
            }
        }
        if !self.inside {
            return Ok(false);
        }
        let row = &ROWS[self.row as usize];
        let lacks = match row.kind {
            _ if !row.lenient => mask(row.entry) & !self.seen != 0,
            IPROBE => dropped && mask(row.entry) & !self.seen != 0,
            _ => dropped && mask(row.entry) & self.seen == 0,
        };
        if lacks && cut {
            self.inside = false;
            return Ok(false);
        }
        if lacks {
            return Err(Fault::Text(9, self.line));
        }
        self.finish(None)?;
        Ok(true)
    }

    /// Whole lines in `buf[..end]`; at least 256 bytes past `end` can be read.
    fn lines(&mut self, buf: &[u8], end: usize) -> Result<(), Fault> {
        assert!(end + 256 <= buf.len() && end > 0 && buf[end - 1] == b'\n');
        let b = buf.as_ptr();
        let mut p = 0;
        // Where the call at hand begins, if one does here, and how many there were before it.
        let mut start = None;
        while p < end {
            if !self.inside {
                if let Some((s, calls)) = start.take()
                    && self.calls > calls
                {
                    self.learn(&buf[s..p]);
                }
                if self.fast && self.calls < self.max_calls() {
                    // SAFETY: as it says there.
                    if let Some(q) = unsafe { self.shaped(b, p, end) } {
                        p = q & !RETURNED;
                        if q & RETURNED != 0 {
                            let t = self.back;
                            self.finish(Some(t))?;
                        }
                        continue;
                    }
                    start = Some((p, self.calls));
                }
            }
            if self.fast && self.line < MAX_LINES {
                // SAFETY: a line feed stands at end - 1, and 64 bytes past it can be read. Every read of the two
                // functions is within 64 bytes of the line's bytes that were seen to be no line feed.
                let step = unsafe { if self.inside { self.quick_inside(b, p) } else { self.quick_outside(b, p) } };
                if let Some(q) = step {
                    self.line += 1;
                    if q & RETURNED != 0 {
                        let t = self.back;
                        self.finish(Some(t))?;
                    }
                    p = q & !RETURNED;
                    continue;
                }
            }
            let q = unsafe { line_feed(b, p) };
            self.general(&buf[p..q], Ended::Yes)?;
            if self.closed {
                return Ok(());
            }
            p = q + 1;
        }
        Ok(())
    }

    /// An entering line as it is usually written.
    #[inline(always)]
    unsafe fn quick_outside(&mut self, b: *const u8, p: usize) -> Option<usize> {
        unsafe {
            let (_, nl, ws) = marks(b, p);
            let f = ws.trailing_zeros() as usize;
            if f == 0 || f >= 32 || nl & ((1u32 << f) - 1) != 0 || self.calls >= self.max_calls() {
                return None;
            }
            if !at(b, p + f, b" entering at walltime ") {
                return None;
            }
            let name = std::slice::from_raw_parts(b.add(p), f);
            let (wall, q) = quick_time(b, p + f + 22)?;
            if !at(b, q, b", cputime ") {
                return None;
            }
            let (cpu, q) = quick_time(b, q + 10)?;
            if !at(b, q, b" seconds in thread 0") {
                return None;
            }
            let q = q + 20;
            let q = if at(b, q, b".\n") {
                q + 2
            } else if *b.add(q) == b'\n' {
                q + 1
            } else {
                return None;
            };
            let (row, mode) = function(name, self.profile);
            if row == 0 && !name.iter().all(|c| is_word(*c)) {
                return None;
            }
            self.begin(name, row, mode, wall, cpu, self.line + 1);
            Some(q)
        }
    }

    #[inline(always)]
    fn begin(&mut self, name: &[u8], row: u8, mode: u8, wall: u64, cpu: u64, line: u64) {
        self.calls += 1;
        self.inside = true;
        self.entered = line;
        self.name.clear();
        self.name.extend_from_slice(name);
        self.row = row;
        self.mode = mode;
        self.want = ROWS[row as usize].want;
        self.seen = 0;
        self.wrong = 0;
        self.enter = (wall, cpu);
        self.status = NONE;
    }

    /// A parameter or returning line as it is usually written.
    #[inline(always)]
    unsafe fn quick_inside(&mut self, b: *const u8, p: usize) -> Option<usize> {
        unsafe {
            let (eq, nl, ws) = marks(b, p);
            let below = eq.wrapping_sub(1) & !eq;
            if eq == 0 || nl & below != 0 {
                return self.quick_return(b, p);
            }
            let e = eq.trailing_zeros() as usize;
            let before = ws & below;
            if before & 1 != 0 {
                return None;
            }
            let ns = if before != 0 {
                let f = before.trailing_zeros() as usize;
                let c = *b.add(p + f + 1);
                if (c == b'e' && at(b, p + f + 1, b"entering at "))
                    || (c == b'r' && (at(b, p + f + 1, b"returning at ") || at(b, p + f + 1, b"returned at ")))
                {
                    return None;
                }
                32 - before.leading_zeros() as usize
            } else {
                0
            };
            if ns >= e || *b.add(p + ns) == b'[' {
                return None;
            }
            let name = std::slice::from_raw_parts(b.add(p + ns), e - ns);
            let id = match parameter(name) {
                Some(id) if self.want >> id & 1 == 0 => IGNORED as usize,
                Some(id) => id,
                None if self.want != 0 && name.contains(&b'[') => return None,
                None => IGNORED as usize,
            };
            self.quick_parameter_line(b, p, e, id)
        }
    }

    /// A line of a parameter, known by its bytes before the `=` at `p + e`.
    #[inline(always)]
    unsafe fn quick_parameter_line(&mut self, b: *const u8, p: usize, e: usize, id: usize) -> Option<usize> {
        unsafe {
            if id == IGNORED as usize || self.seen >> id & 1 != 0 {
                let z = line_feed(b, p + e);
                return if z - p > MAX_LINE { None } else { Some(z + 1) };
            }
            let mut q = p + e + 1;
            if LISTED >> id & 1 != 0 {
                if (id == STATUS || id == STATUSES)
                    && let Some(z) = quick_groups(b, q, &mut self.parsed.told)
                    && z - p <= MAX_LINE
                {
                    self.seen |= 1 << id;
                    if id == STATUS {
                        self.status = self.parsed.told[0];
                    } else {
                        std::mem::swap(&mut self.statuses, &mut self.parsed.told);
                    }
                    return Some(z + 1);
                }
                if id == REQUESTS
                    && let Some(z) = quick_numbers(b, q, &mut self.requests)
                    && z - p <= MAX_LINE
                {
                    self.seen |= 1 << id;
                    return Some(z + 1);
                }
                let z = line_feed(b, q);
                if z - p > MAX_LINE {
                    return None;
                }
                let mut v = std::slice::from_raw_parts(b.add(q), z - q);
                if let [r @ .., b'\r'] = v {
                    v = r;
                }
                self.listed(id, trim(v));
                return Some(z + 1);
            }
            let boxed = *b.add(q) == b'[';
            q += boxed as usize;
            let neg = *b.add(q) == b'-';
            q += neg as usize;
            let s = q;
            let mut n: i64 = 0;
            while (*b.add(q)).wrapping_sub(b'0') < 10 {
                n = n.wrapping_mul(10).wrapping_add((*b.add(q) - b'0') as i64);
                q += 1;
                if q - s > 18 {
                    return None;
                }
            }
            if q == s {
                return None;
            }
            if neg {
                n = -n;
            }
            let mut name = OTHER;
            if boxed {
                if !at(b, q, b"]\n") {
                    return None;
                }
                q += 1;
            } else if *b.add(q) != b'\n' {
                if *b.add(q) == b' ' {
                    q += 1;
                }
                if *b.add(q) != b'(' {
                    return None;
                }
                let s = q + 1;
                q = s;
                loop {
                    match *b.add(q) {
                        b')' => break,
                        b'(' | b'\n' => return None,
                        _ => q += 1,
                    }
                }
                if *b.add(q + 1) != b'\n' || q - p > 1000 {
                    return None;
                }
                name = noted(std::slice::from_raw_parts(b.add(s), q - s));
                q += 1;
            }
            self.seen |= 1 << id;
            self.val[id] = n;
            self.nam[id] = name;
            Some(q + 1)
        }
    }

    #[inline(always)]
    unsafe fn quick_return(&mut self, b: *const u8, p: usize) -> Option<usize> {
        unsafe {
            let n = self.name.len();
            // A name is at most a line long, so what is read here may lie past the bytes at hand.
            if n > 32 || std::slice::from_raw_parts(b.add(p), n) != &self.name[..] {
                return None;
            }
            let q = p + n;
            let q = if at(b, q, b" returning at walltime ") {
                q + 23
            } else if at(b, q, b" returned at walltime ") {
                q + 22
            } else {
                return None;
            };
            let (wall, q) = quick_time(b, q)?;
            if !at(b, q, b", cputime ") {
                return None;
            }
            let (cpu, q) = quick_time(b, q + 10)?;
            if !at(b, q, b" seconds in thread 0") {
                return None;
            }
            let q = q + 20;
            let q = if at(b, q, b".\n") {
                q + 2
            } else if *b.add(q) == b'\n' {
                q + 1
            } else {
                return None;
            };
            self.back = (wall, cpu);
            Some(q | RETURNED)
        }
    }

    /// One line by the grammar, without its line feed; whether it is dropped.
    #[cold]
    #[inline(never)]
    fn general(&mut self, raw: &[u8], ended: Ended) -> Result<bool, Fault> {
        self.line += 1;
        let line = self.line;
        let fault = |k| Err(Fault::Text(k, line));
        if raw.len() > MAX_LINE {
            return fault(2);
        }
        let mut s = raw;
        if ended == Ended::Yes && let [r @ .., b'\r'] = s {
            s = r;
        }
        let s = trim(s);
        let over = line > MAX_LINES;
        let (st, name) = stamp(s);
        if ended != Ended::Yes {
            let bad = if self.inside {
                !matches!(st, Stamp::Is(true, _, _, false) if name == &self.name[..])
            } else {
                matches!(st, Stamp::Is(false, _, _, false)) || ended == Ended::Cut && matches!(st, Stamp::Bad)
            };
            if bad {
                return if ended == Ended::Cut { Ok(true) } else { fault(9) };
            }
        }
        match st {
            Stamp::Bad => return fault(3),
            // With completions, where the times show that the calls of two threads aren't told in their order.
            Stamp::Is(_, wall, _, true) if self.profile < Profile::Completions || wall < self.enter.0 => return fault(4),
            Stamp::Is(_, wall, cpu, true) => {
                if over {
                    return fault(11);
                }
                if !self.inside {
                    self.begin(name, UNREAD, 0, wall, cpu, line);
                }
                self.push_unread();
            }
            Stamp::Is(back, wall, cpu, false) => {
                if !self.inside {
                    if back {
                        return fault(5);
                    }
                    if self.calls >= self.max_calls() {
                        return fault(10);
                    }
                    if over {
                        return fault(11);
                    }
                    let (row, mode) = function(name, self.profile);
                    self.begin(name, row, mode, wall, cpu, line);
                } else {
                    if !back {
                        return fault(6);
                    }
                    if name != &self.name[..] {
                        return fault(7);
                    }
                    if over {
                        return fault(11);
                    }
                    self.finish(Some((wall, cpu)))?;
                }
            }
            Stamp::No => {
                if self.inside
                    && let Some(e) = s.iter().position(|c| *c == b'=')
                {
                    let Some(name) = parameter_name(&s[..e]) else { return fault(8) };
                    if let Some(id) = parameter(name)
                        && self.want >> id & 1 != 0
                        && self.seen >> id & 1 == 0
                    {
                        let v = trim(&s[e + 1..]);
                        if LISTED >> id & 1 != 0 {
                            self.listed(id, v);
                        } else {
                            self.seen |= 1 << id;
                            if value(v, &mut self.parsed) && !self.parsed.groups && self.parsed.nums.len() == 1 {
                                (self.val[id], self.nam[id]) = self.parsed.nums[0];
                            } else {
                                self.wrong |= 1 << id;
                            }
                        }
                    }
                }
                if over {
                    return fault(11);
                }
            }
        }
        Ok(false)
    }

    pub(crate) fn listed(&mut self, id: usize, v: &[u8]) {
        self.seen |= 1 << id;
        let ok = value(v, &mut self.parsed);
        match id {
            STATUS => self.status = if ok && self.parsed.groups { self.parsed.told[0] } else { NONE },
            STATUSES => {
                self.statuses.clear();
                if ok && self.parsed.groups {
                    self.statuses.extend_from_slice(&self.parsed.told);
                }
            }
            REQUESTS => {
                self.requests.clear();
                if ok && !self.parsed.groups {
                    let nulls = self.profile >= Profile::Completions;
                    let number = |n: &(i64, u8)| if nulls && n.1 == REQUEST_NULL { NULL_REQUEST } else { n.0 };
                    self.requests.extend(self.parsed.nums.iter().map(number));
                } else {
                    self.wrong |= 1 << id;
                }
            }
            _ => {
                self.indices.clear();
                if ok && !self.parsed.groups {
                    self.indices.extend(self.parsed.nums.iter().map(|n| n.0));
                }
            }
        }
    }

    #[inline(always)]
    fn number(&self, id: usize) -> Result<i64, Fault> {
        if self.wrong >> id & 1 != 0 { Err(Fault::Wrong(PARAMS[id], self.entered)) } else { Ok(self.val[id]) }
    }
    #[inline(always)]
    fn request(&self) -> Result<i64, Fault> {
        let n = self.number(REQUEST)?;
        Ok(if self.nam[REQUEST] == REQUEST_NULL && self.profile >= Profile::Completions { NULL_REQUEST } else { n })
    }
    fn root(&self) -> Result<u32, Fault> {
        let n = self.number(ROOT)?;
        if self.profile >= Profile::Collectives && (n < 0 || self.nam[ROOT] == NO_ROOT || self.nam[ROOT] == PROC_NULL) {
            return Ok(NONE);
        }
        self.small(ROOT)
    }
    #[inline(always)]
    fn small(&self, id: usize) -> Result<u32, Fault> {
        let n = self.number(id)?;
        if n as u64 > i32::MAX as u64 { Err(Fault::Wrong(PARAMS[id], self.entered)) } else { Ok(n as u32) }
    }
    #[inline(always)]
    fn dest(&self) -> Result<u32, Fault> {
        let n = self.number(DEST)?;
        if self.nam[DEST] == PROC_NULL || n == -1 || n == -2 { Ok(NULL) } else { self.small(DEST) }
    }
    #[inline(always)]
    fn source(&self) -> Result<u32, Fault> {
        let n = self.number(SOURCE)?;
        match self.nam[SOURCE] {
            ANY_SOURCE => Ok(ANY),
            PROC_NULL => Ok(NULL),
            _ if n == -1 => Ok(ANY),
            _ if n == -2 => Ok(NULL),
            _ => self.small(SOURCE),
        }
    }
    #[inline(always)]
    fn some_tag(&self, id: usize) -> Result<u32, Fault> {
        let n = self.number(id)?;
        if self.nam[id] == ANY_TAG || n == -1 { Ok(ANY) } else { self.small(id) }
    }
    #[inline(always)]
    fn comm(&self) -> Result<u32, Fault> {
        self.number(COMM)?;
        if self.nam[COMM] == COMM_WORLD { Ok(WORLD) } else { self.small(COMM) }
    }

    /// The call at hand, with the times of its returning line.
    #[inline(always)]
    fn finish(&mut self, back: Option<(u64, u64)>) -> Result<(), Fault> {
        let row = &ROWS[self.row as usize];
        if row.lenient {
            self.finish_leniently(row, back);
            return Ok(());
        }
        if self.want & !self.seen != 0 {
            // Something of the row is absent; only what can be missing is a fault.
            self.missing(row, back.is_some())?;
        }
        let kind = row.kind;
        let mut op =
            Op { a: 0, out: 0, peer: 0, tag: 0, comm: 0, count: 0, aux: 0, kind, mode: self.mode };
        let told = if self.status == NONE { -1 } else { self.status as i64 };
        let times = back;
        let back = back.is_some();
        match kind {
            SEND | ISEND | SENDINIT => {
                op.count = self.small(COUNT)?;
                op.a = self.number(DATATYPE)?;
                op.peer = self.dest()?;
                op.tag = self.small(TAG)?;
                op.comm = self.comm()?;
                if kind != SEND && back {
                    op.out = self.request()?;
                }
            }
            RECV | IRECV | RECVINIT => {
                op.count = self.small(COUNT)?;
                op.a = self.number(DATATYPE)?;
                op.peer = self.source()?;
                op.tag = self.some_tag(TAG)?;
                op.comm = self.comm()?;
                if back {
                    op.out = if kind == RECV { told } else { self.request()? };
                }
            }
            SENDRECV if self.row == REPLACE => {
                op.count = self.small(COUNT)?;
                op.a = self.number(DATATYPE)?;
                op.peer = self.dest()?;
                op.tag = self.small(SENDTAG)?;
                let e = Env { count: op.count, datatype: op.a, peer: self.source()?, tag: self.some_tag(RECVTAG)? };
                op.comm = self.comm()?;
                op.aux = self.arena.envs.len() as u32;
                self.arena.envs.push(e);
                if back {
                    op.out = told;
                }
            }
            SENDRECV => {
                op.count = self.small(SENDCOUNT)?;
                op.a = self.number(SENDTYPE)?;
                op.peer = self.dest()?;
                op.tag = self.small(SENDTAG)?;
                let e = Env {
                    count: self.small(RECVCOUNT)?,
                    datatype: self.number(RECVTYPE)?,
                    peer: self.source()?,
                    tag: self.some_tag(RECVTAG)?,
                };
                op.comm = self.comm()?;
                op.aux = self.arena.envs.len() as u32;
                self.arena.envs.push(e);
                if back {
                    op.out = told;
                }
            }
            WAIT | TEST => {
                op.a = self.request()?;
                if back {
                    if kind == TEST {
                        op.out = (self.number(FLAG)? != 0) as i64;
                        op.aux = self.status;
                    } else {
                        op.out = told;
                    }
                }
            }
            WAITALL | WAITANY | WAITSOME | TESTALL | TESTANY | TESTSOME | STARTALL => {
                if self.wrong >> REQUESTS & 1 != 0 {
                    return Err(Fault::Wrong(PARAMS[REQUESTS], self.entered));
                }
                let n = self.requests.len();
                op.a = self.arena.lists.len() as i64;
                op.count = n as u32;
                self.arena.lists.extend_from_slice(&self.requests);
                if back {
                    let sts = if self.seen >> STATUSES & 1 != 0 { &self.statuses[..] } else { &[] };
                    match kind {
                        STARTALL => {}
                        TESTALL if self.number(FLAG)? == 0 => {}
                        TESTANY if self.number(FLAG)? == 0 => {
                            op.out = -1;
                            op.aux = NONE;
                        }
                        WAITALL | TESTALL => {
                            op.aux = (kind == TESTALL) as u32;
                            let m = sts.len().min(n);
                            if sts[..m].iter().all(|t| *t == NONE) {
                                op.out = -1;
                            } else {
                                let told = &mut self.arena.told;
                                op.out = told.len() as i64;
                                told.extend_from_slice(&sts[..m]);
                                told.resize(op.out as usize + n, NONE);
                            }
                        }
                        WAITANY | TESTANY => {
                            let i = self.number(INDEX)?;
                            op.out = if (0..n as i64).contains(&i) { i } else { -1 };
                            op.aux = self.status;
                        }
                        _ => {
                            let told = &mut self.arena.told;
                            op.out = told.len() as i64;
                            if self.seen >> INDICES & 1 != 0 {
                                for (k, i) in self.indices.iter().enumerate() {
                                    if (0..n as i64).contains(i) {
                                        told.push(*i as u32);
                                        told.push(sts.get(k).copied().unwrap_or(NONE));
                                        op.aux += 1;
                                    }
                                }
                            }
                        }
                    }
                }
            }
            COLLECTIVE => {
                op.peer = if self.row == ROOTED { self.root()? } else { NONE };
                op.comm = self.comm()?;
            }
            ICOLLECTIVE => {
                op.peer = if self.row == IROOTED { self.root()? } else { NONE };
                op.comm = self.comm()?;
                if back {
                    op.out = self.request()?;
                }
            }
            PROBE | MPROBE => {
                op.peer = self.source()?;
                op.tag = self.some_tag(TAG)?;
                op.comm = self.comm()?;
                if back {
                    op.out = told;
                }
            }
            IMPROBE => {
                op.peer = self.source()?;
                op.tag = self.some_tag(TAG)?;
                op.comm = self.comm()?;
                if back {
                    op.out = (self.number(FLAG)? != 0) as i64;
                    op.aux = self.status;
                }
            }
            IMRECV if back => op.out = self.request()?,
            CANCEL | FREE | START => op.a = self.request()?,
            UNREAD => self.arena.unread.push(self.arena.ops.len()),
            _ => {}
        }
        self.push(op, times);
        Ok(())
    }

    #[inline(always)]
    pub(crate) fn push(&mut self, op: Op, back: Option<(u64, u64)>) {
        self.arena.ops.push(op);
        if self.keep {
            let (wall, cpu) = back.unwrap_or((0, 0));
            self.arena.times.push([self.enter.0, self.enter.1, wall, cpu]);
        }
        self.arena.last_wall = self.enter.0;
        self.inside = false;
    }

    /// As `finish`, for calls that are Local where an entry parameter can't be read.
    fn finish_leniently(&mut self, row: &Row, back: Option<(u64, u64)>) {
        let mut op = Op { a: 0, out: 0, peer: NONE, tag: 0, comm: 0, count: 0, aux: 0, kind: row.kind, mode: self.mode };
        let read = (|| {
            if row.kind == IPROBE {
                if mask(row.entry) & !self.seen != 0 {
                    return Err(Fault::Missing("", 0));
                }
                op.peer = self.source()?;
                op.tag = self.some_tag(TAG)?;
                op.comm = self.comm()?;
                return Ok(());
            }
            // The first of the names that the call has decides.
            let id = *row.entry.iter().find(|id| self.seen >> **id & 1 != 0).ok_or(Fault::Missing("", 0))?;
            self.number(id)?;
            if self.nam[id] == COMM_WORLD && KINDS[self.mode as usize].sort == crate::input::COMMUNICATOR {
                op.comm = WORLD;
            } else {
                op.comm = self.small(id)?;
            }
            Ok(())
        })();
        if read.is_err() {
            op = Op { a: 0, out: 0, peer: 0, tag: 0, comm: 0, count: 0, aux: 0, kind: LOCAL, mode: 0 };
        } else if back.is_some() && row.kind == IPROBE {
            op.out = -1;
            if self.seen >> FLAG & 1 != 0
                && let Ok(flag) = self.number(FLAG)
            {
                op.out = (flag != 0) as i64;
                op.aux = self.status;
            }
        } else if back.is_some() && row.kind == ICOLLECTIVE {
            match self.request() {
                Ok(n) if self.seen >> REQUEST & 1 != 0 => op.out = n,
                _ => op.aux = NOTHING_POSTED,
            }
        }
        self.push(op, back);
    }

    /// The call at hand as one that is not read, without a Return; nothing behind it is read.
    fn push_unread(&mut self) {
        self.arena.unread.push(self.arena.ops.len());
        let op = Op { a: 0, out: 0, peer: 0, tag: 0, comm: 0, count: 0, aux: 0, kind: UNREAD, mode: 0 };
        self.push(op, None);
        self.closed = true;
    }

    fn missing(&self, row: &Row, back: bool) -> Result<(), Fault> {
        for id in row.entry.iter().chain(if back { row.out } else { &[] }) {
            if self.seen >> id & 1 == 0 {
                return Err(Fault::Missing(PARAMS[*id], self.entered));
            }
        }
        // The index of a Testany counts where its flag is done.
        let done = (self.seen & !self.wrong) >> FLAG & 1 != 0 && self.val[FLAG] != 0;
        if back && row.kind == TESTANY && self.seen >> INDEX & 1 == 0 && done {
            return Err(Fault::Missing(PARAMS[INDEX], self.entered));
        }
        Ok(())
    }
}

/// The name of the parameter of a line, of which what stands before a `=` counts.
pub(crate) fn parameter_name(s: &[u8]) -> Option<&[u8]> {
    let head = trim(s.split(|c| *c == b'=').next()?);
    let from = head.iter().rposition(|c| *c == b' ' || *c == b'\t').map_or(0, |i| i + 1);
    let name = head[from..].split(|c| *c == b'[').next()?;
    if name.is_empty() { None } else { Some(name) }
}

/// What a trimmed line is as a stamp line, and its name.
pub(crate) fn stamp(s: &[u8]) -> (Stamp, &[u8]) {
    let n = s.iter().position(|c| !is_word(*c)).unwrap_or(s.len());
    let (name, rest) = s.split_at(n);
    if n == 0 {
        return (Stamp::No, name);
    }
    let (back, rest) = if let Some(r) = rest.strip_prefix(b" entering at ") {
        (false, r)
    } else if let Some(r) = rest.strip_prefix(b" returning at ") {
        (true, r)
    } else if let Some(r) = rest.strip_prefix(b" returned at ") {
        (true, r)
    } else {
        return (Stamp::No, name);
    };
    let whole = || {
        let r = rest.strip_prefix(b"walltime ")?;
        let (wall, i) = time_at(r, 0)?;
        let r = r[i..].strip_prefix(b", cputime ")?;
        let (cpu, i) = time_at(r, 0)?;
        let r = r[i..].strip_prefix(b" seconds in thread ")?;
        let r = r.strip_suffix(b".").unwrap_or(r);
        if r.is_empty() || !r.iter().all(u8::is_ascii_digit) {
            return None;
        }
        Some((wall, cpu, r.iter().any(|c| *c != b'0')))
    };
    match whole() {
        Some((wall, cpu, other)) => (Stamp::Is(back, wall, cpu, other), name),
        None => (Stamp::Bad, name),
    }
}
