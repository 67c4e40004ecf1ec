//! Messages, receives with their told sources, rounds, requests and states of one rank, what a Cancel leaves of them, and
//! the pairs.
//!
//! What a rank has sent stands with the sender, what it receives with the receiver. A queue of messages has one
//! sender and one receiver, so the receivers can be paired side by side: what of a sender changes then is in cells
//! that one receiver alone looks at.

use crate::input::*;
use crate::join::View;
use crate::kinds::*;
use crate::profile::Profile;
use crate::text::*;
use std::collections::HashMap;
use std::sync::atomic::{AtomicU32, Ordering::Relaxed};

pub const NIL: u32 = u32::MAX;
const UNTOLD: u32 = u32::MAX;
/// Set in a message's partner where its count is above the receive's.
pub const OVER: u32 = 1 << 31;
/// Set in a call where it is a place in `Sender::parts` and no call.
pub const CODED: u32 = 1 << 30;

// Flags of messages and receives.
/// What a Cancel may have undone.
pub const DOUBTFUL: u8 = 1;
/// What was cancelled.
pub const VOID: u8 = 2;
/// Its call starts another message (receive) too.
const MULTI: u8 = 4;
/// A readable Cancel names its request.
pub const MARKED: u8 = 8;
/// Marked, and the outcome that completes it has told something.
const SAID: u8 = 16;
/// A receive: of a Mprobe or Improbe.
const PROBED: u8 = 32;

/// A number that the thread of one receiver changes, while all can see where it stands.
#[derive(Default)]
pub struct Cell(AtomicU32);

impl Cell {
    pub const fn new(n: u32) -> Cell {
        Cell(AtomicU32::new(n))
    }
    #[inline(always)]
    pub fn get(&self) -> u32 {
        self.0.load(Relaxed)
    }
    #[inline(always)]
    fn set(&self, n: u32) {
        self.0.store(n, Relaxed)
    }
    #[inline(always)]
    fn raise(&self, n: u32) {
        self.set(self.get().max(n))
    }
}

pub struct Msg {
    pub datatype: i64,
    /// The call, or a place in `Sender::parts` with CODED.
    pub call: u32,
    pub queue: u32,
    /// Next in the queue.
    pub next: u32,
    /// The receive's call, with OVER; or NIL.
    pub partner: Cell,
    pub count: u32,
    pub mode: u8,
    pub flags: u8,
}

#[derive(Clone, Copy)]
pub struct Rcv {
    pub datatype: i64,
    /// As in `Msg`.
    pub call: u32,
    pub tag: u32,
    pub count: u32,
    /// With persistent requests: the call whose outcome completes it, or NIL.
    pub end: u32,
    /// The slot of its communicator.
    pub slot: u32,
    /// The told source as a trace rank, or UNTOLD.
    pub source: u32,
    pub paired: bool,
    pub flags: u8,
}

/// Messages of one sender on one communicator, to one receiver, of one tag, in order.
pub struct Queue {
    pub head: Cell,
    tail: u32,
    pub group: u32,
    pub tag: u32,
    pub object: u32,
    pub to: u32,
    /// Not 0 once an unpaired told receive of this tag has been met: nothing of this queue can pair any more
    /// (clause 5). The greatest end of these, as in `Receiver::any_open`.
    dead: Cell,
    /// Another queue of the group.
    other: u32,
}

/// Queues of one sender on one communicator, to one receiver.
pub struct Group {
    queues: u32,
    pub object: u32,
    pub to: u32,
    /// As in `Queue`, by an unpaired told receive of any tag.
    dead: Cell,
    /// Position in `Pairing::orders` once a told receive of any tag has come.
    order: Cell,
    pub unpaired: Cell,
    /// How many Barriers of the sender were counted, and `after` there.
    seen: (Cell, Cell),
}

/// Open addressing from u64 keys to u32.
#[derive(Default)]
pub struct Map {
    slots: Vec<(u64, u32)>,
    n: usize,
}

const VACANT: u64 = u64::MAX;

#[inline(always)]
fn mixed(k: u64) -> u64 {
    let k = k.wrapping_mul(0x9E37_79B9_7F4A_7C15);
    k ^ k >> 32
}

impl Map {
    #[inline(always)]
    pub fn get(&self, k: u64) -> Option<u32> {
        if self.slots.is_empty() {
            return None;
        }
        let m = self.slots.len() - 1;
        let mut i = mixed(k) as usize;
        loop {
            let s = &self.slots[i & m];
            if s.0 == k {
                return Some(s.1);
            }
            if s.0 == VACANT {
                return None;
            }
            i += 1;
        }
    }
    pub fn put(&mut self, k: u64, v: u32) {
        if 2 * self.n >= self.slots.len() {
            let old = std::mem::take(&mut self.slots);
            self.slots = vec![(VACANT, 0); (4 * old.len()).max(16)];
            self.n = 0;
            for (k, v) in old {
                if k != VACANT {
                    self.put(k, v);
                }
            }
        }
        let m = self.slots.len() - 1;
        let mut i = mixed(k) as usize;
        while self.slots[i & m].0 != VACANT && self.slots[i & m].0 != k {
            i += 1;
        }
        self.n += (self.slots[i & m].0 == VACANT) as usize;
        self.slots[i & m] = (k, v);
    }
    pub fn is_empty(&self) -> bool {
        self.n == 0
    }
    /// The greater of what stands there and v.
    fn raise(&mut self, k: u64, v: u32) {
        let v = self.get(k).map_or(v, |x| x.max(v));
        self.put(k, v);
    }
}

/// Open addressing to places in a list; the key stands with what is there.
#[derive(Default)]
struct Index {
    slots: Vec<u32>,
    n: usize,
}

impl Index {
    #[inline(always)]
    fn get(&self, hash: u64, is: impl Fn(u32) -> bool) -> Option<u32> {
        if self.slots.is_empty() {
            return None;
        }
        let m = self.slots.len() - 1;
        let mut i = hash as usize;
        loop {
            let s = self.slots[i & m];
            if s == NIL {
                return None;
            }
            if is(s) {
                return Some(s);
            }
            i += 1;
        }
    }
    /// Adds what isn't there.
    fn put(&mut self, v: u32, hash: impl Fn(u32) -> u64) {
        if 2 * self.n >= self.slots.len() {
            let old = std::mem::take(&mut self.slots);
            self.slots = vec![NIL; (4 * old.len()).max(16)];
            for v in old.into_iter().filter(|v| *v != NIL) {
                self.add(v, hash(v));
            }
        }
        self.n += 1;
        self.add(v, hash(v));
    }
    fn add(&mut self, v: u32, hash: u64) {
        let m = self.slots.len() - 1;
        let mut i = hash as usize;
        while self.slots[i & m] != NIL {
            i += 1;
        }
        self.slots[i & m] = v;
    }
}

#[inline(always)]
fn group_hash(object: u32, to: u32) -> u64 {
    mixed((object as u64) << 32 | to as u64)
}
#[inline(always)]
fn queue_hash(object: u32, to: u32, tag: u32) -> u64 {
    mixed(((object as u64) << 32 | to as u64).wrapping_mul(31).wrapping_add(tag as u64))
}
/// Of two small numbers.
#[inline(always)]
pub fn key(a: u32, b: u32) -> u64 {
    (a as u64) << 32 | b as u64
}

/// What posted an active request.
#[derive(Clone, Copy, Debug, PartialEq, Eq)]
pub enum Post {
    Yes,
    Msg(u32),
    Rcv(u32),
    /// A place in `Receiver::posted`.
    Coll(u32),
    /// The call of an Imrecv.
    Imrecv(u32),
}

/// Active (or held) requests by number: small numbers by position, others by a map.
struct Requests<T> {
    low: Vec<Option<T>>,
    high: std::collections::HashMap<i64, T>,
}

impl<T> Default for Requests<T> {
    fn default() -> Requests<T> {
        Requests { low: Vec::new(), high: Default::default() }
    }
}

const LOW: i64 = 1 << 16;

impl<T: Copy> Requests<T> {
    #[inline(always)]
    fn get(&self, n: i64) -> Option<T> {
        if (0..LOW).contains(&n) {
            self.low.get(n as usize).copied().flatten()
        } else {
            self.high.get(&n).copied()
        }
    }
    #[inline(always)]
    fn set(&mut self, n: i64, p: T) {
        if (0..LOW).contains(&n) {
            let i = n as usize;
            if i >= self.low.len() {
                self.low.resize((i + 1).next_power_of_two(), None);
            }
            self.low[i] = Some(p);
        } else {
            self.high.insert(n, p);
        }
    }
    #[inline(always)]
    fn drop(&mut self, n: i64) {
        if (0..LOW).contains(&n) {
            if let Some(x) = self.low.get_mut(n as usize) {
                *x = None;
            }
        } else {
            self.high.remove(&n);
        }
    }
    fn clear(&mut self) {
        self.low.clear();
        self.high.clear();
    }
}


#[derive(Clone, Copy)]
pub struct Round {
    pub entered: u32,
    pub root: u32,
    pub kind: u8,
    pub mixed: bool,
}

/// Kinds of rounds: those of the blocking calls; with NONBLOCKING those of the others, Ibarrier among them.
pub const NONBLOCKING: u8 = 128;

/// A collective call that is waited for; the root is a trace rank or NONE.
#[derive(Clone, Copy)]
pub struct Coll {
    pub object: u32,
    pub round: u32,
    /// As in `Round`.
    pub kind: u8,
    pub root: u32,
}

/// A collective call that a rank entered.
#[derive(Clone, Copy)]
struct Entered {
    slot: u32,
    root: u32,
    kind: u8,
}

/// A Barrier that a rank entered: its call, and how many collective calls on the communicator came before it; of
/// those that count where a message comes after another.
#[derive(Clone, Copy)]
struct Bar {
    call: u32,
    object: u32,
    k: u32,
}

#[derive(Clone, Copy, PartialEq, Eq, Debug, Default)]
pub enum State {
    #[default]
    Free,
    Waiting,
    Ended,
}

/// The call that a rank waits in, with what its condition needs.
pub enum Wait {
    Yes,
    Msg(u32),
    Rcv(u32),
    Both(Option<u32>, Option<u32>),
    /// One request; None where it is not active.
    One(Option<Post>),
    All(Vec<Post>),
    Any(Vec<Post>),
    Collective(Coll),
    /// The communicator's slot.
    Probe { slot: u32, tag: u32, source: Option<u32> },
}

pub struct Waiting {
    pub call: u64,
    pub wall: u64,
    pub wait: Wait,
}

/// What a rank has sent.
#[derive(Default)]
pub struct Sender {
    pub msgs: Vec<Msg>,
    pub queues: Vec<Queue>,
    pub groups: Vec<Group>,
    queue_of: Index,
    group_of: Index,
    /// The calls and parts of those above part 0 of a Startall.
    parts: Vec<(u32, u32)>,
    /// Its Barriers, rising; and of each communicator that it has any on: (call, k), rising.
    bars: Vec<Bar>,
    by_comm: Vec<(u32, Vec<(u32, u32)>)>,
}

/// What a rank has received, and its collective calls.
#[derive(Default)]
pub struct Receiver {
    pub rcvs: Vec<Rcv>,
    pub posted: Vec<Coll>,
    /// Its collective calls, in order.
    entered: Vec<Entered>,
    /// Those that count where a message comes after another, by communicator: where they stand in `calls`, and how many, by slot.
    at: Vec<(u32, u32)>,
    calls: Vec<u32>,
    /// Open receives met so far, each by the greatest call that completes one of them, plus 1; NIL where one is
    /// not completed (or before persistent requests were read). Untold: by slot, of any tag; and by slot and tag. Doubtful with a source: by
    /// slot and source, of any tag; and by these and tag.
    any_open: Vec<u32>,
    tag_open: Map,
    any_doubt: Map,
    tag_doubt: HashMap<(u32, u32, u32), u32>,
}

/// Where a rank stands.
#[derive(Clone, Copy, Default)]
pub struct Standing {
    pub prefix: u64,
    pub state: State,
    pub beyond: bool,
    pub unread: bool,
}

/// All that comes of one rank.
pub struct Rank {
    pub sender: Box<Sender>,
    pub receiver: Box<Receiver>,
    pub standing: Standing,
    pub waiting: Option<Box<Waiting>>,
    pub foreign: u64,
    pub conflicts: Vec<u64>,
}

/// All ranks; those without a call have none of the boxes.
pub struct Ops {
    pub profile: Profile,
    pub senders: Vec<Option<Box<Sender>>>,
    pub receivers: Vec<Option<Box<Receiver>>>,
    pub standings: Vec<Standing>,
    pub waits: Vec<Option<Box<Waiting>>>,
    pub conflicts: Vec<(u32, Vec<u64>)>,
    pub foreign: u64,
    /// Rounds by object; and how many each member has entered, by `Layout::place`.
    pub rounds: Vec<Vec<Round>>,
    pub entered: Vec<u32>,
    /// After `pair`: the messages of each rank that are postponed.
    pub postponed: Vec<Vec<u32>>,
}

impl Sender {
    #[inline(always)]
    pub fn queue(&self, object: u32, to: u32, tag: u32) -> Option<u32> {
        self.queue_of.get(queue_hash(object, to, tag), |q| {
            let e = &self.queues[q as usize];
            (e.to, e.tag, e.object) == (to, tag, object)
        })
    }
    #[inline(always)]
    pub fn group(&self, object: u32, to: u32) -> Option<u32> {
        self.group_of.get(group_hash(object, to), |g| {
            let e = &self.groups[g as usize];
            (e.to, e.object) == (to, object)
        })
    }

    #[cold]
    fn new_queue(&mut self, object: u32, to: u32, tag: u32) -> u32 {
        let q = self.queues.len() as u32;
        let g = self.group(object, to).unwrap_or_else(|| {
            let g = self.groups.len() as u32;
            let (queues, dead, order) = (NIL, Cell::new(0), Cell::new(NIL));
            self.groups.push(Group { queues, object, to, dead, order, unpaired: Cell::new(0), seen: Default::default() });
            let all = &self.groups;
            self.group_of.put(g, |g| group_hash(all[g as usize].object, all[g as usize].to));
            g
        });
        let other = std::mem::replace(&mut self.groups[g as usize].queues, q);
        let (head, dead) = (Cell::new(NIL), Cell::new(0));
        self.queues.push(Queue { head, tail: NIL, group: g, tag, object, to, dead, other });
        let all = &self.queues;
        self.queue_of.put(q, |q| {
            let e = &all[q as usize];
            queue_hash(e.object, e.to, e.tag)
        });
        q
    }

    #[inline(always)]
    fn message(&mut self, call: u32, object: u32, to: u32, tag: u32, op: &Op) -> u32 {
        let m = self.msgs.len() as u32;
        let queue = self.queue(object, to, tag).unwrap_or_else(|| self.new_queue(object, to, tag));
        let e = &mut self.queues[queue as usize];
        if e.head.get() == NIL {
            e.head.set(m);
        } else {
            self.msgs[e.tail as usize].next = m;
        }
        e.tail = m;
        let partner = Cell::new(NIL);
        self.msgs.push(Msg { datatype: op.a, call, queue, next: NIL, partner, count: op.count, mode: op.mode, flags: 0 });
        m
    }

    /// The name of part `part` of call `call`.
    fn code(&mut self, call: u32, part: usize) -> u32 {
        if part == 0 {
            return call;
        }
        assert!(self.parts.len() < CODED as usize);
        self.parts.push((call, part as u32));
        CODED | (self.parts.len() - 1) as u32
    }

    /// The call and the part of a name, which may have OVER.
    #[inline(always)]
    pub fn call_of(&self, code: u32) -> (u32, u32) {
        let code = code & !OVER;
        if code & CODED == 0 { (code, 0) } else { self.parts[(code & !CODED) as usize] }
    }

    /// Takes the void ones of these messages out of their queues.
    fn unlink_void(&mut self, marked: &[u32]) {
        let void = |m: &&u32| self.msgs[**m as usize].flags & VOID != 0;
        let mut queues: Vec<u32> = marked.iter().filter(void).map(|m| self.msgs[*m as usize].queue).collect();
        queues.sort_unstable();
        queues.dedup();
        for k in queues {
            let e = &mut self.queues[k as usize];
            let mut m = e.head.get();
            e.head.set(NIL);
            e.tail = NIL;
            while m != NIL {
                let next = std::mem::replace(&mut self.msgs[m as usize].next, NIL);
                if self.msgs[m as usize].flags & VOID == 0 {
                    if e.head.get() == NIL {
                        e.head.set(m);
                    } else {
                        self.msgs[e.tail as usize].next = m;
                    }
                    e.tail = m;
                }
                m = next;
            }
        }
    }
}

/// The rank at hand, while its calls are read.
struct Reading<'a> {
    l: &'a Layout,
    slots: &'a [Slot],
    profile: Profile,
    sender: Box<Sender>,
    receiver: Box<Receiver>,
}

impl Reading<'_> {
    /// Whom the rank names on the object of a slot.
    #[inline(always)]
    fn peers(&self, slot: u32) -> &[u32] {
        let s = self.slots[slot as usize];
        self.l.peers(s.object, s.at)
    }

    /// Adds a receive of tag, count and datatype.
    #[inline(always)]
    fn receives(&mut self, call: u32, slot: u32, what: (u32, u32, i64), source: u32, end: u32, flags: u8) -> u32 {
        let (tag, count, datatype) = what;
        let q = self.receiver.rcvs.len() as u32;
        self.receiver.rcvs.push(Rcv { datatype, call, tag, count, end, slot, source, paired: false, flags });
        q
    }

    /// The Enter of a Start or Startall of call n: what it starts of the numbers that are held.
    fn start(&mut self, n: u32, list: &[i64], held: &Requests<u32>, inits: &[Init], begun: &mut Vec<(i64, Post)>) {
        let (ms, qs) = (self.sender.msgs.len(), self.receiver.rcvs.len());
        for (part, x) in list.iter().enumerate() {
            let Some(h) = held.get(*x) else { continue };
            let Init { op, slot, local } = &inits[h as usize];
            let p = if *local || op.peer == NULL {
                Post::Yes
            } else if op.kind == SENDINIT {
                let code = self.sender.code(n, part);
                let to = self.peers(*slot)[op.peer as usize];
                Post::Msg(self.sender.message(code, self.slots[*slot as usize].object, to, op.tag, op))
            } else {
                let call = self.sender.code(n, part);
                let source = if op.peer < NULL { self.peers(*slot)[op.peer as usize] } else { UNTOLD };
                let (tag, count, datatype, slot) = (op.tag, op.count, op.a, *slot);
                let q = Rcv { datatype, call, tag, count, end: NIL, slot, source, paired: false, flags: 0 };
                self.receiver.rcvs.push(q);
                Post::Rcv(self.receiver.rcvs.len() as u32 - 1)
            };
            begun.push((*x, p));
        }
        if self.sender.msgs.len() > ms + 1 {
            self.sender.msgs[ms..].iter_mut().for_each(|m| m.flags |= MULTI);
        }
        if self.receiver.rcvs.len() > qs + 1 {
            self.receiver.rcvs[qs..].iter_mut().for_each(|q| q.flags |= MULTI);
        }
    }

    /// The collective calls that count there, by communicator, and the Barriers.
    fn count_colls(&mut self, colls: &[(u32, Bar)]) {
        if colls.is_empty() {
            return;
        }
        let q = &mut self.receiver;
        q.at = vec![(0, 0); self.slots.len()];
        for (slot, _) in colls {
            q.at[*slot as usize].1 += 1;
        }
        let mut sum = 0;
        for (slot, _) in colls.iter().filter(|b| b.1.k == 0) {
            let x = &mut q.at[*slot as usize];
            x.0 = sum;
            sum += x.1;
        }
        q.calls = vec![0; sum as usize];
        for (slot, b) in colls {
            q.calls[(q.at[*slot as usize].0 + b.k) as usize] = b.call;
        }
        let mut place: HashMap<u32, usize> = HashMap::new();
        let by = &mut self.sender.by_comm;
        for b in &self.sender.bars {
            let i = *place.entry(b.object).or_insert(by.len());
            if i == by.len() {
                by.push((b.object, Vec::new()));
            }
            by[i].1.push((b.call, b.k));
        }
    }

    /// The outcome of call n completes a post.
    #[inline(always)]
    fn end(&mut self, p: Option<Post>, n: u32) {
        if let Some(Post::Rcv(q)) = p {
            self.receiver.rcvs[q as usize].end = n;
        }
    }

    /// An outcome completes a post and tells it a source of the group, if one.
    #[inline(always)]
    fn tell(&mut self, p: Option<Post>, told: u32) {
        if let Some(Post::Msg(m)) = p {
            if self.profile >= Profile::Completions && self.sender.msgs[m as usize].flags & MARKED != 0 {
                tell_marked(&mut self.sender.msgs[m as usize].flags, told, false);
            }
        } else if let Some(Post::Rcv(q)) = p {
            let Rcv { slot, flags, source, .. } = self.receiver.rcvs[q as usize];
            if flags & MARKED != 0 {
                let inside = (told as usize) < self.peers(slot).len();
                tell_marked(&mut self.receiver.rcvs[q as usize].flags, told, inside);
            }
            if source == UNTOLD
                && let Some(s) = self.peers(slot).get(told as usize)
            {
                self.receiver.rcvs[q as usize].source = *s;
            }
        }
    }
}

/// What an outcome tells of a post with a readable Cancel: its flags, and whether a source of the group.
#[cold]
fn tell_marked(flags: &mut u8, told: u32, inside: bool) {
    if told == NONE {
        return;
    }
    if *flags & SAID == 0 {
        *flags |= SAID;
        if told == CANCELLED {
            *flags = *flags & !DOUBTFUL | VOID;
        }
    }
    if inside {
        *flags &= !DOUBTFUL;
    }
}

/// A persistent request: its call, and whether that is foreign.
struct Init {
    op: Op,
    slot: u32,
    local: bool,
}

#[derive(Default)]
pub struct Scratch {
    req: Requests<Post>,
    names: Vec<Name>,
    /// Persistent requests: places in `inits`.
    held: Requests<u32>,
    inits: Vec<Init>,
    begun: Vec<(i64, Post)>,
    /// Messages with a readable Cancel.
    marked: Vec<u32>,
    /// Collective calls that count there in order, with their slots; and by slot how many, all and of these.
    colls: Vec<(u32, Bar)>,
    rounds: Vec<(u32, u32)>,
}

/// What comes of the calls of rank r.
pub fn rank(l: &Layout, profile: Profile, r: usize, arenas: &[Arena], v: View, scratch: &mut Scratch) -> Rank {
    let slots = l.slots(r);
    let Scratch { req, names, held, inits, begun, marked, colls, rounds } = scratch;
    req.clear();
    held.clear();
    inits.clear();
    marked.clear();
    colls.clear();
    rounds.clear();
    rounds.resize(slots.len(), (0, 0));
    l.names(r, names);
    let names = &names[..];
    let ends = profile >= Profile::Persistent;
    let mut d = Reading { l, slots, profile, sender: Box::default(), receiver: Box::default() };
    let mut foreign = 0;
    // Mprobes and Improbes before this call are doubtful.
    let mut given_back = 0;
    let world = l.slot_of(r, l.world).map_or(NIL, |s| s as u32);
    // The slot of a call that isn't foreign for its object's sake; calls come in order, so a name holds for a while.
    let mut last = Name { sort: u8::MAX, number: 0, first: 0, end: 0, slot: 0 };
    let mut find = |sort: u8, n: u32, call: u64| -> Option<u32> {
        if n == WORLD {
            return Some(world);
        }
        if (last.sort, last.number) == (sort, n) && last.first <= call && call < last.end {
            return Some(last.slot);
        }
        let i = names.partition_point(|x| (x.sort, x.number, x.first) <= (sort, n, call));
        let x = names[..i].last().filter(|x| (x.sort, x.number) == (sort, n) && call < x.end)?;
        last = *x;
        Some(x.slot)
    };
    // The object of a slot, and whom the rank names there; mostly that of the call before.
    let mut at = (NIL, 0, &[][..]);
    let mut on = |slot: u32| {
        if at.0 != slot {
            let s = slots[slot as usize];
            at = (slot, s.object, l.peers(s.object, s.at));
        }
        (at.1, at.2)
    };
    let enters = v.prefix.div_ceil(2);
    let returns = v.prefix / 2;
    assert!(enters < CODED as u64);
    let final_call = if v.prefix % 2 == 1 && !v.beyond { enters - 1 } else { u64::MAX };
    let mut waiting = None;
    let mut done = v.prefix > 0 && !v.beyond;
    let mut call = 0u64;
    'all: for run in &v.runs {
        let arena = &arenas[run.arena as usize];
        let ops = &arena.ops[run.start..run.start + run.n];
        for (i, op) in ops.iter().enumerate() {
            if call >= enters {
                break 'all;
            }
            let back = call < returns;
            let n = call as u32;
            // The operations that the Enter starts.
            let mut msg = None;
            let mut rcv = None;
            let mut local = false;
            let mut slot = 0u32;
            let mut coll = None;
            match op.kind {
                // The most of all calls.
                SEND | ISEND | RECV | IRECV => {
                    local = match find(COMMUNICATOR, op.comm, call) {
                        Some(s) => {
                            slot = s;
                            let (object, peers) = on(slot);
                            let peer = peers.get(op.peer as usize).copied();
                            if matches!(op.kind, SEND | ISEND) {
                                msg = peer.map(|to| d.sender.message(n, object, to, op.tag, op));
                            } else if op.peer != NULL && (peer.is_some() || op.peer == ANY) {
                                let told = if back && op.kind == RECV { op.out } else { -1 };
                                let source = peer.or_else(|| peers.get(told as usize).copied()).unwrap_or(UNTOLD);
                                let end = if ends && back && op.kind == RECV { n } else { NIL };
                                rcv = Some(d.receives(n, slot, (op.tag, op.count, op.a), source, end, 0));
                            }
                            peer.is_none() && op.peer < NULL
                        }
                        None => true,
                    };
                    foreign += local as u64;
                }
                SENDRECV | COLLECTIVE | PROBE | SENDINIT | RECVINIT | MPROBE | IMPROBE | ICOLLECTIVE | IPROBE => {
                    let collective = matches!(op.kind, COLLECTIVE | ICOLLECTIVE);
                    let found = find(if collective { sort_of(op.mode) } else { COMMUNICATOR }, op.comm, call);
                    slot = found.unwrap_or(0);
                    local = true;
                    let mut peers = &[][..];
                    let mut object = 0;
                    if found.is_some() {
                        (object, peers) = on(slot);
                        let outside = |p: u32| p < NULL && p as usize >= peers.len();
                        local = outside(op.peer)
                            || match op.kind {
                                SENDRECV => outside(arena.envs[op.aux as usize].peer),
                                COLLECTIVE | ICOLLECTIVE => {
                                    (op.mode == MERGE || is_rooted(op.mode) && op.peer == NONE) && !l.is_inter(object)
                                }
                                _ => false,
                            };
                    }
                    if local {
                        foreign += 1;
                    } else {
                        match op.kind {
                            SENDRECV if op.peer < NULL => {
                                msg = Some(d.sender.message(n, object, peers[op.peer as usize], op.tag, op));
                            }
                            COLLECTIVE | ICOLLECTIVE => {
                                let kind = if op.kind == ICOLLECTIVE { NONBLOCKING | op.mode } else { op.mode };
                                let inter = l.is_inter(object);
                                let root = if inter { NONE } else { op.peer };
                                let e = &mut rounds[slot as usize];
                                let named = if op.peer < NULL { peers[op.peer as usize] } else { NONE };
                                coll = Some(Coll { object, round: e.0, kind, root: named });
                                e.0 += 1;
                                d.receiver.entered.push(Entered { slot, root, kind });
                                if ends && op.mode < FIRST_LENIENT && !inter {
                                    let b = Bar { call: n, object, k: e.1 };
                                    e.1 += 1;
                                    colls.push((slot, b));
                                    if kind == 0 {
                                        d.sender.bars.push(b);
                                    }
                                }
                            }
                            _ => {}
                        }
                        // What it receives, and what its outcome tells of that.
                        let (q, told) = match op.kind {
                            SENDRECV => {
                                let e = &arena.envs[op.aux as usize];
                                ((e.peer, e.tag, e.count, e.datatype), op.out)
                            }
                            MPROBE => ((op.peer, op.tag, i32::MAX as u32, 0), op.out),
                            IMPROBE if back && op.out != 0 => ((op.peer, op.tag, i32::MAX as u32, 0), op.aux as i64),
                            _ => ((NULL, 0, 0, 0), -1),
                        };
                        if q.0 != NULL {
                            let told = if back { told } else { -1 };
                            let peer = if q.0 < NULL { q.0 as i64 } else { told };
                            let source = usize::try_from(peer).ok().and_then(|p| peers.get(p)).copied().unwrap_or(UNTOLD);
                            let flags = if op.kind == SENDRECV { 0 } else { PROBED };
                            let end = if ends && back { n } else { NIL };
                            rcv = Some(d.receives(n, slot, (q.1, q.2, q.3), source, end, flags));
                        }
                    }
                }
                CANCEL => match req.get(op.a) {
                    Some(Post::Msg(m)) => {
                        d.sender.msgs[m as usize].flags |= MARKED | DOUBTFUL;
                        marked.push(m);
                    }
                    Some(Post::Rcv(q)) => d.receiver.rcvs[q as usize].flags |= MARKED | DOUBTFUL,
                    Some(Post::Imrecv(c)) => given_back = given_back.max(c),
                    // Its wait is local.
                    Some(Post::Coll(_)) => req.set(op.a, Post::Yes),
                    _ => {}
                },
                START | STARTALL => {
                    let list = match op.kind {
                        START => std::slice::from_ref(&op.a),
                        _ => &arena.lists[op.a as usize..][..op.count as usize],
                    };
                    begun.clear();
                    d.start(n, list, held, inits, begun);
                    if back {
                        for (x, p) in begun.iter() {
                            req.set(*x, *p);
                        }
                    }
                }
                _ => {}
            }
            if back {
                match op.kind {
                    // A call that is read leniently may bring no request.
                    ICOLLECTIVE if op.aux == NOTHING_POSTED => {}
                    ISEND | IRECV | ICOLLECTIVE | IMRECV => {
                        let p = match (msg, rcv, coll) {
                            (Some(m), ..) => Post::Msg(m),
                            (_, Some(q), _) => Post::Rcv(q),
                            (.., Some(c)) => {
                                d.receiver.posted.push(c);
                                Post::Coll(d.receiver.posted.len() as u32 - 1)
                            }
                            _ if op.kind == IMRECV => Post::Imrecv(n),
                            _ => Post::Yes,
                        };
                        if !inits.is_empty() {
                            held.drop(op.out);
                        }
                        if op.out != NULL_REQUEST || profile < Profile::Completions {
                            req.set(op.out, p);
                        }
                    }
                    SENDINIT | RECVINIT => {
                        req.drop(op.out);
                        if op.out != NULL_REQUEST {
                            held.set(op.out, inits.len() as u32);
                            inits.push(Init { op: *op, slot, local });
                        }
                    }
                    FREE => {
                        req.drop(op.a);
                        held.drop(op.a);
                    }
                    WAIT => {
                        let p = req.get(op.a);
                        if op.out >= 0 {
                            d.tell(p, op.out as u32);
                        }
                        if ends {
                            d.end(p, n);
                        }
                        req.drop(op.a);
                    }
                    TEST if op.out != 0 => {
                        let p = req.get(op.a);
                        d.tell(p, op.aux);
                        if ends {
                            d.end(p, n);
                        }
                        req.drop(op.a);
                    }
                    TESTALL if op.aux == 0 => {}
                    WAITALL | TESTALL => {
                        let list = &arena.lists[op.a as usize..][..op.count as usize];
                        if ends {
                            for x in list {
                                d.end(req.get(*x), n);
                            }
                        }
                        if op.out >= 0 {
                            for (k, x) in list.iter().enumerate() {
                                d.tell(req.get(*x), arena.told[op.out as usize + k]);
                            }
                        }
                        for x in list {
                            req.drop(*x);
                        }
                    }
                    WAITANY | TESTANY if op.out >= 0 => {
                        let x = arena.lists[(op.a + op.out) as usize];
                        let p = req.get(x);
                        d.tell(p, op.aux);
                        if ends {
                            d.end(p, n);
                        }
                        req.drop(x);
                    }
                    WAITSOME | TESTSOME => {
                        let list = &arena.lists[op.a as usize..][..op.count as usize];
                        let some = &arena.told[op.out as usize..][..2 * op.aux as usize];
                        for s in some.chunks_exact(2) {
                            let p = req.get(list[s[0] as usize]);
                            d.tell(p, s[1]);
                            if ends {
                                d.end(p, n);
                            }
                        }
                        for s in some.chunks_exact(2) {
                            req.drop(list[s[0] as usize]);
                        }
                    }
                    _ => {}
                }
            } else if call == final_call {
                let list = |any: bool| {
                    let list = &arena.lists[op.a as usize..][..op.count as usize];
                    // A call that isn't read may have posted a number that isn't active.
                    let other = |x: &i64| any && profile >= Profile::Completions && *x != NULL_REQUEST && held.get(*x).is_none();
                    let part = |x: &i64| req.get(*x).or_else(|| other(x).then_some(Post::Yes));
                    let v: Vec<Post> = list.iter().filter_map(part).collect();
                    match any {
                        true if v.is_empty() => Wait::Yes,
                        true => Wait::Any(v),
                        false => Wait::All(v),
                    }
                };
                let wait = match op.kind {
                    _ if local => None,
                    SEND => Some(msg.map_or(Wait::Yes, Wait::Msg)),
                    RECV | MPROBE => Some(rcv.map_or(Wait::Yes, Wait::Rcv)),
                    SENDRECV => Some(Wait::Both(msg, rcv)),
                    WAIT => Some(Wait::One(req.get(op.a))),
                    WAITALL => Some(list(false)),
                    WAITANY | WAITSOME => Some(list(true)),
                    COLLECTIVE => coll.map(Wait::Collective),
                    PROBE if op.peer == NULL => Some(Wait::Yes),
                    PROBE => {
                        let source = if op.peer == ANY { None } else { Some(d.peers(slot)[op.peer as usize]) };
                        Some(Wait::Probe { slot, tag: op.tag, source })
                    }
                    _ => None,
                };
                if let Some(wait) = wait {
                    // The times of all calls are kept only where two pieces may tell of one call.
                    let wall = arena.times.get(run.start + i).map_or(arena.last_wall, |t| t[0]);
                    waiting = Some(Box::new(Waiting { call, wall, wait }));
                }
            }
            call += 1;
            if call == enters {
                done &= op.kind == FINALIZE;
            }
        }
    }
    let state = match () {
        _ if done => State::Ended,
        _ if waiting.is_some() => State::Waiting,
        _ => State::Free,
    };
    for q in &mut d.receiver.rcvs {
        if given_back == 0 || q.call & CODED == 0 && q.call >= given_back {
            break;
        }
        if q.flags & PROBED != 0 {
            q.flags |= DOUBTFUL;
        }
    }
    d.sender.unlink_void(marked);
    d.count_colls(colls);
    Rank {
        standing: Standing { prefix: v.prefix, state, beyond: v.beyond, unread: v.unread },
        sender: d.sender,
        receiver: d.receiver,
        waiting,
        foreign,
        conflicts: v.conflicts,
    }
}

static NO_SENDER: std::sync::LazyLock<Sender> = std::sync::LazyLock::new(Sender::default);
static NO_RECEIVER: std::sync::LazyLock<Receiver> = std::sync::LazyLock::new(Receiver::default);

impl Receiver {
    /// An open receive is met.
    fn open(&mut self, l: &Layout, r: usize, q: &Rcv) {
        let x = q.end.saturating_add(1);
        match (q.source, q.tag) {
            (UNTOLD, ANY) => {
                if self.any_open.is_empty() {
                    self.any_open = vec![0; l.slots(r).len()];
                }
                let e = &mut self.any_open[q.slot as usize];
                *e = (*e).max(x);
            }
            (UNTOLD, tag) => self.tag_open.raise(key(q.slot, tag), x),
            (s, ANY) => self.any_doubt.raise(key(q.slot, s), x),
            (s, tag) => {
                let e = self.tag_doubt.entry((q.slot, s, tag)).or_default();
                *e = (*e).max(x);
            }
        }
    }

    /// Of the open receives met so far that fit such a message: the greatest end plus 1, NIL for one without an
    /// end, 0 where there is none.
    #[inline(always)]
    fn last_open(&self, slot: u32, from: u32, tag: u32) -> u32 {
        let mut x = if self.any_open.is_empty() { 0 } else { self.any_open[slot as usize] };
        if !self.tag_open.is_empty() {
            x = x.max(self.tag_open.get(key(slot, tag)).unwrap_or(0));
        }
        if !self.any_doubt.is_empty() {
            x = x.max(self.any_doubt.get(key(slot, from)).unwrap_or(0));
        }
        if !self.tag_doubt.is_empty() {
            x = x.max(self.tag_doubt.get(&(slot, from, tag)).copied().unwrap_or(0));
        }
        x
    }

    /// Whether nothing of it is open.
    fn has_open(&self) -> bool {
        !(self.any_open.is_empty() && self.tag_open.is_empty() && self.any_doubt.is_empty() && self.tag_doubt.is_empty())
    }
}

/// How many Barriers the sender of the group entered before the call, and `after` by these alone.
fn after_bars(l: &Layout, s: &Sender, g: &Group, to: &Receiver, call: u32) -> (u32, u32) {
    let bars = &s.bars[..];
    let (had, mut x) = (g.seen.0.get(), g.seen.1.get());
    let n = match bars.get(had as usize) {
        // The next message is often of the same stretch.
        Some(b) if b.call >= call && (had == 0 || bars[had as usize - 1].call < call) => had as usize,
        None if had == 0 || bars[had as usize - 1].call < call => had as usize,
        _ => bars.partition_point(|b| b.call < call),
    };
    let at = |object: u32, k: u32| {
        let Some(slot) = l.slot_of(g.to as usize, object) else { return 0 };
        let (start, len) = to.at.get(slot).copied().unwrap_or((0, 0));
        if k < len { to.calls[(start + k) as usize] + 1 } else { NIL }
    };
    let by = &s.by_comm;
    if n >= had as usize && n - had as usize <= 4 * by.len() {
        for b in &bars[had as usize..n] {
            x = x.max(at(b.object, b.k));
        }
    } else {
        x = 0;
        for (object, list) in by {
            let i = list.partition_point(|b| b.0 < call);
            if i > 0 {
                x = x.max(at(*object, list[i - 1].1));
            }
        }
    }
    (n as u32, x)
}

/// Whether an open receive of `to` met so far fits a message of the group, which doesn't come after it; from: the
/// sender's rank.
#[inline(always)]
fn is_hidden(l: &Layout, s: &Sender, from: u32, g: &Group, to: &Receiver, slot: u32, tag: u32, code: u32) -> bool {
    let x = to.last_open(slot, from, tag);
    x != 0 && (x == NIL || x > after(l, s, from, g, to, code))
}

/// E(m) plus 1 for a message of the group; 0 where it comes after nothing, NIL where it comes after whatever has
/// an end.
#[cold]
fn after(l: &Layout, s: &Sender, from: u32, g: &Group, to: &Receiver, code: u32) -> u32 {
    let call = s.call_of(code).0;
    let (n, x) = after_bars(l, s, g, to, call);
    g.seen.0.set(n);
    g.seen.1.set(x);
    // A rank's own message comes after what it had done before.
    if from == g.to { x.max(call) } else { x }
}

/// The messages of a group in order, and how many of them are known to be taken.
type Orders = Vec<(Vec<u32>, usize)>;

/// The receives of one rank, while they are paired.
struct Pairing<'a> {
    l: &'a Layout,
    senders: &'a [Option<Box<Sender>>],
    r: u32,
    slots: &'a [Slot],
    me: &'a mut Receiver,
    orders: Orders,
}

impl Pairing<'_> {
    /// The pairing in one pass over each rank's receives in call order.
    ///
    /// A pair needs one communicator, one sender and one receiver (clauses 1 and 2), and so do the messages and
    /// told receives that clauses 4 and 5 speak of; so take one group (communicator, sender, receiver) and its
    /// told receives q in call order. By induction on q:
    ///
    /// - *One to one.* If m and a later n were both paired with q, clause 4 for n gives q' < q paired with m,
    ///   and clause 5 for (m, q) gives q' an earlier message than m: two messages for q' < q. If m is paired
    ///   with q' and with a later q, clause 5 for (m, q) gives q' a second message. Neither can be.
    /// - *One candidate.* By clause 4 and one to one, q can only pair with the earliest fitting message that no
    ///   receive before q took: call it m. Clause 4 then holds for m.
    /// - *Clause 5 for m.* A told q' < q that fits m and is paired has an earlier message than m: were it a
    ///   later one, clause 4 would have m paired before q', and m is not taken. So clause 5 says just that no
    ///   told receive before q that fits m is unpaired. An unpaired one of tag t fits the messages of tag t: the
    ///   queue is `dead`; an unpaired one of any tag fits all: the group is `dead`.
    /// - *Clause 3* says that no untold receive of the communicator before q has m's tag or any: these are kept
    ///   in two sets that hold what this rank's receives up to q have been.
    ///
    /// So q takes m if neither queue nor group is dead and no untold receive stands before, and else is unpaired
    /// and kills its queue or group. Within a tag messages are taken in order, as both kinds of receive take the
    /// earliest; a receive of any tag walks the group's messages in order with a cursor over those taken.
    ///
    /// With completions:
    ///
    /// - *Void* messages and receives are left out. A *doubtful* message is in no pair, so by clause 4 it stays the
    ///   candidate of whatever fits it. A doubtful receive is open, as an untold one: nothing in clauses 4 and 5.
    /// - *What comes after another.* m comes after p just where p's end is at most E(m): of each communicator, p's rank has
    ///   at most k collective calls before its end where its collective call k + 1 is not before the end. So E(m)
    ///   is the greatest, over the communicators of both ranks, of the call of the receiver's collective call
    ///   k + 1, k + 1 being the sender's last Barrier before m; for a message of the receiver itself, that or the
    ///   call before m's, whichever is greater. One of the open receives that fit m hides it just
    ///   where the last to end does: the sets keep the greatest end of a key.
    /// - *Parts.* A candidate must be the only message of its call that fits q and is not taken (clause 4). Of told
    ///   receives of one call: two of one tag (two of any tag) have one candidate and are unpaired by clause 5; one
    ///   of any tag is unpaired where one of its candidate's tag stands beside it; and one of a tag needs that of
    ///   any tag paired, whose message then has a lower call. So the open ones go first, then those of any tag,
    ///   then the others.
    fn all(&mut self) {
        let (mut i, end) = (0, self.me.rcvs.len());
        while i < end {
            let q = self.me.rcvs[i];
            if q.flags & (DOUBTFUL | VOID | MULTI) != 0 {
                i = self.parts(i);
                continue;
            }
            if q.source == UNTOLD {
                self.me.open(self.l, self.r as usize, &q);
            } else {
                self.take(i, &q, &[]);
            }
            i += 1;
        }
    }

    /// The told and sure receive i takes its message, or kills its queue or group. Beside it stand told and sure
    /// receives of the queues `beside`, in the same call.
    #[inline(always)]
    fn take(&mut self, i: usize, q: &Rcv, beside: &[u32]) {
        let (l, senders) = (self.l, self.senders);
        let object = self.slots[q.slot as usize].object;
        let Some(s) = senders[q.source as usize].as_deref() else { return };
        if q.tag != ANY {
            let Some(k) = s.queue(object, self.r, q.tag) else { return };
            let e = &s.queues[k as usize];
            let g = &s.groups[e.group as usize];
            let m = e.head.get();
            if e.dead.get() == 0 && m != NIL && g.dead.get() == 0 && is_free(l, s, g, self.me, q, q.tag, m) && is_alone(s, m) {
                self.couple(s, m, i);
            } else {
                e.dead.raise(q.end.saturating_add(1));
            }
        } else {
            let Some(g) = s.group(object, self.r) else { return };
            let g = &s.groups[g as usize];
            if g.dead.get() != 0 {
                g.dead.raise(q.end.saturating_add(1));
                return;
            }
            if g.order.get() == NIL {
                g.order.set(self.orders.len() as u32);
                let mut all = Vec::new();
                let mut k = g.queues;
                let mut lists = 0;
                while k != NIL {
                    let e = &s.queues[k as usize];
                    let mut m = e.head.get();
                    lists += (m != NIL) as u32;
                    while m != NIL {
                        all.push(m);
                        m = s.msgs[m as usize].next;
                    }
                    k = e.other;
                }
                if lists > 1 {
                    // It finds the runs that rise, and merges them.
                    all.sort();
                }
                self.orders.push((all, 0));
            }
            let me = &*self.me;
            let (all, cursor) = &mut self.orders[g.order.get() as usize];
            while *cursor < all.len() && s.msgs[all[*cursor] as usize].partner.get() != NIL {
                *cursor += 1;
            }
            let m = all.get(*cursor).copied();
            let ok = m.is_some_and(|m| {
                let k = s.msgs[m as usize].queue;
                let e = &s.queues[k as usize];
                let alone = || {
                    let call = s.call_of(s.msgs[m as usize].call).0;
                    s.msgs[m as usize].flags & MULTI == 0
                        || all[*cursor + 1..]
                            .iter()
                            .map(|n| &s.msgs[*n as usize])
                            .take_while(|n| s.call_of(n.call).0 == call)
                            .all(|n| n.partner.get() != NIL)
                };
                e.dead.get() == 0 && alone() && beside.binary_search(&k).is_err() && is_free(l, s, g, me, q, e.tag, m)
            });
            if ok {
                self.couple(s, m.unwrap(), i);
            } else {
                g.dead.set(q.end.saturating_add(1));
            }
        }
    }

    /// The receives of one call from i on, of which one is not plain; where the next call's begin.
    #[cold]
    fn parts(&mut self, i: usize) -> usize {
        let mut j = i + 1;
        let senders = self.senders;
        let own = senders[self.r as usize].as_deref().unwrap();
        if self.me.rcvs[i].flags & MULTI != 0 {
            let call = own.call_of(self.me.rcvs[i].call).0;
            while j < self.me.rcvs.len() && own.call_of(self.me.rcvs[j].call).0 == call {
                j += 1;
            }
        }
        // By sender and queue or group there.
        let (mut tags, mut anys) = (Vec::new(), Vec::new());
        for k in i..j {
            let q = self.me.rcvs[k];
            if q.flags & VOID != 0 {
                continue;
            }
            let object = self.slots[q.slot as usize].object;
            if q.source == UNTOLD || q.flags & DOUBTFUL != 0 {
                self.me.open(self.l, self.r as usize, &q);
            } else if let Some(s) = senders[q.source as usize].as_deref() {
                if q.tag == ANY {
                    s.group(object, self.r).into_iter().for_each(|g| anys.push((q.source, g, k)));
                } else {
                    s.queue(object, self.r, q.tag).into_iter().for_each(|e| tags.push((q.source, e, k)));
                }
            }
        }
        tags.sort_unstable();
        anys.sort_unstable();
        let sender = |s: u32| senders[s as usize].as_deref().unwrap();
        for w in tags.windows(2).filter(|w| (w[0].0, w[0].1) == (w[1].0, w[1].1)) {
            sender(w[0].0).queues[w[0].1 as usize].dead.raise(1);
        }
        for w in anys.windows(2).filter(|w| (w[0].0, w[0].1) == (w[1].0, w[1].1)) {
            sender(w[0].0).groups[w[0].1 as usize].dead.raise(1);
        }
        for (s, _, k) in anys {
            let q = self.me.rcvs[k];
            let beside: Vec<u32> = tags.iter().filter(|t| t.0 == s).map(|t| t.1).collect();
            self.take(k, &q, &beside);
        }
        for (.., k) in tags {
            let q = self.me.rcvs[k];
            self.take(k, &q, &[]);
        }
        j
    }

    #[inline(always)]
    fn couple(&mut self, s: &Sender, m: u32, i: usize) {
        let x = &s.msgs[m as usize];
        let q = &mut self.me.rcvs[i];
        let over = x.datatype == q.datatype && x.count > q.count;
        x.partner.set(q.call | if over { OVER } else { 0 });
        q.paired = true;
        let e = &s.queues[x.queue as usize];
        debug_assert_eq!(e.head.get(), m);
        e.head.set(x.next);
        fetch(s.msgs.as_ptr().wrapping_add(x.next as usize));
    }
}

/// What is there will be asked for soon.
#[inline(always)]
fn fetch<T>(at: *const T) {
    #[cfg(target_arch = "x86_64")]
    // SAFETY: a hint; any address will do.
    unsafe {
        use std::arch::x86_64::*;
        _mm_prefetch(at as *const i8, _MM_HINT_T0);
    }
    #[cfg(not(target_arch = "x86_64"))]
    let _ = at;
}

/// Whether the message that q would take is sure and not hidden.
#[inline(always)]
fn is_free(l: &Layout, s: &Sender, g: &Group, me: &Receiver, q: &Rcv, tag: u32, m: u32) -> bool {
    let Msg { flags, call, .. } = s.msgs[m as usize];
    flags & DOUBTFUL == 0 && !is_hidden(l, s, q.source, g, me, q.slot, tag, call)
}

/// Whether the first message of a queue is the only one there of its call.
#[inline(always)]
fn is_alone(s: &Sender, m: u32) -> bool {
    let m = &s.msgs[m as usize];
    m.flags & MULTI == 0 || m.next == NIL || s.call_of(m.call).0 != s.call_of(s.msgs[m.next as usize].call).0
}

impl Ops {
    pub fn new(l: &Layout, profile: Profile) -> Ops {
        fn none<T>(n: usize) -> Vec<Option<Box<T>>> {
            (0..n).map(|_| None).collect()
        }
        Ops {
            profile,
            senders: none(l.ranks),
            receivers: none(l.ranks),
            standings: vec![Standing::default(); l.ranks],
            waits: none(l.ranks),
            conflicts: Vec::new(),
            foreign: 0,
            rounds: l.ids.iter().map(|_| Vec::new()).collect(),
            entered: vec![0; l.places()],
            postponed: Vec::new(),
        }
    }

    #[inline(always)]
    pub fn sender(&self, r: u32) -> &Sender {
        self.senders[r as usize].as_deref().unwrap_or_else(|| &*NO_SENDER)
    }
    #[inline(always)]
    pub fn receiver(&self, r: u32) -> &Receiver {
        self.receivers[r as usize].as_deref().unwrap_or_else(|| &*NO_RECEIVER)
    }

    pub fn counts(&self) -> (usize, usize) {
        let sent = self.senders.iter().flatten().map(|s| s.msgs.len()).sum();
        (sent, self.receivers.iter().flatten().map(|q| q.rcvs.len()).sum())
    }

    /// Adds a rank; in any order, but for the conflicts and the roots of rounds.
    pub fn add(&mut self, l: &Layout, r: usize, x: Rank) {
        let slots = l.slots(r);
        for e in &x.receiver.entered {
            let s = slots[e.slot as usize];
            let k = &mut self.entered[l.place(s.object) + s.at as usize];
            let list = &mut self.rounds[s.object as usize];
            match list.get_mut(*k as usize) {
                Some(x) => {
                    x.entered += 1;
                    x.mixed |= x.kind != e.kind || x.root != e.root;
                }
                None => list.push(Round { entered: 1, root: e.root, kind: e.kind, mixed: false }),
            }
            *k += 1;
        }
        if !x.conflicts.is_empty() {
            self.conflicts.push((r as u32, x.conflicts));
        }
        self.foreign += x.foreign;
        self.standings[r] = x.standing;
        self.waits[r] = x.waiting;
        self.senders[r] = Some(x.sender);
        self.receivers[r] = Some(x.receiver);
    }

    /// The pairs, and what is postponed.
    pub fn pair(&mut self, l: &Layout, threads: usize) {
        let senders = &self.senders;
        crate::each(threads, self.receivers.iter_mut().enumerate(), |(r, q)| {
            if let Some(me) = q.as_deref_mut().filter(|q| !q.rcvs.is_empty()) {
                Pairing { l, senders, r: r as u32, slots: l.slots(r), me, orders: Vec::new() }.all();
            }
        });
        let mut postponed: Vec<Vec<u32>> = vec![Vec::new(); l.ranks];
        crate::each(threads, postponed.iter_mut().enumerate(), |(r, out)| {
            let Some(s) = self.senders[r].as_deref() else { return };
            // Whether anything of the receiver is open, and the slot there, by group.
            let open: Vec<u32> = s
                .groups
                .iter()
                .map(|g| match self.receiver(g.to).has_open() {
                    true => l.slot_of(g.to as usize, g.object).map_or(NIL, |s| s as u32),
                    false => NIL,
                })
                .collect();
            for (i, m) in s.msgs.iter().enumerate() {
                if m.partner.get() == NIL && m.flags & VOID == 0 {
                    let e = &s.queues[m.queue as usize];
                    let g = &s.groups[e.group as usize];
                    g.unpaired.set(g.unpaired.get() + 1);
                    let slot = open[e.group as usize];
                    if slot != NIL && is_hidden(l, s, r as u32, g, self.receiver(g.to), slot, e.tag, m.call) {
                        out.push(i as u32);
                    }
                }
            }
        });
        self.postponed = postponed;
    }

    /// After `pair`: whether an unpaired receive fits message m of rank r that it doesn't come after.
    pub fn fits_unpaired(&self, l: &Layout, r: u32, m: &Msg) -> bool {
        let s = self.sender(r);
        let e = &s.queues[m.queue as usize];
        let g = &s.groups[e.group as usize];
        let to = self.receiver(g.to);
        let Some(slot) = l.slot_of(g.to as usize, g.object) else { return false };
        let x = e.dead.get().max(g.dead.get()).max(to.last_open(slot as u32, r, e.tag));
        if x == 0 || x == NIL {
            return x == NIL;
        }
        let call = s.call_of(m.call).0;
        let own = if r == g.to { call } else { 0 };
        x > after_bars(l, s, g, to, call).1.max(own)
    }

    /// What the void messages are that a Probe may have met: (communicator, sender or NONE, receiver, tag or ANY).
    pub fn void_keys(&self) -> std::collections::HashSet<(u32, u32, u32, u32)> {
        let mut keys = std::collections::HashSet::new();
        for (r, s) in self.senders.iter().enumerate().filter_map(|(r, s)| Some((r as u32, s.as_deref()?))) {
            for m in s.msgs.iter().filter(|m| m.flags & VOID != 0) {
                let e = &s.queues[m.queue as usize];
                for from in [r, NONE] {
                    keys.insert((e.object, from, e.to, e.tag));
                    keys.insert((e.object, from, e.to, ANY));
                }
            }
        }
        keys
    }

    /// After `pair`: the keys of unpaired messages, (communicator, receiver, tag), and with ANY for the tag.
    pub fn unpaired(&self) -> std::collections::HashSet<(u32, u32, u32)> {
        let mut keys = std::collections::HashSet::new();
        for e in self.senders.iter().flatten().flat_map(|s| &s.queues) {
            if e.head.get() != NIL {
                keys.insert((e.object, e.to, e.tag));
                keys.insert((e.object, e.to, ANY));
            }
        }
        keys
    }

    /// After `pair`: whether an unpaired message fits what a receive or probe names.
    pub fn waiting_message(&self, unpaired: &Unpaired, object: u32, source: Option<u32>, to: u32, tag: u32) -> bool {
        let Some(s) = source else { return unpaired.contains(&(object, to, tag)) };
        let s = self.sender(s);
        match tag {
            ANY => s.group(object, to).is_some_and(|g| s.groups[g as usize].unpaired.get() > 0),
            _ => s.queue(object, to, tag).is_some_and(|q| s.queues[q as usize].head.get() != NIL),
        }
    }
}

pub type Unpaired = std::collections::HashSet<(u32, u32, u32)>;

impl Rcv {
    pub fn told(&self) -> Option<u32> {
        if self.source == UNTOLD { None } else { Some(self.source) }
    }
}
