//! Conditions of waiting ranks and the stuck ranks.

use crate::input::{Layout, NONE};
use crate::kinds::*;
use crate::ops::*;
use std::collections::HashMap;
use std::rc::Rc;

/// Ranks of an object, told by what they are.
#[derive(Clone, Copy, PartialEq, Eq, Debug, Hash)]
pub struct Set {
    pub object: u32,
    /// Those that have not entered this round; NONE: all.
    pub round: u32,
    /// Of an intercommunicator the peers of a member at this place alone, or NONE.
    pub peers_of: u32,
}

/// A part of a condition: one-of over a set, all-of over a set, or over those of it before a rank in the group.
#[derive(Clone, PartialEq, Eq, Debug)]
pub enum Cond {
    Yes,
    Rank(u32),
    Any(Set),
    Rest(Set),
    Below(Set, u32),
    All(Vec<Cond>),
    One(Vec<Cond>),
}

pub fn conditions(l: &Layout, o: &Ops) -> Vec<Option<Cond>> {
    let asks = |w: &Wait| match w {
        Wait::Rcv(_) | Wait::Both(..) | Wait::One(_) | Wait::All(_) | Wait::Any(_) | Wait::Probe { .. } => true,
        _ => false,
    };
    let unp = if o.waits.iter().flatten().any(|w| asks(&w.wait)) { o.unpaired() } else { Unpaired::new() };
    let probes = o.waits.iter().flatten().any(|w| matches!(w.wait, Wait::Probe { .. }));
    let voids = if probes { o.void_keys() } else { Default::default() };
    (0..l.ranks as u32)
        .map(|r| {
            let w = o.waits[r as usize].as_ref()?;
            let (sender, receiver, slots) = (o.sender(r), o.receiver(r), l.slots(r as usize));
            let msg = |m: u32| {
                let m = &sender.msgs[m as usize];
                // Modes: 0 standard, 1 synchronous, 2 buffered, 3 ready.
                if m.mode == 2 || (m.mode != 1 && !l.wait) || m.partner.get() != NIL || o.fits_unpaired(l, r, m) {
                    Cond::Yes
                } else {
                    Cond::Rank(sender.queues[m.queue as usize].to)
                }
            };
            let from = |slot: u32, source: Option<u32>| match source {
                Some(s) => Cond::Rank(s),
                None => {
                    let s = slots[slot as usize];
                    Cond::Any(set(l, s.object, NONE, s.at))
                }
            };
            let rcv = |q: u32| {
                let q = &receiver.rcvs[q as usize];
                if q.paired || o.waiting_message(&unp, slots[q.slot as usize].object, q.told(), r, q.tag) {
                    Cond::Yes
                } else {
                    from(q.slot, q.told())
                }
            };
            let marked = |flags: u8| flags & MARKED != 0;
            let post = |p: &Post| match p {
                Post::Yes | Post::Imrecv(_) => Cond::Yes,
                // With a readable Cancel a wait is local.
                Post::Msg(m) if marked(sender.msgs[*m as usize].flags) => Cond::Yes,
                Post::Rcv(q) if marked(receiver.rcvs[*q as usize].flags) => Cond::Yes,
                Post::Coll(i) => collective(l, o, r, &receiver.posted[*i as usize]),
                Post::Msg(m) => msg(*m),
                Post::Rcv(q) => rcv(*q),
            };
            Some(match &w.wait {
                Wait::Yes => Cond::Yes,
                Wait::Msg(m) => msg(*m),
                Wait::Rcv(q) => rcv(*q),
                Wait::Both(m, q) => {
                    Cond::All(vec![m.map_or(Cond::Yes, msg), q.map_or(Cond::Yes, rcv)])
                }
                Wait::One(p) => p.as_ref().map_or(Cond::Yes, post),
                Wait::All(v) => Cond::All(v.iter().map(post).collect()),
                Wait::Any(v) => Cond::One(v.iter().map(post).collect()),
                Wait::Collective(c) => collective(l, o, r, c),
                Wait::Probe { slot, tag, source } => {
                    let object = slots[*slot as usize].object;
                    // A message may be cancelled after it was probed.
                    let void = voids.contains(&(object, source.unwrap_or(NONE), r, *tag));
                    if void || o.waiting_message(&unp, object, *source, r, *tag) {
                        Cond::Yes
                    } else {
                        from(*slot, *source)
                    }
                }
            })
        })
        .collect()
}

/// The members of an object; of an intercommunicator the peers of a member.
fn set(l: &Layout, object: u32, round: u32, at: u32) -> Set {
    Set { object, round, peers_of: if l.is_inter(object) { at } else { NONE } }
}

/// What a collective call of rank r, or its request, waits for.
fn collective(l: &Layout, o: &Ops, r: u32, c: &Coll) -> Cond {
    let at = |rank: u32| {
        let slot = l.slots(rank as usize)[l.slot_of(rank as usize, c.object).unwrap()];
        o.entered[l.place(c.object) + slot.at as usize] > c.round
    };
    let rest = Set { object: c.object, round: c.round, peers_of: NONE };
    if o.rounds[c.object as usize][c.round as usize].mixed {
        return Cond::Yes;
    }
    let kind = c.kind & !NONBLOCKING;
    if l.is_inter(c.object) && !l.wait {
        let slot = l.slots(r as usize)[l.slot_of(r as usize, c.object).unwrap()];
        return if kind == 0 { Cond::Rest(Set { peers_of: slot.at, ..rest }) } else { Cond::Yes };
    }
    if l.wait && l.is_inter(c.object) {
        return Cond::Rest(rest);
    }
    match kind {
        // Barrier, Allreduce, Allgather, Alltoall, Reduce_scatter_block.
        0 | 5..=7 | 10 => Cond::Rest(rest),
        // Scan and Exscan.
        8 | 9 if !l.wait => Cond::Below(rest, r),
        // Counts per rank may be 0: then nothing is owed.
        11..=16 if !l.wait => Cond::Yes,
        // What each gets depends on what all give.
        COMM_SPLIT | DIST_GRAPH_CREATE => Cond::Rest(rest),
        FIRST_LENIENT.. if !l.wait => Cond::Yes,
        // Bcast, Scatter and Scatterv, not the root.
        1 | 2 | 16 if c.root != r => {
            if at(c.root) { Cond::Yes } else { Cond::Rank(c.root) }
        }
        // Reduce and Gather, the root.
        3 | 4 if c.root == r => Cond::Rest(rest),
        1..=4 if !l.wait => Cond::Yes,
        _ => Cond::Rest(rest),
    }
}

/// The ranks of sets, each listed once.
#[derive(Default)]
pub struct Lists {
    known: HashMap<Set, Rc<Vec<u32>>>,
}

impl Lists {
    /// The ranks of a set in group order.
    pub fn of(&mut self, l: &Layout, o: &Ops, s: Set) -> Rc<Vec<u32>> {
        // Of an intercommunicator all on one side have the same peers.
        let s = match l.peers(s.object, s.peers_of.min(l.members(s.object).len() as u32)) {
            _ if s.peers_of == NONE => s,
            peers if peers[0] == l.members(s.object)[0] => Set { peers_of: l.members(s.object).len() as u32 - 1, ..s },
            _ => Set { peers_of: 0, ..s },
        };
        let make = || {
            let all = l.members(s.object);
            let who = if s.peers_of == NONE { all } else { l.peers(s.object, s.peers_of) };
            let from = l.place(s.object) + if who.first() == all.first() { 0 } else { all.len() - who.len() };
            let asked = who.iter().zip(&o.entered[from..]);
            Rc::new(asked.filter(|(_, k)| s.round == NONE || **k <= s.round).map(|(m, _)| *m).collect())
        };
        self.known.entry(s).or_insert_with(make).clone()
    }

    /// A set of an object's members, and how many of them stand before rank r there.
    pub fn below(&mut self, l: &Layout, o: &Ops, s: Set, r: u32) -> (Rc<Vec<u32>>, usize) {
        let at = |r: u32| l.slots(r as usize)[l.slot_of(r as usize, s.object).unwrap()].at;
        let list = self.of(l, o, s);
        let n = list.partition_point(|m| at(*m) < at(r));
        (list, n)
    }
}

/// One part of a condition: how many of its children are still to hold, and who waits for it.
struct Node {
    need: usize,
    above: Vec<u32>,
}

/// The worklist: nodes count down, a node at zero holds and tells its parents; node r is rank r itself.
struct Work<'a> {
    l: &'a Layout,
    o: &'a Ops,
    nodes: Vec<Node>,
    lists: &'a mut Lists,
    shared: HashMap<*const Vec<u32>, u32>,
    /// All-of the first 1, 2, .. of a list, each from the one before.
    first: HashMap<*const Vec<u32>, Vec<u32>>,
}

impl Work<'_> {
    fn node(&mut self, need: usize) -> u32 {
        self.nodes.push(Node { need, above: Vec::new() });
        self.nodes.len() as u32 - 1
    }
    fn under(&mut self, child: u32, parent: u32) {
        self.nodes[child as usize].above.push(parent);
    }
    /// The node of a set, which ranks with the same list share; one-of or all-of.
    fn set(&mut self, s: Set) -> u32 {
        let list = self.lists.of(self.l, self.o, s);
        let one = s.round == NONE;
        // The lists live as long as `lists`.
        let key = Rc::as_ptr(&list);
        if let Some(n) = self.shared.get(&key) {
            return *n;
        }
        let n = self.node(if one { 1 } else { list.len() });
        for w in list.iter() {
            self.under(*w, n);
        }
        self.shared.insert(key, n);
        n
    }
    fn add(&mut self, c: &Cond) -> u32 {
        match c {
            Cond::Yes => self.node(0),
            Cond::Rank(r) => *r,
            Cond::Any(s) | Cond::Rest(s) => self.set(*s),
            Cond::Below(s, r) => {
                let (list, n) = self.lists.below(self.l, self.o, *s, *r);
                if n == 0 {
                    return self.node(0);
                }
                let mut known = self.first.remove(&Rc::as_ptr(&list)).unwrap_or_default();
                while known.len() < n {
                    let k = known.len();
                    let x = self.node(if k == 0 { 1 } else { 2 });
                    self.under(list[k], x);
                    if k > 0 {
                        self.under(known[k - 1], x);
                    }
                    known.push(x);
                }
                let x = known[n - 1];
                self.first.insert(Rc::as_ptr(&list), known);
                x
            }
            Cond::All(v) | Cond::One(v) => {
                let n = self.node(if let Cond::One(_) = c { 1 } else { v.len() });
                for x in v {
                    let m = self.add(x);
                    self.under(m, n);
                }
                n
            }
        }
    }
}

/// Ranks that no release reaches: the greatest closed set.
pub fn stuck(l: &Layout, o: &Ops, conds: &[Option<Cond>], lists: &mut Lists) -> Vec<u32> {
    let mut w = Work { l, o, nodes: Vec::new(), lists, shared: HashMap::new(), first: HashMap::new() };
    for s in &o.standings {
        // A waiting rank goes on once its condition's node holds; an ended one never does.
        w.node(if s.state == State::Free { 0 } else { 1 });
    }
    for (r, c) in conds.iter().enumerate() {
        if let Some(c) = c {
            let n = w.add(c);
            w.under(n, r as u32);
        }
    }
    let mut todo: Vec<u32> = Vec::new();
    for (i, n) in w.nodes.iter().enumerate() {
        if n.need == 0 {
            todo.push(i as u32);
        }
    }
    while let Some(n) = todo.pop() {
        for p in std::mem::take(&mut w.nodes[n as usize].above) {
            let x = &mut w.nodes[p as usize];
            if x.need > 0 {
                x.need -= 1;
                if x.need == 0 {
                    todo.push(p);
                }
            }
        }
    }
    let waits = |r: &u32| o.standings[*r as usize].state == State::Waiting;
    (0..l.ranks as u32).filter(|r| waits(r) && w.nodes[*r as usize].need > 0).collect()
}
