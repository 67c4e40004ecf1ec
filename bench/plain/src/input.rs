//! Layout and manifest: files, shapes and their faults (01 sections 4 and 6, 04 section 6).

use crate::json::{self, Value};
use crate::profile::Profile;
use std::io::Read;

pub const ANY: u32 = u32::MAX;
pub const NULL: u32 = u32::MAX - 1;
pub const WORLD: u32 = u32::MAX;
pub const NONE: u32 = u32::MAX;

/// Sorts of objects.
pub const COMMUNICATOR: u8 = 0;
pub const WINDOW: u8 = 1;
pub const FILE: u8 = 2;

/// A rank in an object: which, and where among its members.
#[derive(Clone, Copy, Debug)]
pub struct Slot {
    pub object: u32,
    pub at: u32,
}

/// By which number a member names its object, from call `first` on and before call `end`.
#[derive(Clone, Copy, Debug)]
pub struct Stretch {
    pub number: u32,
    pub first: u64,
    pub end: u64,
}

/// What a number means to a rank over a stretch of its calls.
#[derive(Clone, Copy, Debug)]
pub struct Name {
    pub sort: u8,
    pub number: u32,
    pub first: u64,
    pub end: u64,
    /// Place in the rank's `slots`.
    pub slot: u32,
}

/// An object of the layout: a communicator, window or file.
#[derive(Clone, Debug, Default)]
pub struct Object {
    pub id: u32,
    pub sort: u8,
    pub members: Vec<u32>,
    /// The other group of an intercommunicator.
    pub remote: Option<Vec<u32>>,
    /// As long as both groups, or empty: each names it by the id.
    pub numbers: Vec<Option<Stretch>>,
}

#[derive(Debug)]
pub struct Layout {
    pub ranks: usize,
    pub wait: bool,
    /// Place of the world among the objects.
    pub world: u32,
    /// Ids of the objects, rising; their sorts.
    pub ids: Vec<u32>,
    pub sorts: Vec<u8>,
    /// Of an intercommunicator how many members stand before the remote group; else NONE.
    own: Vec<u32>,
    /// The members of all objects, one after the other; where those of each begin, one entry more.
    all: Vec<u32>,
    from: Vec<usize>,
    /// The stretches of the members, where an object has any; where those of each object begin, or NONE.
    said: Vec<Option<Stretch>>,
    said_from: Vec<u32>,
    /// The slots of all ranks, of each by object; where those of each begin, one entry more.
    slots: Vec<Slot>,
    slot_from: Vec<usize>,
}

impl Layout {
    pub fn new(ranks: usize, wait: bool, world: u32, mut objects: Vec<Object>) -> Result<Layout, &'static str> {
        objects.sort_by_key(|c| c.id);
        if objects.windows(2).any(|w| w[0].id == w[1].id) {
            return Err("L3 DoubleComm");
        }
        if objects.iter().any(|c| c.members.is_empty() || c.remote.as_ref().is_some_and(Vec::is_empty)) {
            return Err("L4 EmptyComm");
        }
        let both = |c: &Object| c.members.len() + c.remote.as_ref().map_or(0, Vec::len);
        let total: usize = objects.iter().map(both).sum();
        let n = objects.len();
        let mut l = Layout {
            ranks,
            wait,
            world: 0,
            ids: Vec::with_capacity(n),
            sorts: Vec::with_capacity(n),
            own: Vec::with_capacity(n),
            all: Vec::with_capacity(total),
            from: Vec::with_capacity(n + 1),
            said: Vec::new(),
            said_from: Vec::with_capacity(n),
            slots: Vec::new(),
            slot_from: vec![0; ranks + 1],
        };
        l.from.push(0);
        for c in &objects {
            l.ids.push(c.id);
            l.sorts.push(c.sort);
            l.own.push(c.remote.as_ref().map_or(NONE, |_| c.members.len() as u32));
            l.all.extend(c.members.iter().chain(c.remote.iter().flatten()));
            l.from.push(l.all.len());
            l.said_from.push(if c.numbers.is_empty() { NONE } else { l.said.len() as u32 });
            l.said.extend(&c.numbers);
        }
        if l.all.iter().any(|m| *m as usize >= ranks) {
            return Err("L5 MemberRange");
        }
        // The slots, counted and then put in their places.
        for m in &l.all {
            l.slot_from[*m as usize + 1] += 1;
        }
        for r in 0..ranks {
            l.slot_from[r + 1] += l.slot_from[r];
        }
        let mut next = l.slot_from.clone();
        l.slots = vec![Slot { object: NONE, at: 0 }; total];
        for c in 0..n {
            for (k, m) in l.all[l.from[c]..l.from[c + 1]].iter().enumerate() {
                let e = &mut next[*m as usize];
                if *e > l.slot_from[*m as usize] && l.slots[*e - 1].object == c as u32 {
                    return Err("L6 DoubleMember");
                }
                l.slots[*e] = Slot { object: c as u32, at: k as u32 };
                *e += 1;
            }
        }
        let w = objects.iter().position(|c| c.id == world).ok_or("L7 World")?;
        let good = l.sorts[w] == COMMUNICATOR && l.own[w] == NONE;
        if !good || !l.members(w as u32).iter().copied().eq(0..ranks as u32) {
            return Err("L7 World");
        }
        l.world = w as u32;
        for c in objects.iter().filter(|c| !c.numbers.is_empty()) {
            if c.numbers.len() != both(c) || c.numbers.iter().flatten().any(|s| s.end < s.first) {
                return Err("L8 Numbers");
            }
        }
        if !l.said.is_empty() {
            let mut names = Vec::new();
            for r in 0..ranks {
                l.names(r, &mut names);
                let meet = |w: &[Name]| (w[0].sort, w[0].number) == (w[1].sort, w[1].number) && w[0].end > w[1].first;
                if names.windows(2).any(meet) {
                    return Err("L8 Numbers");
                }
            }
        }
        Ok(l)
    }

    /// Both groups, of an intercommunicator the members first.
    #[inline(always)]
    pub fn members(&self, c: u32) -> &[u32] {
        &self.all[self.from[c as usize]..self.from[c as usize + 1]]
    }
    /// Where the members of an object stand among those of all.
    #[inline(always)]
    pub fn place(&self, c: u32) -> usize {
        self.from[c as usize]
    }
    pub fn places(&self) -> usize {
        self.all.len()
    }
    pub fn is_inter(&self, c: u32) -> bool {
        self.own[c as usize] != NONE
    }
    /// Whom the member at a place names by 0, 1, ..
    #[inline(always)]
    pub fn peers(&self, c: u32, at: u32) -> &[u32] {
        let all = self.members(c);
        match self.own[c as usize] {
            NONE => all,
            n if at < n => &all[n as usize..],
            n => &all[..n as usize],
        }
    }
    #[inline(always)]
    pub fn slots(&self, rank: usize) -> &[Slot] {
        &self.slots[self.slot_from[rank]..self.slot_from[rank + 1]]
    }
    /// Which of a rank's slots is that of an object.
    #[inline(always)]
    pub fn slot_of(&self, rank: usize, c: u32) -> Option<usize> {
        let s = self.slots(rank);
        match s {
            [one] => (one.object == c).then_some(0),
            _ => s.binary_search_by_key(&c, |s| s.object).ok(),
        }
    }
    /// What a rank's numbers mean, by sort, number and call; stretches without a call are left out.
    pub fn names(&self, rank: usize, out: &mut Vec<Name>) {
        out.clear();
        for (k, s) in self.slots(rank).iter().enumerate() {
            let (slot, c) = (k as u32, s.object as usize);
            let sort = self.sorts[c];
            if self.said_from[c] == NONE {
                out.push(Name { sort, number: self.ids[c], first: 0, end: u64::MAX, slot });
            } else if let Some(Stretch { number, first, end }) = self.said[self.said_from[c] as usize + s.at as usize]
                && first < end
            {
                out.push(Name { sort, number, first, end, slot });
            }
        }
        out.sort_unstable_by_key(|n| (n.sort, n.number, n.first));
    }
}

pub struct Piece {
    pub rank: u32,
    pub first: u64,
    pub file: String,
    /// Its end may be missing.
    pub cut: bool,
}

pub enum Fault {
    Json,
    Shape,
    Piece,
    Layout(&'static str),
}

pub fn file(path: &str, profile: Profile) -> Option<Vec<u8>> {
    let limit = if profile >= Profile::Large { 268_435_456 } else { 16_777_216 };
    let f = std::fs::File::open(path).ok()?;
    let mut v = Vec::new();
    f.take(limit + 1).read_to_end(&mut v).ok()?;
    if v.len() as u64 > limit { None } else { Some(v) }
}

fn num32(v: Option<&Value>) -> Result<u32, Fault> {
    v.and_then(Value::whole).and_then(|n| u32::try_from(n).ok()).ok_or(Fault::Shape)
}

fn list32(v: Option<&Value>) -> Result<Vec<u32>, Fault> {
    v.and_then(Value::list).ok_or(Fault::Shape)?.iter().map(|x| num32(Some(x))).collect()
}

/// An entry of `numbers`: a number, `[number, first, end]`, or null.
fn stretch(v: &Value) -> Result<Option<Stretch>, Fault> {
    Ok(match v {
        Value::Null => None,
        Value::List(v) => {
            let [number, first, end] = &v[..] else { return Err(Fault::Shape) };
            let end = if let Value::Null = end { u64::MAX } else { end.whole().ok_or(Fault::Shape)? };
            Some(Stretch { number: num32(Some(number))?, first: first.whole().ok_or(Fault::Shape)?, end })
        }
        _ => Some(Stretch { number: num32(Some(v))?, first: 0, end: u64::MAX }),
    })
}

pub fn layout(bytes: &[u8], profile: Profile) -> Result<Layout, Fault> {
    let v = json::read(bytes).ok_or(Fault::Json)?;
    if !v.is_record() {
        return Err(Fault::Shape);
    }
    let ranks = num32(v.field("ranks"))?;
    let world = num32(v.field("world"))?;
    let wait = match v.field("sends").and_then(Value::text) {
        Some("wait") => true,
        Some("buffer") => false,
        _ => return Err(Fault::Shape),
    };
    let mut objects = Vec::new();
    for c in v.field("comms").and_then(Value::list).ok_or(Fault::Shape)? {
        let mut o = Object { id: num32(c.field("id"))?, members: list32(c.field("members"))?, ..Object::default() };
        if profile >= Profile::Numbers
            && let Some(n) = c.field("numbers")
        {
            o.numbers = n.list().ok_or(Fault::Shape)?.iter().map(stretch).collect::<Result<_, _>>()?;
        }
        if profile >= Profile::Objects
            && let Some(n) = c.field("object")
        {
            o.sort = match n.text() {
                Some("communicator") => COMMUNICATOR,
                Some("window") => WINDOW,
                Some("file") => FILE,
                _ => return Err(Fault::Shape),
            };
        }
        if profile >= Profile::Intercomms && c.field("remote").is_some() {
            if o.sort != COMMUNICATOR {
                return Err(Fault::Shape);
            }
            o.remote = Some(list32(c.field("remote"))?);
        }
        objects.push(o);
    }
    if ranks == 0 || ranks > if profile >= Profile::Large { 1_048_576 } else { 1024 } {
        return Err(Fault::Layout("L1 RankCount"));
    }
    let most = if profile >= Profile::Large {
        16_777_216
    } else if profile >= Profile::Numbers {
        65_536
    } else {
        256
    };
    if objects.len() > most {
        return Err(Fault::Layout("L2 CommCount"));
    }
    Layout::new(ranks as usize, wait, world, objects).map_err(Fault::Layout)
}

pub fn manifest(bytes: &[u8], profile: Profile) -> Result<Vec<Piece>, Fault> {
    let v = json::read(bytes).ok_or(Fault::Json)?;
    if !v.is_record() {
        return Err(Fault::Shape);
    }
    let list = v.field("pieces").and_then(Value::list).ok_or(Fault::Shape)?;
    let mut out = Vec::with_capacity(list.len());
    for p in list {
        let rank = num32(p.field("rank"))?;
        let first = p.field("first").and_then(Value::whole).ok_or(Fault::Shape)?;
        let file = p.field("file").and_then(Value::text).ok_or(Fault::Shape)?.to_string();
        for k in ["node", "worker"] {
            match p.field(k) {
                None | Some(Value::Whole(0 | 1)) => {}
                _ => return Err(Fault::Shape),
            }
        }
        let cut = match p.field("cut") {
            Some(c) if profile >= Profile::Objects => c.truth().ok_or(Fault::Shape)?,
            _ => false,
        };
        out.push(Piece { rank, first, file, cut });
    }
    match v.field("nodes") {
        None | Some(Value::Whole(_)) => {}
        _ => return Err(Fault::Shape),
    }
    let mut absent = false;
    if let Some(s) = v.field("schedule") {
        for step in s.list().ok_or(Fault::Shape)? {
            let step = step.list().ok_or(Fault::Shape)?;
            let word = step.first().and_then(Value::text).ok_or(Fault::Shape)?;
            let n = match word {
                "post" => 3,
                "take" | "ship" | "restart" => 1,
                "deliver" => 2,
                _ => return Err(Fault::Shape),
            };
            if step.len() != n + 1 {
                return Err(Fault::Shape);
            }
            let mut nums = [0u64; 3];
            for (i, x) in step[1..].iter().enumerate() {
                nums[i] = x.whole().ok_or(Fault::Shape)?;
            }
            if word == "post" {
                if nums[0] > 255 {
                    return Err(Fault::Shape);
                }
                absent |= nums[2] >= list.len() as u64;
            }
        }
    }
    if absent { Err(Fault::Piece) } else { Ok(out) }
}
