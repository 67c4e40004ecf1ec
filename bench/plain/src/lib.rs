pub mod input;
pub mod join;
pub mod json;
pub mod kinds;
pub mod ops;
pub mod profile;
pub mod report;
mod shape;
pub mod text;
pub mod wait;

use input::Fault as In;
use join::Part;
use profile::Profile;
use std::io::Write;
use std::sync::Mutex;
use std::sync::atomic::{AtomicBool, AtomicUsize, Ordering};
use std::time::Instant;
use text::{Arena, Fault, Parser, Span, TEXT_NAMES};

pub struct Options {
    pub threads: usize,
    pub time: bool,
    pub fast: bool,
    /// Which calls and inputs are read.
    pub profile: Profile,
}

fn input_fault(f: In, path: &str) -> String {
    match f {
        In::Json => format!("M2 Json in {path}"),
        In::Shape => format!("M3 Shape in {path}"),
        In::Piece => format!("M4 Piece in {path}"),
        In::Layout(s) => format!("{s} in {path}"),
    }
}

enum Refused {
    File,
    Text(Fault),
    Place,
}

fn refused_line(r: Refused, path: &str) -> String {
    match r {
        Refused::File => format!("M1 File {path}"),
        Refused::Text(Fault::Text(k, line)) => format!("F{k} {} at {path}:{line}", TEXT_NAMES[k as usize]),
        Refused::Text(Fault::Missing(p, line)) => format!("C1 Missing {p} at {path}:{line}"),
        Refused::Text(Fault::Wrong(p, line)) => format!("C2 Wrong {p} at {path}:{line}"),
        Refused::Place => format!("S3 Place in {path}"),
    }
}

fn walk(p: &mut Parser, piece: &input::Piece, asks: bool) -> Result<(Span, bool), Refused> {
    let mut f = std::fs::File::open(&piece.file).map_err(|_| Refused::File)?;
    // What is no plain file can't be read again.
    p.keep = asks || !f.metadata().is_ok_and(|m| m.is_file());
    let span = p.text(&mut f, piece.cut).map_err(Refused::Text)?;
    let events = 2 * span.n as u64 - span.open as u64;
    if events > 0 && piece.first.checked_mul(2).and_then(|s| s.checked_add(events)).is_none_or(|e| e > 1 << 40) {
        return Err(Refused::Place);
    }
    Ok((span, p.keep))
}

/// Does something with each item, on some threads.
pub fn each<T: Send>(threads: usize, items: impl ExactSizeIterator<Item = T> + Send, f: impl Fn(T) + Sync) {
    if threads <= 1 {
        items.for_each(f);
        return;
    }
    // Some items at a time, so that many small ones don't wait for the lock.
    let some = (items.len() / (threads * 16)).clamp(1, 1024);
    let items = Mutex::new(items);
    std::thread::scope(|s| {
        for _ in 0..threads {
            s.spawn(|| {
                loop {
                    let mine: Vec<T> = items.lock().unwrap().by_ref().take(some).collect();
                    if mine.is_empty() {
                        break;
                    }
                    mine.into_iter().for_each(&f);
                }
            });
        }
    });
}

/// The texts of one rank: places in the manifest.
struct Texts {
    rank: u32,
    pieces: Vec<u32>,
    /// Two of them begin at one call, so the times of their calls are compared.
    asks: bool,
    /// Which of them have been walked, and how many are to come.
    done: Mutex<(Vec<(u32, Arena, Span, bool)>, usize)>,
}

/// The texts that are to be walked, what came of ranks, and what was refused.
struct Queue<'a> {
    l: &'a input::Layout,
    pieces: &'a [input::Piece],
    profile: Profile,
    fast: bool,
    texts: &'a [Texts],
    /// Places in `texts` and of a piece there, in the order in which they are taken.
    tasks: Vec<(u32, u32)>,
    next: AtomicUsize,
    first_fault: AtomicUsize,
    faults: Mutex<Vec<(usize, Refused)>>,
    /// A rank's pieces told of one call twice, though they begin at several.
    twice: AtomicBool,
    /// The first piece with calls whose rank the layout lacks.
    outside: AtomicUsize,
    ranks: Mutex<Vec<(u32, Box<ops::Rank>)>>,
}

#[derive(Default)]
struct Counts {
    read_ns: u64,
    ops_ns: u64,
    bytes: u64,
    calls: u64,
}

impl Queue<'_> {
    fn refuse(&self, i: usize, f: Refused) {
        self.first_fault.fetch_min(i, Ordering::Relaxed);
        self.faults.lock().unwrap().push((i, f));
    }

    /// Takes texts until there is none; whoever walks the last one of a rank makes its operations.
    fn work(&self) -> Counts {
        let mut p = Parser::new(self.profile);
        p.fast = self.fast;
        let mut scratch = ops::Scratch::default();
        // Used again, as all of it is warm.
        let mut free: Vec<Arena> = Vec::new();
        let mut counts = Counts::default();
        while let Some((t, k)) = self.tasks.get(self.next.fetch_add(1, Ordering::Relaxed)) {
            let texts = &self.texts[*t as usize];
            let i = texts.pieces[*k as usize];
            if i as usize > self.first_fault.load(Ordering::Relaxed) {
                continue;
            }
            p.arena = free.pop().unwrap_or_default();
            p.arena.clear();
            let (span, kept) = match walk(&mut p, &self.pieces[i as usize], texts.asks || self.twice.load(Ordering::Relaxed)) {
                Ok(s) => s,
                Err(f) => {
                    self.refuse(i as usize, f);
                    continue;
                }
            };
            counts.calls += span.n as u64;
            if span.n > 0 && texts.rank as usize >= self.l.ranks {
                self.outside.fetch_min(i as usize, Ordering::Relaxed);
            }
            let mut done = texts.done.lock().unwrap();
            done.0.push((i, std::mem::take(&mut p.arena), span, kept));
            done.1 -= 1;
            if done.1 == 0 && self.first_fault.load(Ordering::Relaxed) == usize::MAX {
                let all = std::mem::take(&mut done.0);
                drop(done);
                let start = Instant::now();
                if let Err((i, f)) = self.rank(texts, all, &mut p, &mut scratch, &mut free) {
                    self.refuse(i, f);
                }
                counts.ops_ns += start.elapsed().as_nanos() as u64;
            }
        }
        counts.read_ns = p.read_ns;
        counts.bytes = p.bytes;
        counts
    }

    fn rank(
        &self,
        texts: &Texts,
        mut all: Vec<(u32, Arena, Span, bool)>,
        p: &mut Parser,
        scratch: &mut ops::Scratch,
        free: &mut Vec<Arena>,
    ) -> Result<(), (usize, Refused)> {
        let r = texts.rank as usize;
        if r < self.l.ranks {
            all.sort_unstable_by_key(|a| a.0);
            let mut parts: Vec<Part> = all
                .iter()
                .enumerate()
                .filter(|(_, a)| a.2.n > 0)
                .map(|(k, a)| Part { arena: k as u32, first: self.pieces[a.0 as usize].first, span: a.2 })
                .collect();
            if all.iter().any(|a| !a.3) && join::overlap(&mut parts) {
                // Now the times are needed.
                self.twice.store(true, Ordering::Relaxed);
                for (i, arena, span, kept) in all.iter_mut().filter(|a| !a.3) {
                    p.arena = std::mem::take(arena);
                    p.arena.clear();
                    (*span, *kept) = walk(p, &self.pieces[*i as usize], true).map_err(|f| (*i as usize, f))?;
                    *arena = std::mem::take(&mut p.arena);
                }
                for part in &mut parts {
                    part.span = all[part.arena as usize].2;
                }
            }
            let (spans, arenas): (Vec<_>, Vec<Arena>) = all.into_iter().map(|a| (a.2, a.1)).unzip();
            if spans.iter().any(|s| s.n > 0) {
                let v = join::view(&arenas, &mut parts);
                let x = Box::new(ops::rank(self.l, self.profile, r, &arenas, v, scratch));
                self.ranks.lock().unwrap().push((texts.rank, x));
            }
            free.extend(arenas);
        } else {
            free.extend(all.into_iter().map(|a| a.1));
        }
        Ok(())
    }
}

/// The pieces by rank.
fn texts(pieces: &[input::Piece]) -> Vec<Texts> {
    let mut order: Vec<u32> = (0..pieces.len() as u32).collect();
    order.sort_by_key(|i| pieces[*i as usize].rank);
    let mut all = Vec::new();
    for list in order.chunk_by(|a, b| pieces[*a as usize].rank == pieces[*b as usize].rank) {
        let mut first: Vec<u64> = list.iter().map(|i| pieces[*i as usize].first).collect();
        first.sort_unstable();
        all.push(Texts {
            rank: pieces[list[0] as usize].rank,
            pieces: list.to_vec(),
            asks: first.windows(2).any(|w| w[0] == w[1]),
            done: Mutex::new((Vec::new(), list.len())),
        });
    }
    all
}

/// The texts in the order in which they are taken: of few threads those of the largest ranks first.
fn tasks(pieces: &[input::Piece], texts: &[Texts], threads: usize) -> Vec<(u32, u32)> {
    let mut order: Vec<usize> = (0..texts.len()).collect();
    if threads > 1 && pieces.len() <= 65_536 {
        let size = |i: &u32| std::fs::metadata(&pieces[*i as usize].file).map_or(0, |m| m.len());
        let sizes: Vec<u64> = texts.iter().map(|t| t.pieces.iter().map(size).sum()).collect();
        order.sort_by_key(|t| std::cmp::Reverse(sizes[*t]));
    }
    order.iter().flat_map(|t| (0..texts[*t].pieces.len() as u32).map(|k| (*t as u32, k))).collect()
}

pub fn run<W: Write>(layout: &str, manifest: &str, opts: &Options, out: &mut W) -> Result<(), String> {
    let t0 = Instant::now();
    let profile = opts.profile;
    let l = input::layout(&input::file(layout, profile).ok_or_else(|| format!("M1 File {layout}"))?, profile)
        .map_err(|f| input_fault(f, layout))?;
    let pieces = input::manifest(&input::file(manifest, profile).ok_or_else(|| format!("M1 File {manifest}"))?, profile)
        .map_err(|f| input_fault(f, manifest))?;
    let t1 = Instant::now();

    let n = opts.threads.max(1);
    let texts = texts(&pieces);
    let queue = Queue {
        l: &l,
        pieces: &pieces,
        profile,
        fast: opts.fast,
        texts: &texts,
        tasks: tasks(&pieces, &texts, n),
        next: AtomicUsize::new(0),
        first_fault: AtomicUsize::new(usize::MAX),
        faults: Mutex::new(Vec::new()),
        twice: AtomicBool::new(false),
        outside: AtomicUsize::new(usize::MAX),
        ranks: Mutex::new(Vec::new()),
    };
    let readers = n.min(pieces.len()).max(1);
    let done: Vec<Counts> = if readers == 1 {
        vec![queue.work()]
    } else {
        std::thread::scope(|s| {
            let h: Vec<_> = (0..readers).map(|_| s.spawn(|| queue.work())).collect();
            h.into_iter().map(|h| h.join().unwrap()).collect()
        })
    };
    let t2 = Instant::now();
    let mut faults = queue.faults.into_inner().unwrap();
    faults.sort_by_key(|f| f.0);
    if let Some((i, f)) = faults.into_iter().next() {
        return Err(refused_line(f, &pieces[i].file));
    }
    let outside = queue.outside.into_inner();
    if outside != usize::MAX {
        return Err(format!("N1 Rank in {}", pieces[outside].file));
    }
    let mut o = ops::Ops::new(&l, profile);
    let mut ranks = queue.ranks.into_inner().unwrap();
    ranks.sort_unstable_by_key(|x| x.0);
    for (r, x) in ranks {
        o.add(&l, r as usize, *x);
    }
    let t3 = Instant::now();
    o.pair(&l, n);
    let t4 = Instant::now();
    let conds = wait::conditions(&l, &o);
    let mut lists = wait::Lists::default();
    let stuck = wait::stuck(&l, &o, &conds, &mut lists);
    let t5 = Instant::now();
    let mut w = report::Out::new(out);
    report::report(&mut w, &l, &o, &conds, &stuck, &mut lists, n);
    let t6 = Instant::now();
    if opts.time {
        let sum = |f: fn(&Counts) -> u64| done.iter().map(f).sum::<u64>();
        let (bytes, calls) = (sum(|c| c.bytes), sum(|c| c.calls));
        let (messages, receives) = o.counts();
        let all = (t6 - t0).as_secs_f64();
        let work = (t2 - t1).as_secs_f64();
        let [read, ops] = [sum(|c| c.read_ns), sum(|c| c.ops_ns)].map(|n| n as f64 / 1e9);
        let parse = if readers > 1 { 0.0 } else { work - read - ops };
        eprintln!(
            "inputs {:.4} walk {work:.4} (read {read:.4} parse {parse:.4} ops {ops:.4}) merge {:.4} pair {:.4} wait {:.4} report {:.4} total {all:.4}",
            (t1 - t0).as_secs_f64(),
            (t3 - t2).as_secs_f64(),
            (t4 - t3).as_secs_f64(),
            (t5 - t4).as_secs_f64(),
            (t6 - t5).as_secs_f64(),
        );
        eprintln!(
            "threads {n} bytes {bytes} calls {calls} messages {messages} receives {receives} report_bytes {} MB/s {:.1} calls/s {:.0}",
            w.bytes,
            bytes as f64 / 1e6 / all,
            calls as f64 / all
        );
    }
    if w.failed {
        return Err("R1 Write".to_string());
    }
    // Nothing is worth freeing one by one now.
    std::mem::forget((o, conds, pieces, lists));
    Ok(())
}
