//! `mip_summary` and `mip_join`: the summary of a stretch, made of its records and joined of two.
use crate::inputs::{self, Random};
use crate::records::*;
use crate::{Out, Row, library};

pub const SIZE: usize = 1024;

/// What intervals add up to. The least delay is kept as headroom, the largest delay less it.
#[derive(Clone, Copy, Default)]
pub struct Load {
    pub count: u32,
    pub most: u32,
    pub headroom: u32,
    pub sent: u64,
    pub lost: u64,
    pub sum: u64,
}

impl Load {
    #[inline(always)]
    pub fn add(&mut self, o: &Load) {
        self.count += o.count;
        self.most = self.most.max(o.most);
        self.headroom = self.headroom.max(o.headroom);
        self.sent += o.sent;
        self.lost += o.lost;
        self.sum += o.sum;
    }

    #[inline(always)]
    fn meets(&self) -> bool {
        let got = self.sent.wrapping_sub(self.lost);
        let known = (self.count <= INTERVALS)
            & (self.sent <= times(FRAMES, self.count))
            & (self.lost <= self.sent)
            & (self.most <= LARGEST)
            & (self.headroom <= LARGEST);
        let least = LARGEST.wrapping_sub(self.headroom) as u64;
        // where the numbers are known to be small no product wraps
        known
            & if got == 0 {
                (self.most == 0) & (self.headroom == 0) & (self.sum == 0)
            } else {
                (least <= self.most as u64)
                    & (least.wrapping_mul(got) <= self.sum)
                    & (self.sum <= (self.most as u64).wrapping_mul(got))
            }
    }

    /// 0 where nothing was delivered.
    #[inline(always)]
    pub fn least(&self) -> u32 {
        if self.sent == self.lost {
            0
        } else {
            LARGEST - self.headroom
        }
    }

    fn is_zero(&self) -> bool {
        (self.count | self.most | self.headroom == 0) & (self.sent | self.lost | self.sum == 0)
    }
}

/// Whether k in a row make a run of high loss intervals.
#[inline(always)]
fn long(p: u32, k: u32) -> u32 {
    ((p != 0) & (p <= k)) as u32
}

/// Where maintenance splits a run of high marks: not solid, so many counted intervals touch the left end and the right end, and so many
/// stretches of p or more neither. Solid: all touch the left end.
#[derive(Clone, Copy)]
pub struct Edges {
    pub solid: bool,
    pub pre: u32,
    pub inner: u32,
    pub post: u32,
}

impl Edges {
    const NONE: Edges = Edges {
        solid: true,
        pre: 0,
        inner: 0,
        post: 0,
    };

    #[inline(always)]
    fn tie(&mut self, p: u32, o: &Edges) {
        match (self.solid, o.solid) {
            (true, true) => self.pre += o.pre,
            (true, false) => {
                *self = Edges {
                    pre: self.pre + o.pre,
                    ..*o
                }
            }
            (false, true) => self.post += o.pre,
            (false, false) => {
                self.inner += long(p, self.post + o.pre) + o.inner;
                self.post = o.post;
            }
        }
    }

    /// One interval more.
    #[inline(always)]
    fn count(&mut self, p: u32, maintenance: bool) {
        if maintenance {
            if self.solid {
                self.solid = false;
            } else {
                self.inner += long(p, self.post);
            }
            self.post = 0;
        } else if self.solid {
            self.pre += 1;
        } else {
            self.post += 1;
        }
    }

    #[inline(always)]
    pub fn runs(&self, p: u32) -> u32 {
        long(p, self.pre) + self.inner + long(p, self.post)
    }
}

#[derive(Clone, Copy)]
pub struct Run {
    pub high: bool,
    pub len: u32,
    pub edges: Edges,
    pub load: Load,
}

impl Run {
    #[inline(always)]
    fn grow(&mut self, p: u32, len: u32, load: &Load, edges: &Edges) {
        self.len += len;
        self.load.add(load);
        if self.high {
            self.edges.tie(p, edges);
        }
    }

    #[inline(always)]
    pub fn figures(&self, p: u32) -> Figures {
        Figures {
            high: if self.high { self.load.count } else { 0 },
            runs: if self.high { self.edges.runs(p) } else { 0 },
            load: self.load,
        }
    }

    fn meets(&self, p: u32) -> bool {
        let Edges {
            solid,
            pre,
            inner,
            post,
        } = self.edges;
        let count = self.load.count;
        let edges = match (self.high, solid) {
            (false, _) => pre | inner | post == 0,
            (true, true) => (pre == self.len) & (count == self.len),
            (true, false) => {
                let least = pre as u64 + post as u64 + times(p, inner);
                (inner as u64 + (count as u64) < self.len as u64)
                    & (least <= count as u64)
                    & ((p != 0) | (inner == 0))
            }
        };
        (1 <= self.len) & (count <= self.len) & self.load.meets() & edges
    }
}

#[derive(Clone, Copy, Default)]
pub struct Figures {
    pub high: u32,
    pub runs: u32,
    pub load: Load,
}

impl Figures {
    #[inline(always)]
    pub fn add(&mut self, o: &Figures) {
        self.high += o.high;
        self.runs += o.runs;
        self.load.add(&o.load);
    }

    fn meets(&self, p: u32) -> bool {
        self.load.meets()
            & (self.high <= self.load.count)
            & (times(p, self.runs) <= self.high as u64)
            & ((p != 0) | (self.runs == 0))
    }
}

pub const AVAILABLE: u32 = 1;
pub const UNAVAILABLE: u32 = 2;

/// What lies between two runs. The label is 0 where it is that of the run before.
#[derive(Clone, Copy, Default)]
pub struct Middle {
    pub label: u32,
    pub unavailable: u32,
    pub inherited: Figures,
    pub available: Figures,
}

impl Middle {
    #[inline(always)]
    pub fn place(&mut self, label: u32, f: &Figures) {
        match label {
            0 => self.inherited.add(f),
            AVAILABLE => self.available.add(f),
            _ => self.unavailable += f.load.count,
        }
    }

    /// A run behind it that grows no more: a long one has its own label, a short one that of what is before it.
    #[inline(always)]
    pub fn shut(&mut self, n: u32, p: u32, r: &Run) {
        if n <= r.len {
            self.label = AVAILABLE + r.high as u32;
        }
        self.place(self.label, &r.figures(p));
    }

    pub fn behind(&mut self, o: &Middle) {
        self.place(self.label, &o.inherited);
        self.available.add(&o.available);
        self.unavailable += o.unavailable;
        if o.label != 0 {
            self.label = o.label;
        }
    }

    /// Between a first and a last run of these marks lie `size` intervals.
    fn meets(&self, n: u32, p: u32, size: u32, first: bool, last: bool) -> bool {
        let counts = self.inherited.load.count as u64
            + self.available.load.count as u64
            + self.unavailable as u64;
        let label = if self.label == 0 {
            let a = &self.available;
            a.load.is_zero() & (a.high | a.runs | self.unavailable == 0)
        } else {
            let unavailable = self.label == UNAVAILABLE;
            n as u64 + (first == unavailable) as u64 + (last == unavailable) as u64 <= size as u64
        };
        let busy = [&self.inherited, &self.available].map(|f| f.high as u64 + f.runs as u64);
        self.inherited.meets(p)
            & self.available.meets(p)
            & (counts <= size as u64)
            & label
            & ((size != 0) | (first != last))
            & ((size != 1) | (first == last))
            & (busy[0] + busy[1] + first as u64 + last as u64 <= size as u64 + 1)
    }
}

#[derive(Clone, Copy)]
pub enum Track {
    Nothing,
    One(Run),
    Many(Run, Middle, Run),
}

impl Track {
    fn push(&mut self, n: u32, p: u32, r: &Run) {
        match self {
            Track::Nothing => *self = Track::One(*r),
            Track::One(t) | Track::Many(_, _, t) if t.high == r.high => {
                t.grow(p, r.len, &r.load, &r.edges)
            }
            Track::One(t) => *self = Track::Many(*t, Middle::default(), *r),
            Track::Many(_, m, t) => {
                m.shut(n, p, t);
                *t = *r;
            }
        }
    }

    fn join(&mut self, n: u32, p: u32, o: &Track) {
        match o {
            Track::Nothing => {}
            Track::One(r) => self.push(n, p, r),
            Track::Many(l, m, t) => {
                self.push(n, p, l);
                match self {
                    Track::Many(_, held, last) => {
                        held.shut(n, p, last);
                        held.behind(m);
                        *last = *t;
                    }
                    Track::One(l) => *self = Track::Many(*l, *m, *t),
                    Track::Nothing => unreachable!("a run was pushed"),
                }
            }
        }
    }

    fn meets(&self, n: u32, p: u32, len: u32) -> bool {
        match self {
            Track::Nothing => len == 0,
            Track::One(r) => (r.len == len) & r.meets(p),
            Track::Many(l, m, t) => match len
                .checked_sub(l.len)
                .and_then(|rest| rest.checked_sub(t.len))
            {
                Some(size) => l.meets(p) & t.meets(p) & m.meets(n, p, size, l.high, t.high),
                None => false,
            },
        }
    }

    fn count(&self) -> u32 {
        match self {
            Track::Nothing => 0,
            Track::One(r) => r.load.count,
            Track::Many(l, m, t) => {
                l.load.count
                    + m.inherited.load.count
                    + m.available.load.count
                    + m.unavailable
                    + t.load.count
            }
        }
    }
}

// Bytes, as docs/RECORDS.md has them.

fn are_zero(s: &[u8]) -> bool {
    s.iter().fold(0, |all, b| all | b) == 0
}

/// The bytes hold the least delay. One above the largest delay wraps to a headroom above it, and one where nothing was delivered is taken
/// for the headroom: neither meets the rules.
fn load_in(s: &[u8; 36]) -> Load {
    let (least, sent, lost) = (u32_at(s, 8), u64_at(s, 12), u64_at(s, 20));
    Load {
        count: u32_at(s, 0),
        most: u32_at(s, 4),
        headroom: if sent == lost {
            least
        } else {
            LARGEST.wrapping_sub(least)
        },
        sent,
        lost,
        sum: u64_at(s, 28),
    }
}

/// None where its words are not ones that a run has.
fn run_in(s: &[u8; 56]) -> Option<Run> {
    let form = u32_at(s, 0);
    let run = Run {
        high: form != 0,
        len: u32_at(s, 4),
        edges: Edges {
            solid: form == 2,
            pre: u32_at(s, 8),
            inner: u32_at(s, 12),
            post: u32_at(s, 16),
        },
        load: load_in(s[20..].try_into().unwrap()),
    };
    ((form <= 1) | ((form == 2) & (run.edges.inner | run.edges.post == 0))).then_some(run)
}

fn figures_in(s: &[u8; 44]) -> Figures {
    Figures {
        high: u32_at(s, 0),
        runs: u32_at(s, 4),
        load: load_in(s[8..].try_into().unwrap()),
    }
}

fn track_in(s: &[u8; 216]) -> Option<Track> {
    let run = |at: usize| run_in(s[at..at + 56].try_into().unwrap());
    let figures = |at: usize| figures_in(s[at..at + 44].try_into().unwrap());
    match u64_at(s, 0) {
        0 => are_zero(&s[8..]).then_some(Track::Nothing),
        1 => run(8).filter(|_| are_zero(&s[64..])).map(Track::One),
        2 => {
            let m = Middle {
                label: u32_at(s, 64),
                unavailable: u32_at(s, 68),
                inherited: figures(72),
                available: figures(116),
            };
            (m.label <= 2).then_some(Track::Many(run(8)?, m, run(160)?))
        }
        _ => None,
    }
}

/// First number, number after the last, label settings and the two tracks.
pub struct Summary {
    pub first: u32,
    pub after: u32,
    pub label: Label,
    pub tracks: [Track; 2],
}

/// The summary in these bytes, if it meets every rule.
pub fn read(s: &[u8; SIZE]) -> Option<Summary> {
    let (first, after) = (u32_at(s, 0), u32_at(s, 4));
    let label = Label::read(&s[8..32])?;
    if (after < first) | (INTERVALS < after) | !are_zero(&s[464..]) {
        return None;
    }
    let tracks = [
        track_in(s[32..248].try_into().unwrap())?,
        track_in(s[248..464].try_into().unwrap())?,
    ];
    let meets = tracks
        .iter()
        .all(|t| t.meets(label.n, label.p, after - first))
        && tracks[0].count() == tracks[1].count();
    meets.then_some(Summary {
        first,
        after,
        label,
        tracks,
    })
}

fn put_load(s: &mut [u8], l: &Load) {
    for (k, x) in [l.count, l.most, l.least()].into_iter().enumerate() {
        inputs::put(s, 4 * k, x);
    }
    for (k, x) in [l.sent, l.lost, l.sum].into_iter().enumerate() {
        s[12 + 8 * k..20 + 8 * k].copy_from_slice(&x.to_le_bytes());
    }
}

fn put_run(s: &mut [u8], r: &Run) {
    let e = r.edges;
    let words = if r.high {
        [1 + e.solid as u32, r.len, e.pre, e.inner, e.post]
    } else {
        [0, r.len, 0, 0, 0]
    };
    for (k, x) in words.into_iter().enumerate() {
        inputs::put(s, 4 * k, x);
    }
    put_load(&mut s[20..56], &r.load);
}

fn put_figures(s: &mut [u8], f: &Figures) {
    inputs::put(s, 0, f.high);
    inputs::put(s, 4, f.runs);
    put_load(&mut s[8..44], &f.load);
}

/// Into bytes that are 0.
fn put_track(s: &mut [u8; 216], t: &Track) {
    match t {
        Track::Nothing => {}
        Track::One(r) => {
            s[0] = 1;
            put_run(&mut s[8..64], r);
        }
        Track::Many(l, m, t) => {
            s[0] = 2;
            put_run(&mut s[8..64], l);
            inputs::put(s, 64, m.label);
            inputs::put(s, 68, m.unavailable);
            put_figures(&mut s[72..116], &m.inherited);
            put_figures(&mut s[116..160], &m.available);
            put_run(&mut s[160..216], t);
        }
    }
}

/// The label settings are given as the bytes in which they stand.
fn put(out: &mut [u8], first: u32, after: u32, label: &[u8], tracks: &[Track; 2]) {
    let s: &mut [u8; SIZE] = out.try_into().unwrap();
    s.fill(0);
    inputs::put(s, 0, first);
    inputs::put(s, 4, after);
    s[8..32].copy_from_slice(label);
    put_track((&mut s[32..248]).try_into().unwrap(), &tracks[0]);
    put_track((&mut s[248..464]).try_into().unwrap(), &tracks[1]);
}

// The operations.

/// Intervals in a row in which no mark changes, which both tracks have in common.
struct Segment {
    len: u32,
    load: Load,
    edges: Edges,
}

impl Segment {
    const NONE: Segment = Segment {
        len: 0,
        load: Load {
            count: 0,
            most: 0,
            headroom: 0,
            sent: 0,
            lost: 0,
            sum: 0,
        },
        edges: Edges::NONE,
    };

    #[inline(always)]
    fn add(&mut self, p: u32, v: &Interval) {
        self.len += 1;
        self.edges.count(p, v.maintenance);
        if !v.maintenance {
            let headroom = if v.delivered() == 0 {
                0
            } else {
                LARGEST - v.least
            };
            self.load.add(&Load {
                count: 1,
                most: v.most,
                headroom,
                sent: v.sent as u64,
                lost: v.lost as u64,
                sum: v.sum,
            });
        }
    }

    fn run(&self, high: bool) -> Run {
        Run {
            high,
            len: self.len,
            edges: if high {
                self.edges
            } else {
                Edges {
                    solid: false,
                    ..Edges::NONE
                }
            },
            load: self.load,
        }
    }
}

/// Only where a mark changes is anything but the segment touched.
fn summary(s: &[u8], first: u64, r: &[u8], out: &mut [u8], at: usize) -> u64 {
    let Some(settings) = settings(s) else {
        return refused(1, 0);
    };
    if r.len() % 48 != 0 {
        return refused(2, 0);
    }
    if !has_room(out.len(), at, SIZE) {
        return refused(3, 0);
    }
    if first > INTERVALS as u64 {
        return refused(5, 0);
    }
    let Label { n, p, .. } = settings.label;
    let mut tracks = [Track::Nothing; 2];
    let mut segment = Segment::NONE;
    let mut marks = (false, false);
    for (k, record) in intervals(r).iter().enumerate() {
        let Some(v) = Interval::read(record) else {
            return refused(5, k);
        };
        if v.number as u64 != first + k as u64 {
            return refused(7, k);
        }
        let now = (
            v.high_loss(&settings.label),
            v.high_composite(&settings.label),
        );
        if now != marks {
            if segment.len > 0 {
                tracks[0].push(n, p, &segment.run(marks.0));
                tracks[1].push(n, p, &segment.run(marks.1));
            }
            segment = Segment::NONE;
            marks = now;
        }
        segment.add(p, &v);
    }
    if segment.len > 0 {
        tracks[0].push(n, p, &segment.run(marks.0));
        tracks[1].push(n, p, &segment.run(marks.1));
    }
    let first = first as u32;
    put(
        &mut out[at..at + SIZE],
        first,
        first + (r.len() / 48) as u32,
        &s[..24],
        &tracks,
    );
    0
}

fn join(left: &[u8], right: &[u8], out: &mut [u8], at: usize) -> u64 {
    let (Ok(left), Ok(right)) = (left.try_into(), right.try_into()) else {
        return refused(2, 0);
    };
    if !has_room(out.len(), at, SIZE) {
        return refused(3, 0);
    }
    let Some(mut a) = read(left) else {
        return refused(5, 0);
    };
    let Some(b) = read(right) else {
        return refused(5, 1);
    };
    if left[8..32] != right[8..32] {
        return refused(8, 1);
    }
    if a.after != b.first {
        return refused(7, 1);
    }
    for k in 0..2 {
        a.tracks[k].join(a.label.n, a.label.p, &b.tracks[k]);
    }
    put(
        &mut out[at..at + SIZE],
        a.first,
        b.after,
        &left[8..32],
        &a.tracks,
    );
    0
}

/// The summaries of stretches of so many intervals.
pub fn made(s: &[u8], r: &[u8], count: usize) -> Vec<[u8; SIZE]> {
    let of = |(k, part): (usize, &[u8])| {
        let mut out = [0; SIZE];
        assert!(library::summary(s, (k * count) as u64, part, &mut out, 0) == 0);
        out
    };
    r.chunks(48 * count).enumerate().map(of).collect()
}

pub fn rows(measure: &mut dyn FnMut(&Row)) {
    let s = inputs::settings(999_000);
    let months = inputs::months(INTERVALS);
    for (name, r) in &months {
        measure(&Row {
            name: format!("mip_summary, 3,000,000 intervals, {name}"),
            items: ("record", INTERVALS as usize),
            leaves: (SIZE, 1),
            library: Box::new(|out| out.words[0] = library::summary(&s, 0, r, &mut out.bytes, 0)),
            plain: vec![(
                "segments",
                Box::new(|out| out.words[0] = summary(&s, 0, r, &mut out.bytes, 0)),
            )],
            reads: Some(r),
        });
    }
    for (name, r) in &months {
        let minutes = made(&s, &r[..48 * 60_060], 60);
        let count = minutes.len() - 1;
        type Call = fn(&[u8], &[u8], &mut [u8], usize) -> u64;
        let joins = |call: Call, out: &mut Out| {
            for k in 0..count {
                out.words[k] = call(&minutes[k], &minutes[k + 1], &mut out.bytes, k * SIZE);
            }
        };
        measure(&Row {
            name: format!("mip_join, 1,000 pairs of minutes, {name}"),
            items: ("join", count),
            leaves: (count * SIZE, count),
            library: Box::new(|out| joins(library::join, out)),
            plain: vec![("in place", Box::new(|out| joins(join, out)))],
            reads: None,
        });
    }
}

pub fn compare() {
    let mut r = Random(5);
    for round in 0..40_000 {
        let count = r.below(60);
        let mut records = if r.one_in(3) {
            inputs::calm(count)
        } else {
            inputs::random(count)
        };
        let mut s = inputs::settings(999_000);
        s[4] = 4 + r.below(12) as u8;
        s[5] = [0, 2, 3][r.below(3) as usize];
        let cut = r.below(1 + count as u64) as usize;
        let mut parts = [
            (0, &records[..48 * cut]),
            (cut as u64, &records[48 * cut..]),
        ]
        .map(|(first, part)| {
            let mut out = vec![0; SIZE];
            assert!(library::summary(&s, first, part, &mut out, 0) == 0);
            out
        });
        let first = r.one_in(10) as u64 * [1, 3_000_000, 3_000_001][r.below(3) as usize];
        inputs::damage(&mut r, &mut records);
        if r.one_in(8) {
            inputs::damage(&mut r, &mut s);
        }
        // one of the tracks' words, and one of the two summaries
        let (word, k) = (32 + 4 * r.below(108) as usize, r.below(2) as usize);
        match r.below(8) {
            0 => parts.swap(0, 1),
            1 => inputs::damage(&mut r, &mut parts[k]),
            2 => inputs::put(&mut parts[k], word, r.below(4)),
            3 => {
                let near = u32_at(&parts[k], word)
                    .wrapping_add(r.below(5))
                    .wrapping_sub(2);
                inputs::put(&mut parts[k], word, near);
            }
            4 => inputs::put(&mut parts[k], 8 + 4 * r.below(6) as usize, 1 + r.below(200)),
            _ => {}
        }
        let (length, at) = inputs::room(&mut r, SIZE);
        let (mut a, mut b) = (vec![7; length], vec![7; length]);
        let words = (
            library::summary(&s, first, &records, &mut a, at),
            summary(&s, first, &records, &mut b, at),
        );
        assert!(
            words.0 == words.1 && a == b,
            "summary, round {round}: {words:x?}"
        );
        let words = (
            library::join(&parts[0], &parts[1], &mut a, at),
            join(&parts[0], &parts[1], &mut b, at),
        );
        assert!(
            words.0 == words.1 && a == b,
            "join, round {round}: {words:x?}"
        );
    }
}
