//! The library's algorithm in plain Rust: read and test a plan, prepare once, settle flow by flow, with looks near a flow's peaks before it is scanned over
//! its busy length, at the instants at which a count steps up. For comparison every turn can be a full scan, or every tick be tried.

pub const HORIZON: u64 = 65535;
const NODES: usize = 8;
const FLOWS: usize = 16;
const SLOTS: usize = 16;
const HERE: usize = 8;
const INSTANT: usize = 9;

/// What a turn tries: the steps near the flow's peaks before all steps, all steps, or every tick.
#[derive(Clone, Copy, PartialEq)]
pub enum Walk {
    Near,
    Steps,
    Ticks,
}

/// The turns of a flow once something that it reads has risen; a mark is the number left.
const FRESH: u64 = 4;

/// A scan with no more steps is as short as a look near some peaks.
const FEW: u64 = 64;

#[derive(Clone, Copy, Default)]
pub struct Flow {
    pub number: u8,
    pub priority: u8,
    pub period: u64,
    pub jitter: u64,
    pub deadline: u64,
    pub length: usize,
    pub nodes: [u8; NODES],
    pub costs: [u64; NODES],
}

#[derive(Clone)]
pub struct Set {
    pub lmin: u64,
    pub lmax: u64,
    pub flows: Vec<Flow>,
}

/// What was done: instants tried, evaluations of a sum, full scans, turns near the peaks.
#[derive(Default)]
pub struct Counts {
    pub instants: u64,
    pub sums: u64,
    pub scans: u64,
    pub looks: u64,
    /// The sums after which settling is given up.
    pub most: Option<u64>,
}

impl Counts {
    pub fn add(&mut self, other: &Counts) {
        self.instants += other.instants;
        self.sums += other.sums;
        self.scans += other.scans;
        self.looks += other.looks;
    }
}

#[derive(Clone, Copy, PartialEq)]
enum Role {
    Own,
    Higher,
    Equal,
    Lower,
}

fn word(b: &[u8], at: usize) -> u64 {
    b[at] as u64 * 256 + b[at + 1] as u64
}

/// A body of n bytes behind a kind byte.
fn body(plan: &[u8], at: usize, n: usize) -> Option<&[u8]> {
    plan.get(at + 1..at + 1 + n)
}

fn flow(b: &[u8]) -> Flow {
    let mut f = Flow {
        number: b[0],
        priority: b[1],
        period: word(b, 2),
        jitter: word(b, 4),
        deadline: word(b, 6),
        length: b[8] as usize,
        ..Flow::default()
    };
    for k in 0..NODES {
        f.nodes[k] = b[9 + k];
        f.costs[k] = word(b, 17 + 2 * k);
    }
    f
}

/// 2, 3 or 4; 0 for a flow that is well formed.
fn flow_cause(f: &Flow) -> u64 {
    let ranged = |k: usize| match k < f.length {
        true => f.nodes[k] != 0 && (1..=4095).contains(&f.costs[k]),
        false => f.nodes[k] == 0 && f.costs[k] == 0,
    };
    if f.number == 0 {
        2
    } else if f.period == 0
        || f.deadline == 0
        || !(1..=NODES).contains(&f.length)
        || !(0..NODES).all(ranged)
    {
        3
    } else if (1..f.length).any(|k| f.nodes[..k].contains(&f.nodes[k])) {
        4
    } else {
        0
    }
}

/// The set that a plan lists, or the refusal as one number.
pub fn read(plan: &[u8]) -> Result<Set, u64> {
    let refused = |number: u64, at: usize| Err(number + 65536 * at as u64);
    let Some(b) = body(plan, 0, 4).filter(|_| plan[0] == 1) else {
        return refused(12, 0);
    };
    let mut set = Set {
        lmin: word(b, 0),
        lmax: word(b, 2),
        flows: Vec::new(),
    };
    if set.lmin > set.lmax || set.lmax > 4095 {
        return refused(1, 0);
    }
    let mut last = 0;
    let mut at = 5;
    while plan.get(at) == Some(&2) {
        let Some(b) = body(plan, at, 33) else {
            return refused(12, at);
        };
        let f = flow(b);
        if f.number != 0 && f.number <= last {
            return refused(12, at);
        }
        match flow_cause(&f) {
            0 if set.flows.len() == FLOWS => return refused(6, at),
            0 => {}
            number => return refused(number, at),
        }
        last = f.number;
        set.flows.push(f);
        at += 34;
    }
    match plan.get(at) {
        Some(0x7f) if at + 1 == plan.len() => Ok(set),
        Some(0x7f) => refused(12, at + 1),
        _ => refused(12, at),
    }
}

fn position(f: &Flow, node: u8) -> usize {
    (0..f.length)
        .find(|&k| f.nodes[k] == node)
        .unwrap_or(f.length)
}

fn role(i: &Flow, j: &Flow) -> Role {
    if i.number == j.number {
        Role::Own
    } else if i.priority < j.priority {
        Role::Higher
    } else if i.priority == j.priority {
        Role::Equal
    } else {
        Role::Lower
    }
}

/// Two flows: what the second is to the first, the first place of the first's path that they share, the place from which the second no longer
/// runs along it, and where each of its nodes stands on the second's path. As many as there are nodes stands for none.
#[derive(Clone, Copy)]
struct Pair {
    role: Role,
    first: u8,
    turn: u8,
    places: [u8; NODES],
}

fn first_below(places: &[u8], bound: u8) -> u8 {
    (places.iter().position(|&k| k < bound)).unwrap_or(places.len()) as u8
}

fn pair(i: &Flow, j: &Flow) -> Pair {
    let mut places = [0; NODES];
    for (place, &node) in places.iter_mut().zip(&i.nodes[..i.length]) {
        *place = position(j, node) as u8;
    }
    let used = &places[..i.length];
    let first = first_below(used, j.length as u8);
    let bound = used.get(first as usize).map_or(0, |&k| k);
    Pair {
        role: role(i, j),
        first,
        turn: first_below(used, bound),
        places,
    }
}

impl Pair {
    /// The second's cost at a place of the first's path; 0 if it does not pass there.
    fn cost(&self, j: &Flow, k: usize) -> u64 {
        let at = self.places[k] as usize;
        if at < j.length {
            j.costs[at]
        } else {
            0
        }
    }

    /// Whether the second counts, and runs along the first on the prefix at that place.
    fn along(&self, p: usize) -> bool {
        matches!(self.role, Role::Higher | Role::Equal) && p < self.turn as usize
    }
}

/// Whether j leaves i's path and meets it again, by where j's nodes stand on i's path.
fn comes_back(i: &Flow, j: &Flow, back: &Pair) -> bool {
    let mut on = back.places[..j.length]
        .iter()
        .map(|&k| (k as usize) < i.length);
    on.any(|on| on) && on.any(|on| !on) && on.any(|on| on)
}

/// What is worked out once for a flow: Smin, M and what hangs on nothing at each place of its path, and its busy length.
#[derive(Clone, Copy, Default)]
struct Facts {
    smin: [u64; NODES],
    way: [u64; NODES],
    base: [u64; NODES],
    busy: u64,
}

pub struct Prepared<'a> {
    set: &'a Set,
    pairs: Vec<[Pair; FLOWS]>,
    facts: [Facts; FLOWS],
    misplaced: Option<usize>,
}

impl Prepared<'_> {
    fn others(&self, a: usize) -> impl Iterator<Item = (&Flow, &Pair)> {
        self.set.flows.iter().zip(&self.pairs[a])
    }

    fn misplaced(&self, a: usize) -> bool {
        let i = &self.set.flows[a];
        (self.set.flows.iter().enumerate())
            .any(|(b, j)| i.priority <= j.priority && comes_back(i, j, &self.pairs[b][a]))
    }

    fn busy(&self, a: usize) -> u64 {
        let m = self.set.flows[a].length;
        let mut weights = [0; FLOWS];
        for (weight, (j, pair)) in weights.iter_mut().zip(self.others(a)) {
            if pair.role != Role::Lower {
                *weight = (0..m).map(|k| pair.cost(j, k)).max().unwrap_or(0);
            }
        }
        let mut x: u64 = 0;
        loop {
            let load: u64 = (self.set.flows.iter().zip(&weights))
                .map(|(j, weight)| x.div_ceil(j.period) * weight)
                .sum();
            let next = load.clamp(1, HORIZON + 1);
            if next <= x {
                return x;
            }
            x = next;
        }
    }

    fn least_cost(&self, a: usize, k: usize) -> u64 {
        let i = &self.set.flows[a];
        self.others(a)
            .filter(|(j, pair)| pair.along(i.length - 1) && (pair.places[k] as usize) < j.length)
            .map(|(j, pair)| pair.cost(j, k))
            .fold(i.costs[k], u64::min)
    }

    fn greatest_cost(&self, a: usize, p: usize, k: usize) -> u64 {
        self.others(a)
            .filter(|(_, pair)| pair.along(p))
            .map(|(j, pair)| pair.cost(j, k))
            .fold(self.set.flows[a].costs[k], u64::max)
    }

    fn lower_cost(&self, a: usize, k: usize) -> u64 {
        self.others(a)
            .filter(|(_, pair)| pair.role == Role::Lower)
            .map(|(j, pair)| pair.cost(j, k))
            .fold(1, u64::max)
    }

    fn base(&self, a: usize, p: usize, term5: u64) -> u64 {
        let i = &self.set.flows[a];
        let slow = (1..=p).fold(0, |s, k| if i.costs[s] < i.costs[k] { k } else { s });
        let term4: u64 = (0..=p)
            .filter(|&k| k != slow)
            .map(|k| self.greatest_cost(a, p, k))
            .sum();
        term4 + term5 + p as u64 * self.set.lmax + i.costs[slow] - i.costs[p]
    }

    fn note(&mut self, a: usize) {
        let i = self.set.flows[a];
        let (mut smin, mut way, mut term5) = (0, 0, 0);
        for k in 0..i.length {
            term5 += self.lower_cost(a, k) - 1;
            self.facts[a].smin[k] = smin;
            self.facts[a].way[k] = way;
            self.facts[a].base[k] = self.base(a, k, term5);
            smin += i.costs[k] + self.set.lmin;
            way += self.set.lmin + self.least_cost(a, k);
        }
    }

    fn meets_equal(&self, a: usize, b: usize) -> bool {
        let pair = &self.pairs[a][b];
        pair.role == Role::Equal && (pair.first as usize) < self.set.flows[a].length
    }

    /// How far to each side of its peaks flow a is looked at, with that many turns left: so many steps, by the packets in its busy length.
    fn reach(&self, a: usize, turns: u64) -> u64 {
        let busy = self.facts[a].busy;
        if turns <= 1 {
            return busy;
        }
        let packets = |b: usize| busy / self.set.flows[b].period;
        let steps: u64 = (0..self.set.flows.len())
            .filter(|&b| b == a || self.meets_equal(a, b))
            .map(packets)
            .sum();
        if steps <= FEW {
            return busy;
        }
        let near = match turns {
            2 => 1024,
            3 => 64,
            _ => 4,
        };
        near * (1 + busy / steps)
    }

    /// Whether a bound of flow a stands in the sums of flow b.
    fn reads(&self, b: usize, a: usize) -> bool {
        match self.pairs[b][a].role {
            Role::Own => (0..self.set.flows.len()).any(|c| self.meets_equal(b, c)),
            Role::Higher | Role::Equal => {
                (self.pairs[b][a].first as usize) < self.set.flows[b].length
            }
            Role::Lower => false,
        }
    }
}

/// What a count looks at, what is added, what is taken off, the period, the weight.
#[derive(Clone, Copy, Default)]
struct Entry {
    look: usize,
    plus: u64,
    less: u64,
    period: u64,
    weight: u64,
}

/// A node in one turn.
#[derive(Clone, Copy, Default)]
struct Block {
    base: u64,
    added: u64,
    count: usize,
    entries: [Entry; FLOWS],
}

impl Block {
    fn append(&mut self, entry: Entry) {
        self.entries[self.count] = entry;
        self.count += 1;
    }
}

/// The bounds of every flow.
type Held = [Best; FLOWS];

impl Prepared<'_> {
    /// S of flow b at a place of its path.
    fn arrival(&self, held: &Held, b: usize, k: usize) -> u64 {
        match k {
            0 => 0,
            k => self.set.lmax + held[b].bounds[k - 1],
        }
    }

    /// The entries of flow b, if it is not lower, from the first place that it shares on.
    fn write_flow(&self, sheet: &mut [Block], held: &Held, a: usize, b: usize) {
        let (i, j, pair) = (&self.set.flows[a], &self.set.flows[b], &self.pairs[a][b]);
        let first = pair.first as usize;
        if pair.role == Role::Lower || first >= i.length {
            return;
        }
        let at = |k: usize| pair.places[k] as usize;
        let plus = j.jitter + self.arrival(held, b, at(first));
        let way = self.facts[a].way[first];
        let (mut last, mut nearest, mut weight) = (first, first, 0);
        for (p, block) in sheet.iter_mut().enumerate().skip(first) {
            weight = pair.cost(j, p).max(weight);
            let mut entry = Entry {
                look: INSTANT,
                plus: 0,
                less: i.period,
                period: j.period,
                weight,
            };
            match pair.role {
                Role::Higher => {
                    if at(p) < j.length {
                        last = p;
                    }
                    entry.look = if last == p { HERE } else { last };
                    entry.plus = plus;
                    entry.less = way + self.facts[b].smin[at(last)];
                }
                Role::Equal => {
                    if at(p) < at(nearest) {
                        nearest = p;
                    }
                    entry.plus = plus + self.arrival(held, a, nearest);
                    entry.less = i.jitter + way + self.facts[b].smin[at(nearest)];
                }
                Role::Own | Role::Lower => {}
            }
            block.append(entry);
        }
    }

    /// The sheet of flow a, with the bounds so far.
    fn write(&self, sheet: &mut [Block], held: &Held, a: usize) {
        let i = &self.set.flows[a];
        for (p, block) in sheet.iter_mut().enumerate() {
            block.base = self.facts[a].base[p];
            block.added = i.costs[p] + i.jitter;
            block.count = 0;
        }
        for b in 0..self.set.flows.len() {
            self.write_flow(sheet, held, a, b);
        }
    }
}

fn term(e: &Entry, seen: u64) -> u64 {
    let x = seen + e.plus;
    if x < e.less {
        return 0;
    }
    (1 + (x - e.less) / e.period) * e.weight
}

/// What is kept of a node along the walk: the part of its sum that hangs on nothing but the instant, its next step, whether an entry looks
/// elsewhere, and the next step of each entry.
#[derive(Clone, Copy, Default)]
struct Kept {
    sum: u64,
    next: u64,
    looking: bool,
    steps: [u64; FLOWS],
}

/// The instant after u at which the count of an entry that looks at the instant steps up.
fn step_after(e: &Entry, u: u64) -> u64 {
    let x = u + e.plus;
    if x < e.less {
        e.less - e.plus
    } else {
        u + e.period - (x - e.less) % e.period
    }
}

impl Block {
    fn begin(&self, kept: &mut Kept, u: u64, end: u64) -> u64 {
        let mut next = end;
        kept.sum = self.base;
        kept.looking = false;
        for (step, e) in kept.steps.iter_mut().zip(&self.entries[..self.count]) {
            if e.look == INSTANT {
                kept.sum += term(e, u);
                *step = step_after(e, u);
            } else {
                kept.looking = true;
                *step = end;
            }
            next = next.min(*step);
        }
        kept.next = next;
        next
    }

    fn advance(&self, kept: &mut Kept, u: u64, end: u64) -> u64 {
        if kept.next != u {
            return kept.next;
        }
        let mut next = end;
        for (step, e) in kept.steps.iter_mut().zip(&self.entries[..self.count]) {
            if *step == u {
                kept.sum += e.weight;
                *step = step_after(e, u);
            }
            next = next.min(*step);
        }
        kept.next = next;
        next
    }

    fn sum(&self, kept: &Kept, v: &[u64; SLOTS]) -> u64 {
        if !kept.looking {
            return kept.sum;
        }
        let entries = &self.entries[..self.count];
        let looking = entries.iter().filter(|e| e.look != INSTANT);
        kept.sum + looking.map(|e| term(e, v[e.look % SLOTS])).sum::<u64>()
    }

    /// The starting time at node p, upwards from that of the instant tried before; none where its bound passes the horizon.
    fn start(
        &self,
        kept: &Kept,
        v: &mut [u64; SLOTS],
        p: usize,
        u: u64,
        counts: &mut Counts,
    ) -> Option<u64> {
        let last = HORIZON + u;
        let mut w = v[p];
        while w + self.added <= last {
            counts.sums += 1;
            v[HERE] = w;
            let s = self.sum(kept, v);
            if s <= w {
                return Some(w);
            }
            w = s;
        }
        None
    }
}

/// The bounds at the nodes of a path, and where each was reached.
#[derive(Clone, Copy, Default)]
struct Best {
    bounds: [u64; NODES],
    peaks: [u64; NODES],
}

/// Raises the bounds to those over these instants, each with the first at which it is reached; none where one passes the horizon.
fn responses(
    sheet: &[Block],
    instants: std::ops::Range<u64>,
    best: &mut Best,
    walk: Walk,
    counts: &mut Counts,
) -> Option<()> {
    let (from, end) = (instants.start, instants.end);
    let mut v = [0u64; SLOTS];
    let mut kept = [Kept::default(); NODES];
    let mut u = from;
    while u < end {
        counts.instants += 1;
        let mut next = end;
        for (block, kept) in sheet.iter().zip(&mut kept) {
            let step = if u == from {
                block.begin(kept, u, end)
            } else {
                block.advance(kept, u, end)
            };
            next = next.min(step);
        }
        v[INSTANT] = u;
        for (p, block) in sheet.iter().enumerate() {
            let w = block.start(&kept[p], &mut v, p, u, counts)?;
            v[p] = w;
            let bound = (w + block.added).saturating_sub(u);
            if best.bounds[p] < bound {
                best.bounds[p] = bound;
                best.peaks[p] = u;
            }
        }
        u = match walk {
            Walk::Near | Walk::Steps => next,
            Walk::Ticks => u + 1,
        };
    }
    Some(())
}

/// The bounds raised near each peak, from the last node's on, so far to each side; or over the busy length where that is no farther. A peak near the one
/// that was looked at before it is passed over.
fn look(
    sheet: &[Block],
    best: &mut Best,
    far: u64,
    busy: u64,
    walk: Walk,
    counts: &mut Counts,
) -> Option<()> {
    if busy <= far {
        return responses(sheet, 0..busy, best, walk, counts);
    }
    let peaks = best.peaks;
    let mut last = busy + far;
    for &peak in peaks[..sheet.len()].iter().rev() {
        if last.abs_diff(peak) >= far {
            let near = peak.saturating_sub(far)..busy.min(peak + far);
            responses(sheet, near, best, walk, counts)?;
            last = peak;
        }
    }
    Some(())
}

/// Whether b, after c, is more urgent, or as urgent with more turns left, or with as many before it in the round that begins after the last.
fn comes_before(set: &Set, marks: &[u64], last: usize, c: usize, b: usize) -> bool {
    let rank = |a: usize| (set.flows[a].priority, marks[a]);
    rank(c) < rank(b) || rank(c) == rank(b) && c <= last && last < b
}

/// The next flow to have a turn, of those that have one left.
fn choose(set: &Set, marks: &[u64], last: usize) -> Option<usize> {
    let mut chosen = None;
    for (b, &mark) in marks.iter().enumerate() {
        if mark > 0 && chosen.is_none_or(|c| comes_before(set, marks, last, c, b)) {
            chosen = Some(b);
        }
    }
    chosen
}

/// The settled bounds; none where one passes the horizon.
fn settle(prepared: &Prepared, walk: Walk, counts: &mut Counts) -> Option<Held> {
    let set = prepared.set;
    let n = set.flows.len();
    let mut sheet = [Block::default(); NODES];
    let mut held = [Best::default(); FLOWS];
    let mut marks = [1; FLOWS];
    let fresh = if walk == Walk::Near { FRESH } else { 1 };
    let mut last = n;
    while let Some(a) = choose(set, &marks[..n], last) {
        if counts.most.is_some_and(|most| most < counts.sums) {
            return None;
        }
        let m = set.flows[a].length;
        last = a;
        prepared.write(&mut sheet[..m], &held, a);
        let busy = prepared.facts[a].busy;
        let far = prepared.reach(a, marks[a]);
        let mut best = held[a];
        look(&sheet[..m], &mut best, far, busy, walk, counts)?;
        let rose = held[a].bounds != best.bounds;
        held[a] = best;
        if far < busy {
            counts.looks += 1;
            marks[a] = if rose { FRESH } else { marks[a] - 1 };
        } else {
            counts.scans += 1;
            marks[a] = 0;
        }
        if rose {
            for (b, mark) in marks[..n].iter_mut().enumerate() {
                if prepared.reads(b, a) {
                    *mark = fresh;
                }
            }
        }
    }
    Some(held)
}

pub fn prepare(set: &Set) -> Prepared<'_> {
    let nothing = pair(&Flow::default(), &Flow::default());
    let pairs = (set.flows.iter())
        .map(|i| {
            let mut row = [nothing; FLOWS];
            for (noted, j) in row.iter_mut().zip(&set.flows) {
                *noted = pair(i, j);
            }
            row
        })
        .collect();
    let mut prepared = Prepared {
        set,
        pairs,
        facts: [Facts::default(); FLOWS],
        misplaced: None,
    };
    prepared.misplaced = (0..set.flows.len()).find(|&a| prepared.misplaced(a));
    for a in 0..set.flows.len() {
        prepared.facts[a].busy = prepared.busy(a);
    }
    for a in 0..set.flows.len() {
        prepared.note(a);
    }
    prepared
}

/// A judgement, and the bound of each flow where they settled.
#[derive(Debug, PartialEq)]
pub struct Verdict {
    pub answer: u64,
    pub bounds: Vec<u64>,
}

/// Answers 0 for an accepted set, otherwise number + 256 × flow.
pub fn judge(prepared: &Prepared, walk: Walk, counts: &mut Counts) -> Verdict {
    let set = prepared.set;
    let refused = |number, f: &Flow| number + 256 * f.number as u64;
    let no_bounds = |answer| Verdict {
        answer,
        bounds: Vec::new(),
    };
    if let Some(a) = prepared.misplaced {
        return no_bounds(refused(7, &set.flows[a]));
    }
    let overload = (0..set.flows.len()).find(|&a| prepared.facts[a].busy > HORIZON);
    if let Some(a) = overload {
        return no_bounds(refused(8, &set.flows[a]));
    }
    let Some(held) = settle(prepared, walk, counts) else {
        return no_bounds(9);
    };
    let bounds: Vec<u64> = (set.flows.iter().enumerate())
        .map(|(a, f)| held[a].bounds[f.length - 1])
        .collect();
    let late = (set.flows.iter().zip(&bounds)).find(|(f, &bound)| f.deadline < bound);
    Verdict {
        answer: late.map_or(0, |(f, _)| refused(10, f)),
        bounds,
    }
}
