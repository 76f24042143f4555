//! Bounds by chosen instants, for sets that are too long for the formula in
//! formula/. All but the instants is worked out by the program's own parts.

use super::formula::Reading;
use second::arith::count;
use second::flow::HORIZON;
use second::fronts::{fronts, Front, Meeting};
use second::responses::Arrivals;
use second::set::Set;
use second::verdict::busy_lengths;

/// Misread, arrival bounds may never come to rest.
const ROUNDS: usize = 500;

struct Chosen<'a> {
    set: &'a Set,
    reading: Reading,
    busy: Vec<i64>,
    fronts: Vec<Vec<Front>>,
    arrivals: Arrivals,
}

/// The bounds that the reading's instants give. None: there are none up to the
/// horizon, or none are found in so many rounds.
pub fn bounds(set: &Set, reading: Reading) -> Option<Vec<i64>> {
    let mut chosen = Chosen {
        set,
        reading,
        busy: busy_lengths(set).ok()?,
        fronts: (0..set.flows.len()).map(|i| fronts(set, i)).collect(),
        arrivals: set.flows.iter().map(|f| vec![0; f.path.len()]).collect(),
    };
    for _ in 0..ROUNDS {
        let before = chosen.arrivals.clone();
        let bounds = chosen.round()?;
        if chosen.arrivals == before {
            return Some(bounds);
        }
    }
    None
}

impl Chosen<'_> {
    fn round(&mut self) -> Option<Vec<i64>> {
        let mut bounds = Vec::new();
        for i in 0..self.set.flows.len() {
            let mut response = 0;
            for place in 0..self.fronts[i].len() {
                if place > 0 {
                    self.arrivals[i][place] = response + self.set.links.most;
                }
                response = self.response(i, place)?;
            }
            bounds.push(response);
        }
        Some(bounds)
    }

    fn response(&self, i: usize, place: usize) -> Option<i64> {
        let cost = self.set.flows[i].costs[place];
        let mut greatest = 0;
        for t in self.instants(i, place) {
            greatest = greatest.max(self.start(i, place, t)? + cost - t);
        }
        (greatest <= HORIZON).then_some(greatest)
    }

    /// −J and, up to a busy length later, the steps that the reading takes.
    fn instants(&self, i: usize, place: usize) -> Vec<i64> {
        let own = &self.set.flows[i];
        let (first, end) = (-own.jitter, -own.jitter + self.busy[i]);
        let mut out = vec![first];
        out.extend(steps(own.jitter, own.period, 1, end));
        let from = i64::from(self.reading == Reading::NoFirstStep);
        for p in self.places(i, place) {
            for m in &self.fronts[i][p].equal {
                out.extend(steps(
                    self.base(m) + self.arrivals[i][m.node],
                    m.period,
                    from,
                    end,
                ));
            }
        }
        let late = i64::from(self.reading == Reading::LateSteps);
        for t in &mut out[1..] {
            *t += late;
        }
        out.retain(|t| (first..end).contains(t));
        out.sort_unstable();
        out.dedup();
        out
    }

    /// The places on i's path on whose prefixes steps are taken.
    fn places(&self, i: usize, place: usize) -> Vec<usize> {
        match self.reading {
            Reading::EveryPrefix | Reading::NoFirstStep | Reading::LateSteps => {
                (0..self.fronts[i].len()).collect()
            }
            Reading::NamedPrefixes => self.reached(i, place),
            Reading::DirectlyNamed => [self.named(i, place), vec![place]].concat(),
            Reading::ThisPrefix => vec![place],
            Reading::OwnSteps => Vec::new(),
            other => panic!("{other:?} is not about instants"),
        }
    }

    fn named(&self, i: usize, place: usize) -> Vec<usize> {
        let higher = self.fronts[i][place].higher.iter();
        higher.map(|m| m.node).filter(|l| *l != place).collect()
    }

    fn reached(&self, i: usize, place: usize) -> Vec<usize> {
        let named = self.named(i, place).into_iter();
        let earlier = named.flat_map(|l| self.reached(i, l));
        earlier.chain([place]).collect()
    }

    /// A count's argument apart from t and S(i,g), or from V.
    fn base(&self, m: &Meeting) -> i64 {
        m.shift + self.arrivals[m.flow][m.first]
    }

    /// W at the place and t, by way of W at all places before.
    fn start(&self, i: usize, place: usize, t: i64) -> Option<i64> {
        let mut starts = Vec::new();
        for p in 0..=place {
            starts.push(0);
            loop {
                let next = self.sum(i, p, t, &starts);
                if next == starts[p] {
                    break;
                }
                if next - t > 2 * HORIZON {
                    return None;
                }
                starts[p] = next;
            }
        }
        starts.pop()
    }

    fn sum(&self, i: usize, place: usize, t: i64, starts: &[i64]) -> i64 {
        let (own, front) = (&self.set.flows[i], &self.fronts[i][place]);
        let higher = front
            .higher
            .iter()
            .map(|m| count(starts[m.node] + self.base(m), m.period) * m.slowest);
        let equal = front
            .equal
            .iter()
            .map(|m| count(t + self.arrivals[i][m.node] + self.base(m), m.period) * m.slowest);
        let itself = count(t + own.jitter, own.period) * front.slowest;
        higher.chain(equal).sum::<i64>() + itself + front.fixed
    }
}

/// The instants t below the end at which count(t + base, T) steps up, from the
/// step of that number on; the step from 0 to 1 is number 0.
fn steps(base: i64, period: i64, from: i64, end: i64) -> impl Iterator<Item = i64> {
    (from..)
        .map(move |k| k * period - base)
        .take_while(move |t| *t < end)
}
