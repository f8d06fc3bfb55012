//! Jumps inside a component: how far the variables that rose last can rise by the same rules again and again, and the check that these rules lift
//! them so far. All values are turned, so that every founded variable rises.
use super::run::{over_down, over_up, Kept, Kind, Lift, Reduct, Values};
use std::cell::Cell;

/// How often targets are lowered, steps are lengthened, all that is left is looked at in the check, and targets are checked, at most.
const LOWERED: usize = 4;
const LENGTHENED: usize = 8;
const CHECKED: usize = 40;
const TRIED: usize = 4;
/// The first try is after so many rounds; fewer steps than these are not tried; a jump of fewer steps than these is no success.
const FIRST: u32 = 2;
const FEW: i32 = 8;
const MANY: i32 = 16;

/// What the runs of a thread have done: rounds, tries to jump, jumps, and how often they looked at a rule after the first sweeps.
#[derive(Clone, Copy, Default)]
pub struct Tally {
    pub rounds: u64,
    pub tries: u64,
    pub jumps: u64,
    pub looked: u64,
}

thread_local! {
    static TALLY: Cell<Tally> = const { Cell::new(Tally { rounds: 0, tries: 0, jumps: 0, looked: 0 }) };
}

fn tally(count: impl Fn(&mut Tally)) {
    let mut now = TALLY.get();
    count(&mut now);
    TALLY.set(now);
}

fn looked(rules: usize) {
    tally(|t| t.looked += rules as u64);
}

/// What a call does.
pub fn tallied<T>(call: impl FnOnce() -> T) -> Tally {
    TALLY.set(Tally::default());
    call();
    TALLY.get()
}

/// The rule that raised each variable last, when it did and, of a max, by which variable; and when a jump is tried next.
pub struct Raises {
    by: [u16; 256],
    held: [u8; 256],
    at: [u32; 256],
    now: u32,
    /// When the last try was, the variables that rose since, and the rounds since.
    since: u32,
    rose: Vec<u8>,
    rounds: u32,
    wait: u32,
    /// How many variables the component has: a lap takes no more rounds.
    heads: u32,
}

impl Raises {
    pub fn new() -> Raises {
        Raises { by: [0; 256], held: [0; 256], at: [0; 256], now: 0, since: 0, rose: Vec::new(), rounds: 0, wait: 0, heads: 0 }
    }

    /// Starts a component.
    pub fn start(&mut self, part: &[Lift]) {
        self.heads = part.chunk_by(|a, b| a.head == b.head).count() as u32;
        self.since = self.now;
        self.rose.clear();
        (self.rounds, self.wait) = (0, FIRST);
    }

    /// After a rule has raised its head, which was this before.
    pub fn raised(&mut self, lift: &Lift, terms: &[Kept], before: i16, model: &Values) {
        let v = lift.head as usize;
        self.now += 1;
        if self.at[v] <= self.since {
            self.rose.push(lift.head);
        }
        if matches!(lift.kind, Kind::Max) {
            // the largest and, of these, the one that rose first
            let value = |t: &Kept| if t.0 == lift.head { before } else { model[t.0 as usize] };
            let held = lift.body(terms).iter().max_by_key(|t| (value(t), u32::MAX - self.at[t.0 as usize]));
            self.held[v] = held.map_or(0, |t| t.0);
        }
        self.at[v] = self.now;
        self.by[v] = lift.number;
    }

    /// After a round in which so many rules were looked at: whether a jump is to be tried.
    pub fn due(&mut self, rules: usize) -> bool {
        tally(|t| t.rounds += 1);
        looked(rules);
        self.rounds += 1;
        self.rounds >= self.wait
    }

    /// Variables of this component and targets that the rules lift them to, where any are found.
    pub fn jump(&mut self, reduct: &Reduct, model: &Values, far: impl Fn(u8) -> i16) -> Option<Jump> {
        let mut rose = std::mem::take(&mut self.rose);
        rose.sort_unstable_by_key(|&v| self.at[v as usize]);
        (self.since, self.rounds) = (self.now, 0);
        let found = Try { raises: self, reduct, model, steps: [1; 256] }.found(rose, far);
        tally(|t| {
            t.tries += 1;
            t.jumps += found.is_some() as u64;
        });
        let success = found.as_ref().is_some_and(|j| j.most >= MANY);
        self.wait = if success { self.wait / 2 } else { (2 * self.wait).min(self.heads) }.max(1);
        found
    }
}

/// How far each variable falls where all that rise fall by one step.
type Steps = [i32; 256];

/// Variables with targets, in the order in which they rose, those among them whose targets may be too far, and how many steps the furthest target
/// is away.
pub struct Jump {
    pub rose: Vec<u8>,
    pub aims: Values,
    loose: Vec<u8>,
    most: i32,
}

impl Jump {
    fn fits(&self) -> bool {
        self.loose.is_empty() && self.most > 0
    }
}

/// A try to jump from a model.
struct Try<'a> {
    raises: &'a Raises,
    reduct: &'a Reduct,
    model: &'a Values,
    steps: Steps,
}

impl Try<'_> {
    fn lift(&self, v: u8) -> &Lift {
        &self.reduct.lifts[self.raises.by[v as usize] as usize]
    }

    /// As far as the rules go, or up to where they level. Where neither is found, the further of two jumps: without those whose targets were too
    /// far, and by as many steps of all as are found by doubling.
    fn found(&mut self, mut rose: Vec<u8>, far: impl Fn(u8) -> i16) -> Option<Jump> {
        let mut aims = *self.model;
        rose.iter().for_each(|&v| aims[v as usize] = far(v));
        self.prune(&mut rose, &mut aims);
        self.lengthen(&rose);
        let level = rose.iter().filter_map(|&v| self.lift(v).level(&self.reduct.terms, self.model, &aims)).max();
        let first = self.tried(rose, aims);
        if first.fits() || first.loose.is_empty() {
            return first.fits().then_some(first);
        }
        if let Some(level) = level {
            let jump = self.cut(&first, |_| level);
            if jump.fits() {
                return Some(jump);
            }
        }
        let mut others = first.aims;
        first.loose.iter().for_each(|&v| others[v as usize] = self.model[v as usize]);
        let mut best = Some(self.tried(first.rose.clone(), others)).filter(Jump::fits);
        let mut steps = FEW;
        while steps < first.most {
            let jump = self.cut(&first, |v| self.model[v] as i32 + steps * self.steps[v]);
            if !jump.fits() {
                break;
            }
            if best.as_ref().is_none_or(|b| b.most < jump.most) {
                best = Some(jump);
            }
            steps *= 2;
        }
        best
    }

    /// With targets that are no further than these.
    fn cut(&self, jump: &Jump, at: impl Fn(usize) -> i32) -> Jump {
        let mut aims = jump.aims;
        for &v in &jump.rose {
            let v = v as usize;
            aims[v] = (aims[v] as i32).min(at(v)).max(self.model[v] as i32) as i16;
        }
        self.tried(jump.rose.clone(), aims)
    }

    /// Lowers targets and checks them. Those that the check does not reach are lowered to where it ends, since sums are rounded up, and checked a few
    /// times more. Variables that do not rise are left out.
    fn tried(&self, mut rose: Vec<u8>, mut aims: Values) -> Jump {
        let mut loose = Vec::new();
        for _ in 0..TRIED {
            rose.retain(|&v| aims[v as usize] > self.model[v as usize]);
            loose = self.lower(&rose, &mut aims);
            rose.retain(|&v| aims[v as usize] > self.model[v as usize]);
            if !loose.is_empty() {
                break;
            }
            let targets = aims;
            loose = self.unlifted(&rose, &targets, &mut aims);
            if loose.is_empty() {
                break;
            }
        }
        let away = |v: usize| (aims[v] as i32 - self.model[v] as i32 + self.steps[v] - 1) / self.steps[v];
        let most = rose.iter().map(|&v| away(v as usize)).max().unwrap_or(0);
        Jump { rose, aims, loose, most }
    }

    /// Leaves out those that their rules do not raise even where all others are at their far ends.
    fn prune(&self, rose: &mut Vec<u8>, aims: &mut Values) {
        loop {
            looked(rose.len());
            let before = rose.len();
            rose.retain(|&v| {
                let stays = self.lift(v).reaches(&self.reduct.terms, aims) > self.model[v as usize] as i32;
                if !stays {
                    aims[v as usize] = self.model[v as usize];
                }
                stays
            });
            if rose.len() == before {
                return;
            }
        }
    }

    /// Finds steps such that no rule falls by more than its head's where all that it reads fall by theirs; where it finds none they are 1.
    fn lengthen(&mut self, rose: &[u8]) {
        const LONGEST: i32 = 30_000;
        let mut steps = [0; 256];
        rose.iter().for_each(|&v| steps[v as usize] = 1);
        for _ in 0..LENGTHENED {
            looked(rose.len());
            let mut longer = false;
            for &v in rose {
                let step = self.lift(v).step(&self.reduct.terms, self.raises.held[v as usize], &steps);
                if step > LONGEST {
                    return;
                }
                longer |= step > steps[v as usize];
                steps[v as usize] = step.max(steps[v as usize]);
            }
            if !longer {
                self.steps = steps.map(|s| s.max(1));
                return;
            }
        }
    }

    /// Lowers targets to what the rules give there; the variables whose targets the last pass has lowered.
    fn lower(&self, rose: &[u8], aims: &mut Values) -> Vec<u8> {
        let mut lowered = Vec::new();
        for _ in 0..LOWERED {
            looked(rose.len());
            lowered.clear();
            for &v in rose {
                let x = v as usize;
                let given = self.lift(v).estimate(&self.reduct.terms, self.model, aims, &self.steps, Some(self.raises.held[x]));
                let given = given.max(self.model[x] as i32);
                if given < aims[x] as i32 {
                    aims[x] = given as i16;
                    lowered.push(v);
                }
            }
            if lowered.is_empty() {
                break;
            }
        }
        lowered
    }

    /// The check: each lacks a step of its target at first and is raised to what its rule gives then. Those that do not come to their targets, and
    /// in the aims where all end.
    /// Where all do, so does the least model: in it none lacks more than some number of steps, so each lacks one step less, and so on.
    fn unlifted(&self, rose: &[u8], targets: &Values, aims: &mut Values) -> Vec<u8> {
        for &v in rose {
            let v = v as usize;
            aims[v] = (targets[v] as i32 - self.steps[v]).max(self.model[v] as i32) as i16;
        }
        let mut left = rose.to_vec();
        for _ in 0..CHECKED {
            looked(left.len());
            let mut lifted = false;
            left.retain(|&v| {
                let x = v as usize;
                let given = self.lift(v).estimate(&self.reduct.terms, self.model, aims, &self.steps, None);
                if given > aims[x] as i32 {
                    aims[x] = given.min(targets[x] as i32) as i16;
                    lifted = true;
                }
                aims[x] < targets[x]
            });
            if !lifted {
                break;
            }
        }
        left
    }
}

impl Lift {
    /// What the rule gives, also where that is no more than its head has.
    fn reaches(&self, terms: &[Kept], aims: &Values) -> i32 {
        let sum = || self.body(terms).iter().fold(self.c, |sum, t| sum + t.1 as i32 * aims[t.0 as usize] as i32);
        match self.kind {
            Kind::Over(d) => over_up(sum(), d as i32),
            Kind::OverDown(d) => over_down(sum(), d as i32),
            _ => self.gives(terms, aims),
        }
    }

    /// The last value that the rule lifts its head to by ones, if all that may rise rise with it and the rest stays where it is.
    fn level(&self, terms: &[Kept], model: &Values, aims: &Values) -> Option<i32> {
        let at = |t: &Kept| model[t.0 as usize] as i32;
        let rises = |t: &&Kept| model[t.0 as usize] != aims[t.0 as usize];
        let terms = self.body(terms);
        let still = || terms.iter().filter(|t| !rises(t));
        let risen = || terms.iter().filter(rises).map(|t| t.1 as i32).sum::<i32>();
        let rest = || still().fold(self.c, |sum, t| sum + t.1 as i32 * at(t));
        match self.kind {
            Kind::Over(d) => Some(d as i32 - risen()).filter(|room| *room > 0).map(|room| over_up(rest(), room)),
            Kind::OverDown(d) => Some(d as i32 - risen()).filter(|room| *room > 0).map(|room| over_down(rest() - risen(), room)),
            Kind::Min => Some(still().map(at).fold(self.most, i32::min)).filter(|least| *least < i32::MAX).map(|least| self.c + least),
            _ => None,
        }
    }

    /// The step that the head needs where the variables have these; 0 is that of one that does not rise.
    fn step(&self, terms: &[Kept], held: u8, steps: &Steps) -> i32 {
        let of = |t: &Kept| steps[t.0 as usize];
        if let Kind::One(x, k) = self.kind {
            return k as i32 * steps[x as usize];
        }
        let terms = self.body(terms);
        let sum = || terms.iter().map(|t| t.1 as i32 * of(t)).sum();
        match self.kind {
            Kind::Sum => sum(),
            Kind::Over(d) | Kind::OverDown(d) => over_up(sum(), d as i32),
            Kind::Max => steps[held as usize],
            Kind::Min => terms.iter().map(of).max().unwrap_or(0),
            Kind::Carry => of(&terms[0]),
            _ => 1,
        }
    }

    /// What the rule gives at least in every model that is not below this one nor below the aims; where models are below the aims by some steps, it
    /// falls by no more steps of its head. Of a max, where one is held, only that place is read.
    fn estimate(&self, terms: &[Kept], model: &Values, aims: &Values, steps: &Steps, held: Option<u8>) -> i32 {
        let at = |t: &Kept| model[t.0 as usize] as i32;
        let rise = |t: &Kept| aims[t.0 as usize] as i32 - at(t);
        let step = |t: &Kept| steps[t.0 as usize];
        let own = steps[self.head as usize];
        // by how much it rises with a place that counts so often at most
        let times = |t: &Kept, most: i32| most.min(own / step(t)) * rise(t);
        if let Kind::One(x, k) = self.kind {
            let t = (x, k);
            return self.c + k as i32 * at(&t) + times(&t, k as i32);
        }
        let aim = |t: &Kept| at(t) + times(t, 1);
        let terms = self.body(terms);
        let sum = |d: i32| {
            let mut room = d * own;
            terms.iter().fold(self.c, |sum, t| {
                let weight = if rise(t) == 0 { 0 } else { (room / step(t)).min(t.1 as i32) };
                room -= weight * step(t);
                sum + t.1 as i32 * at(t) + weight * rise(t)
            })
        };
        let product = || {
            let (a, b) = (&terms[0], &terms[1]);
            times(a, at(b).abs()).max(times(b, at(a).abs()))
        };
        let all = |terms: &[Kept]| terms.iter().all(|t| at(t) >= t.1 as i32);
        match self.kind {
            Kind::Sum => sum(1),
            Kind::Over(d) => over_up(sum(d as i32), d as i32),
            Kind::OverDown(d) => over_down(sum(d as i32), d as i32),
            Kind::Max => self.c + terms.iter().filter(|t| held.is_none_or(|x| x == t.0)).map(aim).max().unwrap_or(0),
            Kind::Min => self.c + terms.iter().map(aim).fold(self.most, i32::min),
            Kind::Product => self.c + at(&terms[0]) * at(&terms[1]) + product(),
            Kind::Taken => self.c - at(&terms[0]) * at(&terms[1]) + product(),
            Kind::If if all(terms) => self.c,
            Kind::Carry if all(&terms[1..]) => self.c + aim(&terms[0]),
            _ => i32::MIN,
        }
    }
}
