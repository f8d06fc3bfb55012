//! The least model. A few sweeps over the rules as they stand are enough for most plans; then the reduct is written out, its constant parts
//! folded, and run component by component, each round by round over the rules that wait.
use super::graph::Graph;
use super::jump::Raises;
use super::read::{founded, from_above, high, low, number, Constraint, Program, Rule, Term, Variable};
use super::set::Set;

pub type Values = [i16; 256];

fn holds(t: &Term, ups: &Values, downs: &Values) -> bool {
    let x = t[0] as usize;
    if t[1] == 1 {
        ups[x] >= number(t)
    } else {
        downs[x] < number(t)
    }
}

/// a over d, rounded up.
pub fn over_up(a: i32, d: i32) -> i32 {
    if a > 0 {
        (a + d - 1) / d
    } else {
        a / d
    }
}

/// a over d, rounded down.
pub fn over_down(a: i32, d: i32) -> i32 {
    -over_up(-a, d)
}

/// The sum over d, rounded up, where that is more than `than`, which is where the sum is more than d times that; no other sum is divided.
fn divided(sum: i32, d: i16, than: i16) -> Option<i32> {
    (sum > d as i32 * than as i32).then(|| over_up(sum, d as i32))
}

/// The same where that is less than `than`.
fn divided_below(sum: i32, d: i16, than: i16) -> Option<i32> {
    (sum <= d as i32 * (than as i32 - 1)).then(|| over_up(sum, d as i32))
}

/// What the rule gives where that is more than `than` in its head's order.
pub fn more(variables: &[Variable], rule: &Rule, ups: &Values, downs: &Values, than: i16) -> Option<i32> {
    if rule.down {
        past::<true>(variables, rule, ups, downs, than)
    } else {
        past::<false>(variables, rule, ups, downs, than)
    }
}

/// The same, `DOWN` where the head is founded from above. Rising places read `ups`, falling ones `downs`: of a model, `ups` has the variables that
/// are founded from above as assigned, `downs` all others, so that each place is read in the model just where it is kept.
fn past<const DOWN: bool>(variables: &[Variable], rule: &Rule, ups: &Values, downs: &Values, than: i16) -> Option<i32> {
    let (more, less) = if DOWN { (downs, ups) } else { (ups, downs) };
    let at = |t: &Term| more[t[0] as usize] as i32;
    let exceeds = |given: i32| if DOWN { given < than as i32 } else { given > than as i32 };
    let c = rule.c as i32;
    let sum = |terms: &[Term]| {
        terms.iter().fold(c, |sum, t| {
            let k = number(t) as i32;
            let x = t[0] as usize;
            sum + k * if k > 0 { more[x] } else { less[x] } as i32
        })
    };
    let given = match (rule.form, rule.terms) {
        (1, terms) => sum(terms),
        (8, terms) if DOWN => return divided_below(sum(terms), rule.divisor, than),
        (8, terms) => return divided(sum(terms), rule.divisor, than),
        (2, terms) => c + terms.iter().map(at).max()?,
        (3, terms) => c + terms.iter().map(at).min()?,
        (4, [a, b]) => c + at(a) * at(b),
        (5, [t]) => {
            let (x, v) = (t[0] as usize, &variables[t[0] as usize]);
            let mixed = if from_above(v) { ups } else { downs };
            let read = if low(v) >= 0 {
                more
            } else if high(v) <= 0 {
                less
            } else {
                mixed
            };
            c + (read[x] as i32).abs()
        }
        (6, literals) => return (exceeds(c) && literals.iter().all(|t| holds(t, ups, downs))).then_some(c),
        (_, [first, literals @ ..]) => {
            let given = c + at(first);
            return (exceeds(given) && literals.iter().all(|t| holds(t, ups, downs))).then_some(given);
        }
        _ => return None,
    };
    exceeds(given).then_some(given)
}

pub fn satisfied(constraint: &Constraint, values: &Values) -> bool {
    if constraint.form == 1 {
        constraint.terms.iter().fold(constraint.c as i32, |sum, t| sum + number(t) as i32 * values[t[0] as usize] as i32) <= 0
    } else {
        constraint.terms.iter().any(|t| holds(t, values, values))
    }
}

/// A value, or its negative where the variable is founded from above, so that every founded variable is raised.
fn turned(v: &Variable, z: i16) -> i16 {
    if from_above(v) {
        -z
    } else {
        z
    }
}

/// Values, turned.
fn all_turned(variables: &[Variable], values: &Values) -> Values {
    let mut turns = *values;
    for (z, v) in turns.iter_mut().zip(variables) {
        *z = turned(v, *z);
    }
    turns
}

/// The model of a run, turned, with the turned goal. Rising places that are not kept are read in `ups`, falling ones in `downs`. In `least` no value
/// passes its far end. A run with a `GOAL` ends when no value is short of it: in `check` the assigned one, past which no rule lifts, since the
/// assignment is a model, and in `bounds` the lent far end, where lifts are `CUT` off.
struct Run<'a, const GOAL: bool, const CUT: bool> {
    program: &'a Program<'a>,
    ups: &'a Values,
    downs: &'a Values,
    goal: Values,
    model: Values,
    short: usize,
}

/// Ends a run before its rules are settled.
enum End {
    NoneShort,
    NoModel,
}

impl<const GOAL: bool, const CUT: bool> Run<'_, GOAL, CUT> {
    /// To a turned value, or to where lifts are cut off.
    fn raise(&mut self, head: u8, to: i32) -> Result<(), End> {
        let h = head as usize;
        let v = &self.program.variables[h];
        if !GOAL && to > if from_above(v) { -(low(v) as i32) } else { high(v) as i32 } {
            return Err(End::NoModel);
        }
        self.model[h] = if CUT { to.min(self.goal[h] as i32) } else { to } as i16;
        if GOAL && self.model[h] == self.goal[h] {
            self.short -= 1;
            if self.short == 0 {
                return Err(End::NoneShort);
            }
        }
        Ok(())
    }

    /// A head that has reached its goal rises no more.
    fn full(&self, head: u8) -> bool {
        GOAL && self.model[head as usize] == self.goal[head as usize]
    }

    fn run(&mut self) -> Result<(), End> {
        let (mut ups, mut downs) = (*self.ups, *self.downs);
        for (x, v) in self.program.variables.iter().enumerate().filter(|(_, v)| founded(v)) {
            let read = if from_above(v) { &mut downs } else { &mut ups };
            read[x] = turned(v, self.model[x]);
        }
        let mut before = usize::MAX;
        for sweep in 0.. {
            let mut raised = 0;
            for rule in &self.program.rules {
                if self.full(rule.head) {
                    continue;
                }
                let h = rule.head as usize;
                let than = if rule.down { downs[h] } else { ups[h] };
                if let Some(to) = more(self.program.variables, rule, &ups, &downs, than) {
                    if rule.down {
                        self.raise(rule.head, -to)?;
                        downs[h] = -self.model[h];
                    } else {
                        self.raise(rule.head, to)?;
                        ups[h] = self.model[h];
                    }
                    raised += 1;
                }
            }
            if raised == 0 {
                return Ok(());
            }
            // from the third on, another only where it raises less than half as often as the one before it
            if sweep >= 2 && 2 * raised >= before {
                break;
            }
            before = raised;
        }
        let (reduct, literals) = Reduct::of(self);
        let mut waits = Waits::new(&reduct, literals);
        let mut raises = Raises::new();
        for part in reduct.lifts.chunk_by(|a, b| a.component == b.component) {
            raises.start(part);
            self.settle(&reduct, part, &mut waits, &mut raises)?;
        }
        Ok(())
    }

    /// Whether a rule of the reduct raises its head.
    fn lift(&mut self, reduct: &Reduct, lift: &Lift, raises: &mut Raises) -> Result<bool, End> {
        let given = lift.gives(&reduct.terms, &self.model);
        if given <= self.model[lift.head as usize] as i32 || CUT && self.full(lift.head) {
            return Ok(false);
        }
        let before = self.model[lift.head as usize];
        self.raise(lift.head, given)?;
        raises.raised(lift, &reduct.terms, before, &self.model);
        Ok(true)
    }

    /// How far a variable may rise.
    fn far(&self, v: u8) -> i16 {
        let variable = &self.program.variables[v as usize];
        match (GOAL, from_above(variable)) {
            (true, _) => self.goal[v as usize],
            (_, true) => -low(variable),
            _ => high(variable),
        }
    }

    /// Jumps where that is due after a round and the rules lift so far; the variables that rose.
    fn jump(&mut self, reduct: &Reduct, looked: usize, raises: &mut Raises) -> Result<Vec<u8>, End> {
        if !raises.due(looked) {
            return Ok(Vec::new());
        }
        let Some(jump) = raises.jump(reduct, &self.model, |v| self.far(v)) else { return Ok(Vec::new()) };
        for &v in &jump.rose {
            self.raise(v, jump.aims[v as usize] as i32)?;
        }
        Ok(jump.rose)
    }

    /// Runs one component: whole rounds as long as a good part of its rules lifts, then by the rules that wait.
    fn settle(&mut self, reduct: &Reduct, part: &[Lift], waits: &mut Waits, raises: &mut Raises) -> Result<(), End> {
        loop {
            let mut raised = 0;
            for lift in part {
                raised += self.lift(reduct, lift, raises)? as usize;
            }
            if raised == 0 {
                return Ok(());
            }
            self.jump(reduct, part.len(), raises)?;
            if 4 * raised < part.len() {
                break;
            }
        }
        let from = part[0].number as usize;
        let to = from + part.len();
        waits.start(reduct, part, &self.model);
        loop {
            let (mut at, mut looked) = (from, 0);
            while let Some(i) = waits.next(at, to) {
                at = i + 1;
                looked += 1;
                if self.lift(reduct, &reduct.lifts[i], raises)? {
                    waits.wake(reduct, reduct.lifts[i].head, &self.model);
                }
            }
            if at == from {
                return Ok(());
            }
            for v in self.jump(reduct, looked, raises)? {
                waits.wake(reduct, v, &self.model);
            }
        }
    }
}

/// The rules that wait, one bit each. A rule with literals waits only when none of them is unmet.
struct Waits {
    bits: Vec<u64>,
    unmet: Vec<u8>,
    /// For each variable the literals that read it, of a component that has started by their numbers, and how many of them are met.
    literals: Lists<(i16, u16)>,
    met: [u16; 256],
}

impl Waits {
    fn new(reduct: &Reduct, literals: Lists<(i16, u16)>) -> Waits {
        Waits { bits: vec![0; reduct.lifts.len().div_ceil(64)], unmet: vec![0; reduct.lifts.len()], literals, met: [0; 256] }
    }

    /// All rules of a component wait but those with an unmet literal.
    fn start(&mut self, reduct: &Reduct, part: &[Lift], model: &Values) {
        for lift in part {
            let literals = lift.literals(&reduct.terms);
            let unmet = literals.iter().filter(|t| model[t.0 as usize] < t.1).count();
            self.unmet[lift.number as usize] = unmet as u8;
            self.put(lift.number);
        }
        for heads in part.chunk_by(|a, b| a.head == b.head) {
            let v = heads[0].head;
            let literals = self.literals.of_mut(v);
            literals.sort_unstable();
            self.met[v as usize] = literals.partition_point(|l| l.0 <= model[v as usize]) as u16;
        }
    }

    fn put(&mut self, rule: u16) {
        let unmet = self.unmet[rule as usize];
        self.bits[rule as usize / 64] |= u64::from(unmet == 0) << (rule % 64);
    }

    /// After a variable has risen.
    fn wake(&mut self, reduct: &Reduct, v: u8, model: &Values) {
        reduct.readers.of(v).iter().for_each(|&r| self.put(r));
        let met = |waits: &Waits| waits.literals.of(v).get(waits.met[v as usize] as usize).copied();
        while let Some((_, r)) = met(self).filter(|l| l.0 <= model[v as usize]) {
            self.met[v as usize] += 1;
            self.unmet[r as usize] -= 1;
            self.put(r);
        }
    }

    /// The first from `at` on, below `to`, that waits; it waits no longer.
    fn next(&mut self, at: usize, to: usize) -> Option<usize> {
        let i = next(&self.bits, at, to)?;
        self.bits[i / 64] &= !(1 << (i % 64));
        Some(i)
    }
}

/// The first bit from `at` on, below `to`.
fn next(words: &[u64], at: usize, to: usize) -> Option<usize> {
    let mut w = at / 64;
    let mut word = words.get(w)? >> (at % 64) << (at % 64);
    while word == 0 {
        w += 1;
        if 64 * w >= to {
            return None;
        }
        word = words[w];
    }
    let i = 64 * w + word.trailing_zeros() as usize;
    (i < to).then_some(i)
}

#[derive(Clone, Copy)]
pub enum Kind {
    /// A kept place times a number.
    One(u8, i16),
    Sum,
    /// A sum over a number, rounded up, and one rounded down.
    Over(i16),
    OverDown(i16),
    Max,
    Min,
    Product,
    /// The negative of a product.
    Taken,
    If,
    Carry,
}

/// A rule of the reduct, all values turned: the kept places alone, with their numbers; `most` is the least of the other places of a min. What it
/// gives rises with every place, which has no negative number.
#[derive(Clone, Copy)]
pub struct Lift {
    pub kind: Kind,
    pub head: u8,
    component: u8,
    pub number: u16,
    start: u16,
    end: u16,
    pub c: i32,
    pub most: i32,
}

pub type Kept = (u8, i16);

impl Lift {
    pub fn body<'a>(&self, terms: &'a [Kept]) -> &'a [Kept] {
        &terms[self.start as usize..self.end as usize]
    }

    /// The places that are literals.
    fn literals<'a>(&self, terms: &'a [Kept]) -> &'a [Kept] {
        match self.kind {
            Kind::If => self.body(terms),
            Kind::Carry => &self.body(terms)[1..],
            _ => &[],
        }
    }

    /// The others.
    fn plain<'a>(&self, terms: &'a [Kept]) -> &'a [Kept] {
        let body = self.body(terms);
        &body[..body.len() - self.literals(terms).len()]
    }

    /// What it gives; a sum over a number only where that is more than its head has.
    pub fn gives(&self, terms: &[Kept], model: &Values) -> i32 {
        let at = |t: &Kept| model[t.0 as usize] as i32;
        let all = |terms: &[Kept]| terms.iter().all(|t| model[t.0 as usize] >= t.1);
        if let Kind::One(x, k) = self.kind {
            return self.c + k as i32 * model[x as usize] as i32;
        }
        let terms = self.body(terms);
        let sum = || terms.iter().fold(self.c, |sum, t| sum + t.1 as i32 * at(t));
        match self.kind {
            Kind::Sum => sum(),
            Kind::Over(d) => divided(sum(), d, model[self.head as usize]).unwrap_or(i32::MIN),
            Kind::OverDown(d) => divided_below(-sum(), d, -model[self.head as usize]).map_or(i32::MIN, |z| -z),
            Kind::Max => self.c + terms.iter().map(at).max().unwrap_or(0),
            Kind::Min => self.c + terms.iter().map(at).fold(self.most, i32::min),
            Kind::Product => self.c + at(&terms[0]) * at(&terms[1]),
            Kind::Taken => self.c - at(&terms[0]) * at(&terms[1]),
            Kind::If if all(terms) => self.c,
            Kind::Carry if all(&terms[1..]) => self.c + at(&terms[0]),
            _ => i32::MIN,
        }
    }
}

/// For each variable a list.
pub struct Lists<T> {
    starts: Vec<u16>,
    all: Vec<T>,
}

impl<T: Copy + Default> Lists<T> {
    /// Members with their variables, put into the lists in this order.
    fn new(n: usize, members: &[(u8, T)]) -> Lists<T> {
        let mut starts = vec![0u16; n + 1];
        members.iter().for_each(|m| starts[m.0 as usize + 1] += 1);
        for v in 0..n {
            starts[v + 1] += starts[v];
        }
        let (mut next, mut all) = (starts.clone(), vec![T::default(); members.len()]);
        for &(v, member) in members {
            all[next[v as usize] as usize] = member;
            next[v as usize] += 1;
        }
        Lists { starts, all }
    }

    fn of(&self, v: u8) -> &[T] {
        &self.all[self.starts[v as usize] as usize..self.starts[v as usize + 1] as usize]
    }

    fn of_mut(&mut self, v: u8) -> &mut [T] {
        &mut self.all[self.starts[v as usize] as usize..self.starts[v as usize + 1] as usize]
    }
}

/// The rules that may still lift a head, by component and turn, and for each variable those of its own component that read it in a plain place.
pub struct Reduct {
    pub lifts: Vec<Lift>,
    pub terms: Vec<Kept>,
    readers: Lists<u16>,
}

impl Reduct {
    /// With the literals that read each variable, of its own component.
    fn of<const GOAL: bool, const CUT: bool>(run: &Run<GOAL, CUT>) -> (Reduct, Lists<(i16, u16)>) {
        let n = run.program.variables.len();
        let mut lifts = Vec::new();
        let mut terms = Vec::new();
        let mut graph = Graph::new(n);
        for rule in run.program.rules.iter().filter(|r| !run.full(r.head)) {
            let start = terms.len();
            let Some(mut lift) = reduced(run.program, rule, (run.ups, run.downs), &run.model, &mut terms) else {
                terms.truncate(start);
                continue;
            };
            graph.edges(rule.head, terms[start..].iter().map(|t| t.0));
            lift.kind = match (lift.kind, &terms[start..]) {
                // a literal may be met since the rule was last looked at; any other has given what it gives
                (kind, []) if !matches!(kind, Kind::If) => continue,
                (Kind::Sum, &[(x, k)]) => Kind::One(x, k),
                (Kind::Max | Kind::Carry, &[(x, _)]) => Kind::One(x, 1),
                (kind, _) => kind,
            };
            (lift.start, lift.end) = (start as u16, terms.len() as u16);
            lifts.push(lift);
        }
        let places = graph.components();
        lifts.sort_by_key(|l| places[l.head as usize]);
        for (i, l) in lifts.iter_mut().enumerate() {
            l.number = i as u16;
            l.component = places[l.head as usize].0;
        }
        let (mut readers, mut literals) = (Vec::new(), Vec::new());
        for l in &lifts {
            let within = |t: &&Kept| places[t.0 as usize].0 == l.component;
            readers.extend(l.plain(&terms).iter().filter(within).map(|t| (t.0, l.number)));
            literals.extend(l.literals(&terms).iter().filter(within).map(|t| (t.0, (t.1, l.number))));
        }
        (Reduct { lifts, terms, readers: Lists::new(n, &readers) }, Lists::new(n, &literals))
    }
}

/// A rule with all but its kept places replaced, and turned; nothing where a replaced literal does not hold. A literal that is met stays so and is
/// left out.
fn reduced(program: &Program, rule: &Rule, (ups, downs): (&Values, &Values), model: &Values, terms: &mut Vec<Kept>) -> Option<Lift> {
    let variable = |t: &Term| &program.variables[t[0] as usize];
    let down = rule.down;
    // a plain place that what is given rises with
    let kept = |t: &Term| founded(variable(t)) && from_above(variable(t)) == down;
    let (more, less) = if down { (downs, ups) } else { (ups, downs) };
    let value = |t: &Term| more[t[0] as usize];
    let turn = |z: i32| if down { -z } else { z };
    let c = turn(rule.c as i32);
    let mut lift = Lift { kind: Kind::Sum, head: rule.head, component: 0, number: 0, start: 0, end: 0, c, most: i32::MAX };
    let literals = |literals: &[Term], terms: &mut Vec<Kept>| {
        for t in literals {
            let x = variable(t);
            if founded(x) && from_above(x) == (t[1] == 2) {
                let least = if from_above(x) { 1 - number(t) } else { number(t) };
                if model[t[0] as usize] < least {
                    terms.push((t[0], least));
                }
            } else if !holds(t, ups, downs) {
                return None;
            }
        }
        Some(())
    };
    match (rule.form, rule.terms) {
        (1 | 8, body) => {
            let start = terms.len();
            for t in body {
                let (k, x) = (number(t), variable(t));
                if founded(x) && from_above(x) == (down ^ (k < 0)) {
                    terms.push((t[0], k.abs()));
                } else {
                    let z = if k > 0 { more[t[0] as usize] } else { less[t[0] as usize] };
                    lift.c += turn(k as i32 * z as i32);
                }
            }
            if rule.form == 8 {
                let (d, kept) = (rule.divisor, &mut terms[start..]);
                if kept.iter().all(|t| t.1 % d == 0) {
                    // what is rounded does not depend on the kept places
                    kept.iter_mut().for_each(|t| t.1 /= d);
                    lift.c = if down { over_down(lift.c, d as i32) } else { over_up(lift.c, d as i32) };
                } else {
                    lift.kind = if down { Kind::OverDown(d) } else { Kind::Over(d) };
                }
            }
        }
        (2 | 3, body) => {
            // the largest, turned, is the smallest of those turned
            lift.kind = if (rule.form == 2) ^ down { Kind::Max } else { Kind::Min };
            for t in body {
                if kept(t) {
                    terms.push((t[0], 0));
                } else {
                    lift.most = lift.most.min(turn(value(t) as i32));
                }
            }
        }
        (4, [a, b]) => match (kept(a), kept(b)) {
            (true, true) => {
                lift.kind = if down { Kind::Taken } else { Kind::Product };
                terms.extend([(a[0], 0), (b[0], 0)]);
            }
            (true, false) => terms.push((a[0], value(b))),
            (false, true) => terms.push((b[0], value(a))),
            (false, false) => {}
        },
        (5, [t]) => {
            let x = variable(t);
            let up = low(x) >= 0;
            if (up || high(x) <= 0) && founded(x) && from_above(x) == (down == up) {
                terms.push((t[0], 1));
            }
        }
        (6, body) => {
            lift.kind = Kind::If;
            literals(body, terms)?;
        }
        (_, [first, body @ ..]) => {
            if kept(first) {
                lift.kind = Kind::Carry;
                terms.push((first[0], 0));
            } else {
                lift.kind = Kind::If;
                lift.c += turn(value(first) as i32);
            }
            literals(body, terms)?;
        }
        _ => {}
    }
    Some(lift)
}

/// The founded variables at their starting ends, the others as assigned; turned.
fn start(program: &Program, assigned: &Values) -> Values {
    let mut model = *assigned;
    for (z, v) in model.iter_mut().zip(program.variables) {
        if from_above(v) {
            *z = -high(v);
        } else if founded(v) {
            *z = low(v);
        }
    }
    model
}

pub fn least(program: &Program, assigned: &Values) -> Option<Values> {
    let (goal, model) = (all_turned(program.variables, assigned), start(program, assigned));
    let mut run = Run::<false, false> { program, ups: assigned, downs: assigned, goal, model, short: 0 };
    run.run().is_ok().then(|| all_turned(program.variables, &run.model))
}

/// The least model and the variables that are short of their assigned values in it, where there are any; the assignment meets every rule.
pub fn short(program: &Program, assigned: &Values) -> Option<(Values, Set)> {
    let (goal, model) = (all_turned(program.variables, assigned), start(program, assigned));
    let short = model.iter().zip(&goal).filter(|(a, b)| a != b).count();
    let mut run = Run::<true, false> { program, ups: assigned, downs: assigned, goal, model, short };
    if short == 0 || run.run().is_err() {
        return None;
    }
    let mut set = Set::EMPTY;
    for v in 0..program.variables.len() {
        if run.model[v] != goal[v] {
            set.put(v as u8);
        }
    }
    Some((all_turned(program.variables, &run.model), set))
}

/// The bounds inside these ranges; these heads reach their lent far ends at once.
pub fn bounds(program: &Program, lows: &Values, highs: &Values, free: impl Iterator<Item = u8>) -> Values {
    let (mut goal, mut model) = (*lows, *lows);
    for (x, v) in program.variables.iter().enumerate() {
        if from_above(v) {
            (goal[x], model[x]) = (-lows[x], -high(v));
        } else if founded(v) {
            (goal[x], model[x]) = (highs[x], low(v));
        }
    }
    free.for_each(|head| model[head as usize] = goal[head as usize]);
    let short = model.iter().zip(&goal).filter(|(a, b)| a != b).count();
    let mut run = Run::<true, true> { program, ups: highs, downs: lows, goal, model, short };
    if short > 0 {
        // it ends early where no value is short of its goal
        let _ = run.run();
    }
    all_turned(program.variables, &run.model)
}
