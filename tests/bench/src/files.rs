//! The files that are timed.
pub mod circles;
pub mod draft;
pub mod lent;
pub mod orders;
pub mod trees;

pub struct Plan {
    pub name: String,
    pub file: Vec<u8>,
    pub assignment: Vec<u8>,
}

fn two(n: i64) -> [u8; 2] {
    (n as i16).to_be_bytes()
}

pub struct Builder {
    file: Vec<u8>,
    values: Vec<u8>,
}

impl Builder {
    pub fn new() -> Self {
        Builder { file: Vec::new(), values: Vec::new() }
    }

    pub fn variable(&mut self, kind: u8, low: i64, high: i64, value: i64) {
        self.file.extend([1, 0, 5, kind]);
        self.file.extend(two(low));
        self.file.extend(two(high));
        self.values.extend(two(value));
    }

    pub fn rule(&mut self, form: u8, head: usize, c: i64, terms: &[(usize, u8, i64)]) {
        self.file.extend([2, 0, 4 + 4 * terms.len() as u8, form, head as u8]);
        self.file.extend(two(c));
        self.terms(terms);
    }

    /// A rule of form 8: its divisor stands before its terms.
    pub fn divided(&mut self, head: usize, c: i64, d: i64, terms: &[(usize, u8, i64)]) {
        self.rule(8, head, c, &[&[(0, 3, d)], terms].concat());
    }

    pub fn constraint(&mut self, form: u8, c: i64, terms: &[(usize, u8, i64)]) {
        self.file.extend([3, 0, 3 + 4 * terms.len() as u8, form]);
        self.file.extend(two(c));
        self.terms(terms);
    }

    fn terms(&mut self, terms: &[(usize, u8, i64)]) {
        for &(x, op, k) in terms {
            self.file.extend([x as u8, op]);
            self.file.extend(two(k));
        }
    }

    pub fn plan(self, name: &str) -> Plan {
        Plan { name: name.to_string(), file: self.file, assignment: self.values }
    }
}

pub struct Seed(pub u64);

impl Seed {
    pub fn next(&mut self, below: usize) -> usize {
        self.0 ^= self.0 << 13;
        self.0 ^= self.0 >> 7;
        self.0 ^= self.0 << 17;
        (self.0 % below as u64) as usize
    }
}

/// Some standard variables, and founded ones that hold one another up through rules of the forms that need no range test.
pub fn desk(name: &str, variables: usize, rules: usize, constraints: usize, terms: usize) -> Plan {
    let mut s = Seed(0x9E37_79B9_7F4A_7C15 ^ variables as u64);
    let mut b = Builder::new();
    let fixed = variables / 4;
    for v in 0..variables {
        b.variable((v >= fixed) as u8, 0, 1, 1);
    }
    for i in 0..rules {
        let head = fixed + i % (variables - fixed);
        let mut body: Vec<(usize, u8, i64)> = Vec::new();
        while body.len() < terms {
            let x = if i < variables - fixed { s.next(fixed + i) } else { s.next(variables) };
            if body.iter().any(|t| t.0 == x) {
                if body.len() >= fixed {
                    break;
                }
                continue;
            }
            body.push((x, 1, 1));
        }
        b.rule(6, head, 1, &body);
    }
    for _ in 0..constraints {
        b.constraint(2, 0, &[(s.next(variables), 1, 1)]);
    }
    b.plan(name)
}

/// A circle of +1 rules over the whole range.
pub fn circle(name: &str, n: usize, reverse: bool) -> Plan {
    circle_of(name, BELOW, n, reverse)
}

/// Kinds that founded variables have in turn: founded from below, founded from above, one after the other.
pub const BELOW: &[u8] = &[1];
pub const ABOVE: &[u8] = &[2];
pub const BOTH: &[u8] = &[1, 2];

/// A circle of rules by which each variable is one further from its starting end than the one before it.
pub fn circle_of(name: &str, kinds: &[u8], n: usize, reverse: bool) -> Plan {
    let kind = |v: usize| kinds[v % kinds.len()];
    let mut b = Builder::new();
    for v in 0..n {
        b.variable(kind(v), -30_000, 30_000, 0);
    }
    for i in 0..n {
        let v = if reverse { n - 1 - i } else { i };
        let before = (v + n - 1) % n;
        let further = if kind(v) == 1 { 1 } else { -1 };
        b.rule(1, v, further, &[(before, 0, if kind(before) == kind(v) { 1 } else { -1 })]);
    }
    b.plan(name)
}

/// A stable plan of earliest arrivals, all founded from above but for the gates: the first is there at 0, a road leads from each to the next and
/// from the last back to the first, and all other roads lead anywhere. One in four is open only while a gate is, and one in four starts at
/// the later of two.
pub fn arrivals(name: &str, variables: usize, rules: usize) -> Plan {
    let mut s = Seed(0x8EBC_6AF0_9C88_C6E3 ^ variables as u64);
    let mut b = Builder::new();
    let gates = variables / 32;
    let posts = variables - gates;
    for v in 0..variables {
        if v < gates {
            b.variable(0, 0, 1, (v % 4 > 0) as i64);
        } else {
            b.variable(2, 0, 30_000, 0);
        }
    }
    // the posts stand in no order along the roads
    let post = |i: usize| gates + (i % posts) * 37 % posts;
    b.rule(1, post(0), 0, &[]);
    for i in 0..rules - 1 {
        let minutes = 1 + s.next(100) as i64;
        if i < posts {
            b.rule(1, post(i + 1), minutes, &[(post(i), 0, 1)]);
            continue;
        }
        let from = post(s.next(posts));
        let other = post(s.next(posts));
        let head = post(s.next(posts));
        match i % 4 {
            0 if gates > 0 => b.rule(7, head, minutes, &[(from, 0, 0), (s.next(gates), 1, 1)]),
            1 if other != from => b.rule(2, head, minutes, &[(from, 0, 0), (other, 0, 0)]),
            _ => b.rule(1, head, minutes, &[(from, 0, 1)]),
        }
    }
    let mut plan = b.plan(name);
    let mut least = plan.assignment.clone();
    crate::port::least_call(&plan.file, &plan.assignment, &mut least);
    plan.assignment = least;
    plan
}

/// The same, one variable gaining and all others following it: every lap lifts each by one.
pub fn followers(name: &str, n: usize, reverse: bool) -> Plan {
    let mut b = Builder::new();
    for _ in 0..n {
        b.variable(1, -30_000, 30_000, 0);
    }
    for i in 0..n {
        let v = if reverse { n - 1 - i } else { i };
        if v == 0 {
            b.rule(1, 0, 1, &[(0, 0, 1)]);
        } else {
            b.rule(1, v, 0, &[(v - 1, 0, 1)]);
        }
    }
    b.plan(name)
}

/// Each reads the next and many others, in up to three rules of 16 terms: one component of many edges.
pub fn dense(name: &str, n: usize) -> Plan {
    let mut b = Builder::new();
    for _ in 0..n {
        b.variable(1, 0, 100, 0);
    }
    for v in 0..n {
        for part in 0..(n / 16).min(3) {
            let body: Vec<Term> = (0..16).map(|i| ((v + 1 + i * n / 16 + 5 * part) % n, 0, 1)).collect();
            b.rule(1, v, 0, &body);
        }
    }
    b.plan(name)
}

/// Followers in reverse order, and the one that gains follows the last: one circle, in which every lap lifts each by one.
pub fn led(name: &str, n: usize) -> Plan {
    let Plan { file, assignment, .. } = followers(name, n, true);
    let mut b = Builder { file, values: assignment };
    b.rule(1, 0, 0, &[(n - 1, 0, 1)]);
    b.plan(name)
}

/// A circle over the whole range, each half of the sum of the two before it and of 1, rounded up: about one more for every second step.
pub fn halves(name: &str, n: usize, reverse: bool) -> Plan {
    let mut b = Builder::new();
    for _ in 0..n {
        b.variable(1, -30_000, 30_000, 0);
    }
    for i in 0..n {
        let v = if reverse { n - 1 - i } else { i };
        b.divided(v, 1, 2, &[((v + n - 1) % n, 0, 1), ((v + n - 2) % n, 0, 1)]);
    }
    b.plan(name)
}

/// The same through a min with a standard variable: the whole climb ends at its value, and the plan is stable.
pub fn capped(name: &str, n: usize) -> Plan {
    let mut b = Builder::new();
    let cap = 20_000;
    b.variable(0, 0, cap, cap);
    for _ in 0..n {
        b.variable(1, -30_000, 30_000, cap);
        b.variable(1, -30_000, 30_000, cap + 1);
    }
    let low = |v: usize| 1 + 2 * (v % n);
    for v in 0..n {
        b.divided(low(v) + 1, 1, 2, &[(low(v + n - 1), 0, 1), (low(v + n - 2), 0, 1)]);
        b.rule(3, low(v), 0, &[(0, 0, 0), (low(v) + 1, 0, 0)]);
    }
    b.plan(name)
}

/// As `led`: each follows the two before it, at half of their sum, rounded up, and the one that gains follows the last two.
pub fn led_by_two(name: &str, n: usize) -> Plan {
    let mut b = Builder::new();
    for _ in 0..n {
        b.variable(1, -30_000, 30_000, 0);
    }
    let two = |v: usize| [((v + n - 1) % n, 0, 1), ((v + n - 2) % n, 0, 1)];
    for v in (1..n).rev() {
        b.divided(v, 0, 2, &two(v));
    }
    b.divided(0, 1, 2, &[(0, 0, 2)]);
    b.divided(0, 0, 2, &two(0));
    b.plan(name)
}

/// Each holds the next, and nothing holds any.
pub fn ring(name: &str, n: usize) -> Plan {
    let mut b = Builder::new();
    for _ in 0..n {
        b.variable(1, 0, 1, 1);
    }
    for v in 0..n {
        b.rule(6, v, 1, &[((v + n - 1) % n, 1, 1)]);
    }
    b.plan(name)
}

/// The same with variables of both kinds: each is at its far end as long as the one before it is. With `asks` a second literal, at a place that is
/// not kept, makes a condition of each variable.
pub fn ring_of_both(name: &str, n: usize, asks: bool) -> Plan {
    let mut b = Builder::new();
    let above = |v: usize| v % 2 == 1;
    for v in 0..n {
        b.variable(1 + above(v) as u8, -1, 1, if above(v) { -1 } else { 1 });
    }
    for v in 0..n {
        let (before, after) = ((v + n - 1) % n, (v + 1) % n);
        let far = |x: usize| if above(x) { (x, 2, 0) } else { (x, 1, 1) };
        let other = |x: usize| if above(x) { (x, 1, -1) } else { (x, 2, 2) };
        let body = [far(before), other(after)];
        b.rule(6, v, if above(v) { -1 } else { 1 }, &body[..1 + asks as usize]);
    }
    b.plan(name)
}

/// The forms that have no divisor, those that have one, and both.
pub const UNDIVIDED: &[u8] = &[1, 2, 3, 4, 5, 6, 7];
pub const DIVIDED: &[u8] = &[8];
pub const ALL: &[u8] = &[1, 2, 3, 4, 5, 6, 7, 8];

/// A term: variable, op and number.
pub type Term = (usize, u8, i64);

/// So many different variables below a number that are fit.
fn names(s: &mut Seed, most: usize, below: usize, fit: impl Fn(usize) -> bool) -> Vec<usize> {
    let mut names = Vec::new();
    while names.len() < most {
        let x = s.next(below);
        if fit(x) && !names.contains(&x) {
            names.push(x);
        }
    }
    names
}

/// How many terms a rule of this form has where it may have so many.
fn terms_of(form: u8, terms: usize) -> usize {
    match form {
        4 => 2,
        5 => 1,
        _ => terms,
    }
}

/// The body of a rule of this form; its literals hold for these values.
fn body(s: &mut Seed, form: u8, names: &[usize], value: &[i64]) -> Vec<Term> {
    let literal = |x: usize| (x, 1 + (x % 2) as u8, value[x] + (x % 2) as i64);
    let plain = |x: usize| (x, 0, 0);
    match form {
        1 | 8 => names.iter().map(|&x| (x, 0, [-2, -1, 1, 2, 3][s.next(5)])).collect(),
        6 => names.iter().map(|&x| literal(x)).collect(),
        7 => names.iter().enumerate().map(|(i, &x)| if i == 0 { plain(x) } else { literal(x) }).collect(),
        _ => names.iter().map(|&x| plain(x)).collect(),
    }
}

/// What a rule of this form whose literals hold gives without c, each term's variable read so.
fn without_c(form: u8, body: &[Term], at: impl Fn(&Term) -> i64) -> i64 {
    let values = body.iter().map(&at);
    match form {
        1 | 8 => body.iter().map(|t| t.2 * at(t)).sum(),
        2 => values.max().unwrap_or(0),
        3 => values.min().unwrap_or(0),
        4 => values.product(),
        5 => at(&body[0]).abs(),
        7 => at(&body[0]),
        _ => 0,
    }
}

/// A rule of this form that gives so much where its body without c amounts to this.
fn giving(b: &mut Builder, s: &mut Seed, (form, head): (u8, usize), gives: i64, without_c: i64, body: &[Term]) {
    if form == 8 {
        let d = [2, 3, 4, 7, 10, 60, 100][s.next(7)];
        let over = s.next(d as usize) as i64;
        b.divided(head, d * gives - over - without_c, d, body);
    } else {
        b.rule(form, head, gives - without_c, body);
    }
}

/// Constraints that these values just meet.
fn met(b: &mut Builder, s: &mut Seed, constraints: usize, value: &[i64]) {
    for i in 0..constraints {
        let x = s.next(value.len());
        match i % 2 {
            0 => b.constraint(1, -value[x], &[(x, 0, 1)]),
            _ => b.constraint(2, 0, &[(x, 1, value[x])]),
        }
    }
}

/// A stable plan with rules of these forms: each founded variable is held at its value by those before it, and other rules give as much or less.
pub fn roster(name: &str, variables: usize, rules: usize, constraints: usize, terms: usize, forms: &[u8]) -> Plan {
    roster_of(name, BELOW, variables, rules, constraints, terms, forms)
}

/// The same with founded variables of these kinds; less is more for one that is founded from above.
pub fn roster_of(name: &str, kinds: &[u8], variables: usize, rules: usize, constraints: usize, terms: usize, forms: &[u8]) -> Plan {
    let kind = |v: usize| kinds[v % kinds.len()];
    let mut s = Seed(0xD1B5_4A32_D192_ED03 ^ variables as u64);
    let mut b = Builder::new();
    let fixed = variables / 4;
    let value: Vec<i64> = (0..variables).map(|_| s.next(100) as i64).collect();
    for v in 0..variables {
        b.variable(if v < fixed { 0 } else { kind(v) }, 0, 2_000, value[v]);
    }
    for i in 0..rules {
        let head = fixed + i % (variables - fixed);
        let first = i < variables - fixed;
        let form = forms[s.next(forms.len())];
        let names = names(&mut s, terms_of(form, terms), if first { head } else { variables }, |_| true);
        let body = body(&mut s, form, &names, &value);
        let spare = if first { 0 } else { s.next(4) as i64 };
        let gives = if kind(head) == 1 { value[head] - spare } else { value[head] + spare };
        giving(&mut b, &mut s, (form, head), gives, without_c(form, &body, |t| value[t.0]), &body);
    }
    met(&mut b, &mut s, constraints, &value);
    b.plan(name)
}

/// The undivided forms but that of a size, and the forms that take 16 terms.
pub const WITHOUT_SIZE: &[u8] = &[1, 2, 3, 4, 6, 7];
pub const LONG: &[u8] = &[1, 2, 3, 6, 7, 8];

/// A stable plan with closed posts: over the standard variables stand two floors of founded ones. Rules in use read their own floor and those below
/// it, so many of them in the upper floor the size of a variable below it, a mixed place. Idle rules of either floor read all variables, so that the
/// file would not be valid if they drew edges. Odd variables may be below 0, and pairs of founded ones have these kinds in turn.
pub struct Posts {
    pub kinds: &'static [u8],
    pub variables: usize,
    pub rules: usize,
    pub constraints: usize,
    pub terms: usize,
    pub forms: &'static [u8],
    pub mixed: usize,
    pub idle: usize,
}

/// What a rule of such a plan is there for: it holds its head at its value, gives as much or less, does so by a mixed place, or is idle.
#[derive(Clone, Copy, PartialEq)]
enum Use {
    Hold,
    Open,
    Size,
    Idle,
}

impl Posts {
    const HIGH: i64 = 100;

    fn low(v: usize) -> i64 {
        if v % 2 == 1 {
            -Self::HIGH
        } else {
            0
        }
    }

    fn kind(&self, v: usize) -> u8 {
        self.kinds[v / 2 % self.kinds.len()]
    }

    fn fixed(&self) -> usize {
        self.variables / 4
    }

    /// The first variable of the upper floor.
    fn upper(&self) -> usize {
        (self.fixed() + self.variables) / 2
    }

    /// What the rules are there for, by number: the idle ones are spread evenly after those that hold.
    fn uses(&self) -> Vec<Use> {
        let founded = self.variables - self.fixed();
        let mut sizes = self.mixed;
        let later = self.rules - founded;
        let idle = |i: usize| (i + 1) * self.idle / later > i * self.idle / later;
        let mut one = |i: usize| {
            if i < founded {
                Use::Hold
            } else if idle(i - founded) {
                Use::Idle
            } else if sizes > 0 && self.fixed() + i % founded >= self.upper() {
                sizes -= 1;
                Use::Size
            } else {
                Use::Open
            }
        };
        (0..self.rules).map(&mut one).collect()
    }

    /// The variables of the body of a rule of this form.
    fn names(&self, s: &mut Seed, why: Use, form: u8, head: usize) -> Vec<usize> {
        let below = match why {
            Use::Hold => head,
            Use::Size => self.upper(),
            Use::Open if head < self.upper() => self.upper(),
            _ => self.variables,
        };
        let fit = |x: usize| match (form, why) {
            (5, Use::Size | Use::Idle) => x % 2 == 1,
            (4 | 5, _) => x % 2 == 0,
            _ => true,
        };
        names(s, terms_of(form, self.terms), below, fit)
    }

    fn rule(&self, b: &mut Builder, s: &mut Seed, why: Use, head: usize, value: &[i64]) {
        let form = if why == Use::Size { 5 } else { self.forms[s.next(self.forms.len())] };
        let names = self.names(s, why, form, head);
        let mut body = body(s, form, &names, value);
        let spare = if why == Use::Hold { 0 } else { s.next(4) as i64 };
        let barred = why == Use::Idle && (form == 6 || form == 7) && s.next(2) == 0;
        let above = self.kind(head) == 2;
        let (gives, without_c) = if why != Use::Idle || barred {
            (value[head], without_c(form, &body, |t| value[t.0]))
        } else if above {
            // the least that it gives; a size is 0 at the least, since its variable may be below 0
            let least = |t: &Term| if t.2 < 0 { Self::HIGH } else { Self::low(t.0) };
            (Self::HIGH, if form == 5 { 0 } else { without_c(form, &body, least) })
        } else {
            (Self::low(head), without_c(form, &body, |t| if t.2 < 0 { Self::low(t.0) } else { Self::HIGH }))
        };
        if barred {
            // a literal that holds for no value of the range
            let last = body.len() - 1;
            let x = names[last];
            body[last] = if s.next(2) == 0 { (x, 1, Self::HIGH + 1) } else { (x, 2, Self::low(x)) };
        }
        giving(b, s, (form, head), if above { gives + spare } else { gives - spare }, without_c, &body);
    }

    pub fn plan(&self, name: &str) -> Plan {
        let mut s = Seed(0xE703_7ED1_A0B4_28DB ^ self.variables as u64);
        let mut b = Builder::new();
        let fixed = self.fixed();
        let value: Vec<i64> = (0..self.variables).map(|_| 4 + s.next(60) as i64).collect();
        for (v, &z) in value.iter().enumerate() {
            b.variable(if v < fixed { 0 } else { self.kind(v) }, Self::low(v), Self::HIGH, z);
        }
        for (i, &why) in self.uses().iter().enumerate() {
            self.rule(&mut b, &mut s, why, fixed + i % (self.variables - fixed), &value);
        }
        met(&mut b, &mut s, self.constraints, &value);
        b.plan(name)
    }
}

/// The upper and the lower half are dense circles, and rules of the upper one have mixed places of the lower one. With `closed` the last rule has
/// one of its own circle. All rules are idle.
pub fn mixed(name: &str, closed: bool) -> Plan {
    circles(name, -1_000, -1_000, closed.then_some(-1_000), -10)
}

/// The c of a size there that is just not idle, and of one that just is.
pub const USED: i64 = -19;
pub const UNUSED: i64 = -20;

/// The same with rules that are just not idle; a last one of its own circle has this c.
pub fn mixed_in_use(name: &str, last: Option<i64>) -> Plan {
    circles(name, -169, USED, last, -9)
}

/// By the c of the sums, of the sizes and of the last rule, and the value of the upper half.
fn circles(name: &str, sum: i64, size: i64, last: Option<i64>, value: i64) -> Plan {
    let mut s = Seed(0xA076_1D64_78BD_642F);
    let mut b = Builder::new();
    let (half, n) = (128, 256);
    for v in 0..n {
        b.variable(1, -10, 10, if v < half { -10 } else { value });
    }
    for v in 0..n {
        let from = if v < half { 0 } else { half };
        let mut body: Vec<Term> = vec![(from + (v + 1) % half, 0, 1)];
        while body.len() < 16 {
            let x = if v < half { s.next(half) } else { s.next(n) };
            if body.iter().all(|t| t.0 != x) {
                body.push((x, 0, 1));
            }
        }
        b.rule(1, v, sum, &body);
    }
    for i in 0..1_024 {
        b.rule(5, half + i % half, size, &[(s.next(half), 0, 0)]);
    }
    if let Some(c) = last {
        b.rule(5, n - 1, c, &[(half, 0, 0)]);
    }
    b.plan(name)
}

/// Document 01's row 13: a is at least |b|, b at least 2a - 6.
pub fn row_13(name: &str) -> Plan {
    let mut b = Builder::new();
    b.variable(1, -10, 10, 0);
    b.variable(1, -10, 10, 0);
    b.rule(5, 0, 0, &[(1, 0, 0)]);
    b.rule(1, 1, -6, &[(0, 0, 2)]);
    b.plan(name)
}
