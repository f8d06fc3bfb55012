//! Changes of a file: of its numbers, bodies, orders, ranges, and of what rules it has.
use crate::files::draft::{Draft, Field, BYTES};
use crate::files::{Seed, Term};
use crate::port;

/// A change; rules may be taken from another file. The file has a variable and a rule.
type Change = fn(&mut Seed, &mut Draft, &Draft);

const CHANGES: [Change; 16] = [
    constant, constant, number, number, form, variable, variable, head, order, order, range, follower, copy, drop, add, other,
];

/// A few changes, and the file put inside its limits.
pub fn changed(s: &mut Seed, d: &mut Draft, another: &Draft) {
    for _ in 0..1 + few(s, 4) {
        let n = d.variables.len();
        if d.rules.is_empty() {
            let head = s.next(n);
            d.rule(1, head, 1, &[(head, 0, 1)]);
        }
        if s.next(40) == 0 {
            *d = d.clone().behind();
        } else {
            any(s, &CHANGES)(s, d, another);
        }
    }
    d.rules.truncate(port::RULES);
    while d.bytes() > BYTES {
        d.rules.pop();
    }
}

/// A number below a power of 2 that is drawn itself, so mostly a small one.
fn few(s: &mut Seed, powers: usize) -> usize {
    let below = 1 << s.next(powers);
    s.next(below)
}

fn any<T: Copy>(s: &mut Seed, list: &[T]) -> T {
    list[s.next(list.len())]
}

/// A number near this one, or one that rules and ranges often turn on, in this range.
fn drawn(s: &mut Seed, near: i64, low: i64, high: i64) -> i64 {
    let z = match s.next(9) {
        0 => near + 1,
        1 => near - 1,
        2 => near + s.next(50) as i64 - 25,
        3 => -near,
        4 => near / 2,
        5 => 2 * near,
        6 => any(s, &[0, 1, -1, 2, 10, 100, 1_000]),
        7 => any(s, &[30_000, -30_000, 29_999, 20_000, 0]),
        _ => s.next(60_001) as i64 - 30_000,
    };
    z.clamp(low, high)
}

fn constant(s: &mut Seed, d: &mut Draft, _: &Draft) {
    let r = s.next(d.rules.len());
    d.rules[r].c = drawn(s, d.rules[r].c, -30_000, 30_000);
}

/// A rule and one of its terms, if it has any.
fn place(s: &mut Seed, d: &Draft) -> Option<(usize, usize)> {
    let r = s.next(d.rules.len());
    let terms = d.rules[r].terms.len();
    (terms > 0).then(|| (r, s.next(terms)))
}

fn number(s: &mut Seed, d: &mut Draft, _: &Draft) {
    if let Some((r, i)) = place(s, d) {
        let t = &mut d.rules[r].terms[i];
        t.2 = match t.1 {
            0 if t.2 == 0 => 0,
            0 => drawn(s, t.2, -1_000, 1_000),
            3 => drawn(s, t.2, 1, 1_000),
            _ => drawn(s, t.2, -30_000, 30_000),
        };
    }
}

fn variable(s: &mut Seed, d: &mut Draft, _: &Draft) {
    let x = s.next(d.variables.len());
    if let Some((r, i)) = place(s, d) {
        let terms = &mut d.rules[r].terms;
        if terms[i].1 != 3 && terms.iter().all(|t| t.0 != x) {
            terms[i].0 = x;
        }
    }
}

fn head(s: &mut Seed, d: &mut Draft, _: &Draft) {
    let r = s.next(d.rules.len());
    d.rules[r].head = s.next(d.variables.len());
}

/// The variables of these terms, none twice, and as many as a rule of this form has.
fn names(s: &mut Seed, form: u8, terms: &[Term], variables: usize) -> Vec<usize> {
    let (least, most) = match form {
        1 | 8 => (0, 16),
        4 => (2, 2),
        5 => (1, 1),
        7 => (2, 16),
        _ => (1, 16),
    };
    let mut seen = [false; port::VARIABLES];
    let mut names: Vec<usize> = terms.iter().filter(|t| t.1 != 3).map(|t| t.0).collect();
    names.retain(|&x| !std::mem::replace(&mut seen[x], true));
    names.truncate(most);
    while names.len() < least.min(variables) {
        let x = s.next(variables);
        if !std::mem::replace(&mut seen[x], true) {
            names.push(x);
        }
    }
    names
}

/// The terms of a rule of this form with the variables and, as far as they fit, the numbers of these.
fn fitted(s: &mut Seed, form: u8, terms: &[Term], variables: usize) -> Vec<Term> {
    let old = |fits: &dyn Fn(&Term) -> bool| terms.iter().find(|t| fits(t)).map_or(0, |t| t.2);
    let mut out: Vec<Term> = Vec::new();
    if form == 8 {
        let d = old(&|t| t.1 == 3);
        out.push((0, 3, if d > 0 { d } else { any(s, &[1, 2, 3, 10, 1_000]) }));
    }
    for (i, x) in names(s, form, terms, variables).into_iter().enumerate() {
        let k = old(&|t| t.0 == x && t.1 != 3);
        out.push(match form {
            1 | 8 => (x, 0, if k == 0 { 1 } else { k.clamp(-1_000, 1_000) }),
            6 => (x, 1 + (s.next(8) == 0) as u8, k),
            7 if i > 0 => (x, 1 + (s.next(8) == 0) as u8, k),
            _ => (x, 0, 0),
        });
    }
    out
}

fn form(s: &mut Seed, d: &mut Draft, _: &Draft) {
    let r = s.next(d.rules.len());
    let form = 1 + s.next(8) as u8;
    d.rules[r].terms = fitted(s, form, &d.rules[r].terms, d.variables.len());
    d.rules[r].form = form;
}

/// Two rules change places, the rules between them are turned round, or one becomes the first or the last.
fn order(s: &mut Seed, d: &mut Draft, _: &Draft) {
    let (i, j) = (s.next(d.rules.len()), s.next(d.rules.len()));
    match s.next(4) {
        0 => d.rules.swap(i, j),
        1 => d.rules[i.min(j)..=i.max(j)].reverse(),
        2 => d.rules[..=i].rotate_right(1),
        _ => d.rules[i..].rotate_left(1),
    }
}

fn range(s: &mut Seed, d: &mut Draft, _: &Draft) {
    let x = s.next(d.variables.len());
    let (kind, low, high) = d.variables[x];
    d.variables[x] = match s.next(4) {
        0 => (s.next(3) as u8, low, high),
        1 => (kind, drawn(s, low, -30_000, high), high),
        2 => (kind, low, drawn(s, high, low, 30_000)),
        _ => (kind, -30_000, 30_000),
    };
    let (_, low, high) = d.variables[x];
    d.values[x] = d.values[x].clamp(low, high);
}

/// A new variable that follows an old one.
fn follower(s: &mut Seed, d: &mut Draft, _: &Draft) {
    let n = d.variables.len();
    if n < port::VARIABLES {
        let (kind, low, high) = d.variables[s.next(n)];
        d.variable(kind, low, high, low);
        let (c, x) = (any(s, &[0, 0, 1, -1]), s.next(n));
        d.rule(1, n, c, &[(x, 0, 1)]);
    }
}

/// A rule of variables that are so many further.
fn shifted(r: &Field, by: usize, variables: usize) -> Field {
    let shift = |x: usize| (x + by) % variables;
    let terms = r.terms.iter().map(|t| if t.1 == 3 { *t } else { (shift(t.0), t.1, t.2) });
    Field { head: shift(r.head), terms: terms.collect(), ..*r }
}

/// A stretch of rules once more, of other variables.
fn copy(s: &mut Seed, d: &mut Draft, _: &Draft) {
    let (rules, by) = (d.rules.len(), s.next(d.variables.len()));
    let from = s.next(rules);
    let many = (1 + few(s, 7)).min(rules - from);
    let copies: Vec<Field> = d.rules[from..from + many].iter().map(|r| shifted(r, by, d.variables.len())).collect();
    let at = any(s, &[0, from, rules]);
    d.rules.splice(at..at, copies);
}

/// Rules of another file.
fn other(s: &mut Seed, d: &mut Draft, another: &Draft) {
    let (rules, n) = (another.rules.len(), d.variables.len());
    if rules > 0 {
        let (from, by) = (s.next(rules), s.next(n));
        let many = (1 + few(s, 6)).min(rules - from);
        for r in &another.rules[from..from + many] {
            // where variables fall together, one is left
            let mut r = shifted(r, by, n);
            let mut seen = [false; port::VARIABLES];
            r.terms.retain(|t| t.1 == 3 || !std::mem::replace(&mut seen[t.0], true));
            d.rules.push(r);
        }
    }
}

fn drop(s: &mut Seed, d: &mut Draft, _: &Draft) {
    let from = s.next(d.rules.len());
    let many = (1 + few(s, 5)).min(d.rules.len() - from);
    d.rules.drain(from..from + many);
}

fn add(s: &mut Seed, d: &mut Draft, _: &Draft) {
    let (rules, n) = (d.rules.len(), d.variables.len());
    let form = any(s, &[1, 1, 2, 3, 4, 6, 7, 8]);
    let many = 1 + few(s, 5);
    let read: Vec<Term> = (0..many).map(|_| (s.next(n), 0, 0)).collect();
    let terms = fitted(s, form, &read, n);
    let (head, c, at) = (s.next(n), any(s, &[0, 0, 1, -1, 5, 100]), s.next(rules + 1));
    d.rules.insert(at, Field { form, head, c, terms });
}
