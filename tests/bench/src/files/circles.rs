//! Circles that climb by little a lap, and what is like them: families of files whose sizes double.
use super::draft::Draft;
use super::{Plan, Term};

const FAR: i64 = 30_000;
/// Where a climb through a min with a standard variable ends.
const CAP: i64 = 29_000;

fn plain(v: usize) -> Term {
    (v, 0, 0)
}

fn one(v: usize) -> Term {
    (v, 0, 1)
}

/// So many founded variables of the whole range, after a standard one that caps: its number and theirs.
fn posts(n: usize) -> (Draft, usize, Vec<usize>) {
    posts_from(n, -FAR)
}

fn posts_from(n: usize, low: i64) -> (Draft, usize, Vec<usize>) {
    let mut d = Draft::default();
    let cap = d.variable(0, 0, CAP, CAP);
    let all = (0..n).map(|_| d.variable(1, low, FAR, low)).collect();
    (d, cap, all)
}

/// The first is one more than the last, or than the cap lets it be, and each follows the one before it: every lap lifts each by one. Two variables
/// at the least; without a cap no model.
fn circle(n: usize, low: i64, capped: bool) -> Draft {
    let (mut d, cap, x) = posts_from(n, low);
    d.rule(1, x[0], 1, &[one(x[n - 1])]);
    for i in 1..n {
        if i == 1 && capped {
            d.rule(3, x[1], 0, &[plain(x[0]), plain(cap)]);
        } else {
            d.rule(1, x[i], 0, &[one(x[i - 1])]);
        }
    }
    d
}

/// One gains by itself, and the others follow it in a line that leads back to it.
fn leader(n: usize, low: i64) -> Draft {
    let (mut d, cap, x) = posts_from(n, low);
    let own = d.variable(1, low, FAR, low);
    d.rule(1, own, 1, &[one(x[0])]);
    d.rule(3, x[0], 0, &[plain(own), plain(cap)]);
    for i in 1..n {
        d.rule(1, x[i], 0, &[one(x[i - 1])]);
    }
    d.rule(1, x[0], 0, &[one(x[n - 1])]);
    d
}

/// In turn the smaller of two, and two that follow it, up to a cap each; the first is one more.
fn smaller(n: usize) -> Draft {
    let (mut d, cap, x) = posts(3 * n);
    for i in 0..n {
        let before = x[3 * ((i + n - 1) % n)];
        d.rule(3, x[3 * i], (i == 0) as i64, &[plain(x[3 * i + 1]), plain(x[3 * i + 2])]);
        d.rule(1, x[3 * i + 1], 0, &[one(before)]);
        d.rule(3, x[3 * i + 2], 0, &[plain(before), plain(cap)]);
    }
    d
}

/// Two circles; each gains one a lap as long as it is no further than so much past the other.
fn two_circles(n: usize, past: i64) -> Draft {
    let (mut d, cap, x) = posts(2 * n + 4);
    let (a, b, more) = (&x[..n], &x[n..2 * n], &x[2 * n..]);
    for (i, (own, other)) in [(a, b), (b, a)].into_iter().enumerate() {
        d.rule(1, more[2 * i], 1, &[one(own[n - 1])]);
        d.rule(1, more[2 * i + 1], past, &[one(other[n - 1])]);
        d.rule(3, own[0], 0, &[plain(more[2 * i]), plain(more[2 * i + 1]), plain(cap)]);
        for j in 1..n {
            d.rule(1, own[j], 0, &[one(own[j - 1])]);
        }
    }
    d
}

/// A circle of sums whose first kept term does not rise.
fn unmoved(n: usize) -> Draft {
    let (mut d, cap, x) = posts(n);
    let still = d.variable(1, -5, FAR, 0);
    d.rule(1, still, 0, &[]);
    d.rule(1, x[0], 1, &[one(still), one(x[n - 1])]);
    d.rule(3, x[1], 0, &[plain(x[0]), plain(cap)]);
    for i in 2..n {
        d.rule(1, x[i], 0, &[one(still), one(x[i - 1])]);
    }
    d
}

/// Each is half of the sum of the two before it, rounded up, the first one more and up to a cap.
fn averages(n: usize) -> Draft {
    let (mut d, cap, x) = posts(n);
    let top = d.variable(1, -FAR, FAR, 0);
    for i in 0..n {
        let two = [one(x[(i + n - 1) % n]), one(x[(i + n - 2) % n])];
        d.divided(if i == 0 { top } else { x[i] }, if i == 0 { 2 } else { 0 }, 2, &two);
    }
    d.rule(3, x[0], 0, &[plain(top), plain(cap)]);
    d
}

/// Each is this much of the one before it and a little of a far value, rounded up: laps that lift ever less.
fn nearing(n: usize, d: i64) -> Draft {
    let (mut f, cap, x) = posts(n);
    f.divided(x[0], 0, d, &[(x[n - 1], 0, d - 1), one(cap)]);
    for i in 1..n {
        f.rule(1, x[i], 0, &[one(x[i - 1])]);
    }
    f
}

/// A circle in which every second is half of the one before it, rounded up, and every other twice that; the first is half of one more, and twice it
/// is followed up to a cap.
fn slopes(n: usize) -> Draft {
    let (mut d, cap, x) = posts(2 * n);
    let top = d.variable(1, -FAR, FAR, 0);
    for i in 0..n {
        let before = x[(2 * i + 2 * n - 1) % (2 * n)];
        d.divided(x[2 * i], (i == 0) as i64, 2, &[one(before)]);
        d.rule(1, if i == 0 { top } else { x[2 * i + 1] }, 0, &[(x[2 * i], 0, 2)]);
    }
    d.rule(3, x[1], 0, &[plain(top), plain(cap)]);
    d
}

/// A line between two ends that stand still, each half of the sum of its neighbours, rounded up.
fn slack(n: usize, low: i64) -> Draft {
    let (mut d, cap, x) = posts(n);
    let end = d.variable(0, -FAR, FAR, low);
    for i in 0..n {
        let before = if i == 0 { cap } else { x[i - 1] };
        let after = if i + 1 == n { end } else { x[i + 1] };
        d.divided(x[i], 0, 2, &[one(before), one(after)]);
    }
    d
}

/// A circle that is capped by a variable that rises by stairs of 25 as the circle does.
fn stairs(n: usize, steps: i64) -> Draft {
    let (mut d, _, x) = posts_from(n, 0);
    let stair = d.variable(1, 0, FAR, 0);
    d.rule(1, x[0], 1, &[one(x[n - 1])]);
    d.rule(3, x[1], 0, &[plain(x[0]), plain(stair)]);
    for i in 2..n {
        d.rule(1, x[i], 0, &[one(x[i - 1])]);
    }
    for k in 0..steps {
        d.rule(6, stair, 25 * k + 25, &[(x[n - 1], 1, 25 * k)]);
    }
    d
}

/// No circle: each digit is reached straight and, later in the order of rules, by a way that is longer by twice as much as the one before. The last
/// is followed by a line, each the largest of the 16 before it.
fn counter(digits: usize, line: usize) -> Draft {
    let (mut d, _, x) = posts_from(2 * digits + line, 0);
    let (digit, way, line) = (&x[..digits], &x[digits..2 * digits], &x[2 * digits..]);
    for i in 0..line.len() {
        let mut body: Vec<Term> = (i.saturating_sub(16)..i).map(|j| plain(line[j])).collect();
        if body.is_empty() {
            body.push(plain(digit[digits - 1]));
        }
        d.rule(2, line[i], 0, &body);
    }
    for i in (1..digits).rev() {
        d.rule(1, digit[i], 0, &[one(digit[i - 1])]);
        d.rule(1, digit[i], 1 << (digits - 1 - i), &[one(way[i])]);
        d.rule(1, way[i], 0, &[one(digit[i - 1])]);
    }
    d.rule(1, digit[0], 1, &[]);
    d
}

/// A line in which each is one more than the one before it, the last rule first.
fn line(n: usize) -> Draft {
    let (mut d, _, x) = posts(n);
    for i in (1..n).rev() {
        d.rule(1, x[i], 1, &[one(x[i - 1])]);
    }
    d.rule(1, x[0], 0, &[]);
    d
}

/// A family: its name, and its files with their sizes.
pub struct Family {
    pub name: &'static str,
    pub drafts: Vec<(String, Draft)>,
}

fn family<S: std::fmt::Display + Copy>(name: &'static str, sizes: [S; 4], draft: impl Fn(S) -> Draft) -> Family {
    Family { name, drafts: sizes.into_iter().map(|s| (s.to_string(), draft(s))).collect() }
}

pub fn families() -> Vec<Family> {
    vec![
        family("circle up to a cap", [31, 63, 127, 255], |n| circle(n, -FAR, true)),
        family("circle of 2 by range", [7_500, 15_000, 30_000, 60_000], |r| circle(2, FAR - r, true)),
        family("circle of 255 by range", [7_500, 15_000, 30_000, 60_000], |r| circle(255, FAR - r, true)),
        family("circle without a cap", [31, 63, 127, 255], |n| circle(n, -FAR, false)),
        family("leader and followers", [31, 63, 127, 254], |n| leader(n, -FAR)),
        family("smaller of two followers", [10, 21, 42, 85], smaller),
        family("two circles, one past the other", [15, 31, 62, 125], |n| two_circles(n, 1)),
        family("two circles, 100 past the other", [15, 31, 62, 125], |n| two_circles(n, 100)),
        family("sums with an unmoved term", [31, 63, 127, 254], unmoved),
        family("averages of two", [31, 63, 127, 254], averages),
        family("nearing by a 10th", [31, 63, 127, 255], |n| nearing(n, 10)),
        family("nearing by a 1,000th", [31, 63, 127, 255], |n| nearing(n, 1_000)),
        family("slopes of 2 and a half", [15, 31, 63, 127], slopes),
        family("line of averages, one end low", [31, 63, 127, 254], |n| slack(n, 0)),
        family("line of averages, ends alike", [31, 63, 127, 254], |n| slack(n, CAP)),
        family("stairs, circle of 100", [150, 300, 600, 1_160], |s| stairs(100, s)),
        family("binary counter and a line", [8, 10, 12, 15], |n| counter(n, 220)),
        family("line, last rule first", [31, 63, 127, 255], line),
    ]
}

/// A family's files in one of their orders.
pub const ORDERS: [&str; 4] = ["", ", reverse", ", behind", ", from above"];

pub fn plan(family: &Family, i: usize, order: usize) -> Plan {
    let (size, draft) = &family.drafts[i];
    let draft = match order {
        0 => draft.clone(),
        1 => draft.clone().reversed(),
        2 => draft.clone().behind(),
        _ => draft.mirrored(),
    };
    draft.settled().plan(&format!("{} {size}{}", family.name, ORDERS[order]))
}

/// The least of each family.
pub fn tiny() -> Vec<Draft> {
    vec![
        circle(2, -FAR, true),
        circle(3, -FAR, false),
        leader(2, -FAR),
        smaller(1),
        two_circles(2, 1),
        two_circles(1, 100),
        unmoved(2),
        averages(3),
        nearing(2, 10),
        nearing(2, 1_000),
        slopes(1),
        slack(3, 0),
        slack(3, CAP),
        stairs(2, 4),
        counter(4, 2),
        line(3),
    ]
}
