//! Plans with lent ranges, which stand in the place of an assignment.
use super::{arrivals, circle_of, led, roster_of, two, Builder, Plan, Posts, Seed, ABOVE, ALL, BELOW, BOTH, LONG};
use crate::port::number;

/// The declared range of a variable and its assigned value.
fn ends(p: &Plan, v: usize) -> (i64, i64, i64) {
    (number(&p.file, 8 * v + 4), number(&p.file, 8 * v + 6), number(&p.assignment, 2 * v))
}

/// A plan with the range of each variable.
fn lent(p: &Plan, name: &str, range: impl Fn(usize) -> (i64, i64)) -> Plan {
    let ranges = (0..p.assignment.len() / 2).map(range).flat_map(|(low, high)| [two(low), two(high)]);
    Plan { name: name.to_string(), file: p.file.clone(), assignment: ranges.collect::<Vec<_>>().concat() }
}

/// The declared ranges.
pub fn whole(p: &Plan, name: &str) -> Plan {
    lent(p, name, |v| (ends(p, v).0, ends(p, v).1))
}

/// Every second variable has its assigned value, the others their declared range.
fn half(p: &Plan, name: &str) -> Plan {
    lent(p, name, |v| match ends(p, v) {
        (.., value) if v % 2 == 0 => (value, value),
        (low, high, _) => (low, high),
    })
}

/// Each variable has its assigned value.
pub fn single(p: &Plan, name: &str) -> Plan {
    lent(p, name, |v| (ends(p, v).2, ends(p, v).2))
}

/// The same, founded variables a little further from their starting ends than rules hold them.
fn beyond(p: &Plan, name: &str) -> Plan {
    lent(p, name, |v| match (ends(p, v), p.file[8 * v + 3]) {
        ((_, high, value), 1) => ((value + 20).min(high), (value + 20).min(high)),
        ((low, _, value), 2) => ((value - 20).max(low), (value - 20).max(low)),
        ((.., value), _) => (value, value),
    })
}

/// The declared ranges, but for the far end of one variable.
fn stopped(p: &Plan, at: usize) -> Plan {
    const SHORT: i64 = 1_000;
    lent(p, &p.name, |v| match (ends(p, v), p.file[8 * v + 3]) {
        ((low, high, _), 1) if v == at => (low, high - SHORT),
        ((low, high, _), 2) if v == at => (low + SHORT, high),
        ((low, high, _), _) => (low, high),
    })
}

/// Half of the variables are standard, and every rule gives the size of one of them, which may be below 0.
fn sizes(name: &str, kinds: &[u8]) -> Plan {
    let mut s = Seed(0x94D0_49BB_1331_11EB);
    let mut b = Builder::new();
    for v in 0..256 {
        b.variable(if v < 128 { 0 } else { kinds[v % kinds.len()] }, -100, 100, 0);
    }
    for i in 0..2_048 {
        b.rule(5, 128 + i % 128, -(s.next(100) as i64), &[(s.next(128), 0, 0)]);
    }
    b.plan(name)
}

/// A stable plan of 2,048 rules of all forms.
pub fn limit(kinds: &[u8]) -> Plan {
    roster_of("", kinds, 256, 2_048, 512, 5, ALL)
}

pub fn small(kinds: &[u8]) -> Plan {
    roster_of("", kinds, 16, 40, 4, 3, ALL)
}

pub fn week(kinds: &[u8]) -> Plan {
    roster_of("", kinds, 64, 300, 20, 4, ALL)
}

pub fn plans() -> Vec<Plan> {
    let posts = Posts { kinds: BOTH, variables: 256, rules: 748, constraints: 512, terms: 16, forms: LONG, mixed: 16, idle: 180 }.plan("");
    vec![
        half(&small(BELOW), "small roster of 16, half single"),
        half(&week(BELOW), "week's desk of 64, half single"),
        whole(&limit(BELOW), "2,048 rules, as declared"),
        half(&limit(BELOW), "2,048 rules, half single"),
        single(&limit(BELOW), "2,048 rules, all single"),
        beyond(&limit(BELOW), "2,048 rules, single beyond the rules"),
        stopped(&circle_of("circle of 256 to a lent far end", BELOW, 256, false), 255),
        stopped(&circle_of("the same, reverse order", BELOW, 256, true), 255),
        stopped(&led("followers and leader, reverse order", 256), 0),
        whole(&sizes("", BELOW), "2,048 sizes, none single"),
        half(&small(ABOVE), "small roster from above, half single"),
        half(&week(ABOVE), "week's desk from above, half single"),
        whole(&limit(ABOVE), "2,048 rules from above, as declared"),
        half(&limit(ABOVE), "2,048 rules from above, half single"),
        single(&limit(ABOVE), "2,048 rules from above, all single"),
        stopped(&circle_of("circle of 256 from above", ABOVE, 256, false), 255),
        whole(&sizes("", ABOVE), "2,048 sizes from above, none single"),
        half(&arrivals("", 256, 1_024), "arrivals, 256 variables, half single"),
        half(&limit(BOTH), "2,048 rules, both kinds, half single"),
        half(&posts, "both kinds, mixed places, half single"),
        half(&sizes("", BOTH), "2,048 sizes, both kinds, half single"),
    ]
}
