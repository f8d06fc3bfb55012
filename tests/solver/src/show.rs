//! A program in readable form.

use second::program::*;

pub fn program(program: &Program) -> String {
    let mut out = String::new();
    for (x, v) in program.variables.iter().enumerate() {
        let kind = match v.kind {
            Kind::Standard => "standard",
            Kind::Below => "founded from below",
            Kind::Above => "founded from above",
        };
        out += &format!("  x{x} {kind} in {}..{}\n", v.low, v.high);
    }
    for rule in &program.rules {
        let sign = if program.variables[rule.head].above() { "<=" } else { ">=" };
        out += &format!("  x{} {sign} {}\n", rule.head, body(rule));
    }
    for constraint in &program.constraints {
        out += &match constraint.form {
            AT_MOST_ZERO => format!("  {} <= 0\n", sum(constraint.c, &constraint.terms)),
            _ => format!("  {}\n", literals(&constraint.terms, " or ")),
        };
    }
    out
}

fn body(rule: &Rule) -> String {
    let (c, terms) = (rule.c, &rule.terms);
    match rule.form {
        SUM => sum(c, terms),
        QUOTIENT => format!("({}) over {}", sum(c, terms), rule.divisor),
        MAX => format!("{c} + max({})", names(terms, ", ")),
        MIN => format!("{c} + min({})", names(terms, ", ")),
        PRODUCT => format!("{c} + {}", names(terms, " * ")),
        SIZE => format!("{c} + |{}|", names(terms, "")),
        IF => format!("{c} if {}", literals(terms, " and ")),
        _ => format!("{c} + {} if {}", names(&terms[..1], ""), literals(&terms[1..], " and ")),
    }
}

fn names(terms: &[Term], between: &str) -> String {
    terms.iter().map(|t| format!("x{}", t.variable)).collect::<Vec<_>>().join(between)
}

fn sum(c: i64, terms: &[Term]) -> String {
    let part = |t: &Term| format!(" + {}*x{}", t.number, t.variable);
    terms.iter().fold(c.to_string(), |out, t| out + &part(t)).replace("+ -", "- ")
}

fn literals(terms: &[Term], between: &str) -> String {
    let one = |t: &Term| {
        let sign = if t.op == AT_LEAST { ">=" } else { "<" };
        format!("x{} {sign} {}", t.variable, t.number)
    };
    terms.iter().map(one).collect::<Vec<_>>().join(between)
}
