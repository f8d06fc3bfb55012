//! Runs `gringo | clasp 0` and reads the answer sets as assignments.

use std::io::{Read, Write};
use std::process::{Command, Stdio};
use std::str::FromStr;

/// Clasp's exit codes when it has been through the whole search.
const ALL_FOUND: i32 = 30;
const NONE_FOUND: i32 = 20;

/// One assignment for every answer set of the text.
pub fn answers(text: &str, variables: usize) -> Result<Vec<Vec<i64>>, String> {
    listed(text)?.iter().map(|atoms| assignment(atoms, variables)).collect()
}

/// The assignments of the answer sets of the text, for each of so many lists those of
/// the answer sets that have its atom `list`.
pub fn chosen(text: &str, variables: usize, lists: usize) -> Result<Vec<Vec<Vec<i64>>>, String> {
    let mut found = vec![Vec::new(); lists];
    for atoms in listed(text)? {
        let is_list = |atom: &&str| atom.starts_with("list(");
        let (list, rest): (Vec<&str>, Vec<&str>) = atoms.split_whitespace().partition(is_list);
        let number = match list.as_slice() {
            [one] => one["list(".len()..].trim_end_matches(')').parse::<usize>().ok(),
            _ => None,
        };
        let of = number.and_then(|k| found.get_mut(k)).ok_or(format!("another list: {atoms}"))?;
        of.push(assignment(&rest.join(" "), variables)?);
    }
    Ok(found)
}

/// The atoms of the only answer set of the text, each with its numbers.
pub fn only<N: FromStr>(text: &str) -> Result<Vec<(String, Vec<N>)>, String> {
    let sets = listed(text)?;
    let [atoms] = sets.as_slice() else { return Err(format!("{} answer sets", sets.len())) };
    let numbers = |list: &str| list.split(',').map(|n| n.parse().ok()).collect::<Option<Vec<N>>>();
    let atom = |atom: &str| {
        let (name, rest) = atom.split_once('(')?;
        Some((name.to_string(), numbers(rest.strip_suffix(')')?)?))
    };
    let read = |text: &str| atom(text).ok_or(format!("atom {text}"));
    atoms.split_whitespace().map(read).collect()
}

/// The atoms of every answer set of the text.
fn listed(text: &str) -> Result<Vec<String>, String> {
    let output = solve(text).map_err(|e| format!("gringo | clasp: {e}"))??;
    let mut lines = output.lines();
    let mut found = Vec::new();
    while let Some(line) = lines.next() {
        if line.starts_with("Answer:") {
            found.push(lines.next().unwrap_or("").to_string());
        }
    }
    let said = output.lines().find_map(|l| l.strip_prefix("Models")?.split(':').nth(1));
    if said.and_then(|n| n.trim().parse().ok()) != Some(found.len()) {
        return Err(format!("clasp counts other models than the {} read:\n{output}", found.len()));
    }
    Ok(found)
}

/// What clasp prints. The inner error is something gringo or clasp complains of.
fn solve(text: &str) -> std::io::Result<Result<String, String>> {
    let mut gringo = Command::new("gringo")
        .args(["-Wno-atom-undefined", "-Wno-global-variable", "-"])
        .stdin(Stdio::piped())
        .stdout(Stdio::piped())
        .stderr(Stdio::piped())
        .spawn()?;
    let ground = gringo.stdout.take().expect("piped");
    let clasp = Command::new("clasp").arg("0").stdin(ground).stdout(Stdio::piped()).spawn()?;
    let mut input = gringo.stdin.take().expect("piped");
    input.write_all(text.as_bytes())?;
    drop(input);
    let mut complaint = String::new();
    gringo.stderr.take().expect("piped").read_to_string(&mut complaint)?;
    let grounded = gringo.wait()?;
    let solved = clasp.wait_with_output()?;
    if !grounded.success() || !complaint.is_empty() {
        return Ok(Err(format!("gringo, {grounded}: {complaint}")));
    }
    let output = String::from_utf8_lossy(&solved.stdout).into_owned();
    match solved.status.code() {
        Some(ALL_FOUND | NONE_FOUND) => Ok(Ok(output)),
        _ => Ok(Err(format!("clasp, {}: {output}", solved.status))),
    }
}

/// 000: "The value of x is then the largest value v such that [x >= v] is
/// true", and by the mirror the smallest such that [x <= v] is. A standard
/// variable has one atom only.
fn assignment(atoms: &str, variables: usize) -> Result<Vec<i64>, String> {
    let mut values: Vec<Option<i64>> = vec![None; variables];
    for atom in atoms.split_whitespace() {
        let (name, x, value) = arguments(atom).ok_or(format!("atom {atom}"))?;
        let known = values.get_mut(x).ok_or(format!("atom {atom}"))?;
        *known = match (*known, name) {
            (Some(other), "le") => Some(other.min(value)),
            (Some(other), _) => Some(other.max(value)),
            (None, _) => Some(value),
        };
    }
    values.into_iter().collect::<Option<Vec<i64>>>().ok_or(format!("a variable without value: {atoms}"))
}

/// Name, variable and value of an atom.
fn arguments(atom: &str) -> Option<(&str, usize, i64)> {
    let (name, rest) = atom.split_once('(')?;
    let (x, value) = rest.strip_suffix(')')?.split_once(',')?;
    let known = ["ge", "le", "is"].contains(&name);
    known.then_some((name, x.parse().ok()?, value.parse().ok()?))
}
