//! Components of a graph on the variables, on rows of bits.
use super::set::Set;

/// For each variable, those whose edges run to it.
pub struct Graph {
    rows: Vec<Set>,
}

impl Graph {
    pub fn new(n: usize) -> Graph {
        Graph { rows: vec![Set::EMPTY; n] }
    }

    pub fn edges(&mut self, from: u8, to: impl Iterator<Item = u8>) {
        to.for_each(|x| self.rows[x as usize].put(from));
    }

    /// An edge where `drawn` says so, without a branch.
    pub fn edge_where(&mut self, from: u8, to: u8, drawn: bool) {
        self.rows[to as usize].put_where(from, drawn);
    }

    /// The component of each variable, and its turn. Edges run within a component or to one with a lower number, and mostly to an earlier turn.
    pub fn components(&self) -> Vec<(u8, u8)> {
        let mut places = vec![(0, 0); self.rows.len()];
        let mut left = Set::first(self.rows.len());
        let mut on_path = Set::EMPTY;
        // the path's parts, each with what its members reach in a step; a part that reaches back is joined with the one before it
        let mut path: Vec<(Set, Set)> = Vec::new();
        let (mut turn, mut component) = (0u8, u8::MAX);
        loop {
            let next = match path.last() {
                None => match left.common(&left) {
                    Some(v) => v,
                    None => return places,
                },
                Some((members, reached)) => {
                    if on_path.without(members).common(reached).is_some() {
                        let (members, reached) = (*members, *reached);
                        path.pop();
                        if let Some(before) = path.last_mut() {
                            *before = (before.0.or(&members), before.1.or(&reached));
                        }
                        continue;
                    }
                    match reached.common(&left) {
                        Some(v) => v,
                        None => {
                            members.members().for_each(|v| places[v as usize].0 = component);
                            component = component.wrapping_sub(1);
                            on_path = on_path.without(members);
                            path.pop();
                            continue;
                        }
                    }
                }
            };
            left.drop(next);
            on_path.put(next);
            places[next as usize].1 = turn;
            turn = turn.wrapping_add(1);
            path.push((Set::one(next), self.rows[next as usize]));
        }
    }
}
