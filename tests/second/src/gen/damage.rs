//! Files and framings with random damage; nothing is expected of them.

use super::prng::Random;

pub fn damage(random: &mut Random, file: &mut Vec<u8>) {
    for _ in 0..1 + random.below(4) {
        let n = file.len();
        if n == 0 {
            file.push(random.byte());
            continue;
        }
        let at = random.below(n);
        match random.below(11) {
            0..=2 => file[at] ^= 1 << random.below(8),
            3 => file[at] = random.pick(&[0, 1, 2, 3, 7, 8, 127, 128, 255]),
            4 => file.truncate(at),
            5 => file.swap(at, (at + 1 + random.below(8)) % n),
            6 => file.insert(at, random.byte()),
            7 => {
                file.remove(at);
            }
            8 => {
                let end = (at + 1 + random.below(40)).min(n);
                let part = file[at..end].to_vec();
                let to = random.below(n);
                file.splice(to..to, part);
            }
            9 => length(random, file),
            _ => exchange(random, file),
        }
    }
}

/// Where fields start, and where the last whole one ends.
fn starts(file: &[u8]) -> Vec<usize> {
    let mut starts = Vec::new();
    let mut at = 0;
    while at + 3 <= file.len() {
        starts.push(at);
        at += 3 + usize::from(file[at + 1]) * 256 + usize::from(file[at + 2]);
    }
    if at <= file.len() {
        starts.push(at);
    }
    starts
}

/// Exchanges two neighbouring fields.
fn exchange(random: &mut Random, file: &mut [u8]) {
    let starts = starts(file);
    if starts.len() > 2 {
        let i = random.below(starts.len() - 2);
        file[starts[i]..starts[i + 2]].rotate_left(starts[i + 1] - starts[i]);
    }
}

/// Changes the length of some field.
fn length(random: &mut Random, file: &mut [u8]) {
    let mut starts = starts(file);
    starts.retain(|at| at + 3 <= file.len());
    if !starts.is_empty() {
        let at = random.pick(&starts);
        let change = random.pick(&[1, 255, 4, 252, 8]);
        file[at + 2] = file[at + 2].wrapping_add(change);
    }
}

pub fn noise(random: &mut Random) -> Vec<u8> {
    let length = random.below(40);
    let mut bytes: Vec<u8> = (0..length).map(|_| random.byte()).collect();
    if length > 2 && random.percent(70) {
        bytes[0] = 1 + random.below(3) as u8;
        bytes[1] = 0;
        bytes[2] = random.pick(&[0, 3, 4, 5, 7, 8]);
    }
    bytes
}
