//! Samples of flattening, worked out by hand from document 02 and the settled points,
//! and whether the sentences about it notice wrong calls.

mod common;

use common::hexadecimal;
use second::brute::{self, Nests};
use second::flat::flatten_with;
use second::flattened::{nested_of, see, try_case};
use second::gen::fields::{bytes, constraint, rule, variable, Field};
use second::gen::nested::{case, small};
use second::gen::trees::{chain, field, leaf, leaves, max, min, sum};
use second::tally::Tally;
use second::{
    begin, check, flatten, least, normalize, print_flat, read, Begun, Normal, Reading, Solved, Verdict,
    Wrong,
};

/// Five variables: 0 and 1 of kinds 1 and 2 in 0..9, 2 standard in -2..3, 3 of kind 1 in
/// 1..4, 4 of kind 2 in -5..-1.
const FIVE: &str = "01 00 05 01 00 00 00 09 01 00 05 02 00 00 00 09 01 00 05 00 FF FE 00 03 \
                    01 00 05 01 00 01 00 04 01 00 05 02 FF FB FF FF ";

/// A rule v0 >= 1, and a constraint v2 <= 3.
const RULE: &str = "02 00 04 01 00 00 01 ";
const CONSTRAINT: &str = "03 00 07 01 FF FD 02 00 00 01 ";

/// The answer for a buffer of this length, which a refusal leaves as it was.
fn answer(file: &[u8], length: usize) -> Normal {
    let mut buffer = vec![0x5A; length];
    let answer = flatten(file, &mut buffer);
    let written = if let Normal::Written(n) = answer { n } else { 0 };
    assert!(buffer[written..].iter().all(|&b| b == 0x5A));
    answer
}

fn refused(number: usize, place: usize) -> Normal {
    Normal::Refused { number, place }
}

/// What is written, the buffer just long enough.
fn plain(file: &[u8]) -> Vec<u8> {
    let Normal::Written(length) = answer(file, 60_000) else { panic!("{:?}", answer(file, 60_000)) };
    let mut buffer = vec![0x5A; length];
    assert_eq!(flatten(file, &mut buffer), Normal::Written(length));
    buffer
}

/// After the five variables, the first bytes become the second ones.
fn becomes(before: &str, after: &str) {
    let file = |rest: &str| hexadecimal(&(FIVE.to_string() + rest));
    assert_eq!(plain(&file(before)), file(after), "{before}");
}

/// After the five variables, these bytes are refused; the place is counted from them.
fn refuses(rest: &str, number: usize, place: usize) {
    let file = hexadecimal(&(FIVE.to_string() + rest));
    assert_eq!(answer(&file, 60_000), refused(number, 40 + place), "{rest}");
    assert_eq!(answer(&file, 0), refused(number, 40 + place), "{rest}");
}

/// A file with these variables and other fields.
fn with(variables: &[Field], rest: &[Field]) -> Vec<u8> {
    bytes(&[variables, rest].concat())
}

#[test]
fn roots() {
    // v0 >= v2: a leaf root is a sum of one, and so is a sum of one leaf
    becomes("05 00 03 00 00 02", "02 00 08 01 00 00 00 02 00 00 01");
    becomes("05 00 05 00 01 01 00 02", "02 00 08 01 00 00 00 02 00 00 01");
    // the head may be the leaf
    becomes("05 00 03 01 00 01", "02 00 08 01 01 00 00 01 00 00 01");
    // v0 >= v3 + v2, the larger, the smaller: children keep their order
    becomes("05 00 07 00 01 02 00 03 00 02", "02 00 0C 01 00 00 00 03 00 00 01 02 00 00 01");
    becomes("05 00 07 00 02 02 00 03 00 02", "02 00 0C 02 00 00 00 03 00 00 00 02 00 00 00");
    becomes("05 00 07 01 03 02 00 03 00 02", "02 00 0C 03 01 00 00 03 00 00 00 02 00 00 00");
}

#[test]
fn added_variables() {
    // v0 >= v3 + max(v2, v0): v5 of kind 1 in 0..9, v5 >= max(v2, v0)
    becomes(
        "05 00 0B 00 01 02 00 03 02 02 00 02 00 00",
        "01 00 05 01 00 00 00 09 \
         02 00 0C 01 00 00 00 03 00 00 01 05 00 00 01 02 00 0C 02 05 00 00 02 00 00 00 00 00 00 00",
    );
    // for a head of kind 2 it is of kind 2, though its leaves are standard and of kind 1
    becomes(
        "05 00 0B 01 02 02 03 02 00 02 00 03 00 01",
        "01 00 05 02 FF FE 00 03 \
         02 00 0C 02 01 00 00 05 00 00 00 01 00 00 00 02 00 0C 03 05 00 00 02 00 00 00 03 00 00 00",
    );
    // all leaves standard: still founded, as the head
    becomes(
        "05 00 07 00 02 01 01 01 00 02",
        "01 00 05 01 FF FE 00 03 \
         02 00 08 02 00 00 00 05 00 00 00 02 00 08 01 05 00 00 02 00 00 01",
    );
}

#[test]
fn ranges_are_exact() {
    // v2 + v3 in -1..7; the larger of v2 and v3 in 1..4, the smaller in -2..3; v3 + v4 in -4..3
    let added = |node: &str, range: &str| {
        becomes(
            &format!("05 00 09 00 01 01 {node}"),
            &format!(
                "01 00 05 01 {range} 02 00 08 01 00 00 00 05 00 00 01 02 00 0C {} 05 00 00 {}",
                &node[..2],
                match &node[..2] {
                    "01" => format!("{} 00 00 01 {} 00 00 01", &node[9..11], &node[15..17]),
                    _ => format!("{} 00 00 00 {} 00 00 00", &node[9..11], &node[15..17]),
                }
            ),
        )
    };
    added("01 02 00 02 00 03", "FF FF 00 07");
    added("02 02 00 02 00 03", "00 01 00 04");
    added("03 02 00 02 00 03", "FF FE 00 03");
    added("01 02 00 03 00 04", "FF FC 00 03");
    added("02 02 00 04 00 02", "FF FE 00 03");
    added("03 02 00 04 00 02", "FF FB FF FF");
}

#[test]
fn order() {
    // v0 >= min(max(v2 + v0), v3, max(v1)), then v1 <= max(min(v2)):
    // v5 = max(v6), v6 = v2 + v0, v7 = max(v1), v8 = min(v2)
    becomes(
        &format!(
            "{RULE}{CONSTRAINT}05 00 11 00 03 03 02 01 01 02 00 02 00 00 00 03 02 01 00 01 \
             05 00 07 01 02 01 03 01 00 02"
        ),
        &format!(
            "01 00 05 01 FF FE 00 0C 01 00 05 01 FF FE 00 0C 01 00 05 01 00 00 00 09 \
             01 00 05 02 FF FE 00 03 {RULE}\
             02 00 10 03 00 00 00 05 00 00 00 03 00 00 00 07 00 00 00 \
             02 00 08 02 05 00 00 06 00 00 00 02 00 0C 01 06 00 00 02 00 00 01 00 00 00 01 \
             02 00 08 02 07 00 00 01 00 00 00 \
             02 00 08 02 01 00 00 08 00 00 00 02 00 08 03 08 00 00 02 00 00 00 {CONSTRAINT}"
        ),
    );
}

#[test]
fn without_trees() {
    // unchanged, not in normal form: v0 >= 2, then v0 >= 1 twice
    let file = hexadecimal(&format!("{FIVE}02 00 04 01 00 00 02 {RULE}{RULE}{CONSTRAINT}{CONSTRAINT}"));
    assert_eq!(plain(&file), file);
    assert_eq!(answer(&file, file.len() - 1), refused(17, 0));
    assert_eq!(answer(&[], 0), Normal::Written(0));
    assert_eq!(answer(&[], 7), Normal::Written(0));
    assert_eq!(answer(&[9, 0, 0], 0), refused(3, 0));
    let knot = bytes(&[variable(1, -1, 1), rule(5, 0, 1, &[(0, 0, 0)])]);
    assert_eq!(answer(&knot, 60_000), refused(13, 8));
}

#[test]
fn malformed() {
    // neither head nor tree, no tree, and a tree cut short at each byte
    refuses("05 00 00", 18, 0);
    refuses("05 00 01 00", 18, 0);
    refuses("05 00 02 00 00", 18, 0);
    refuses("05 00 02 00 01", 18, 0);
    refuses("05 00 03 00 01 01", 18, 0);
    refuses("05 00 04 00 01 01 00", 18, 0);
    refuses("05 00 05 00 01 02 00 02", 18, 0);
    refuses("05 00 06 00 01 02 00 02 00", 18, 0);
    // bytes left over
    refuses("05 00 04 00 00 02 00", 18, 0);
    refuses("05 00 05 00 00 02 00 03", 18, 0);
    refuses("05 00 06 00 01 01 00 02 01", 18, 0);
    // node byte above 3, child count 0
    refuses("05 00 03 00 04 02", 18, 0);
    refuses("05 00 05 00 04 01 00 02", 18, 0);
    refuses("05 00 05 00 FF 01 00 02", 18, 0);
    refuses("05 00 05 00 01 01 05 02", 18, 0);
    refuses("05 00 03 00 01 00", 18, 0);
    refuses("05 00 05 00 02 00 00 02", 18, 0);
    refuses("05 00 07 00 01 02 00 02 03 00", 18, 0);
    // whatever its head: standard, or none of the file
    refuses("05 00 02 02 00", 18, 0);
    refuses("05 00 02 FF 00", 18, 0);
    refuses("05 00 01 FF", 18, 0);
    // its own place, after a tree that passes
    refuses("05 00 03 00 00 02 05 00 02 00 00", 18, 6);
}

#[test]
fn children() {
    let many = vec![variable(1, 0, 1); 20];
    let names: Vec<usize> = (0..17).collect();
    for (count, passes) in [(1, true), (15, true), (16, true), (17, false)] {
        for node in [sum, max, min] {
            let tree = node(leaves(&names[..count]));
            let root = with(&many, &[field(18, &tree)]);
            let below = with(&many, &[field(18, &sum(vec![leaf(17), tree.clone()]))]);
            let of = |written: usize| if passes { Normal::Written(written) } else { refused(18, 160) };
            assert_eq!(answer(&root, 60_000), of(160 + 7 + 4 * count));
            assert_eq!(answer(&below, 60_000), of(160 + 7 + 8 + 8 + 7 + 4 * count));
        }
    }
}

#[test]
fn levels() {
    let two = [variable(1, 0, 1), variable(0, 0, 1)];
    let random = &mut second::gen::prng::Random::new(1);
    let says = |tree| answer(&with(&two, &[field(0, &tree)]), 60_000);
    // a leaf alone is one level; seven nodes and a leaf are eight
    assert_eq!(says(leaf(1)), Normal::Written(16 + 11));
    for nodes in 1..=7 {
        assert_eq!(says(chain(random, 1, nodes)), Normal::Written(16 + 11 * nodes + 8 * (nodes - 1)));
    }
    for nodes in [8, 9, 20, 200] {
        assert_eq!(says(chain(random, 1, nodes)), refused(18, 16));
    }
    // along a later child
    let deep = |random: &mut _, nodes| sum(vec![leaf(0), chain(random, 1, nodes)]);
    assert_eq!(says(deep(random, 6)), Normal::Written(16 + 15 + 6 * 19));
    assert_eq!(says(deep(random, 7)), refused(18, 16));
    // a node without a child at the ninth level is too deep, and malformed
    let bare = "05 00 13 00 01 01 01 01 01 01 01 01 01 01 01 01 01 01 01 01 01 00";
    refuses(bare, 18, 0);
}

#[test]
fn tags() {
    let tree = "05 00 03 00 00 02 ";
    for tag in ["00", "04", "06", "09", "FF"] {
        refuses(&format!("{tree}{tag} 00 00"), 3, 6);
        refuses(&format!("{tag} 00 00"), 3, 0);
    }
    for tag in ["01", "02", "03"] {
        refuses(&format!("{tree}{tag} 00 00"), 4, 6);
    }
    refuses(&format!("{tree}{RULE}"), 4, 6);
    refuses(&format!("{tree}{CONSTRAINT}{tree}"), 4, 6);
    // 2 before 3 and 4, and before 18
    for cut in ["05", "05 00", "05 00 01", "05 00 03 00 00", "04 00 01", "01 00", "05 FF FF 00"] {
        refuses(&format!("{tree}{cut}"), 2, 6);
        refuses(cut, 2, 0);
    }
    // constraints and rules before trees are as ever
    refuses(&format!("{CONSTRAINT}{RULE}{tree}"), 4, 10);
    refuses(&format!("02 00 04 01 02 00 00 {tree}"), 9, 0);
    refuses(&format!("{RULE}03 00 03 02 00 00 05 00 00"), 10, 7);
}

#[test]
fn too_many_variables() {
    // 255 declared, and a tree that adds one, then one more of either kind
    let many = vec![variable(1, 0, 1); 255];
    let one = field(0, &sum(vec![max(vec![leaf(1)])]));
    let two = field(0, &sum(vec![max(vec![leaf(1)]), max(vec![leaf(2)])]));
    let none = field(0, &sum(vec![leaf(1)]));
    let says = |trees: &[Field]| answer(&with(&many, trees), 60_000);
    assert_eq!(says(std::slice::from_ref(&one)), Normal::Written(2_040 + 8 + 11 + 11));
    assert_eq!(says(&[one.clone(), none.clone(), field(0, &leaf(9))]), Normal::Written(2_092));
    assert_eq!(says(&[two]), refused(5, 2_040));
    assert_eq!(says(&[none, one.clone(), one]), refused(5, 2_040 + 8 + 10));
    let full = vec![variable(1, 0, 1); 256];
    assert_eq!(answer(&with(&full, &[field(255, &leaf(255))]), 60_000), Normal::Written(2_059));
    let inner = field(0, &min(vec![min(vec![leaf(255)])]));
    assert_eq!(answer(&with(&full, &[inner]), 60_000), refused(5, 2_048));
}

#[test]
fn too_many_rules() {
    let one = [variable(1, 0, 9)];
    let rules = |n: usize| vec![rule(1, 0, 0, &[]); n];
    let roots = |n: usize| vec![field(0, &leaf(0)); n];
    let says = |rest: &[Field]| answer(&with(&one, rest), 60_000);
    // trees themselves have no limit but that of rules
    assert_eq!(says(&roots(2_048)), Normal::Written(8 + 11 * 2_048));
    assert_eq!(says(&roots(2_049)), refused(5, 8 + 6 * 2_048));
    assert_eq!(says(&[rules(2_047), roots(1)].concat()), Normal::Written(8 + 7 * 2_047 + 11));
    assert_eq!(says(&[rules(2_048), roots(1)].concat()), refused(5, 8 + 7 * 2_048));
    // a node under the root is a rule more
    let two = field(0, &sum(vec![sum(vec![leaf(0)])]));
    assert_eq!(
        says(&[rules(2_046), vec![two.clone()]].concat()),
        Normal::Written(8 + 8 + 7 * 2_046 + 22)
    );
    assert_eq!(says(&[rules(2_047), vec![two]].concat()), refused(5, 8 + 7 * 2_047));
    // 18 first, whatever there is too much of; then 5, before 9
    let bad = Field { tag: 5, value: vec![0, 0] };
    assert_eq!(says(&[rules(2_048), vec![bad]].concat()), refused(18, 8 + 7 * 2_048));
    assert_eq!(says(&[rules(2_048), vec![field(7, &leaf(9))]].concat()), refused(5, 8 + 7 * 2_048));
}

#[test]
fn thousands_of_nodes() {
    // 16 x 16 x 16 leaves: 272 inner nodes under the root, so 5; one byte more and it is 18
    let level = |child: second::tree::Tree| sum(vec![child; 16]);
    let tree = field(0, &level(level(level(leaf(0)))));
    let one = [variable(1, 0, 9)];
    assert_eq!(answer(&with(&one, std::slice::from_ref(&tree)), 60_000), refused(5, 8));
    let mut over = tree.clone();
    over.value.push(0);
    assert_eq!(answer(&with(&one, &[over]), 60_000), refused(18, 8));
    let mut cut = tree;
    cut.value.pop();
    assert_eq!(answer(&with(&one, &[cut]), 60_000), refused(18, 8));
}

#[test]
fn undeclared() {
    // leaf and head 5; a standard head
    refuses("05 00 03 00 00 05", 9, 0);
    refuses("05 00 03 05 00 00", 9, 0);
    refuses("05 00 03 02 00 00", 9, 0);
    refuses("05 00 03 00 00 FF", 9, 0);
    // 5 is added by the tree before, or by the tree itself
    let adds = "05 00 07 00 01 01 01 01 00 00 ";
    refuses(&format!("{adds}05 00 03 00 00 05"), 9, 10);
    refuses(&format!("{adds}05 00 03 05 00 00"), 9, 10);
    refuses("05 00 09 00 01 02 01 01 00 00 00 05", 9, 0);
    // without any variable
    assert_eq!(answer(&hexadecimal("05 00 03 00 00 00"), 99), refused(9, 0));
    // 9 before 11 and 19
    refuses("05 00 09 00 01 03 00 02 00 02 00 05", 9, 0);
}

#[test]
fn twice_in_one_tree() {
    refuses("05 00 07 00 01 02 00 02 00 02", 11, 0);
    refuses("05 00 09 00 01 02 00 02 01 01 00 02", 11, 0);
    refuses("05 00 0B 00 01 02 01 01 00 02 01 01 00 02", 11, 0);
    // not across trees; the head may be a leaf, once
    becomes(
        "05 00 03 00 00 02 05 00 03 00 00 02",
        "02 00 08 01 00 00 00 02 00 00 01 02 00 08 01 00 00 00 02 00 00 01",
    );
    becomes("05 00 07 00 01 02 00 00 00 02", "02 00 0C 01 00 00 00 00 00 00 01 02 00 00 01");
    refuses("05 00 07 00 01 02 00 00 00 00", 11, 0);
}

#[test]
fn added_ranges() {
    // v0 is the head; leaves end at 20,000, 10,000, 1 and their opposites
    let ends = [(0, 20_000), (5, 10_000), (0, 1), (-20_000, 0), (-10_000, 5), (-1, 0)];
    let mut list = vec![variable(2, 0, 9)];
    list.extend(ends.map(|(low, high)| variable(1, low, high)));
    let says = |tree| answer(&with(&list, &[field(0, &tree)]), 60_000);
    let written = |tree| matches!(says(tree), Normal::Written(_));
    let under = |tree| sum(vec![tree]);
    // 30,000 passes, and 30,001 does not; but at the root it may be anything
    assert!(written(under(sum(leaves(&[1, 2])))));
    assert_eq!(says(under(sum(leaves(&[1, 2, 3])))), refused(19, 56));
    assert!(written(sum(leaves(&[1, 2, 3]))));
    assert!(written(under(sum(leaves(&[4, 5])))));
    assert_eq!(says(under(sum(leaves(&[4, 5, 6])))), refused(19, 56));
    assert!(written(sum(leaves(&[4, 5, 6]))));
    assert!(written(sum(vec![leaf(3), sum(leaves(&[1, 2]))])));
    // also where a min or max above brings it back
    assert_eq!(says(min(vec![leaf(4), sum(leaves(&[1, 2, 3]))])), refused(19, 56));
    assert_eq!(says(max(vec![leaf(1), sum(leaves(&[4, 5, 6]))])), refused(19, 56));
    // the smaller of two that are in range is in range
    assert!(written(under(min(vec![leaf(4), sum(leaves(&[1, 2]))]))));
}

/// a and b of this kind in -4..4, s in 4..4, t in -4..-4; b rests on |a|, and a tree is for a.
fn circle(kind: u8, tree: second::tree::Tree) -> Vec<u8> {
    let list = [variable(kind, -4, 4), variable(kind, -4, 4), variable(0, 4, 4), variable(0, -4, -4)];
    with(&list, &[rule(5, 1, 0, &[(0, 0, 0)]), field(0, &tree)])
}

#[test]
fn not_valid() {
    // The place is that of b's rule in the nested file, whatever is added before it.
    assert_eq!(answer(&circle(1, leaf(1)), 60_000), refused(13, 32));
    assert_eq!(answer(&circle(1, sum(vec![max(vec![leaf(1)])])), 60_000), refused(13, 32));
    assert_eq!(answer(&circle(2, sum(vec![max(vec![leaf(1)])])), 60_000), refused(13, 32));
    assert_eq!(answer(&circle(1, leaf(2)), 60_000), Normal::Written(32 + 11 + 11));
    // a >= sum(max(b, s)): the added variable is 4..4, so that its rule is idle
    let sample = circle(1, sum(vec![max(leaves(&[1, 2]))]));
    assert_eq!(sample[43..], hexadecimal("05 00 09 00 01 01 02 02 00 01 00 02"));
    assert_eq!(
        plain(&sample),
        hexadecimal(
            "01 00 05 01 FF FC 00 04 01 00 05 01 FF FC 00 04 01 00 05 00 00 04 00 04 \
             01 00 05 00 FF FC FF FC 01 00 05 01 00 04 00 04 02 00 08 05 01 00 00 00 00 00 00 \
             02 00 08 01 00 00 00 04 00 00 01 02 00 0C 02 04 00 00 01 00 00 00 02 00 00 00"
        )
    );
    // at the root, a >= max(b, s) is not idle, and a >= min(b, t) is
    assert_eq!(answer(&circle(1, max(leaves(&[1, 2]))), 60_000), refused(13, 32));
    assert!(matches!(answer(&circle(1, min(leaves(&[1, 3]))), 60_000), Normal::Written(_)));
    assert_eq!(answer(&circle(2, min(leaves(&[1, 3]))), 60_000), refused(13, 32));
    assert!(matches!(answer(&circle(2, max(leaves(&[1, 2]))), 60_000), Normal::Written(_)));
    // min(b, t) under a root is -4..-4
    assert!(matches!(answer(&circle(1, sum(vec![min(leaves(&[1, 3]))])), 60_000), Normal::Written(_)));
    // a leaf of the other kind is not kept, and draws no edge
    let other = [variable(1, -4, 4), variable(2, -4, 4)];
    let file = with(&other, &[rule(5, 1, 0, &[(0, 0, 0)]), field(0, &sum(vec![max(vec![leaf(1)])]))]);
    assert_eq!(answer(&file, 60_000), Normal::Written(24 + 11 + 11 + 11));
    // the first rule that offends: |a| also stands in a rule for c, on which nothing rests
    let three = [variable(1, -4, 4), variable(1, -4, 4), variable(1, -4, 4)];
    let sizes =
        [rule(5, 2, 0, &[(0, 0, 0)]), rule(5, 1, 0, &[(0, 0, 0)]), field(0, &min(vec![leaf(1)]))];
    assert_eq!(answer(&with(&three, &sizes), 60_000), refused(13, 35));
    // fields after one another come first: 13 only after all of them
    let mut late = circle(1, leaf(1));
    late.extend([5, 0, 0]);
    assert_eq!(answer(&late, 60_000), refused(18, 49));
}

/// A file whose plain one has so many bytes, of which trees are but few.
fn long(bytes_wanted: usize, knot: bool) -> Vec<u8> {
    let mut list = vec![variable(1, -1, 1); 20];
    let tree = field(0, &sum(vec![max(vec![leaf(1)]), leaf(2)]));
    let terms: Vec<_> = (0..16).map(|v| (v, 0, 1)).collect();
    if knot {
        list.push(rule(5, 3, 1, &[(3, 0, 0)]));
    }
    let taken = |list: &[Field]| bytes(list).len() + 8 + 15 + 11;
    while taken(&list) + 71 + 71 + 28 < bytes_wanted {
        list.push(rule(1, 0, 0, &terms));
    }
    // what is left over four becomes rules of 7 bytes and constraints of 6
    let mut constraints = Vec::new();
    while !(bytes_wanted - taken(&list) - 6 * constraints.len()).is_multiple_of(4) {
        match (bytes_wanted - taken(&list) - 6 * constraints.len()) % 4 {
            2 => constraints.push(constraint(1, -1, &[])),
            _ => list.push(rule(1, 0, 0, &[])),
        }
    }
    let left = bytes_wanted - taken(&list) - 6 * constraints.len();
    let count = left.div_ceil(4 * 71) * 4;
    let groups = (left - 7 * count) / 4;
    for i in 0..count {
        let here = groups / count + usize::from(i < groups % count);
        list.push(rule(1, 1, 0, &terms[..here]));
    }
    list.extend(constraints);
    list.push(tree);
    bytes(&list)
}

#[test]
fn too_long() {
    for (length, due) in [(59_999, true), (60_000, true), (60_001, false), (60_010, false)] {
        let file = long(length, false);
        assert!(file.len() < 60_000);
        let written = if due { Normal::Written(length) } else { refused(17, 0) };
        for buffer in [length, length + 1, 70_000] {
            assert_eq!(answer(&file, buffer), written, "{length} into {buffer}");
        }
        assert_eq!(answer(&file, length - 1), refused(17, 0));
        assert_eq!(answer(&file, file.len()), refused(17, 0));
        // 13 comes first, also where the output would be too long
        assert_eq!(answer(&long(length, true), 70_000), refused(13, 160));
        assert_eq!(answer(&long(length, true), 0), refused(13, 160));
    }
    // 1 is about the nested file, and comes first
    for fill in [0, 5] {
        assert_eq!(answer(&[fill; 60_001], 70_000), refused(1, 0));
    }
    assert_eq!(answer(&[5; 60_000], 70_000), refused(18, 0));
    assert_eq!(answer(&[0; 60_000], 70_000), refused(3, 0));
}

#[test]
fn plain_readers() {
    let refuse = |file: &[u8], number: usize, place: usize| {
        assert_eq!(read(file), Reading::Refused { number, place });
        assert_eq!(least(file, &[0; 10], &mut [0; 99]), Solved::Refused { number, place });
        assert_eq!(check(file, &[0; 10], &mut [0; 99]), Verdict::Refused { number, place });
        assert_eq!(normalize(file, &mut [0; 999]), refused(number, place));
        assert_eq!(begin(file, &mut [0; 99]), Begun::Refused { number, place });
    };
    let file = |rest: &str| hexadecimal(&format!("{FIVE}{RULE}{rest}"));
    refuse(&file("05 00 03 00 00 02"), 3, 47);
    refuse(&file("05 00 00"), 3, 47);
    refuse(&file("05 00 03 00 00"), 2, 47);
    refuse(&file("01 00 05 01 00 00 00 09 05 00 03 00 00 02"), 4, 47);
    // 13 is judged after all fields
    refuse(&circle(1, leaf(1)), 3, 43);
    assert_eq!(
        read(&plain(&file("05 00 03 00 00 02"))),
        Reading::Accepted { variables: 5, rules: 2, constraints: 0 }
    );
}

#[test]
fn plans() {
    // Reach plus the larger of two delays: r in 0..20 founded, g standard in 0..3, d and e
    // founded in 0..9, d >= 2 if g >= 1, e >= d + 1; r >= g + max(d, e).
    let list = [variable(1, 0, 20), variable(0, 0, 3), variable(1, 0, 9), variable(1, 0, 9)];
    let rules = [rule(6, 2, 2, &[(1, 1, 1)]), rule(1, 3, 1, &[(2, 0, 1)])];
    let tree = field(0, &sum(vec![leaf(1), max(leaves(&[2, 3]))]));
    let file = plain(&with(&list, &[&rules[..], &[tree]].concat()));
    let says = |values: &[i64]| {
        let assignment = second::gen::fields::assignment(values);
        check(&file, &assignment, &mut vec![0; 12 * values.len()])
    };
    // g 2: d 2, e 3, the larger is 3, r 5
    assert_eq!(says(&[5, 2, 2, 3, 3]), Verdict::Stable);
    assert_eq!(says(&[1, 0, 0, 1, 1]), Verdict::Stable);
    assert_eq!(says(&[4, 2, 2, 3, 3]), Verdict::Rule(2));
    assert_eq!(says(&[5, 2, 2, 3, 2]), Verdict::Rule(3));
    assert!(matches!(says(&[6, 2, 2, 3, 3]), Verdict::Unfounded(1, _)));
    assert!(matches!(says(&[6, 2, 2, 3, 4]), Verdict::Unfounded(2, _)));
    assert!(matches!(says(&[5, 0, 4, 5, 5]), Verdict::Unfounded(4, _)));
}

#[test]
fn printed() {
    assert_eq!(print_flat(&[]), b"");
    assert_eq!(print_flat(&[0; 60_000]), b"refused 3 0\n");
    assert_eq!(print_flat(&[0; 60_001]), b"refused 1 0\n");
    assert_eq!(print_flat(&hexadecimal("05 00 00")), b"refused 18 0\n");
    assert_eq!(print_flat(&long(60_001, false)), b"refused 17 0\n");
    assert_eq!(print_flat(&long(60_000, false)).len(), 60_000);
    assert_eq!(print_flat(&circle(1, leaf(1))), b"refused 13 32\n");
    let file = hexadecimal(&format!("{FIVE}05 00 03 00 00 02"));
    assert_eq!(print_flat(&file), plain(&file));
}

#[test]
fn led_back() {
    let file = circle(1, sum(vec![max(leaves(&[1, 2]))]));
    assert_eq!(nested_of(&plain(&file), 4, 1), Ok(file.clone()));
    // one rule more of its own is no flattening of that
    assert!(nested_of(&plain(&file), 4, 2).is_err());
    let mut other = plain(&file);
    let last = other.len() - 1;
    other[last] = 1;
    assert!(nested_of(&other, 4, 1).is_err());
}

/// Do the sentences fail on some case when the call has this mistake?
fn noticed(wrong: Wrong, cases: std::ops::Range<u64>) -> bool {
    let call = |file: &[u8], buffer: &mut [u8]| flatten_with(file, buffer, wrong);
    cases.map(case).any(|case| try_case(&brute::OWN, &call, &case, &mut Tally::default()).is_err())
}

#[test]
fn wrong_calls_are_noticed() {
    for &wrong in Wrong::NESTED {
        // look only where the answers differ
        let differs = |seed: &u64| see(&case(*seed), wrong) != see(&case(*seed), Wrong::Nothing);
        let Some(first) = (0..4_000).find(differs) else { panic!("{wrong:?} shows nowhere") };
        assert!(noticed(wrong, first..first + 1), "{wrong:?} is not noticed");
    }
    assert!(!noticed(Wrong::Nothing, 0..400));
}

#[test]
fn wrong_meanings_are_noticed() {
    let fails = |wrong: Wrong, seed: u64| {
        let call = |file: &[u8], buffer: &mut [u8]| flatten_with(file, buffer, wrong);
        brute::try_nested(&brute::OWN, &call, &small(seed), &mut Nests::default()).is_err()
    };
    for wrong in [
        Wrong::RangeFirstChild,
        Wrong::RangeHullMax,
        Wrong::RangeHullMin,
        Wrong::RangeSumAsMax,
        Wrong::RangeWide,
        Wrong::RangeOfHead,
        Wrong::RangeStandardZero,
        Wrong::RangeAboveAtHigh,
        Wrong::AddedKindOne,
        Wrong::AddedStandard,
        Wrong::AddedKindOfLeaf,
        Wrong::FormsExchanged,
        Wrong::RootSum,
        Wrong::LeafRootLeftOut,
        Wrong::OneChildMerged,
        Wrong::RootAdded,
        Wrong::CoefficientZero,
        Wrong::ConstantOne,
        Wrong::NumbersAfterChildren,
        Wrong::NumbersTreesBackwards,
        Wrong::RulesTreesBackwards,
        Wrong::RulesRootLast,
        Wrong::VariablesBeforeOld,
        Wrong::ConstraintsBeforeNew,
        Wrong::ThirteenInPlain,
        Wrong::ThirteenWholeTrees,
        Wrong::ThirteenWithoutTrees,
        Wrong::ThirteenNewNeverIdle,
        Wrong::ThirteenAllLeaves,
        Wrong::ThirteenNever,
        Wrong::TreeHeadTwoRefused,
        Wrong::TreeStandardLeaf,
        Wrong::ElevenHead,
        Wrong::FlatAnswersInput,
    ] {
        assert!((0..1_000).any(|seed| fails(wrong, seed)), "{wrong:?} is not noticed");
    }
    assert!(!(0..300).any(|seed| fails(Wrong::Nothing, seed)));
}
