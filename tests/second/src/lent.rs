//! Buffers lent from the middle of larger ones.

/// How many elements stand on each side.
const GUARD: usize = 64;

/// Makes a call with a buffer that holds these elements and stands between
/// others. Answers its elements too, or nothing where one around it has changed.
pub fn lend_from<T: Copy + PartialEq, A>(
    around: T,
    before: &[T],
    call: impl FnOnce(&mut [T]) -> A,
) -> (A, Option<Vec<T>>) {
    let mut room = [&[around; GUARD], before, &[around; GUARD]].concat();
    let lent = GUARD..GUARD + before.len();
    let answer = call(&mut room[lent.clone()]);
    let kept = room[..lent.start].iter().chain(&room[lent.end..]).all(|&x| x == around);
    (answer, kept.then(|| room[lent].to_vec()))
}
