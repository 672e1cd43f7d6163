//! The numbers that calls answer.
use crate::refusal::Refusal;
use crate::types::{ScalarId, joined};

/// The original's own None.
const NONE: u64 = u64::MAX;

/// A number that is no refusal.
pub(crate) fn granted(answer: u64) -> Result<u64, Refusal> {
    match Refusal::of(answer) {
        Some(refusal) => Err(refusal),
        None => Ok(answer),
    }
}

pub(crate) fn id(answer: u64) -> Result<ScalarId, Refusal> {
    granted(answer).map(|id| id as ScalarId)
}

pub(crate) fn id_or_none(answer: u64) -> Result<Option<ScalarId>, Refusal> {
    let answer = granted(answer)?;
    Ok((answer != NONE).then_some(answer as ScalarId))
}

/// The words that a call has written, if it has.
pub(crate) fn words_or_none<const N: usize>(
    (answer, words): (u64, [u64; N]),
) -> Result<Option<[u64; N]>, Refusal> {
    let answer = granted(answer)?;
    Ok((answer != NONE).then_some(words))
}

pub(crate) fn value_or_none(written: (u64, [u64; 2])) -> Result<Option<u128>, Refusal> {
    Ok(words_or_none(written)?.map(|[low, high]| joined(low, high)))
}

/// What the original's shape has room for.
#[track_caller]
pub(crate) fn expected<T>(answer: Result<T, Refusal>) -> T {
    match answer {
        Ok(value) => value,
        Err(refusal) => panic!("{refusal}"),
    }
}
