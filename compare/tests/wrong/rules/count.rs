//! Labels taken off once more, with room for mistakes in counting them. Names are in wire form.

use super::mistake::Mistake;

/// One look of a climb.
pub struct Look<'a> {
    pub at: &'a [u8],
    /// Where aliases led, where they led anywhere.
    pub target: Option<&'a [u8]>,
    pub aliases: usize,
}

/// Labels taken off X up to the last look of its climb.
pub fn labels_taken_off(x: &[u8], looks: &[Look], wildcard: bool) -> usize {
    let Some((last, before)) = looks.split_last() else {
        return 0;
    };
    let up = before.len();
    if Mistake::OneLabelTooManyIsCounted.is_made()
        || Mistake::OneLabelTooManyIsCountedAboveX.is_made() && up > 0
        || Mistake::StarIsCounted.is_made() && wildcard
        || Mistake::StarAtXIsCounted.is_made() && wildcard && up == 0
    {
        up + 1
    } else if Mistake::OneLabelTooFewIsCounted.is_made() {
        up.saturating_sub(1)
    } else if Mistake::LabelsLeftAreTold.is_made() {
        labels(last.at)
    } else if Mistake::OctetsTakenOffAreTold.is_made() {
        x.len() - last.at.len()
    } else if Mistake::AliasesAreCounted.is_made() {
        up + last.aliases
    } else if Mistake::LooksAlongAliasesAreNotCounted.is_made() {
        before.iter().filter(|look| look.aliases == 0).count()
    } else {
        match last.target {
            Some(target) if Mistake::LabelsOfTheTargetAreTold.is_made() => labels(target),
            Some(target) if Mistake::LabelsUpToTheTargetAreTold.is_made() => {
                labels(x).saturating_sub(labels(target))
            }
            _ => up,
        }
    }
}

/// What is told for a name, by its own labels taken off and those of the names before it.
pub fn told(taken_off: usize, before: &[usize]) -> usize {
    if Mistake::LabelsAreCountedFromNameToName.is_made() {
        return before.iter().sum::<usize>() + taken_off;
    }
    let other = if Mistake::LabelsOfTheFirstNameAreTold.is_made() {
        before.first()
    } else if Mistake::LabelsOfTheNameBeforeAreTold.is_made() {
        before.last()
    } else {
        None
    };
    other.copied().unwrap_or(taken_off)
}

fn labels(name: &[u8]) -> usize {
    let mut rest = name;
    let mut labels = 0;
    while let [length @ 1..=63, behind @ ..] = rest {
        rest = &behind[usize::from(*length)..];
        labels += 1;
    }
    labels
}
