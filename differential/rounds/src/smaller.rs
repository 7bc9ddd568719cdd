//! The smallest case that still differs.

/// How many of the first cases it takes for one to differ; all of them do.
pub fn first_differing(count: u64, mut differs: impl FnMut(u64) -> bool) -> u64 {
    let (mut below, mut enough) = (0, count);
    while enough - below > 1 {
        let middle = below + (enough - below) / 2;
        if differs(middle) {
            enough = middle;
        } else {
            below = middle;
        }
    }
    enough
}

/// Places of which none can be left out, out of the first `count`, which differ: runs of them are left
/// out while what stays differs, halves of them first, then shorter runs, one by one in the end.
pub fn fewest(count: usize, mut differs: impl FnMut(&[usize]) -> bool) -> Vec<usize> {
    let mut kept: Vec<usize> = (0..count).collect();
    let mut run = count.div_ceil(2).max(1);
    loop {
        let before = kept.len();
        let mut from = 0;
        while from < kept.len() {
            let end = kept.len().min(from + run);
            let without = [&kept[..from], &kept[end..]].concat();
            if differs(&without) {
                kept = without;
            } else {
                from = end;
            }
        }
        match run {
            1 if kept.len() == before => return kept,
            1 => {}
            _ => run = run.div_ceil(2),
        }
    }
}

#[cfg(test)]
mod tests {
    use super::*;

    #[test]
    fn the_first_that_differs_is_found() {
        for first in 1..=40 {
            assert_eq!(first_differing(40, |count| count >= first), first);
        }
    }

    #[test]
    fn what_is_not_needed_is_left_out() {
        let needs = |needed: &[usize]| {
            let needed = needed.to_vec();
            move |kept: &[usize]| needed.iter().all(|place| kept.contains(place))
        };
        assert_eq!(fewest(60, needs(&[3, 17, 59])), [3, 17, 59]);
        assert_eq!(fewest(1, needs(&[0])), [0]);
        assert_eq!(fewest(9, needs(&[])), [0usize; 0]);
    }

    #[test]
    fn what_differs_only_together_stays() {
        let pair = |kept: &[usize]| kept.contains(&2) && kept.contains(&5);
        assert_eq!(fewest(8, pair), [2, 5]);
        let even = |kept: &[usize]| kept.len() % 2 == 0 && kept.contains(&7);
        assert_eq!(fewest(8, even).len(), 2);
    }
}
