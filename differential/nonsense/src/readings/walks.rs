//! The walk through candidate widths, on any list.

/// The place of the first candidate that is so large or larger: the length where there is none.
fn first_at_least(candidates: &[u32], width: u32) -> usize {
    let smaller = candidates
        .iter()
        .take_while(|&&candidate| candidate < width);
    smaller.count()
}

/// From the held width's place, or the next larger candidate's, or the last, toward the target's
/// place, which a target that is not there does not have.
pub fn walked(candidates: &[u32], width: u32, target: u32, max_step: Option<u32>) -> u32 {
    let Some(last) = candidates.len().checked_sub(1) else {
        return width;
    };
    let start = first_at_least(candidates, width).min(last);
    let asked = first_at_least(candidates, target);
    let end = match candidates.get(asked) {
        Some(&candidate) if candidate == target => asked,
        _ => start,
    };
    let most = max_step.map_or(usize::MAX, |step| step as usize);
    let steps = start.abs_diff(end).min(most);
    let place = if start < end {
        start + steps
    } else {
        start - steps
    };
    candidates[place]
}

#[cfg(test)]
mod tests {
    use super::walked;

    #[test]
    fn the_rules_examples_and_lists_that_do_not_ascend() {
        let candidates = [0, 2, 4, 6];
        assert_eq!(walked(&candidates, 3, 5, None), 4);
        assert_eq!(walked(&candidates, 9, 9, None), 6);
        assert_eq!(walked(&candidates, 6, 0, Some(1)), 4);
        // 7 stands before 5: the target 5 is not met where it is looked for
        assert_eq!(walked(&[7, 5], 8, 5, None), 5);
        assert_eq!(walked(&[7, 5], 1, 5, None), 7);
    }
}
