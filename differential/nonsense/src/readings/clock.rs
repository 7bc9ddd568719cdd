//! The clock of a day, over its words: how many earlier marks are kept, the newest mark, the earlier
//! ones. A mark is a second and one, and 0 where there is none.

const WORDS: usize = 66;
const MOST_KEPT: u64 = 64;

/// A mark before the others, the last of which is lost; words behind the clock stay.
fn push(words: &mut [u64], mark: u64) {
    let kept = words[0].min(MOST_KEPT) + 1;
    words[0] = kept.min(MOST_KEPT);
    words[1..WORDS].rotate_right(1);
    words[1] = mark;
}

/// A plan of this second: by how many seconds the clock went back.
pub fn passed(words: &mut [u64], second: u64) -> u64 {
    if words.len() < WORDS {
        return 0;
    }
    let back = words[1].saturating_sub(1).saturating_sub(second);
    push(words, second.saturating_add(1));
    back
}

/// Another change: the newest mark once more.
pub fn changed(words: &mut [u64]) {
    if words.len() >= WORDS {
        push(words, words[1]);
    }
}

/// The newest change is gone, where one before it is kept.
pub fn taken_back(words: &mut [u64]) {
    if words.len() < WORDS || words[0] == 0 {
        return;
    }
    words[0] = words[0].min(MOST_KEPT) - 1;
    words[1..WORDS].rotate_left(1);
    words[WORDS - 1] = 0;
}

#[cfg(test)]
mod tests {
    use super::*;

    #[test]
    fn what_is_passed_is_taken_back() {
        let mut words = vec![0; WORDS + 1];
        words[WORDS] = 9;
        assert_eq!(passed(&mut words, 7), 0);
        assert_eq!(passed(&mut words, 5), 2);
        assert_eq!(words[..4], [2, 6, 8, 0]);
        changed(&mut words);
        assert_eq!(words[..4], [3, 6, 6, 8]);
        taken_back(&mut words);
        taken_back(&mut words);
        assert_eq!((words[0], words[1], words[WORDS]), (1, 8, 9));
    }

    #[test]
    fn the_count_of_any_content_is_at_most_64() {
        let mut words = vec![u64::MAX; WORDS];
        taken_back(&mut words);
        assert_eq!((words[0], words[1], words[WORDS - 1]), (63, u64::MAX, 0));
        assert_eq!(passed(&mut words, u64::MAX), 0);
        assert_eq!((words[0], words[1]), (64, u64::MAX));
    }
}
