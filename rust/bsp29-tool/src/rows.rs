//! Visibility rows, as far as the library's lists of leaves do not say: how many bytes a row has, and how
//! many leaves it tells of before the data ends. A byte that is not zero stands for eight leaves, from
//! leaf 1 on, a zero byte and its follower n for 8 n.

/// How many leaves a row that begins at each position tells of, from there to the end of the data. The
/// last entry is that of the end itself, where there is nothing more. One pass from the end on, so that
/// rows that share bytes cost no more.
pub fn told_from(data: &[u8]) -> Vec<usize> {
    let mut told = vec![0_usize; data.len() + 1];
    for at in (0..data.len()).rev() {
        told[at] = match (data[at], data.get(at + 1)) {
            (0, Some(run)) => 8 * usize::from(*run) + told[at + 2],
            (0, None) => 0,
            _ => 8 + told[at + 1],
        };
    }
    told
}

/// The bytes of the row that begins at an offset, up to the one that tells of the last leaf.
pub fn length(data: &[u8], offset: usize, leaf_count: usize) -> usize {
    let (mut at, mut told) = (offset, 0_usize);
    while told + 1 < leaf_count {
        match (data.get(at), data.get(at.saturating_add(1))) {
            (Some(0), Some(run)) => {
                told += 8 * usize::from(*run);
                at += 2;
            }
            (Some(0), None) | (None, _) => break,
            (Some(_), _) => {
                told += 8;
                at += 1;
            }
        }
    }
    at - offset
}

#[cfg(test)]
mod tests {
    use super::*;

    #[test]
    fn rows_tell_of_leaves_until_the_data_ends() {
        assert_eq!(told_from(&[5, 1, 7]), [24, 16, 8, 0]);
        assert_eq!(told_from(&[0, 3, 1, 0]), [32, 16, 8, 0, 0]);
        assert_eq!(told_from(&[0, 0]), [0, 0, 0]);
        assert_eq!(told_from(&[]), [0]);
    }

    #[test]
    fn a_row_ends_where_its_leaves_do() {
        assert_eq!(length(&[5, 1, 7], 0, 10), 2);
        assert_eq!(length(&[128], 0, 2), 1);
        assert_eq!(length(&[0], 0, 2), 0);
        assert_eq!(length(&[0, 3, 1], 0, 40), 3);
        assert_eq!(length(&[1], 1, 2), 0);
        assert_eq!(length(&[], usize::MAX, 9), 0);
    }
}
