//! Lists that are lent to be written.

use std::fmt::Debug;

/// How many elements lie before and behind a lent list.
const GUARD: usize = 64;

/// A list with a pattern around it, which no call may touch.
pub struct Lent<T> {
    memory: Vec<T>,
    pattern: T,
}

impl<T: Copy + PartialEq + Debug> Lent<T> {
    /// A list that holds these elements.
    pub fn new(list: &[T], pattern: T) -> Lent<T> {
        let guard = [pattern; GUARD];
        Lent {
            memory: [&guard, list, &guard].concat(),
            pattern,
        }
    }

    /// The list.
    pub fn list(&mut self) -> &mut [T] {
        let end = self.memory.len() - GUARD;
        &mut self.memory[GUARD..end]
    }

    /// Whether the list is the expected one and nothing around it has changed,
    /// else the first difference.
    pub fn holds(&self, expected: &[T]) -> Result<(), String> {
        let (before, rest) = self.memory.split_at(GUARD);
        let (list, behind) = rest.split_at(rest.len() - GUARD);
        let untouched = |guard: &[T]| guard.iter().all(|element| *element == self.pattern);
        if !untouched(before) || !untouched(behind) {
            return Err("got:      memory OUTSIDE of the list is written".to_string());
        }
        if list == expected {
            return Ok(());
        }
        let at = list.iter().zip(expected).position(|(a, b)| a != b);
        let at = at.unwrap_or(list.len().min(expected.len()));
        Err(format!(
            "expected: {:?} at {at}\ngot:      {:?}",
            expected.get(at),
            list.get(at)
        ))
    }
}

#[cfg(test)]
mod tests {
    use super::*;

    #[test]
    fn differences_are_found() {
        let mut lent = Lent::new(&[1, 2, 3], 9);
        assert_eq!(lent.holds(&[1, 2, 3]), Ok(()));
        assert!(lent.holds(&[1, 2, 4]).is_err());
        assert!(lent.holds(&[1, 2]).is_err());
        lent.list()[1] = 7;
        assert_eq!(lent.holds(&[1, 7, 3]), Ok(()));
        lent.memory[GUARD - 1] = 8;
        assert!(lent.holds(&[1, 7, 3]).is_err());
    }
}
