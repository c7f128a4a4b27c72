//! A shard's queue on a board.

use std::collections::VecDeque;

/// A first-in first-out queue of log numbers, and the last number taken from it.
///
/// At every moment it is exactly the log numbers touching the shard that are above the last
/// taken one, rising. (The figure in 004 says: the PRE entries. That is false when answers
/// arrive out of order.)
#[derive(Clone, Debug, Default, PartialEq, Eq)]
pub struct Queue {
    pub(crate) numbers: VecDeque<u8>,
    pub(crate) last_taken: Option<u8>,
}

impl Queue {
    /// Queues a log number; it is above all that are queued or taken.
    pub fn append(&mut self, log_number: u8) {
        self.numbers.push_back(log_number);
    }

    /// Takes up to `log_number`: from the front until it itself has been taken, unless it was
    /// taken before. Yields how many were taken.
    pub fn take_up_to(&mut self, log_number: u8) -> usize {
        if self.last_taken.is_some_and(|last| last >= log_number) {
            return 0;
        }
        let mut taken = 0;
        while let Some(front) = self.numbers.pop_front() {
            self.last_taken = Some(front);
            taken += 1;
            if front == log_number {
                break;
            }
        }
        taken
    }

    /// The queued log numbers, from the front.
    pub fn numbers(&self) -> impl Iterator<Item = u8> + '_ {
        self.numbers.iter().copied()
    }

    /// The last number taken, if any was.
    pub fn last_taken(&self) -> Option<u8> {
        self.last_taken
    }
}

#[cfg(test)]
mod tests {
    use super::*;

    fn queue(numbers: impl IntoIterator<Item = u8>) -> Queue {
        let mut queue = Queue::default();
        for number in numbers {
            queue.append(number);
        }
        queue
    }

    #[test]
    fn takes_until_the_number_itself() {
        let mut queue = queue([0, 3, 4, 9]);
        assert_eq!(queue.take_up_to(4), 3);
        assert!(queue.numbers().eq([9]));
        assert_eq!(queue.last_taken(), Some(4));
    }

    #[test]
    fn takes_nothing_at_or_below_the_last_taken() {
        let mut queue = queue([0, 3, 4, 9]);
        queue.take_up_to(4);
        for number in [0, 3, 4] {
            assert_eq!(queue.take_up_to(number), 0);
            assert!(queue.numbers().eq([9]));
            assert_eq!(queue.last_taken(), Some(4));
        }
        assert_eq!(queue.take_up_to(9), 1);
    }

    #[test]
    fn holds_256_numbers() {
        let mut queue = queue(0..=255);
        assert_eq!(queue.take_up_to(0), 1);
        assert_eq!(queue.take_up_to(255), 255);
        assert!(queue.numbers().eq([]));
    }
}
