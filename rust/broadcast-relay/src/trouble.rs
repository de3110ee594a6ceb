//! What is counted and to be noticed: when it begins, and when it is over.

use crate::gossip::{SECOND, Time};

/// How much of it there was, and when that grew last, until it has not grown for a while.
#[derive(Debug, Default)]
pub struct Trouble {
    count: u64,
    grew: Option<Time>,
}

impl Trouble {
    /// How long nothing more has happened once it is over.
    const OVER: Time = 10 * SECOND;

    /// Notes a count. Returns whether it begins (`true`) or is over (`false`), if it does.
    pub fn note(&mut self, now: Time, count: u64) -> Option<bool> {
        if count > self.count {
            self.count = count;
            return self.grew.replace(now).is_none().then_some(true);
        }
        let is_over = self.grew.is_some_and(|it| now >= it + Self::OVER);
        is_over.then(|| {
            self.grew = None;
            false
        })
    }
}

#[cfg(test)]
mod tests {
    use super::*;

    #[test]
    fn what_goes_on_is_noticed_once_at_its_begin_and_at_its_end() {
        let mut trouble = Trouble::default();
        let counts = [(0, 0), (1, 3), (2, 4), (11, 4), (12, 4), (13, 4), (14, 5), (24, 5)];
        let noticed = counts.map(|(at, count)| trouble.note(at * SECOND, count));
        let (begins, ends) = (Some(true), Some(false));
        assert_eq!(noticed, [None, begins, None, None, ends, None, begins, ends]);
    }
}
