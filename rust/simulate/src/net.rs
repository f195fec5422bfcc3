//! The net: each message comes never, once or several times, sooner or later.
use chance::Chance;
use std::collections::BTreeSet;

/// Copies under way, and how often each message has arrived.
#[derive(Clone, Debug, Default)]
pub struct Net {
    /// When a copy arrives, which one it is, and its message.
    under_way: BTreeSet<(usize, usize, usize)>,
    copies: usize,
    /// How often each message has arrived.
    arrivals: Vec<usize>,
    /// How many arrived before one that was sent earlier.
    overtaken: usize,
    /// The latest message that has arrived.
    latest: Option<usize>,
}

/// What became of the messages.
#[derive(Clone, Copy, Debug, PartialEq, Eq)]
pub struct Tally {
    /// How many were sent.
    pub sent: usize,
    /// How many never arrived and never will.
    pub lost: usize,
    /// How many are still to arrive for the first time.
    pub under_way: usize,
    /// How many arrived more than once.
    pub repeated: usize,
    /// How often a message arrived after one that was sent later.
    pub overtaken: usize,
}

impl Net {
    /// Takes what was sent up to now: each new message gets its copies and their delays.
    pub fn carry(&mut self, sent: usize, now: usize, chance: &mut Chance) {
        for message in self.arrivals.len()..sent {
            self.arrivals.push(0);
            for _ in 0..chance.pick(&[0, 1, 1, 1, 1, 1, 1, 2, 2, 3]) {
                let delay = chance.pick(&[1, 1, 1, 2, 3, 5, 10, 40, 200]);
                self.under_way.insert((now + chance.below(2 * delay), self.copies, message));
                self.copies += 1;
            }
        }
    }

    /// A message that arrives now, if one is due.
    pub fn due(&self, now: usize) -> Option<usize> {
        self.under_way.first().filter(|copy| copy.0 <= now).map(|copy| copy.2)
    }

    /// Notes that a message arrives, by its copy that was due or once more.
    pub fn arrived(&mut self, message: usize) {
        if self.under_way.first().is_some_and(|copy| copy.2 == message) {
            self.under_way.pop_first();
        }
        self.overtaken += usize::from(self.latest > Some(message));
        self.latest = self.latest.max(Some(message));
        self.arrivals[message] += 1;
    }

    /// What became of the messages so far.
    pub fn tally(&self) -> Tally {
        let coming: BTreeSet<usize> = self.under_way.iter().map(|copy| copy.2).collect();
        let never = |message: &usize| self.arrivals[*message] == 0;
        let absent = (0..self.arrivals.len()).filter(never).count();
        let under_way = coming.into_iter().filter(never).count();
        Tally {
            sent: self.arrivals.len(),
            lost: absent - under_way,
            under_way,
            repeated: self.arrivals.iter().filter(|&&times| times > 1).count(),
            overtaken: self.overtaken,
        }
    }
}

#[cfg(test)]
mod tests {
    use super::*;

    #[test]
    fn messages_are_lost_repeated_and_overtaken() {
        let (mut net, mut chance) = (Net::default(), Chance::new(1));
        for now in 0..2000 {
            net.carry(now / 4, now, &mut chance);
            if let Some(message) = net.due(now) {
                net.arrived(message);
            }
        }
        let tally = net.tally();
        assert_eq!(tally.sent, 499);
        assert!(tally.lost > 0 && tally.repeated > 0 && tally.overtaken > 0, "{tally:?}");
    }

    #[test]
    fn a_message_that_comes_again_is_repeated() {
        let mut net = Net { arrivals: vec![0, 0], ..Net::default() };
        assert_eq!(net.tally().lost, 2);
        net.arrived(1);
        net.arrived(1);
        net.arrived(0);
        assert_eq!(net.tally(), Tally { sent: 2, lost: 0, under_way: 0, repeated: 1, overtaken: 1 });
    }
}
