//! The log of a kiosk as sets of messages: each round's proposal, and who
//! voted what in each round.

use std::collections::{BTreeMap, BTreeSet};

/// The name that means nil.
pub const NIL: u64 = 0;

#[derive(Clone, Copy, PartialEq, Eq, PartialOrd, Ord, Debug)]
pub enum Vote {
    Prevote,
    Precommit,
}

/// A proposal as heard; its sender is the proposer of its round.
#[derive(Clone, Copy, PartialEq, Eq, Debug)]
pub struct Proposal {
    pub name: u64,
    /// 003's vr, none for -1.
    pub valid: Option<u8>,
    /// What the state says of it: never 0.
    pub heard: u32,
}

/// What is said of a proposal with verdict 0, and of one with verdict 1.
pub const HEARD_BAD: u32 = 1;
pub const HEARD_GOOD: u32 = 2;

impl Proposal {
    /// The sheet checker's verdict, 003's valid(v): a number that is not the
    /// bad one's is a good one's.
    pub fn good(&self) -> bool {
        self.heard != HEARD_BAD
    }
}

/// "The first proposal of a round is kept, and the first vote of each sender,
/// round and type": one place for each, so no set holds a sender twice.
#[derive(Clone, Default, PartialEq, Eq, Debug)]
pub struct Log {
    pub proposals: BTreeMap<u8, Proposal>,
    pub votes: BTreeMap<(Vote, u8), BTreeMap<usize, u64>>,
}

impl Log {
    pub fn proposal(&self, round: u8) -> Option<Proposal> {
        self.proposals.get(&round).copied()
    }

    pub fn vote(&self, vote: Vote, round: u8, sender: usize) -> Option<u64> {
        self.votes.get(&(vote, round))?.get(&sender).copied()
    }

    pub fn keep_proposal(&mut self, round: u8, proposal: Proposal) {
        self.proposals.insert(round, proposal);
    }

    pub fn keep_vote(&mut self, vote: Vote, round: u8, sender: usize, name: u64) {
        let place = self.votes.entry((vote, round)).or_default();
        place.insert(sender, name);
    }

    /// The senders of a vote of this type and round, for anything: 003's `*`.
    pub fn voters(&self, vote: Vote, round: u8) -> BTreeSet<usize> {
        match self.votes.get(&(vote, round)) {
            Some(said) => said.keys().copied().collect(),
            None => BTreeSet::new(),
        }
    }

    /// The senders of a vote of this type and round for this name.
    pub fn voters_for(&self, vote: Vote, round: u8, name: u64) -> BTreeSet<usize> {
        match self.votes.get(&(vote, round)) {
            Some(said) => said
                .iter()
                .filter(|&(_, &voted)| voted == name)
                .map(|(&sender, _)| sender)
                .collect(),
            None => BTreeSet::new(),
        }
    }

    /// Everyone heard in a round: "a sender's proposal, prevote and precommit
    /// count once together".
    pub fn senders(&self, round: u8, proposer: usize) -> BTreeSet<usize> {
        let mut senders = self.voters(Vote::Prevote, round);
        senders.extend(self.voters(Vote::Precommit, round));
        if self.proposals.contains_key(&round) {
            senders.insert(proposer);
        }
        senders
    }

    /// The rounds after this one in which anything is heard, each once.
    pub fn rounds_after(&self, round: u8) -> BTreeSet<u8> {
        let proposed = self.proposals.keys().copied();
        let voted = self.votes.keys().map(|&(_, r)| r);
        proposed.chain(voted).filter(|&r| r > round).collect()
    }
}
