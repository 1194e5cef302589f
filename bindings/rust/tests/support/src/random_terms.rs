//! Terms of every kind under keys at random, and Wrap tokens with contents at
//! random, on the types of the reference implementation.

use reference::{Terms, TokenTerms, Wrap, USAGES};

use crate::Inputs;

pub trait AllTerms {
    type All;

    /// The terms of every kind, each under a key of its own.
    fn all(inputs: &mut Inputs) -> Self::All;
}

/// Both strengths with every usage.
impl AllTerms for Terms {
    type All = Vec<Terms>;

    fn all(inputs: &mut Inputs) -> Vec<Terms> {
        [false, true]
            .into_iter()
            .flat_map(|export| USAGES.map(move |usage| (export, usage)))
            .map(|(export, usage)| Terms {
                key: inputs.array(),
                export,
                usage,
            })
            .collect()
    }
}

/// Both strengths with both senders.
impl AllTerms for TokenTerms {
    type All = [TokenTerms; 4];

    fn all(inputs: &mut Inputs) -> [TokenTerms; 4] {
        [(false, false), (false, true), (true, false), (true, true)].map(|(export, acceptor)| {
            TokenTerms {
                key: inputs.array(),
                export,
                acceptor,
            }
        })
    }
}

pub trait RandomWrap {
    /// A message of this length, a confounder and a number, all at random.
    fn new(inputs: &mut Inputs, sealed: bool, len: usize) -> Self;
}

impl RandomWrap for Wrap {
    fn new(inputs: &mut Inputs, sealed: bool, len: usize) -> Wrap {
        Wrap {
            sequence: inputs.sequence(),
            confounder: inputs.array(),
            sealed,
            message: inputs.octets(len),
        }
    }
}
