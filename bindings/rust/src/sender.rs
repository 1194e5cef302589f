//! The two senders of a context.

/// Who wrote a token: the side that set up the context, or the side that took
/// it up. The direction octets are those of RFC 1964, as tokens are sent; the
/// steps in RFC 4757 print them the other way round.
#[derive(Clone, Copy, Debug, PartialEq, Eq, Hash)]
pub enum Sender {
    /// The initiator: direction octets 00 00 00 00.
    Initiator,
    /// The acceptor: direction octets ff ff ff ff.
    Acceptor,
}

impl Sender {
    /// The argument `acceptor` of the C interface.
    pub(crate) fn acceptor(self) -> u32 {
        match self {
            Sender::Initiator => 0,
            Sender::Acceptor => 1,
        }
    }
}
