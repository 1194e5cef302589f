//! The two strengths of encryption.

/// How strong the key is that a message or a token is encrypted under.
#[derive(Clone, Copy, Debug, PartialEq, Eq, Hash)]
pub enum Strength {
    /// RC4-HMAC, encryption type 23: all 16 octets of the derived key.
    Full,
    /// RC4-HMAC-EXP, encryption type 24: 7 octets of it, the others fixed.
    Export,
}

impl Strength {
    /// The argument `export_strength` of the C interface.
    pub(crate) fn export(self) -> u32 {
        match self {
            Strength::Full => 0,
            Strength::Export => 1,
        }
    }
}
