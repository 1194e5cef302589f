//! What a key is used for, by name and by number.

/// A usage of RFC 4757, section 3: a message and a checksum are made for one.
///
/// The message type T that the octets depend on is the usage's number, but
/// usages 3 and 9 have T = 8, as usage 8 has: each of the three opens the
/// others' messages and passes the others' checksums. MIT krb5 and Heimdal have
/// T = 9 for usage 9; here the RFC's list decides.
///
/// ```
/// use rc4hmac::Usage;
///
/// assert_eq!(Usage::KRB_SAFE_CKSUM.number(), 15);
/// assert_eq!(Usage::new(15), Some(Usage::KRB_SAFE_CKSUM));
/// assert_eq!(Usage::new(0), None);
/// assert_eq!(Usage::new(16), None);
/// ```
#[derive(Clone, Copy, Debug, PartialEq, Eq, PartialOrd, Ord, Hash)]
pub struct Usage(u32);

impl Usage {
    /// AS-REQ PA-ENC-TIMESTAMP padata timestamp, under the client key.
    pub const AS_REQ_PA_ENC_TIMESTAMP: Usage = Usage(1);
    /// AS-REP Ticket and TGS-REP Ticket, under the service key.
    pub const AS_REP_TGS_REP_TICKET: Usage = Usage(2);
    /// AS-REP encrypted part, under the client key.
    pub const AS_REP_ENCRYPTED_PART: Usage = Usage(3);
    /// TGS-REQ KDC-REQ-BODY AuthorizationData, under the TGS session key.
    pub const TGS_REQ_AUTHORIZATION_DATA_SESSION_KEY: Usage = Usage(4);
    /// TGS-REQ KDC-REQ-BODY AuthorizationData, under the TGS authenticator
    /// subkey.
    pub const TGS_REQ_AUTHORIZATION_DATA_SUBKEY: Usage = Usage(5);
    /// TGS-REQ PA-TGS-REQ padata AP-REQ Authenticator cksum, under the TGS
    /// session key.
    pub const TGS_REQ_AUTHENTICATOR_CKSUM: Usage = Usage(6);
    /// TGS-REQ PA-TGS-REQ padata AP-REQ Authenticator, under the TGS session
    /// key.
    pub const TGS_REQ_AUTHENTICATOR: Usage = Usage(7);
    /// TGS-REP encrypted part, under the TGS session key.
    pub const TGS_REP_ENCRYPTED_PART_SESSION_KEY: Usage = Usage(8);
    /// TGS-REP encrypted part, under the TGS authenticator subkey.
    pub const TGS_REP_ENCRYPTED_PART_SUBKEY: Usage = Usage(9);
    /// AP-REQ Authenticator cksum, under the application session key.
    pub const AP_REQ_AUTHENTICATOR_CKSUM: Usage = Usage(10);
    /// AP-REQ Authenticator, under the application session key.
    pub const AP_REQ_AUTHENTICATOR: Usage = Usage(11);
    /// AP-REP encrypted part, under the application session key.
    pub const AP_REP_ENCRYPTED_PART: Usage = Usage(12);
    /// KRB-PRIV encrypted part, under a key chosen by the application.
    pub const KRB_PRIV_ENCRYPTED_PART: Usage = Usage(13);
    /// KRB-CRED encrypted part, under a key chosen by the application.
    pub const KRB_CRED_ENCRYPTED_PART: Usage = Usage(14);
    /// KRB-SAFE cksum, under a key chosen by the application.
    pub const KRB_SAFE_CKSUM: Usage = Usage(15);

    /// The usage with this number, 1 to 15; there is no other.
    pub const fn new(number: u32) -> Option<Usage> {
        match number {
            1..=15 => Some(Usage(number)),
            _ => None,
        }
    }

    /// The number of this usage in the C interface.
    pub const fn number(self) -> u32 {
        self.0
    }
}
