//! Tokens computed by other programs, not published: RC4 by OpenSSL, MD5 and
//! HMAC by Python's standard library. They follow RFC 4757, section 7, with 13
//! in the checksum of a Wrap token, the direction octets of RFC 1964, and nine
//! octets AB in the keys of export strength.
//!
//! The key is the octets 00 to 0f, the confounder c0 to c7 and the sequence
//! number 16,909,060 if none is given.

/// Export strength or not, from the acceptor or not, and the octets: a MIC of
/// "kiln" and one of no data.
pub const MICS: [(bool, bool, &str, &str); 4] = [
    (
        false,
        false,
        "01011100ffffffffccee6e73111f3043469910ab927eb022",
        "01011100fffffffffd3915a83134d23aad9c533fed790c46",
    ),
    (
        false,
        true,
        "01011100ffffffffccee6e73eee0cfbc469910ab927eb022",
        "01011100fffffffffd3915a8cecb2dc5ad9c533fed790c46",
    ),
    (
        true,
        false,
        "01011100ffffffff6befa4e7fad42a4b469910ab927eb022",
        "01011100fffffffffad962bc96e02e84ad9c533fed790c46",
    ),
    (
        true,
        true,
        "01011100ffffffff6befa4e7052bd5b4469910ab927eb022",
        "01011100fffffffffad962bc691fd17bad9c533fed790c46",
    ),
];

/// Export strength or not, from the acceptor or not, sealed or not, and the
/// token of "kiln".
pub const WRAPS: [(bool, bool, bool, &str); 8] = [
    (
        false,
        false,
        false,
        "02011100ffffffff7cbcb12fa338e5707b7618f6976446a5c0c1c2c3c4c5c6c76b696c6e01",
    ),
    (
        false,
        false,
        true,
        "020111001000ffff7bc94f020281ec14a2e3662a8764415c83e724de78fa9ecd4472189b8f",
    ),
    (
        false,
        true,
        false,
        "02011100ffffffff7cbcb12f5cc71a8f7b7618f6976446a5c0c1c2c3c4c5c6c76b696c6e01",
    ),
    (
        false,
        true,
        true,
        "020111001000ffff7bc94f02fd7e13eba2e3662a8764415c83e724de78fa9ecd4472189b8f",
    ),
    (
        true,
        false,
        false,
        "02011100ffffffff7e0e7773bef03a347b7618f6976446a5c0c1c2c3c4c5c6c76b696c6e01",
    ),
    (
        true,
        false,
        true,
        "020111001000ffff6b62aab3f6f374b8a2e3662a8764415c787b52c3ca7a6e7f5c61288518",
    ),
    (
        true,
        true,
        false,
        "02011100ffffffff7e0e7773410fc5cb7b7618f6976446a5c0c1c2c3c4c5c6c76b696c6e01",
    ),
    (
        true,
        true,
        true,
        "020111001000ffff6b62aab3090c8b47a2e3662a8764415c787b52c3ca7a6e7f5c61288518",
    ),
];

/// The same with no message.
pub const EMPTY_WRAPS: [(bool, bool, bool, &str); 8] = [
    (
        false,
        false,
        false,
        "02011100ffffffff7607d52415d5e33c5a50127b36a87e35c0c1c2c3c4c5c6c701",
    ),
    (
        false,
        false,
        true,
        "020111001000ffff6a3b718b0b441aff8789b0dd65e4ffa483e724de78fa9ecd2e",
    ),
    (
        false,
        true,
        false,
        "02011100ffffffff7607d524ea2a1cc35a50127b36a87e35c0c1c2c3c4c5c6c701",
    ),
    (
        false,
        true,
        true,
        "020111001000ffff6a3b718bf4bbe5008789b0dd65e4ffa483e724de78fa9ecd2e",
    ),
    (
        true,
        false,
        false,
        "02011100ffffffff968043332e8313575a50127b36a87e35c0c1c2c3c4c5c6c701",
    ),
    (
        true,
        false,
        true,
        "020111001000ffff5c26bcf5f01452c78789b0dd65e4ffa4787b52c3ca7a6e7f36",
    ),
    (
        true,
        true,
        false,
        "02011100ffffffff96804333d17ceca85a50127b36a87e35c0c1c2c3c4c5c6c701",
    ),
    (
        true,
        true,
        true,
        "020111001000ffff5c26bcf50febad388789b0dd65e4ffa4787b52c3ca7a6e7f36",
    ),
];

/// The sequence number, export strength or not, and the token of "kiln" that the
/// initiator sealed.
pub const NUMBERED_WRAPS: [(u32, bool, &str); 8] = [
    (
        0,
        false,
        "020111001000ffff7acb4c060281ec14a2e3662a8764415c28bdbcb96294de32dcb5316149",
    ),
    (
        0,
        true,
        "020111001000ffff6a60a9b7f6f374b8a2e3662a8764415c26e58548c07eeebfdbeb7b106b",
    ),
    (
        1,
        false,
        "020111001000ffff7acb4c070281ec14a2e3662a8764415c29c18eb3d7c3a24a4b90012188",
    ),
    (
        1,
        true,
        "020111001000ffff6a60a9b6f6f374b8a2e3662a8764415ca5560cd5912bb883f68c00c2a2",
    ),
    (
        2147483648,
        false,
        "020111001000fffffacb4c060281ec14a2e3662a8764415ca911e754fa8f98175c967f631a",
    ),
    (
        2147483648,
        true,
        "020111001000ffffea60a9b7f6f374b8a2e3662a8764415cb7c5e1765e9458463a505e57b0",
    ),
    (
        4294967295,
        false,
        "020111001000ffff8534b3f90281ec14a2e3662a8764415c62856b1e29f8ff86759467d95c",
    ),
    (
        4294967295,
        true,
        "020111001000ffff959f5648f6f374b8a2e3662a8764415cabb5dd00ce1f234b816fb404a3",
    ),
];

/// Export strength or not, sealed or not, and of the acceptor's token of the long
/// data the first 40 octets, the last 16 and the MD5 digest of the whole.
pub const LONG_WRAPS: [(bool, bool, &str, &str, &str); 4] = [
    (
        false,
        false,
        "02011100ffffffff1ca41cf11c159b2b4b34088083c63aa2c0c1c2c3c4c5c6c7001f3e5e7e9ebfe0",
        "06b3600ebc6a19c87726d68636e79801",
        "9772491604891bfde751b5306684f917",
    ),
    (
        false,
        true,
        "020111001000ffffecc025a9d1493937c1721fa9ac7b0f0083e724de78fa9ecd2f044aabf0505004",
        "9cd2a6c17c3a52a8712d6aac8d5b0e0e",
        "4984e3b1a181c1dac858484b0dc98f6c",
    ),
    (
        true,
        false,
        "02011100ffffffffe91d92bf2c4f7fd34b34088083c63aa2c0c1c2c3c4c5c6c7001f3e5e7e9ebfe0",
        "06b3600ebc6a19c87726d68636e79801",
        "715a5eab114666e0d88410398ae8fcfd",
    ),
    (
        true,
        true,
        "020111001000ffff437ba588b535a10bc1721fa9ac7b0f00787b52c3ca7a6e7f37177ab567a90f49",
        "fb010f169aa3fa3ba1a7c6f5040802f4",
        "3c36dc4971bdc929a1415906716c4241",
    ),
];

/// Export strength or not, and the initiator's MIC of the long data.
pub const LONG_MICS: [(bool, &str); 2] = [
    (false, "01011100ffffffff3ea14e55af37781dc31b2e4b8aac91a4"),
    (true, "01011100ffffffff9a33d3013823815bc31b2e4b8aac91a4"),
];
