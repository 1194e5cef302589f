//! Values computed by other programs by the steps of RFC 4757, not published:
//! MD4 and RC4 by OpenSSL, MD5 and HMAC by Python's standard library.
//!
//! The key is the octets 00 to 0f and the confounder c0 to c7 throughout.

/// 32,768 octets that stay clear of simple patterns.
pub fn long_data() -> Vec<u8> {
    (0..32_768_u64)
        .map(|i| (i * i / 7 + 31 * i) as u8)
        .collect()
}

/// The messages of "kiln" by usage, full strength.
pub const FULL_MESSAGES: [&str; 15] = [
    "cb39f97f58a2828a99554f7215960fa77e794ccb645565ec38fef88c",
    "0c1beab57d37998e7a125d1290b2d73c59488567a8949051ebe68806",
    "3e031a5435009bc3ee2e67155f20771693ba445eeaf5976da708bb57",
    "54115af6d769660f023c59339658e6bcf0b70a5aae89940e13e599db",
    "a31f72e182adc11502f53962662844da133f560ea7f56d9cb9a08778",
    "aa0cffaceedd08e0c403aca68f4db453aa7e1df5b083b379f16ea799",
    "11925e8a95c870caa4fde31f850fce969f634f8f97a26cbafcd58ac8",
    "3e031a5435009bc3ee2e67155f20771693ba445eeaf5976da708bb57",
    "3e031a5435009bc3ee2e67155f20771693ba445eeaf5976da708bb57",
    "b40b451713ca3079ad69d8e6db3015d0d9eff77f178f3ddf1a1fad3b",
    "0cb78ea8726c2dc5322eb4ee8a87c5e4d82306bcc86f5a7d7e0e8b1e",
    "1a08be7fcedf4b13a761717fc049eb7a089048cd833bd280955512c3",
    "25d48d24503c01811d72eef5ef39944a289e47116082066bc7072677",
    "20ebd2d3b2fae2aaec984a7304490a9c76dca38de4c5b6153a0e35f2",
    "3a0cf6dbf598f21c6d5c5929665b0837a27cd694e1e36527a35e8712",
];

/// The messages of "kiln" by usage, export strength.
pub const EXPORT_MESSAGES: [&str; 15] = [
    "6bc6c0ffe28a8d9f7533513c8dcab9a8c7588926728d95dc88c462ac",
    "78c447ac353f67e3815085574bef5a6936923db33e4dcfb00ffacc9d",
    "ebca89a2d09ded77ff75f14f0ebefebb95ccecdd431fb942fdb9ea54",
    "3facecb6fd88393ae851757152c50fcd68c917f22130060186bf3a54",
    "63b6bc0b907d360648641406d48d2eda15e6ad1b57966cf88fe284f0",
    "c3575b893bce8cd1b9dcb35b20b09e7a90f4bcd5addd0ddd45c37ac7",
    "a90664f8ba455a842ace2c5e1a7a92e1097c09389b91d9b67506b77c",
    "ebca89a2d09ded77ff75f14f0ebefebb95ccecdd431fb942fdb9ea54",
    "ebca89a2d09ded77ff75f14f0ebefebb95ccecdd431fb942fdb9ea54",
    "b727c17c819983dd07f98a6b397224c754b8ba5931e4b554838cd8cc",
    "831db0d17aeb1b821b060f7db11f943a7bd8c92b793c3169546d68fa",
    "4a84fd3234d0e1c11964ec9f673cb2d961d10ab79446e7e7bafeeaae",
    "37ee788d784412823308e374b60d210b1deac4fbf3a29bf3801e8f0e",
    "c45aaea3ee7bc3a27cfb0cd0559a0537de471213580202a5085212da",
    "8b92c3240f84f168b1c7e90997201b7d33ae3ff2014829e51cb8ec31",
];

/// The keyed checksums of "kiln" by usage.
pub const CHECKSUMS: [&str; 15] = [
    "62f74d068c7303850965ab1df03fcdc5",
    "abe2b302e2b5c93a3a443f8416dc92b2",
    "53ec81473f485753d2fbc5ff77f13c15",
    "1aaaa4f5a9b654a43bd702d79f7f9585",
    "cfe54fa6742f98a54ba3ba894e3662d5",
    "6fd3526ddc3f32b775950dc25a8cc8a1",
    "af7afd4038d06b8ca77f6badbc73b880",
    "53ec81473f485753d2fbc5ff77f13c15",
    "53ec81473f485753d2fbc5ff77f13c15",
    "593980dc333d9f1e003b454b5a53529a",
    "fdc0337d4b35aa6ba2915518330926c8",
    "cf047a87001e6954dc8ca5582b8b97de",
    "78192837757cbe675834b6374a10affd",
    "4e7982dd6a44adf09936db9489144383",
    "1605580bb4eb206f51f4a0ee4bc34ba5",
];

/// The usage, full strength or export, and the message of no data.
pub const EMPTY_MESSAGES: [(u32, bool, &str); 4] = [
    (1, false, "f810d26503382811ca30f44b6d127ca3097814974f99e4fe"),
    (1, true, "4dbe32a941dba16c7dd04d0bdda7cb2c0cb75daf3b2fdf6b"),
    (9, false, "42a0022c4e439f9318d099d1faff3d1da6f5a6ae745e9919"),
    (9, true, "03235c39f391d5c6b6c6447b117c709e890058b5f8096508"),
];

/// For export or not: the first 24 and the last 16 octets of the message of
/// the long data for usage 13, and the MD5 digest of the whole message.
pub const LONG_MESSAGES: [(bool, &str, &str, &str); 2] = [
    (
        false,
        "8262b19487c967108dd02751a1ddd7254d183fba86f8ebfe",
        "1aeec820c08bf051c1f768c498300309",
        "d1643e251a8416ac0c59037f0136b5fc",
    ),
    (
        true,
        "4782a32b3c4ba94a117dc0bfce375543077cddb97acbded5",
        "bdaa244d61d4688e9a55abc16ee29098",
        "e2e662218e9d9534037e047440f59d16",
    ),
];

/// The keyed checksums of no data and of the long data for usage 6.
pub const EMPTY_CHECKSUM: &str = "6194a84b639c3edf2be5073627e7ec2e";
pub const LONG_CHECKSUM: &str = "64ac7e6f512ebd2991b4f225e3a58fa2";

/// Passwords and their keys: none, a zero unit alone and inside, a pair of
/// surrogates and one the wrong way round, and the largest unit.
pub const PASSWORD_KEYS: [(&[u16], &str); 6] = [
    (&[], "31d6cfe0d16ae931b73c59d7e0c089c0"),
    (&[0x0000], "d4da020aedcd249a7a418867a6f0c18a"),
    (
        &[0x0066, 0x0000, 0x006f],
        "b0e386d2ece06787ead9bf9d155cbf78",
    ),
    (&[0xd83d, 0xdd25], "2da91074651a309e5243510308e3d79d"),
    (&[0xdc00, 0xd800], "fc49117cefc8e852baacbafe7709614e"),
    (&[0xffff], "fa7a0f8d373771240cc63ffbe69ffff0"),
];

/// The key of the 256 units 0, 257, 514 and so on to 65535.
pub const LONG_PASSWORD_KEY: &str = "893b7fda718e803c89e112abcffb36f7";
