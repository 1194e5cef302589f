//! Messages and a checksum that are attributed to the tests of MIT krb5
//! (`t_decrypt.c` and `t_cksums.c`). The attribution has not been checked
//! against that source. That the messages are right shows in themselves: each
//! opens under its key with its own 16-octet checksum.

pub struct Message {
    pub export: bool,
    pub usage: u32,
    pub key: &'static str,
    pub data: &'static str,
    pub message: &'static str,
}

pub const MESSAGES: [Message; 6] = [
    Message {
        export: false,
        usage: 1,
        key: "67d1300d281223867f9647ff48721273",
        data: "1",
        message: "6156e0cc04e0a0874f9fda008f498a7adbbc80b70b14dddbc0",
    },
    Message {
        export: false,
        usage: 2,
        key: "3e40ab6093695281b3ac1a9304224d98",
        data: "9 bytesss",
        message: "0f9ad121d99d4a09448e4f1f718c4f5cbe6096262c66f29df232a87c9f98755d55",
    },
    Message {
        export: false,
        usage: 3,
        key: "4ba2fbf0379faed87a254d3b353d5a7e",
        data: "13 bytes byte",
        message: "612c57568b17a70352bae8cf26fb9459a6f3353cd35fd439db3107cbec765d326dfc04c1dd",
    },
    Message {
        export: false,
        usage: 4,
        key: "68f263db3fce15d031c9eab02d67107a",
        data: "30 bytes bytes bytes bytes byt",
        message: concat!(
            "95f9047c3ad75891c2e9b04b16566dc8b6eb9ce4231afb2542ef87a7b5a0f260",
            "a99f0460508de0cecc632d07c354124e46c5d2234eb8"
        ),
    },
    Message {
        export: true,
        usage: 1,
        key: "deeaa0607db799e2fdd6db2986bb8d65",
        data: "1",
        message: "3dda392e2e275a4d75183fa6328a0a4e6b752df6cd2a25fa4e",
    },
    Message {
        export: true,
        usage: 2,
        key: "33ad7fc2678615569b2b09836e0a3ab6",
        data: "9 bytesss",
        message: "09d136ac485d92644ec6701d6a0d03e8982d7a3ca7efd0f8f4f83660ef4277bb81",
    },
];

pub const CHECKSUM_USAGE: u32 = 6;
pub const CHECKSUM_KEY: &str = "f7d3a155af5e238a0b7a871a96ba2ab2";
pub const CHECKSUM_DATA: &str = "seventeen eighteen nineteen twenty";
pub const CHECKSUM: &str = "eb38cc97e2230f59da4117dc5859d7ec";
