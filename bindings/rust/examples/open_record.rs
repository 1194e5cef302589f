//! Opens one firing record, the framed Wrap token of samples/record.token, and
//! bills its number in the window of a session whose first number is 7, both in
//! one call.

use rc4hmac::{Context, Refusal, Sender, Strength, Window};

fn main() -> Result<(), Refusal> {
    let context = Context {
        key: std::array::from_fn(|i| 0x11 * i as u8),
        strength: Strength::Full,
        sender: Sender::Initiator,
    };
    let mut token = *include_bytes!("../../../samples/record.token");
    let len = token.len();

    let mut window = Window::new(7);
    let received = window.receive_framed_wrap(&context, &mut token, 0, len)?;
    let record = &token[len - 1 - received.opened.message_len..len - 1];
    println!("sequence {}", received.opened.sequence);
    println!("status {:?}", received.status);
    println!("record {}", String::from_utf8_lossy(record));
    Ok(())
}
