//! The receive window of a session, which bills each sequence number once.

use crate::lent::apart_from;
use crate::raw::{self, ReceiveMic, ReceiveWrap};
use crate::{Context, Opened, Refusal, Status, WINDOW_WORDS};

/// What [`Window::receive_wrap`] and [`Window::receive_framed_wrap`] return for a
/// token.
#[derive(Clone, Copy, Debug, PartialEq, Eq, Hash)]
pub struct ReceivedWrap {
    /// What [`wrap_open`](crate::wrap_open) or
    /// [`framed_wrap_open`](crate::framed_wrap_open) returns for it.
    pub opened: Opened,
    /// What its sequence number is to the window.
    pub status: Status,
}

/// What [`Window::receive_mic`] and [`Window::receive_framed_mic`] return for a
/// token.
#[derive(Clone, Copy, Debug, PartialEq, Eq, Hash)]
pub struct ReceivedMic {
    /// The sequence number, as [`mic_read`](crate::mic_read) or
    /// [`framed_mic_read`](crate::framed_mic_read) returns it.
    pub sequence: u32,
    /// What it is to the window.
    pub status: Status,
}

/// The receive window of a session.
///
/// The distance of a sequence number is the number minus the session's first,
/// modulo 2^32; its [`Status`] depends on that. Once the distance 2^31 - 1 has
/// been billed the session is at its end: the next number is outside.
///
/// What is billed once is the number that a token presents when it opens. The
/// number of a MIC token, and of a Wrap token that is not sealed, is under no
/// checksum: an attacker who changes octets 8 to 11 of such a token has it
/// billed under another number, and again under each further one. A sealed
/// token so changed is refused, but for one chance in 2^64.
///
/// A window is not `Copy`: each copy would bill a number once.
#[derive(Clone, Debug, PartialEq, Eq, Hash)]
pub struct Window {
    words: [u64; WINDOW_WORDS],
}

impl Window {
    /// A new window for a session whose first sequence number is `first`.
    #[inline]
    pub fn new(first: u32) -> Window {
        let mut words = [0; WINDOW_WORDS];
        // SAFETY: `words` is borrowed alone. The answer is always 0.
        unsafe { raw::rc4hmac_window_new(first, &mut words) };
        Window { words }
    }

    /// The window of these words, for one that was kept. Any words will do: the
    /// first two are taken modulo 2^32.
    ///
    /// ```
    /// use rc4hmac::{Status, Window};
    ///
    /// let mut window = Window::new(7);
    /// assert!(window.bill(9).is_billed());
    /// let kept = window.words();
    /// assert_eq!(kept, [7, 3, 0b001, 1]);
    ///
    /// let mut window = Window::from_words(kept);
    /// assert_eq!(window.bill(9), Status::Duplicate);
    /// assert_eq!(window.bill(8), Status::Late);
    /// assert_eq!(window.words(), [7, 3, 0b011, 2]);
    /// ```
    pub fn from_words(words: [u64; WINDOW_WORDS]) -> Window {
        Window { words }
    }

    /// The first number, the next expected distance, the marks of the distances
    /// below that (bit k for the one that is 1 + k below it) and the count of
    /// the billed numbers.
    pub fn words(&self) -> [u64; WINDOW_WORDS] {
        self.words
    }

    /// Bills a sequence number, or does not, by its status. A number that is
    /// not billed leaves all words as they were. The four methods that receive a
    /// token bill its number only if it was not refused.
    #[inline]
    pub fn bill(&mut self, sequence: u32) -> Status {
        let mut status = 0;
        // SAFETY: both are borrowed alone. The answer is always 0.
        unsafe { raw::rc4hmac_window_bill(&mut self.words, sequence, &mut status) };
        Status::of(status)
    }

    /// How many of the [`WINDOW_MARKS`](crate::WINDOW_MARKS) distances below the
    /// next expected one, or of all below it if they are fewer, have not been
    /// billed.
    ///
    /// ```
    /// use rc4hmac::Window;
    ///
    /// let mut window = Window::new(0);
    /// assert_eq!(window.missing(), 0);
    /// assert!(window.bill(3).is_billed());
    /// assert_eq!(window.missing(), 3);
    /// assert!(window.bill(1).is_billed());
    /// assert_eq!(window.missing(), 2);
    /// assert!(window.bill(1000).is_billed());
    /// assert_eq!(window.missing(), 63);
    /// ```
    #[inline]
    pub fn missing(&self) -> u32 {
        let mut missing = 0;
        // SAFETY: `missing` is borrowed alone. The answer is always 0.
        unsafe { raw::rc4hmac_window_missing(&self.words, &mut missing) };
        missing
    }

    /// How many numbers have been billed, modulo 2^64.
    pub fn billed(&self) -> u64 {
        self.words[3]
    }

    /// Opens a Wrap token as [`wrap_open`](crate::wrap_open) does and bills its
    /// sequence number as [`bill`](Self::bill) does.
    ///
    /// A token that is not billed is opened all the same. The number of a token
    /// that is not sealed is under no checksum: see [`Window`].
    ///
    /// # Errors
    ///
    /// As for [`wrap_open`](crate::wrap_open). A refused token never reaches the
    /// window; `buf` and the window are then as they were:
    ///
    /// ```
    /// use rc4hmac::{wrap_write, Context, Refusal, Sender, Status, Strength, Window};
    ///
    /// let context = Context {
    ///     key: [7; 16],
    ///     strength: Strength::Full,
    ///     sender: Sender::Initiator,
    /// };
    /// let mut token = [5; 41];
    /// wrap_write(&context, 21, b"a nonce!", true, &mut token, 0, 8)?;
    ///
    /// let mut window = Window::new(20);
    /// let mut damaged = token;
    /// damaged[35] ^= 1;
    /// let answer = window.receive_wrap(&context, &mut damaged, 0, 41);
    /// assert_eq!(answer, Err(Refusal::Checksum));
    /// assert_eq!(window, Window::new(20));
    ///
    /// let received = window.receive_wrap(&context, &mut token, 0, 41)?;
    /// assert_eq!(received.opened.sequence, 21);
    /// assert_eq!(received.status, Status::Gap);
    /// assert_eq!((window.billed(), window.missing()), (1, 1));
    /// # Ok::<(), Refusal>(())
    /// ```
    #[inline]
    pub fn receive_wrap(
        &mut self,
        context: &Context,
        buf: &mut [u8],
        start: usize,
        length: usize,
    ) -> Result<ReceivedWrap, Refusal> {
        self.wrap_by(raw::rc4hmac_receive_wrap, context, buf, start, length)
    }

    /// Reads a MIC token as [`mic_read`](crate::mic_read) does and bills its
    /// sequence number as [`bill`](Self::bill) does. The number is under no
    /// checksum: see [`Window`].
    ///
    /// ```
    /// use rc4hmac::{mic_write, Context, Sender, Status, Strength, Window, MIC_LEN};
    ///
    /// let context = Context {
    ///     key: [7; 16],
    ///     strength: Strength::Export,
    ///     sender: Sender::Acceptor,
    /// };
    /// let mut token = [0; MIC_LEN];
    /// mic_write(&context, 41, b"a record", &mut token, 0)?;
    ///
    /// let mut window = Window::new(41);
    /// let received = window.receive_mic(&context, b"a record", &token, 0, MIC_LEN)?;
    /// assert_eq!((received.sequence, received.status), (41, Status::InOrder));
    ///
    /// // With another number in it the token is billed again.
    /// token[11] ^= 3;
    /// let received = window.receive_mic(&context, b"a record", &token, 0, MIC_LEN)?;
    /// assert_eq!((received.sequence, received.status), (42, Status::InOrder));
    /// # Ok::<(), rc4hmac::Refusal>(())
    /// ```
    ///
    /// # Errors
    ///
    /// As for [`mic_read`](crate::mic_read). A refused token never reaches the
    /// window, which is then as it was.
    #[inline]
    pub fn receive_mic(
        &mut self,
        context: &Context,
        data: &[u8],
        buf: &[u8],
        start: usize,
        length: usize,
    ) -> Result<ReceivedMic, Refusal> {
        self.mic_by(raw::rc4hmac_receive_mic, context, data, buf, start, length)
    }

    /// Opens a framed Wrap token as
    /// [`framed_wrap_open`](crate::framed_wrap_open) does and bills its sequence
    /// number as [`bill`](Self::bill) does.
    ///
    /// A token that is not billed is opened all the same; its message begins at
    /// `start + length - 1 - message_len`. The number of a token that is not
    /// sealed is under no checksum: see [`Window`].
    ///
    /// # Errors
    ///
    /// As for [`framed_wrap_open`](crate::framed_wrap_open), in its order:
    /// [`Refusal::Region`], then [`Refusal::Frame`], then those of the token in
    /// the frame. A refused token never reaches the window; `buf` and the window
    /// are then as they were:
    ///
    /// ```
    /// use rc4hmac::{framed_wrap_write, Context, Refusal, Sender, Status, Strength, Window};
    ///
    /// let context = Context {
    ///     key: [7; 16],
    ///     strength: Strength::Full,
    ///     sender: Sender::Initiator,
    /// };
    /// // 13 octets of frame, 32 before the message, the message, and the pad.
    /// let mut token = [&[0; 13 + 32], &b"a record"[..], &[0]].concat();
    /// framed_wrap_write(&context, 0, b"a nonce!", true, &mut token, 0, 8)?;
    ///
    /// // Neither bills a number, not even 0.
    /// let mut window = Window::new(0);
    /// for (at, refusal) in [(48, Refusal::Checksum), (12, Refusal::Frame)] {
    ///     let mut damaged = token.clone();
    ///     damaged[at] ^= 1;
    ///     let received = window.receive_framed_wrap(&context, &mut damaged, 0, 54);
    ///     assert_eq!(received, Err(refusal));
    ///     assert_eq!(window, Window::new(0));
    /// }
    ///
    /// for status in [Status::InOrder, Status::Duplicate] {
    ///     let mut buf = token.clone();
    ///     let received = window.receive_framed_wrap(&context, &mut buf, 0, 54)?;
    ///     assert_eq!((received.opened.sequence, received.status), (0, status));
    ///     assert_eq!(&buf[54 - 1 - received.opened.message_len..], b"a record\x01");
    /// }
    /// assert_eq!(window.billed(), 1);
    /// # Ok::<(), Refusal>(())
    /// ```
    #[inline]
    pub fn receive_framed_wrap(
        &mut self,
        context: &Context,
        buf: &mut [u8],
        start: usize,
        length: usize,
    ) -> Result<ReceivedWrap, Refusal> {
        self.wrap_by(
            raw::rc4hmac_receive_framed_wrap,
            context,
            buf,
            start,
            length,
        )
    }

    /// Reads a framed MIC token as [`framed_mic_read`](crate::framed_mic_read)
    /// does and bills its sequence number as [`bill`](Self::bill) does. The
    /// number is under no checksum: see [`Window`].
    ///
    /// ```
    /// use rc4hmac::{framed_mic_write, Context, Refusal, Sender, Status, Strength, Window};
    /// use rc4hmac::FRAMED_MIC_LEN;
    ///
    /// let context = Context {
    ///     key: [7; 16],
    ///     strength: Strength::Export,
    ///     sender: Sender::Acceptor,
    /// };
    /// let mut token = [0; FRAMED_MIC_LEN];
    /// framed_mic_write(&context, 41, b"a record", &mut token, 0)?;
    ///
    /// let mut window = Window::new(40);
    /// let received = window.receive_framed_mic(&context, b"another", &token, 0, 37);
    /// assert_eq!(received, Err(Refusal::Checksum));
    /// assert_eq!(window, Window::new(40));
    ///
    /// let received = window.receive_framed_mic(&context, b"a record", &token, 0, 37)?;
    /// assert_eq!((received.sequence, received.status), (41, Status::Gap));
    /// assert_eq!((window.billed(), window.missing()), (1, 1));
    /// # Ok::<(), Refusal>(())
    /// ```
    ///
    /// # Errors
    ///
    /// As for [`framed_mic_read`](crate::framed_mic_read), in its order:
    /// [`Refusal::Region`], then [`Refusal::Frame`], then those of the token in
    /// the frame. A refused token never reaches the window, which is then as it
    /// was.
    #[inline]
    pub fn receive_framed_mic(
        &mut self,
        context: &Context,
        data: &[u8],
        buf: &[u8],
        start: usize,
        length: usize,
    ) -> Result<ReceivedMic, Refusal> {
        self.mic_by(
            raw::rc4hmac_receive_framed_mic,
            context,
            data,
            buf,
            start,
            length,
        )
    }

    /// By one of the two functions of the archive that have this type.
    #[inline]
    fn wrap_by(
        &mut self,
        receive: ReceiveWrap,
        context: &Context,
        buf: &mut [u8],
        start: usize,
        length: usize,
    ) -> Result<ReceivedWrap, Refusal> {
        let (mut sequence, mut sealed, mut message_len, mut status) = (0, 0, 0, 0);
        // SAFETY: the window, `buf` and the four numbers are borrowed alone,
        // apart from the key.
        let answer = unsafe {
            receive(
                &mut self.words,
                &context.key,
                context.strength.export(),
                context.sender.acceptor(),
                buf.as_mut_ptr(),
                buf.len(),
                start,
                length,
                &mut sequence,
                &mut sealed,
                &mut message_len,
                &mut status,
            )
        };
        Refusal::check(answer).map(|()| ReceivedWrap {
            opened: Opened {
                sequence,
                sealed: sealed != 0,
                message_len,
            },
            status: Status::of(status),
        })
    }

    /// By one of the two functions of the archive that have this type.
    #[inline]
    fn mic_by(
        &mut self,
        receive: ReceiveMic,
        context: &Context,
        data: &[u8],
        buf: &[u8],
        start: usize,
        length: usize,
    ) -> Result<ReceivedMic, Refusal> {
        let key = apart_from(&[data, buf], &context.key);
        let data = apart_from(&[buf], data);
        let (mut sequence, mut status) = (0, 0);
        // SAFETY: `key` has KEY_LEN octets, the others are slices, and no two of
        // them share an octet; the window and the two numbers are borrowed
        // alone.
        let answer = unsafe {
            receive(
                &mut self.words,
                key.as_ptr().cast(),
                context.strength.export(),
                context.sender.acceptor(),
                data.as_ptr(),
                data.len(),
                buf.as_ptr(),
                buf.len(),
                start,
                length,
                &mut sequence,
                &mut status,
            )
        };
        Refusal::check(answer).map(|()| ReceivedMic {
            sequence,
            status: Status::of(status),
        })
    }
}
