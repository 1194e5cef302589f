/* The C interface of librc4hmac.a: the keys, checksums, encrypted messages, MIC
 * tokens and Wrap tokens of RC4-HMAC (RFC 4757), the tokens also in GSS-API's
 * outer frame (RFC 2743), receive windows for the tokens of a session, and MD4,
 * MD5, HMAC-MD5 and RC4 under them, over octets in memory, for x86-64 Linux. */

#ifndef RC4HMAC_H
#define RC4HMAC_H

#include <stddef.h>
#include <stdint.h>

#ifdef __cplusplus
extern "C" {
#endif

/* Every function returns a refusal number, the lowest that applies; the calls
 * that read framed tokens have an order of their own, which is told there. With
 * a refusal every digest, key, checksum, length, number and status written is
 * zero, and no octet of lent data and no word of a window is changed.
 *
 * Assumed of a caller:
 *   - a pointer with a length beside it is followed by as many octets, or
 *     16-bit units, as the length says; it may be null, or point nowhere, only
 *     where the length is 0;
 *   - a pointer to a fixed number of octets (a key, a confounder, a digest or
 *     a checksum declared with its length), to the four words of a window, or
 *     to a length, a number or a status to be written is never null, and all
 *     that it points to may be read or written;
 *   - units, the words of a window, and lengths, numbers and statuses to be
 *     written are aligned as their types ask;
 *   - the areas lent to one call do not overlap. */

/* Refusal numbers. */
#define RC4HMAC_DONE 0u              /* no refusal: the work is done */
#define RC4HMAC_REFUSED_LENGTH 1u    /* a length is outside its limits */
#define RC4HMAC_REFUSED_REGION 2u    /* the region is not inside the buffer */
#define RC4HMAC_REFUSED_USAGE 3u     /* the usage is not 1 to 15 */
#define RC4HMAC_REFUSED_HEADER 4u    /* no header of a token of this kind */
#define RC4HMAC_REFUSED_DIRECTION 5u /* not from the expected sender */
#define RC4HMAC_REFUSED_CHECKSUM 6u  /* the checksum differs */
#define RC4HMAC_REFUSED_PAD 7u       /* the pad octet is not 01 */
#define RC4HMAC_REFUSED_FRAME 9u     /* the region is not one whole frame */

/* Statuses of a sequence number in a receive window, with their names in RFC
 * 2743, section 1.2.3; the last has none there. */
#define RC4HMAC_STATUS_NONE 0u      /* the token was refused */
#define RC4HMAC_STATUS_IN_ORDER 1u  /* billed: GSS_S_COMPLETE */
#define RC4HMAC_STATUS_GAP 2u       /* billed: GSS_S_GAP_TOKEN */
#define RC4HMAC_STATUS_LATE 3u      /* billed: GSS_S_UNSEQ_TOKEN */
#define RC4HMAC_STATUS_DUPLICATE 4u /* not billed: GSS_S_DUPLICATE_TOKEN */
#define RC4HMAC_STATUS_OLD 5u       /* not billed: GSS_S_OLD_TOKEN */
#define RC4HMAC_STATUS_OUTSIDE 6u   /* not billed: 2^31 or more off the first */

/* Lengths and limits, in octets. A limit is the last length let in. */
#define RC4HMAC_DIGEST_LEN 16u
#define RC4HMAC_DIGEST_DATA_MAX 65536u
#define RC4HMAC_HMAC_KEY_MAX 65536u
#define RC4HMAC_HMAC_TEXT_MAX 65472u
#define RC4HMAC_RC4_KEY_MIN 1u
#define RC4HMAC_RC4_KEY_MAX 256u
#define RC4HMAC_RC4_DATA_MAX 65536u
#define RC4HMAC_KEY_LEN 16u
#define RC4HMAC_CHECKSUM_LEN 16u
#define RC4HMAC_CONFOUNDER_LEN 8u
#define RC4HMAC_PASSWORD_UNITS_MAX 256u /* 16-bit units, not octets */
#define RC4HMAC_MESSAGE_MAX 32768u
#define RC4HMAC_ENCRYPTED_OVERHEAD 24u /* the checksum and the confounder */
#define RC4HMAC_ENCRYPTED_MIN 24u
#define RC4HMAC_ENCRYPTED_MAX 32792u
#define RC4HMAC_MIC_LEN 24u
#define RC4HMAC_WRAP_OVERHEAD 33u /* the header fields, 32, and the pad */
#define RC4HMAC_WRAP_MESSAGE_OFFSET 32u
#define RC4HMAC_WRAP_MIN 33u
#define RC4HMAC_WRAP_MAX 32801u
#define RC4HMAC_FRAMED_MIC_LEN 37u
#define RC4HMAC_FRAMED_WRAP_MIN 46u
#define RC4HMAC_FRAMED_WRAP_MAX 32816u

/* The words of a window, and the distances that it keeps a mark for. */
#define RC4HMAC_WINDOW_WORDS 4u
#define RC4HMAC_WINDOW_MARKS 64u

/* Usages, by their numbers in RFC 4757, section 3. The message type T is the
 * usage's number, but usages 3 and 9 have T = 8, as usage 8 has: each of the
 * three opens the others' messages and passes the others' checksums. MIT krb5
 * and Heimdal have T = 9 for usage 9; here the RFC's list decides. */
#define RC4HMAC_USAGE_AS_REQ_PA_ENC_TIMESTAMP 1u
#define RC4HMAC_USAGE_AS_REP_TGS_REP_TICKET 2u
#define RC4HMAC_USAGE_AS_REP_ENCRYPTED_PART 3u
#define RC4HMAC_USAGE_TGS_REQ_AUTHORIZATION_DATA_SESSION_KEY 4u
#define RC4HMAC_USAGE_TGS_REQ_AUTHORIZATION_DATA_SUBKEY 5u
#define RC4HMAC_USAGE_TGS_REQ_AUTHENTICATOR_CKSUM 6u
#define RC4HMAC_USAGE_TGS_REQ_AUTHENTICATOR 7u
#define RC4HMAC_USAGE_TGS_REP_ENCRYPTED_PART_SESSION_KEY 8u
#define RC4HMAC_USAGE_TGS_REP_ENCRYPTED_PART_SUBKEY 9u
#define RC4HMAC_USAGE_AP_REQ_AUTHENTICATOR_CKSUM 10u
#define RC4HMAC_USAGE_AP_REQ_AUTHENTICATOR 11u
#define RC4HMAC_USAGE_AP_REP_ENCRYPTED_PART 12u
#define RC4HMAC_USAGE_KRB_PRIV_ENCRYPTED_PART 13u
#define RC4HMAC_USAGE_KRB_CRED_ENCRYPTED_PART 14u
#define RC4HMAC_USAGE_KRB_SAFE_CKSUM 15u

/* The MD4 digest (RFC 1320) of 0 to RC4HMAC_DIGEST_DATA_MAX octets. */
uint32_t rc4hmac_md4(const uint8_t *data, size_t data_len, uint8_t digest[16]);

/* The MD5 digest (RFC 1321) of 0 to RC4HMAC_DIGEST_DATA_MAX octets. */
uint32_t rc4hmac_md5(const uint8_t *data, size_t data_len, uint8_t digest[16]);

/* The HMAC-MD5 digest (RFC 2104) of 0 to RC4HMAC_HMAC_TEXT_MAX octets of text
 * under a key of 0 to RC4HMAC_HMAC_KEY_MAX octets. */
uint32_t rc4hmac_hmac_md5(const uint8_t *key, size_t key_len,
                          const uint8_t *text, size_t text_len,
                          uint8_t digest[16]);

/* Combines 0 to RC4HMAC_RC4_DATA_MAX octets of data, in place, with the RC4
 * keystream of a key of RC4HMAC_RC4_KEY_MIN to RC4HMAC_RC4_KEY_MAX octets: the
 * same call encrypts and decrypts. */
uint32_t rc4hmac_rc4(const uint8_t *key, size_t key_len,
                     uint8_t *data, size_t data_len);

/* The key of a password (RFC 4757, section 2) of 0 to
 * RC4HMAC_PASSWORD_UNITS_MAX UTF-16 units, without a closing zero. */
uint32_t rc4hmac_password_key(const uint16_t *units, size_t units_len,
                              uint8_t key[16]);

/* The keyed checksum (RFC 4757, section 4) of 0 to RC4HMAC_MESSAGE_MAX octets
 * for a usage. */
uint32_t rc4hmac_checksum(const uint8_t key[16], uint32_t usage,
                          const uint8_t *data, size_t data_len,
                          uint8_t checksum[16]);

/* Verifies that `checksum` is the keyed checksum of the data: returns
 * RC4HMAC_DONE or RC4HMAC_REFUSED_CHECKSUM. A checksum that is not
 * RC4HMAC_CHECKSUM_LEN octets long is refused for its length. */
uint32_t rc4hmac_checksum_test(const uint8_t key[16], uint32_t usage,
                               const uint8_t *data, size_t data_len,
                               const uint8_t *checksum, size_t checksum_len);

/* Encrypts a message (RFC 4757, section 5) in place. The data, 0 to
 * RC4HMAC_MESSAGE_MAX octets, stand RC4HMAC_ENCRYPTED_OVERHEAD octets after
 * `start`; the region from `start` to their end becomes the checksum, the
 * confounder and the data, the latter two encrypted, and its length is written
 * to `written`. `export_strength` is 0 for no and anything else for yes. Each
 * message needs a confounder of its own, of random octets. */
uint32_t rc4hmac_encrypt(const uint8_t key[16], uint32_t export_strength,
                         uint32_t usage, const uint8_t confounder[8],
                         uint8_t *buf, size_t buf_len,
                         size_t start, size_t data_len, size_t *written);

/* Decrypts a message in place: the region of `length` octets at `start`,
 * RC4HMAC_ENCRYPTED_MIN to RC4HMAC_ENCRYPTED_MAX of them, keeps its checksum
 * and has the confounder (from its octet 16) and the data (from its octet 24)
 * plain. The data's length is written to `data_len`. */
uint32_t rc4hmac_decrypt(const uint8_t key[16], uint32_t export_strength,
                         uint32_t usage,
                         uint8_t *buf, size_t buf_len,
                         size_t start, size_t length, size_t *data_len);

/* MIC and Wrap tokens (RFC 4757, section 7), without GSS-API's outer frame; the
 * calls for framed tokens follow below.
 *
 * `export_strength`, `acceptor` and `sealed` are 0 for no and anything else for
 * yes. `acceptor` says who the sender is, the acceptor of the context or its
 * initiator; a reader is told the sender that it expects.
 *
 * Where the steps of RFC 4757 differ from what is really sent, tokens are as
 * they are sent: the checksum of a Wrap token begins with 13 and not 15, the
 * direction octets are RFC 1964's, 00 for the initiator and ff for the acceptor,
 * and export strength sets nine octets to AB and not seven.
 *
 * A refused call writes zeros to `written`, `sequence`, `sealed` and
 * `message_len`, and leaves every lent octet as it came.
 *
 * A wrong key, a wrong strength or a damaged SGN_CKSUM (octets 16 to 23) makes
 * other direction octets of SND_SEQ (octets 8 to 15), and is refused with
 * RC4HMAC_REFUSED_DIRECTION, as a wrong sender is, but for one chance in 2^32.
 *
 * The sequence number of a MIC token, and of a Wrap token that is not sealed,
 * is under no checksum: such a token with its octets 8 to 11 changed is read or
 * opened with another number, and not refused. The number of a sealed token
 * makes the key that it is sealed under: with other octets 8 to 11 its body
 * comes out as other octets, which the checksum finds but for one chance in
 * 2^64. */

/* Writes the MIC token of 0 to RC4HMAC_MESSAGE_MAX octets of data and a
 * sequence number to the RC4HMAC_MIC_LEN octets at `start`, and that length to
 * `written`. */
uint32_t rc4hmac_mic_write(const uint8_t key[16], uint32_t export_strength,
                           uint32_t acceptor, uint32_t sequence,
                           const uint8_t *data, size_t data_len,
                           uint8_t *buf, size_t buf_len,
                           size_t start, size_t *written);

/* Verifies that the `length` octets at `start`, RC4HMAC_MIC_LEN and no other
 * number, are a MIC token of the data: returns RC4HMAC_DONE, or the refusal for
 * the header, the direction or the checksum. The sequence number is written to
 * `sequence`; nothing is written to the buffer. */
uint32_t rc4hmac_mic_read(const uint8_t key[16], uint32_t export_strength,
                          uint32_t acceptor,
                          const uint8_t *data, size_t data_len,
                          const uint8_t *buf, size_t buf_len,
                          size_t start, size_t length, uint32_t *sequence);

/* Writes a Wrap token in place. The message, 0 to RC4HMAC_MESSAGE_MAX octets,
 * stands RC4HMAC_WRAP_MESSAGE_OFFSET octets after `start`; the region from
 * `start` to one octet after the message becomes the header, SND_SEQ,
 * SGN_CKSUM, the confounder, the message and the pad, the latter three
 * encrypted if `sealed`, and its length, RC4HMAC_WRAP_OVERHEAD more than the
 * message's, is written to `written`. Each token needs a confounder of its own,
 * of random octets. The keystream that seals a token depends on the key, the
 * strength and the sequence number alone: two sealed tokens should not share
 * all three, whoever sends them. */
uint32_t rc4hmac_wrap_write(const uint8_t key[16], uint32_t export_strength,
                            uint32_t acceptor, uint32_t sequence,
                            const uint8_t confounder[8], uint32_t sealed,
                            uint8_t *buf, size_t buf_len,
                            size_t start, size_t message_len, size_t *written);

/* Opens a Wrap token in place: the region of `length` octets at `start`,
 * RC4HMAC_WRAP_MIN to RC4HMAC_WRAP_MAX of them, keeps its octets 0 to 23 and
 * has the confounder (from its octet 24), the message (from its octet 32) and
 * the pad plain. The sequence number is written to `sequence`, 1 or 0 for
 * sealed or not to `sealed` and the message's length to `message_len`. */
uint32_t rc4hmac_wrap_open(const uint8_t key[16], uint32_t export_strength,
                           uint32_t acceptor,
                           uint8_t *buf, size_t buf_len,
                           size_t start, size_t length,
                           uint32_t *sequence, uint32_t *sealed,
                           size_t *message_len);

/* The same tokens in GSS-API's outer frame (RFC 2743, section 3.1), as they
 * travel: 60, a DER length, the mechanism 06 09 2a 86 48 86 f7 12 01 02 02, and
 * then the token, which ends the frame. The length counts the mechanism's
 * eleven octets and the token's, in the shortest form: one octet up to 127, 81
 * and one octet up to 255, 82 and two octets up to 65,535, and so on. What
 * stands before the token, the lead, is 13 octets before a MIC token, and 13,
 * 14 or 15 before a Wrap token with a message of up to 83, up to 211 or more
 * octets.
 *
 * All that is said above of tokens holds of framed ones, and where octets of a
 * token are named they are counted from the token's own first.
 *
 * The readers refuse first with RC4HMAC_REFUSED_REGION a region that is not
 * inside the buffer; then with RC4HMAC_REFUSED_FRAME a region that is not one
 * whole frame: one shorter than 13 octets, with another tag or mechanism, with
 * a length in another form than the shortest, or with a length that ends before
 * or after the region does; and then as the readers of tokens do, for the token
 * in the frame: RC4HMAC_REFUSED_LENGTH, for the data or the token, comes first
 * of these, and so after the two others.
 *
 * rc4hmac_receive_framed_wrap and rc4hmac_receive_framed_mic, below, open or
 * read a framed token and bill its number in one call. They refuse as the
 * readers here do. */

/* Writes the framed MIC token of 0 to RC4HMAC_MESSAGE_MAX octets of data and a
 * sequence number to the RC4HMAC_FRAMED_MIC_LEN octets at `start`, and that
 * length to `written`. */
uint32_t rc4hmac_framed_mic_write(const uint8_t key[16],
                                  uint32_t export_strength,
                                  uint32_t acceptor, uint32_t sequence,
                                  const uint8_t *data, size_t data_len,
                                  uint8_t *buf, size_t buf_len,
                                  size_t start, size_t *written);

/* Verifies that the `length` octets at `start` are a framed MIC token of the
 * data. The sequence number is written to `sequence`; nothing is written to the
 * buffer. */
uint32_t rc4hmac_framed_mic_read(const uint8_t key[16],
                                 uint32_t export_strength, uint32_t acceptor,
                                 const uint8_t *data, size_t data_len,
                                 const uint8_t *buf, size_t buf_len,
                                 size_t start, size_t length,
                                 uint32_t *sequence);

/* Writes to `lead` how many octets of a framed Wrap token stand before the
 * token if its message is `message_len` octets long, 0 to RC4HMAC_MESSAGE_MAX:
 * 13, 14 or 15. A longer message is refused for its length. */
uint32_t rc4hmac_framed_wrap_lead(size_t message_len, size_t *lead);

/* Writes a framed Wrap token in place. The message, 0 to RC4HMAC_MESSAGE_MAX
 * octets, stands where it will stand in the framed token: the lead, which
 * rc4hmac_framed_wrap_lead tells, and RC4HMAC_WRAP_MESSAGE_OFFSET octets after
 * `start`. The region from `start` to one octet after the message becomes the
 * lead and the token that rc4hmac_wrap_write writes, and its length, which is
 * the lead and RC4HMAC_WRAP_OVERHEAD more than the message's, is written to
 * `written`. */
uint32_t rc4hmac_framed_wrap_write(const uint8_t key[16],
                                   uint32_t export_strength,
                                   uint32_t acceptor, uint32_t sequence,
                                   const uint8_t confounder[8],
                                   uint32_t sealed,
                                   uint8_t *buf, size_t buf_len,
                                   size_t start, size_t message_len,
                                   size_t *written);

/* Opens a framed Wrap token in place: the region of `length` octets at `start`,
 * RC4HMAC_FRAMED_WRAP_MIN to RC4HMAC_FRAMED_WRAP_MAX of them in a token that
 * opens, keeps its lead and the token's octets 0 to 23 and has the confounder,
 * the message and the pad plain. The pad is the region's last octet, so that
 * the message begins at start + length - 1 - message_len. The sequence number
 * is written to `sequence`, 1 or 0 for sealed or not to `sealed` and the
 * message's length to `message_len`. */
uint32_t rc4hmac_framed_wrap_open(const uint8_t key[16],
                                  uint32_t export_strength, uint32_t acceptor,
                                  uint8_t *buf, size_t buf_len,
                                  size_t start, size_t length,
                                  uint32_t *sequence, uint32_t *sealed,
                                  size_t *message_len);

/* The receive window of a session, which bills each sequence number once.
 *
 * The distance of a number is the number minus the session's first, modulo
 * 2^32. The next expected distance is 0 for a new window and then one above the
 * highest billed. A number's status is the first of these that applies:
 *   - outside: its distance is 2^31 or more. So once distance 2^31 - 1 has been
 *     billed the number that follows it is outside, and not in order;
 *   - in order: its distance is the next expected one;
 *   - gap: its distance is above that;
 *   - late, or duplicate if it has been billed: its distance is below that by
 *     at most RC4HMAC_WINDOW_MARKS;
 *   - old: its distance is further below.
 * In order, gap and late are billed; nothing else is, and nothing else changes
 * the window.
 *
 * The status is written to `status`. What is returned is a refusal number here
 * too, 0 with every status: a caller who tests for 0 drops no billed token, and
 * the status says whether it was billed.
 *
 * A window is four words that the caller keeps; the library keeps nothing:
 *   0  the first number;
 *   1  the next expected distance;
 *   2  the marks of the distances below that: bit k is set if the distance that
 *      is 1 + k below it has been billed;
 *   3  how many numbers have been billed.
 * The calls take any four words: the first two modulo 2^32, and the count grows
 * modulo 2^64. A call that bills writes all four, and the first two are below
 * 2^32 then; a call that does not bill leaves all four exactly as they came.
 *
 * What is billed once is the number that a token presents when it opens. The
 * number of a MIC token, and of a Wrap token that is not sealed, is under no
 * checksum: an attacker who changes octets 8 to 11 of such a token has it
 * billed under another number, and again under each further one. A sealed token
 * so changed is refused, but for one chance in 2^64. */

/* Makes the window new, whatever it held, for a session whose first sequence
 * number is `first`. Returns 0. */
uint32_t rc4hmac_window_new(uint32_t first, uint64_t window[4]);

/* Bills a sequence number, or does not, by its status. Returns 0. This call
 * knows of no token: a reader that refuses one writes 0 as its number, and that
 * 0 would be billed here. The four calls that receive tokens, below, bill the
 * number of a token only if it was not refused. */
uint32_t rc4hmac_window_bill(uint64_t window[4], uint32_t sequence,
                             uint32_t *status);

/* How many of the RC4HMAC_WINDOW_MARKS distances below the next expected one,
 * or of all below it if they are fewer, have not been billed: 0 for a new
 * window. Returns 0. */
uint32_t rc4hmac_window_missing(const uint64_t window[4], uint32_t *missing);

/* Opens a Wrap token as rc4hmac_wrap_open does, and bills its sequence number
 * as rc4hmac_window_bill does. A token that is not billed is opened all the
 * same: the message of a duplicate stands plain in the region. A refused token
 * never reaches the window, which is left as it came, and its status is
 * RC4HMAC_STATUS_NONE. */
uint32_t rc4hmac_receive_wrap(uint64_t window[4],
                              const uint8_t key[16], uint32_t export_strength,
                              uint32_t acceptor,
                              uint8_t *buf, size_t buf_len,
                              size_t start, size_t length,
                              uint32_t *sequence, uint32_t *sealed,
                              size_t *message_len, uint32_t *status);

/* Reads a MIC token as rc4hmac_mic_read does, and bills its sequence number as
 * rc4hmac_window_bill does. A refused token never reaches the window, which is
 * left as it came, and its status is RC4HMAC_STATUS_NONE. */
uint32_t rc4hmac_receive_mic(uint64_t window[4],
                             const uint8_t key[16], uint32_t export_strength,
                             uint32_t acceptor,
                             const uint8_t *data, size_t data_len,
                             const uint8_t *buf, size_t buf_len,
                             size_t start, size_t length,
                             uint32_t *sequence, uint32_t *status);

/* Opens a framed Wrap token as rc4hmac_framed_wrap_open does, with its refusals
 * in their order, and bills its sequence number as rc4hmac_window_bill does. A
 * token that is not billed is opened all the same: the message of a duplicate
 * stands plain in the region, from start + length - 1 - message_len. A refused
 * token never reaches the window, which is left as it came, and its status is
 * RC4HMAC_STATUS_NONE. */
uint32_t rc4hmac_receive_framed_wrap(uint64_t window[4],
                                     const uint8_t key[16],
                                     uint32_t export_strength,
                                     uint32_t acceptor,
                                     uint8_t *buf, size_t buf_len,
                                     size_t start, size_t length,
                                     uint32_t *sequence, uint32_t *sealed,
                                     size_t *message_len, uint32_t *status);

/* Reads a framed MIC token as rc4hmac_framed_mic_read does, with its refusals
 * in their order, and bills its sequence number as rc4hmac_window_bill does. A
 * refused token never reaches the window, which is left as it came, and its
 * status is RC4HMAC_STATUS_NONE. */
uint32_t rc4hmac_receive_framed_mic(uint64_t window[4],
                                    const uint8_t key[16],
                                    uint32_t export_strength,
                                    uint32_t acceptor,
                                    const uint8_t *data, size_t data_len,
                                    const uint8_t *buf, size_t buf_len,
                                    size_t start, size_t length,
                                    uint32_t *sequence, uint32_t *status);

#ifdef __cplusplus
}
#endif

#endif
