/* Links librc4hmac.a from C: a vector and a refusal, or more, of each function
 * of rc4hmac.h. A vector whose source is not named was computed with Python
 * (MD5, HMAC) and OpenSSL (RC4; for framed tokens, RC4 in Python). */

#include <stdio.h>
#include <string.h>

#include "rc4hmac.h"

static unsigned passed;
static unsigned failed;

/* One octet more than any limit. */
static uint8_t too_long[RC4HMAC_DIGEST_DATA_MAX + 1u];

static void check(const char *what, int holds)
{
    if (holds) {
        passed++;
    } else {
        failed++;
        printf("c: failed: %s\n", what);
    }
}

static int all_are(const uint8_t *octets, size_t len, uint8_t value)
{
    size_t i;

    for (i = 0; i < len; i++) {
        if (octets[i] != value) {
            return 0;
        }
    }
    return 1;
}

static int same_digest(const uint8_t *digest, const uint8_t *expected)
{
    return memcmp(digest, expected, RC4HMAC_DIGEST_LEN) == 0;
}

/* A digest of "abc", and of data one octet too long. */
static void check_digest(uint32_t (*call)(const uint8_t *, size_t, uint8_t *),
                         const uint8_t *expected,
                         const char *vector, const char *refusal)
{
    uint8_t digest[RC4HMAC_DIGEST_LEN];
    uint32_t answer;

    memset(digest, 0xee, sizeof digest);
    answer = call((const uint8_t *)"abc", 3, digest);
    check(vector, answer == RC4HMAC_DONE && same_digest(digest, expected));

    answer = call(too_long, RC4HMAC_DIGEST_DATA_MAX + 1u, digest);
    check(refusal,
          answer == RC4HMAC_REFUSED_LENGTH
              && all_are(digest, sizeof digest, 0));
}

static void check_md4(void)
{
    /* RFC 1320, A.5. */
    static const uint8_t expected[RC4HMAC_DIGEST_LEN] = {
        0xa4, 0x48, 0x01, 0x7a, 0xaf, 0x21, 0xd8, 0x52,
        0x5f, 0xc1, 0x0a, 0xe8, 0x7a, 0xa6, 0x72, 0x9d
    };

    check_digest(rc4hmac_md4, expected, "MD4 of \"abc\"",
                 "MD4 refuses data one octet too long");
}

static void check_md5(void)
{
    /* RFC 1321, A.5. */
    static const uint8_t expected[RC4HMAC_DIGEST_LEN] = {
        0x90, 0x01, 0x50, 0x98, 0x3c, 0xd2, 0x4f, 0xb0,
        0xd6, 0x96, 0x3f, 0x7d, 0x28, 0xe1, 0x7f, 0x72
    };

    check_digest(rc4hmac_md5, expected, "MD5 of \"abc\"",
                 "MD5 refuses data one octet too long");
}

static void check_hmac_md5(void)
{
    /* RFC 2104, appendix, second vector. */
    static const char text[] = "what do ya want for nothing?";
    static const uint8_t expected[RC4HMAC_DIGEST_LEN] = {
        0x75, 0x0c, 0x78, 0x3e, 0x6a, 0xb0, 0xb5, 0x03,
        0xea, 0xa8, 0x6e, 0x31, 0x0a, 0x5d, 0xb7, 0x38
    };
    uint8_t digest[RC4HMAC_DIGEST_LEN];
    uint32_t answer;

    memset(digest, 0xee, sizeof digest);
    answer = rc4hmac_hmac_md5((const uint8_t *)"Jefe", 4,
                              (const uint8_t *)text, sizeof text - 1, digest);
    check("HMAC-MD5 under \"Jefe\"",
          answer == RC4HMAC_DONE && same_digest(digest, expected));

    answer = rc4hmac_hmac_md5((const uint8_t *)"Jefe", 4,
                              too_long, RC4HMAC_HMAC_TEXT_MAX + 1u, digest);
    check("HMAC-MD5 refuses text one octet too long",
          answer == RC4HMAC_REFUSED_LENGTH
              && all_are(digest, sizeof digest, 0));
}

static void check_rc4(void)
{
    /* RFC 6229, the 40-bit key 0102030405 at offset 0. */
    static const uint8_t key[] = { 1, 2, 3, 4, 5 };
    static const uint8_t expected[16] = {
        0xb2, 0x39, 0x63, 0x05, 0xf0, 0x3d, 0xc0, 0x27,
        0xcc, 0xc3, 0x52, 0x4a, 0x0a, 0x11, 0x18, 0xa8
    };
    uint8_t data[16];
    uint32_t answer;

    memset(data, 0, sizeof data);
    answer = rc4hmac_rc4(key, sizeof key, data, sizeof data);
    check("RC4 keystream of 0102030405",
          answer == RC4HMAC_DONE && memcmp(data, expected, sizeof data) == 0);

    memset(data, 0x5a, sizeof data);
    answer = rc4hmac_rc4(too_long, RC4HMAC_RC4_KEY_MAX + 1u,
                         data, sizeof data);
    check("RC4 refuses a key one octet too long",
          answer == RC4HMAC_REFUSED_LENGTH
              && all_are(data, sizeof data, 0x5a));
}

static void check_password_key(void)
{
    /* RFC 4757, section 2. */
    static const uint16_t units[] = { 'f', 'o', 'o' };
    static const uint8_t expected[RC4HMAC_KEY_LEN] = {
        0xac, 0x8e, 0x65, 0x7f, 0x83, 0xdf, 0x82, 0xbe,
        0xea, 0x5d, 0x43, 0xbd, 0xaf, 0x78, 0x00, 0xcc
    };
    static const uint16_t too_many[RC4HMAC_PASSWORD_UNITS_MAX + 1u];
    uint8_t key[RC4HMAC_KEY_LEN];
    uint32_t answer;

    memset(key, 0xee, sizeof key);
    answer = rc4hmac_password_key(units, 3, key);
    check("key of the password \"foo\"",
          answer == RC4HMAC_DONE && memcmp(key, expected, sizeof key) == 0);

    answer = rc4hmac_password_key(too_many, RC4HMAC_PASSWORD_UNITS_MAX + 1u,
                                  key);
    check("a password one unit too long is refused",
          answer == RC4HMAC_REFUSED_LENGTH && all_are(key, sizeof key, 0));
}

/* MIT krb5, src/lib/crypto/crypto_tests/t_cksums.c. */
static const uint8_t checksum_key[RC4HMAC_KEY_LEN] = {
    0xf7, 0xd3, 0xa1, 0x55, 0xaf, 0x5e, 0x23, 0x8a,
    0x0b, 0x7a, 0x87, 0x1a, 0x96, 0xba, 0x2a, 0xb2
};
static const char checksum_data[] = "seventeen eighteen nineteen twenty";
static const uint8_t checksum_expected[RC4HMAC_CHECKSUM_LEN] = {
    0xeb, 0x38, 0xcc, 0x97, 0xe2, 0x23, 0x0f, 0x59,
    0xda, 0x41, 0x17, 0xdc, 0x58, 0x59, 0xd7, 0xec
};

static void check_checksum(void)
{
    const uint8_t *data = (const uint8_t *)checksum_data;
    uint8_t checksum[RC4HMAC_CHECKSUM_LEN];
    uint32_t answer;

    memset(checksum, 0xee, sizeof checksum);
    answer = rc4hmac_checksum(checksum_key,
                              RC4HMAC_USAGE_TGS_REQ_AUTHENTICATOR_CKSUM,
                              data, sizeof checksum_data - 1, checksum);
    check("keyed checksum",
          answer == RC4HMAC_DONE
              && memcmp(checksum, checksum_expected, sizeof checksum) == 0);

    answer = rc4hmac_checksum(checksum_key, 16,
                              data, sizeof checksum_data - 1, checksum);
    check("a checksum for usage 16 is refused",
          answer == RC4HMAC_REFUSED_USAGE
              && all_are(checksum, sizeof checksum, 0));
}

static void check_checksum_test(void)
{
    const uint8_t *data = (const uint8_t *)checksum_data;
    uint8_t checksum[RC4HMAC_CHECKSUM_LEN];
    uint32_t answer;

    memcpy(checksum, checksum_expected, sizeof checksum);
    answer = rc4hmac_checksum_test(checksum_key,
                                   RC4HMAC_USAGE_TGS_REQ_AUTHENTICATOR_CKSUM,
                                   data, sizeof checksum_data - 1,
                                   checksum, sizeof checksum);
    check("keyed checksum passes", answer == RC4HMAC_DONE);

    checksum[15] ^= 0x80;
    answer = rc4hmac_checksum_test(checksum_key,
                                   RC4HMAC_USAGE_TGS_REQ_AUTHENTICATOR_CKSUM,
                                   data, sizeof checksum_data - 1,
                                   checksum, sizeof checksum);
    check("a damaged checksum is refused",
          answer == RC4HMAC_REFUSED_CHECKSUM);
}

static void check_encrypt(void)
{
    static const uint8_t key[RC4HMAC_KEY_LEN] = {
        0, 1, 2, 3, 4, 5, 6, 7, 8, 9, 10, 11, 12, 13, 14, 15
    };
    static const uint8_t confounder[RC4HMAC_CONFOUNDER_LEN] = {
        0xc0, 0xc1, 0xc2, 0xc3, 0xc4, 0xc5, 0xc6, 0xc7
    };
    static const uint8_t expected[RC4HMAC_ENCRYPTED_OVERHEAD + 4u] = {
        0x37, 0xee, 0x78, 0x8d, 0x78, 0x44, 0x12, 0x82,
        0x33, 0x08, 0xe3, 0x74, 0xb6, 0x0d, 0x21, 0x0b,
        0x1d, 0xea, 0xc4, 0xfb, 0xf3, 0xa2, 0x9b, 0xf3,
        0x80, 0x1e, 0x8f, 0x0e
    };
    uint8_t buf[sizeof expected];
    size_t written = 99;
    uint32_t answer;

    memset(buf, 0x5a, sizeof buf);
    memcpy(buf + RC4HMAC_ENCRYPTED_OVERHEAD, "kiln", 4);
    answer = rc4hmac_encrypt(key, 1, RC4HMAC_USAGE_KRB_PRIV_ENCRYPTED_PART,
                             confounder, buf, sizeof buf, 0, 4, &written);
    check("message of \"kiln\", export strength",
          answer == RC4HMAC_DONE && written == sizeof expected
              && memcmp(buf, expected, sizeof buf) == 0);

    memset(buf, 0x5a, sizeof buf);
    answer = rc4hmac_encrypt(key, 1, RC4HMAC_USAGE_KRB_PRIV_ENCRYPTED_PART,
                             confounder, buf, sizeof buf, 1, 4, &written);
    check("a region one octet past the buffer is refused",
          answer == RC4HMAC_REFUSED_REGION && written == 0
              && all_are(buf, sizeof buf, 0x5a));
}

static void check_decrypt(void)
{
    /* MIT krb5, src/lib/crypto/crypto_tests/t_decrypt.c. */
    static const uint8_t key[RC4HMAC_KEY_LEN] = {
        0x3e, 0x40, 0xab, 0x60, 0x93, 0x69, 0x52, 0x81,
        0xb3, 0xac, 0x1a, 0x93, 0x04, 0x22, 0x4d, 0x98
    };
    static const uint8_t message[RC4HMAC_ENCRYPTED_OVERHEAD + 9u] = {
        0x0f, 0x9a, 0xd1, 0x21, 0xd9, 0x9d, 0x4a, 0x09,
        0x44, 0x8e, 0x4f, 0x1f, 0x71, 0x8c, 0x4f, 0x5c,
        0xbe, 0x60, 0x96, 0x26, 0x2c, 0x66, 0xf2, 0x9d,
        0xf2, 0x32, 0xa8, 0x7c, 0x9f, 0x98, 0x75, 0x5d, 0x55
    };
    uint8_t buf[sizeof message];
    uint8_t before[sizeof message];
    size_t data_len = 99;
    uint32_t answer;

    memcpy(before, message, sizeof before);
    before[sizeof before - 1] ^= 1;
    memcpy(buf, before, sizeof buf);
    answer = rc4hmac_decrypt(key, 0, RC4HMAC_USAGE_AS_REP_TGS_REP_TICKET,
                             buf, sizeof buf, 0, sizeof buf, &data_len);
    check("a damaged message is refused and left",
          answer == RC4HMAC_REFUSED_CHECKSUM && data_len == 0
              && memcmp(buf, before, sizeof buf) == 0);

    memcpy(buf, message, sizeof buf);
    answer = rc4hmac_decrypt(key, 0, RC4HMAC_USAGE_AS_REP_TGS_REP_TICKET,
                             buf, sizeof buf, 0, sizeof buf, &data_len);
    check("message of \"9 bytesss\" opens",
          answer == RC4HMAC_DONE && data_len == 9
              && memcmp(buf, message, RC4HMAC_CHECKSUM_LEN) == 0
              && memcmp(buf + RC4HMAC_ENCRYPTED_OVERHEAD, "9 bytesss", 9) == 0);
}

/* The message stands between octets that are no part of it. */
static void check_round_trip(uint32_t export_strength, const char *what)
{
    static const uint8_t key[RC4HMAC_KEY_LEN] = { 7 };
    static const uint8_t confounder[RC4HMAC_CONFOUNDER_LEN] = { 1 };
    static const char data[] = "a record";
    uint8_t buf[100];
    size_t written = 99, data_len = 99;
    uint32_t encrypted, decrypted;

    memset(buf, 0x5a, sizeof buf);
    memcpy(buf + 30 + RC4HMAC_ENCRYPTED_OVERHEAD, data, sizeof data);
    encrypted = rc4hmac_encrypt(key, export_strength,
                                RC4HMAC_USAGE_AS_REP_ENCRYPTED_PART,
                                confounder, buf, sizeof buf,
                                30, sizeof data, &written);
    decrypted = rc4hmac_decrypt(key, export_strength,
                                RC4HMAC_USAGE_AS_REP_ENCRYPTED_PART,
                                buf, sizeof buf, 30, written, &data_len);
    check(what,
          encrypted == RC4HMAC_DONE && decrypted == RC4HMAC_DONE
              && written == RC4HMAC_ENCRYPTED_OVERHEAD + sizeof data
              && data_len == sizeof data
              && memcmp(buf + 30 + RC4HMAC_CHECKSUM_LEN, confounder, 8) == 0
              && memcmp(buf + 30 + RC4HMAC_ENCRYPTED_OVERHEAD, data,
                        sizeof data) == 0
              && all_are(buf, 30, 0x5a)
              && all_are(buf + 30 + written, sizeof buf - 30 - written, 0x5a));
}

/* For tokens: the key, the confounder and the sequence number. */
static const uint8_t token_key[RC4HMAC_KEY_LEN] = {
    0, 1, 2, 3, 4, 5, 6, 7, 8, 9, 10, 11, 12, 13, 14, 15
};
static const uint8_t token_confounder[RC4HMAC_CONFOUNDER_LEN] = {
    0xc0, 0xc1, 0xc2, 0xc3, 0xc4, 0xc5, 0xc6, 0xc7
};
#define TOKEN_SEQUENCE 16909060u

/* The initiator's MIC of "kiln", full strength. */
static const uint8_t mic[RC4HMAC_MIC_LEN] = {
    0x01, 0x01, 0x11, 0x00, 0xff, 0xff, 0xff, 0xff,
    0xcc, 0xee, 0x6e, 0x73, 0x11, 0x1f, 0x30, 0x43,
    0x46, 0x99, 0x10, 0xab, 0x92, 0x7e, 0xb0, 0x22
};

/* The acceptor's sealed token of "kiln", export strength. */
static const uint8_t sealed_token[RC4HMAC_WRAP_OVERHEAD + 4u] = {
    0x02, 0x01, 0x11, 0x00, 0x10, 0x00, 0xff, 0xff,
    0x6b, 0x62, 0xaa, 0xb3, 0x09, 0x0c, 0x8b, 0x47,
    0xa2, 0xe3, 0x66, 0x2a, 0x87, 0x64, 0x41, 0x5c,
    0x78, 0x7b, 0x52, 0xc3, 0xca, 0x7a, 0x6e, 0x7f,
    0x5c, 0x61, 0x28, 0x85, 0x18
};

/* The initiator's sealed token of "kiln", full strength, signed with 02 where
 * the pad 01 stands. */
static const uint8_t other_pad[RC4HMAC_WRAP_OVERHEAD + 4u] = {
    0x02, 0x01, 0x11, 0x00, 0x10, 0x00, 0xff, 0xff,
    0xfb, 0x7e, 0x88, 0xd0, 0x52, 0x02, 0xfd, 0x58,
    0x94, 0xdb, 0xac, 0x55, 0x9c, 0xd8, 0x10, 0xb3,
    0x83, 0xe7, 0x24, 0xde, 0x78, 0xfa, 0x9e, 0xcd,
    0x44, 0x72, 0x18, 0x9b, 0x8c
};

/* The initiator's token of "kiln", full strength, written by a call for MIC
 * tokens, and what the call refuses. */
static void check_mic_writer(
    uint32_t (*call)(const uint8_t *, uint32_t, uint32_t, uint32_t,
                     const uint8_t *, size_t, uint8_t *, size_t, size_t,
                     size_t *),
    const uint8_t *expected, size_t expected_len,
    const char *vector, const char *region, const char *length)
{
    uint8_t buf[RC4HMAC_FRAMED_MIC_LEN + 2u];
    size_t buf_len = expected_len + 2u;
    size_t written = 99;
    uint32_t answer;

    memset(buf, 0x5a, sizeof buf);
    answer = call(token_key, 0, 0, TOKEN_SEQUENCE, (const uint8_t *)"kiln", 4,
                  buf, buf_len, 1, &written);
    check(vector,
          answer == RC4HMAC_DONE && written == expected_len
              && memcmp(buf + 1, expected, expected_len) == 0
              && buf[0] == 0x5a && buf[buf_len - 1] == 0x5a);

    memset(buf, 0x5a, sizeof buf);
    answer = call(token_key, 0, 0, TOKEN_SEQUENCE, (const uint8_t *)"kiln", 4,
                  buf, buf_len, 3, &written);
    check(region,
          answer == RC4HMAC_REFUSED_REGION && written == 0
              && all_are(buf, sizeof buf, 0x5a));

    written = 99;
    answer = call(token_key, 0, 0, TOKEN_SEQUENCE,
                  too_long, RC4HMAC_MESSAGE_MAX + 1u,
                  buf, buf_len, 3, &written);
    check(length,
          answer == RC4HMAC_REFUSED_LENGTH && written == 0
              && all_are(buf, sizeof buf, 0x5a));
}

static void check_mic_write(void)
{
    check_mic_writer(rc4hmac_mic_write, mic, sizeof mic, "MIC of \"kiln\"",
                     "a MIC one octet past the buffer is refused",
                     "a MIC of data one octet too long is refused");
}

/* Reads a MIC, which stays as it is, for the data and the sender. */
static void check_mic_read(const char *what, const uint8_t *token,
                           const char *data, uint32_t acceptor,
                           uint32_t expected, uint32_t expected_sequence)
{
    uint8_t buf[RC4HMAC_MIC_LEN];
    uint32_t sequence = 99;
    uint32_t answer;

    memcpy(buf, token, sizeof buf);
    answer = rc4hmac_mic_read(token_key, 0, acceptor,
                              (const uint8_t *)data, strlen(data),
                              buf, sizeof buf, 0, sizeof buf, &sequence);
    check(what,
          answer == expected && sequence == expected_sequence
              && memcmp(buf, token, sizeof buf) == 0);
}

static void check_mic_reads(void)
{
    uint8_t other[RC4HMAC_MIC_LEN];
    uint32_t sequence = 99;
    uint32_t answer;

    check_mic_read("MIC of \"kiln\" is read", mic, "kiln", 0,
                   RC4HMAC_DONE, TOKEN_SEQUENCE);
    check_mic_read("a MIC of other data is refused", mic, "kilt", 0,
                   RC4HMAC_REFUSED_CHECKSUM, 0);
    check_mic_read("a MIC from another sender is refused", mic, "kiln", 1,
                   RC4HMAC_REFUSED_DIRECTION, 0);
    check_mic_read("a Wrap token is no MIC", sealed_token, "kiln", 0,
                   RC4HMAC_REFUSED_HEADER, 0);

    memcpy(other, mic, sizeof other);
    other[11] ^= 1;
    check_mic_read("a MIC with another number is read with it", other, "kiln",
                   0, RC4HMAC_DONE, TOKEN_SEQUENCE ^ 1u);

    answer = rc4hmac_mic_read(token_key, 0, 0, (const uint8_t *)"kiln", 4,
                              mic, sizeof mic, 0, sizeof mic - 1, &sequence);
    check("a MIC one octet too short is refused",
          answer == RC4HMAC_REFUSED_LENGTH && sequence == 0);
}

static void check_wrap_write(void)
{
    uint8_t buf[sizeof sealed_token];
    size_t written = 99;
    uint32_t answer;

    memset(buf, 0x5a, sizeof buf);
    memcpy(buf + RC4HMAC_WRAP_MESSAGE_OFFSET, "kiln", 4);
    answer = rc4hmac_wrap_write(token_key, 1, 1, TOKEN_SEQUENCE,
                                token_confounder, 1,
                                buf, sizeof buf, 0, 4, &written);
    check("sealed token of \"kiln\", export strength",
          answer == RC4HMAC_DONE && written == sizeof sealed_token
              && memcmp(buf, sealed_token, sizeof buf) == 0);

    memset(buf, 0x5a, sizeof buf);
    answer = rc4hmac_wrap_write(token_key, 1, 1, TOKEN_SEQUENCE,
                                token_confounder, 1,
                                buf, sizeof buf, 0, 5, &written);
    check("a token one octet past the buffer is refused",
          answer == RC4HMAC_REFUSED_REGION && written == 0
              && all_are(buf, sizeof buf, 0x5a));

    written = 99;
    answer = rc4hmac_wrap_write(token_key, 1, 1, TOKEN_SEQUENCE,
                                token_confounder, 1, buf, sizeof buf,
                                0, RC4HMAC_MESSAGE_MAX + 1u, &written);
    check("a message one octet too long is refused",
          answer == RC4HMAC_REFUSED_LENGTH && written == 0
              && all_are(buf, sizeof buf, 0x5a));
}

/* A token of 37 octets that is refused: it stays as it is, and every answer
 * is zero. */
static void check_refused(const char *what, const uint8_t *token,
                          uint32_t export_strength, uint32_t acceptor,
                          size_t length, uint32_t expected)
{
    uint8_t buf[sizeof sealed_token];
    uint32_t sequence = 99, sealed = 99;
    size_t message_len = 99;
    uint32_t answer;

    memcpy(buf, token, sizeof buf);
    answer = rc4hmac_wrap_open(token_key, export_strength, acceptor,
                               buf, sizeof buf, 0, length,
                               &sequence, &sealed, &message_len);
    check(what,
          answer == expected && sequence == 0 && sealed == 0
              && message_len == 0 && memcmp(buf, token, sizeof buf) == 0);
}

static void check_wrap_open(void)
{
    uint8_t buf[sizeof sealed_token];
    uint32_t sequence = 99, sealed = 99;
    size_t message_len = 99;
    uint32_t answer;

    memcpy(buf, sealed_token, sizeof buf);
    answer = rc4hmac_wrap_open(token_key, 1, 1, buf, sizeof buf,
                               0, sizeof buf,
                               &sequence, &sealed, &message_len);
    check("sealed token of \"kiln\" opens",
          answer == RC4HMAC_DONE && sequence == TOKEN_SEQUENCE
              && sealed == 1 && message_len == 4
              && memcmp(buf, sealed_token, 24) == 0
              && memcmp(buf + 24, token_confounder, 8) == 0
              && memcmp(buf + RC4HMAC_WRAP_MESSAGE_OFFSET, "kiln\001", 5) == 0);
}

static void check_wrap_refusals(void)
{
    uint8_t buf[sizeof sealed_token];

    memcpy(buf, sealed_token, sizeof buf);
    buf[5] = 0xff;
    check_refused("another header is refused", buf, 1, 1, sizeof buf,
                  RC4HMAC_REFUSED_HEADER);

    memcpy(buf, sealed_token, sizeof buf);
    buf[34] ^= 0x10;
    check_refused("a damaged token is refused and left", buf, 1, 1, sizeof buf,
                  RC4HMAC_REFUSED_CHECKSUM);

    check_refused("a token from another sender is refused", sealed_token, 1, 0,
                  sizeof sealed_token, RC4HMAC_REFUSED_DIRECTION);
    check_refused("a token of the other strength is refused", sealed_token,
                  0, 1, sizeof sealed_token, RC4HMAC_REFUSED_DIRECTION);
    check_refused("a token of 32 octets is refused", sealed_token, 1, 1,
                  RC4HMAC_WRAP_MIN - 1u, RC4HMAC_REFUSED_LENGTH);
    check_refused("a token past the buffer is refused", sealed_token, 1, 1,
                  sizeof sealed_token + 1u, RC4HMAC_REFUSED_REGION);
    check_refused("a token with another pad is refused and left", other_pad,
                  0, 0, sizeof other_pad, RC4HMAC_REFUSED_PAD);
}

/* The token stands between octets that are no part of it. */
static void check_token_round_trip(uint32_t flag, uint32_t sealed,
                                   size_t message_len, const char *what)
{
    static const char message[] = "a record";
    uint8_t buf[100];
    uint32_t sequence = 99, opened_sealed = 99;
    size_t written = 99, opened_len = 99;
    uint32_t wrapped, opened;

    memset(buf, 0x5a, sizeof buf);
    memcpy(buf + 30 + RC4HMAC_WRAP_MESSAGE_OFFSET, message, message_len);
    wrapped = rc4hmac_wrap_write(token_key, flag, flag, 0xfffffffeu,
                                 token_confounder, sealed, buf, sizeof buf,
                                 30, message_len, &written);
    opened = rc4hmac_wrap_open(token_key, flag, flag, buf, sizeof buf,
                               30, written,
                               &sequence, &opened_sealed, &opened_len);
    check(what,
          wrapped == RC4HMAC_DONE && opened == RC4HMAC_DONE
              && written == RC4HMAC_WRAP_OVERHEAD + message_len
              && sequence == 0xfffffffeu && opened_sealed == (sealed != 0)
              && opened_len == message_len
              && memcmp(buf + 54, token_confounder, 8) == 0
              && memcmp(buf + 62, message, message_len) == 0
              && buf[62 + message_len] == 1
              && all_are(buf, 30, 0x5a)
              && all_are(buf + 30 + written, sizeof buf - 30 - written, 0x5a));
}

static void check_token_round_trips(void)
{
    check_token_round_trip(0, 1, 8, "sealed round trip");
    check_token_round_trip(0, 0, 8, "clear round trip");
    check_token_round_trip(0, 1, 0, "sealed round trip of no message");
    check_token_round_trip(0, 0, 0, "clear round trip of no message");
    check_token_round_trip(0x80000000u, 2, 8,
                           "sealed round trip, export strength, acceptor");
    check_token_round_trip(2, 0, 8,
                           "clear round trip, export strength, acceptor");
}

/* The two tokens in their frames. */
static const uint8_t framed_mic[RC4HMAC_FRAMED_MIC_LEN] = {
    0x60, 0x23, 0x06, 0x09, 0x2a, 0x86, 0x48, 0x86,
    0xf7, 0x12, 0x01, 0x02, 0x02, 0x01, 0x01, 0x11,
    0x00, 0xff, 0xff, 0xff, 0xff, 0xcc, 0xee, 0x6e,
    0x73, 0x11, 0x1f, 0x30, 0x43, 0x46, 0x99, 0x10,
    0xab, 0x92, 0x7e, 0xb0, 0x22
};
static const uint8_t framed_token[RC4HMAC_FRAMED_WRAP_MIN + 4u] = {
    0x60, 0x30, 0x06, 0x09, 0x2a, 0x86, 0x48, 0x86,
    0xf7, 0x12, 0x01, 0x02, 0x02, 0x02, 0x01, 0x11,
    0x00, 0x10, 0x00, 0xff, 0xff, 0x6b, 0x62, 0xaa,
    0xb3, 0x09, 0x0c, 0x8b, 0x47, 0xa2, 0xe3, 0x66,
    0x2a, 0x87, 0x64, 0x41, 0x5c, 0x78, 0x7b, 0x52,
    0xc3, 0xca, 0x7a, 0x6e, 0x7f, 0x5c, 0x61, 0x28,
    0x85, 0x18
};

/* The initiator's framed token of the octets 0 to 83, clear, full strength,
 * before its confounder. */
static const uint8_t framed_front[14u + 24u] = {
    0x60, 0x81, 0x80, 0x06, 0x09, 0x2a, 0x86, 0x48,
    0x86, 0xf7, 0x12, 0x01, 0x02, 0x02, 0x02, 0x01,
    0x11, 0x00, 0xff, 0xff, 0xff, 0xff, 0x4a, 0x35,
    0x3c, 0xfb, 0xac, 0x55, 0xf0, 0xa4, 0x02, 0xfc,
    0x8a, 0xb3, 0xb5, 0xae, 0x24, 0xd8
};

static void check_framed_mic_write(void)
{
    check_mic_writer(rc4hmac_framed_mic_write, framed_mic, sizeof framed_mic,
                     "framed MIC of \"kiln\"",
                     "a framed MIC one octet past the buffer is refused",
                     "a framed MIC of data one octet too long is refused");
}

/* Reads a framed MIC of "kiln" that has one octet changed. */
static void check_framed_mic_read(const char *what, size_t at, uint8_t change,
                                  size_t length, uint32_t expected,
                                  uint32_t expected_sequence)
{
    uint8_t buf[sizeof framed_mic];
    uint8_t before[sizeof framed_mic];
    uint32_t sequence = 99;
    uint32_t answer;

    memcpy(buf, framed_mic, sizeof buf);
    buf[at] ^= change;
    memcpy(before, buf, sizeof before);
    answer = rc4hmac_framed_mic_read(token_key, 0, 0,
                                     (const uint8_t *)"kiln", 4,
                                     buf, sizeof buf, 0, length, &sequence);
    check(what,
          answer == expected && sequence == expected_sequence
              && memcmp(buf, before, sizeof buf) == 0);
}

static void check_framed_mic_reads(void)
{
    size_t len = sizeof framed_mic;

    check_framed_mic_read("framed MIC of \"kiln\" is read", 0, 0, len,
                          RC4HMAC_DONE, TOKEN_SEQUENCE);
    check_framed_mic_read("a framed MIC with another number is read with it",
                          13 + 11, 1, len, RC4HMAC_DONE, TOKEN_SEQUENCE ^ 1u);
    check_framed_mic_read("a framed MIC past the buffer is refused", 0, 1,
                          len + 1u, RC4HMAC_REFUSED_REGION, 0);
    check_framed_mic_read("a framed MIC with another tag is refused", 0, 1,
                          len, RC4HMAC_REFUSED_FRAME, 0);
    check_framed_mic_read("a framed MIC with another length is refused", 1, 1,
                          len, RC4HMAC_REFUSED_FRAME, 0);
    check_framed_mic_read("a framed MIC with another mechanism is refused",
                          12, 1, len, RC4HMAC_REFUSED_FRAME, 0);
    check_framed_mic_read("a framed MIC one octet too short is refused", 0, 0,
                          len - 1u, RC4HMAC_REFUSED_FRAME, 0);
    check_framed_mic_read("a framed MIC with another header is refused", 13,
                          1, len, RC4HMAC_REFUSED_HEADER, 0);
    check_framed_mic_read("a framed MIC with another direction is refused",
                          13 + 12, 1, len, RC4HMAC_REFUSED_DIRECTION, 0);
}

static void check_framed_wrap_lead(void)
{
    static const struct { size_t message_len, lead; } leads[] = {
        { 0, 13 }, { 83, 13 }, { 84, 14 }, { 211, 14 }, { 212, 15 },
        { RC4HMAC_MESSAGE_MAX, 15 }
    };
    size_t lead, i;
    uint32_t answer;

    for (i = 0; i < sizeof leads / sizeof leads[0]; i++) {
        lead = 99;
        answer = rc4hmac_framed_wrap_lead(leads[i].message_len, &lead);
        check("the lead of a framed token",
              answer == RC4HMAC_DONE && lead == leads[i].lead);
    }

    answer = rc4hmac_framed_wrap_lead(RC4HMAC_MESSAGE_MAX + 1u, &lead);
    check("the lead of a message one octet too long is refused",
          answer == RC4HMAC_REFUSED_LENGTH && lead == 0);
}

static void check_framed_wrap_write(void)
{
    uint8_t buf[sizeof framed_front + RC4HMAC_CONFOUNDER_LEN + 84u + 1u];
    const uint8_t *plain = buf + sizeof framed_front;
    size_t written = 99;
    uint32_t answer;
    uint8_t i;

    memset(buf, 0x5a, sizeof buf);
    memcpy(buf + 13u + RC4HMAC_WRAP_MESSAGE_OFFSET, "kiln", 4);
    answer = rc4hmac_framed_wrap_write(token_key, 1, 1, TOKEN_SEQUENCE,
                                       token_confounder, 1,
                                       buf, sizeof buf, 0, 4, &written);
    check("framed sealed token of \"kiln\", export strength",
          answer == RC4HMAC_DONE && written == sizeof framed_token
              && memcmp(buf, framed_token, sizeof framed_token) == 0
              && all_are(buf + written, sizeof buf - written, 0x5a));

    memset(buf, 0x5a, sizeof buf);
    for (i = 0; i < 84; i++) {
        buf[14u + RC4HMAC_WRAP_MESSAGE_OFFSET + i] = i;
    }
    answer = rc4hmac_framed_wrap_write(token_key, 0, 0, TOKEN_SEQUENCE,
                                       token_confounder, 0,
                                       buf, sizeof buf, 0, 84, &written);
    check("framed clear token of 84 octets",
          answer == RC4HMAC_DONE && written == sizeof buf
              && memcmp(buf, framed_front, sizeof framed_front) == 0
              && memcmp(plain, token_confounder, 8) == 0
              && plain[8] == 0 && plain[8 + 83] == 83 && plain[8 + 84] == 1);

    memset(buf, 0x5a, sizeof buf);
    answer = rc4hmac_framed_wrap_write(token_key, 0, 0, TOKEN_SEQUENCE,
                                       token_confounder, 0,
                                       buf, sizeof buf, 0, 85, &written);
    check("a framed token one octet past the buffer is refused",
          answer == RC4HMAC_REFUSED_REGION && written == 0
              && all_are(buf, sizeof buf, 0x5a));

    written = 99;
    answer = rc4hmac_framed_wrap_write(token_key, 0, 0, TOKEN_SEQUENCE,
                                       token_confounder, 0, buf, sizeof buf,
                                       0, RC4HMAC_MESSAGE_MAX + 1u, &written);
    check("a framed message one octet too long is refused",
          answer == RC4HMAC_REFUSED_LENGTH && written == 0
              && all_are(buf, sizeof buf, 0x5a));
}

static void check_framed_wrap_open(void)
{
    uint8_t buf[sizeof framed_token + 5u];
    uint32_t sequence = 99, sealed = 99;
    size_t message_len = 99;
    size_t length = sizeof framed_token;
    uint32_t answer;

    memset(buf, 0x5a, sizeof buf);
    memcpy(buf + 3, framed_token, length);
    answer = rc4hmac_framed_wrap_open(token_key, 1, 1, buf, sizeof buf,
                                      3, length,
                                      &sequence, &sealed, &message_len);
    check("framed sealed token of \"kiln\" opens",
          answer == RC4HMAC_DONE && sequence == TOKEN_SEQUENCE
              && sealed == 1 && message_len == 4
              && memcmp(buf + 3, framed_token, 13 + 24) == 0
              && memcmp(buf + 3 + 13 + 24, token_confounder, 8) == 0
              && memcmp(buf + 3 + length - 1 - message_len, "kiln\001", 5) == 0
              && all_are(buf, 3, 0x5a)
              && all_are(buf + 3 + length, 2, 0x5a));
}

/* A region that is refused: it stays as it is, and every answer is zero. */
static void check_framed_refused(const char *what, const uint8_t *region,
                                 size_t region_len, uint32_t flag,
                                 size_t length, uint32_t expected)
{
    uint8_t buf[sizeof framed_token + 2u];
    uint32_t sequence = 99, sealed = 99;
    size_t message_len = 99;
    uint32_t answer;

    memcpy(buf, region, region_len);
    answer = rc4hmac_framed_wrap_open(token_key, flag, flag,
                                      buf, region_len, 0, length,
                                      &sequence, &sealed, &message_len);
    check(what,
          answer == expected && sequence == 0 && sealed == 0
              && message_len == 0 && memcmp(buf, region, region_len) == 0);
}

static void check_framed_wrap_refusals(void)
{
    /* Each octet here is changed by the lowest bit. */
    static const struct {
        const char *what;
        size_t at;
        uint32_t expected;
    } changes[] = {
        { "another tag is refused", 0, RC4HMAC_REFUSED_FRAME },
        { "another length is refused", 1, RC4HMAC_REFUSED_FRAME },
        { "another mechanism is refused", 2, RC4HMAC_REFUSED_FRAME },
        { "a mechanism that ends otherwise is refused", 12,
          RC4HMAC_REFUSED_FRAME },
        { "another header in a frame is refused", 13, RC4HMAC_REFUSED_HEADER },
        { "another direction in a frame is refused", 13 + 12,
          RC4HMAC_REFUSED_DIRECTION },
        { "a damaged token in a frame is refused and left", 13 + 34,
          RC4HMAC_REFUSED_CHECKSUM }
    };
    uint8_t buf[sizeof framed_token + 1u];
    size_t len = sizeof framed_token;
    size_t i;

    for (i = 0; i < sizeof changes / sizeof changes[0]; i++) {
        memcpy(buf, framed_token, len);
        buf[changes[i].at] ^= 1;
        check_framed_refused(changes[i].what, buf, len, 1, len,
                             changes[i].expected);
    }

    memcpy(buf, framed_token, len);
    buf[len] = 0;
    check_framed_refused("a frame that ends before its region is refused",
                         buf, len + 1u, 1, len + 1u, RC4HMAC_REFUSED_FRAME);
    check_framed_refused("a frame that ends after its region is refused",
                         buf, len, 1, len - 1u, RC4HMAC_REFUSED_FRAME);
    check_framed_refused("a region past the buffer is refused for that",
                         buf + 1, len, 1, len + 1u, RC4HMAC_REFUSED_REGION);

    buf[1] = 0x81;
    buf[2] = 0x30;
    memcpy(buf + 3, framed_token + 2, len - 2u);
    check_framed_refused("a length in a longer form is refused",
                         buf, len + 1u, 1, len + 1u, RC4HMAC_REFUSED_FRAME);

    memcpy(buf, framed_token, 13);
    buf[1] = 0x0b;
    check_framed_refused("a frame without a token is refused for its length",
                         buf, 13, 1, 13, RC4HMAC_REFUSED_LENGTH);
    check_framed_refused("a region of 12 octets is refused", buf, 13, 1, 12,
                         RC4HMAC_REFUSED_FRAME);

    memcpy(buf, framed_token, 13);
    memcpy(buf + 13, other_pad, sizeof other_pad);
    check_framed_refused("another pad in a frame is refused and left",
                         buf, len, 0, len, RC4HMAC_REFUSED_PAD);
}

/* The four words of a window. */
static int window_is(const uint64_t *window, uint64_t first, uint64_t next,
                     uint64_t seen, uint64_t billed)
{
    return window[0] == first && window[1] == next && window[2] == seen
        && window[3] == billed;
}

static void check_window_new(void)
{
    uint64_t window[RC4HMAC_WINDOW_WORDS];
    uint32_t answer;

    memset(window, 0x5a, sizeof window);
    answer = rc4hmac_window_new(0xfffffffdu, window);
    check("a new window",
          answer == RC4HMAC_DONE && window_is(window, 0xfffffffdu, 0, 0, 0));
}

/* A number, its status, and the window afterwards. */
struct billing {
    const char *what;
    uint32_t sequence;
    uint32_t status;
    uint64_t next;
    uint64_t seen;
    uint64_t billed;
};

static void check_window_bill(void)
{
    /* The first number is 2^32 - 3. */
    static const struct billing billings[] = {
        { "the first number is in order", 0xfffffffdu,
          RC4HMAC_STATUS_IN_ORDER, 1, 1, 1 },
        { "a number two further is a gap", 0xffffffffu,
          RC4HMAC_STATUS_GAP, 3, 5, 2 },
        { "the number between is late", 0xfffffffeu,
          RC4HMAC_STATUS_LATE, 3, 7, 3 },
        { "the same again is a duplicate", 0xfffffffeu,
          RC4HMAC_STATUS_DUPLICATE, 3, 7, 3 },
        { "0 follows 2^32 - 1 in order", 0,
          RC4HMAC_STATUS_IN_ORDER, 4, 15, 4 },
        { "a number before the first is outside", 0xfffffffcu,
          RC4HMAC_STATUS_OUTSIDE, 4, 15, 4 },
        { "64 further leaves the newest mark", 64,
          RC4HMAC_STATUS_GAP, 68, 1, 5 },
        { "65 below the next is old", 0,
          RC4HMAC_STATUS_OLD, 68, 1, 5 },
        { "64 below the next is late", 1,
          RC4HMAC_STATUS_LATE, 68, (UINT64_C(1) << 63) | 1, 6 },
        { "distance 2^31 - 1 is a gap", 0x7ffffffcu,
          RC4HMAC_STATUS_GAP, UINT64_C(1) << 31, 1, 7 },
        { "the next one is outside", 0x7ffffffdu,
          RC4HMAC_STATUS_OUTSIDE, UINT64_C(1) << 31, 1, 7 }
    };
    uint64_t window[RC4HMAC_WINDOW_WORDS];
    size_t i;

    rc4hmac_window_new(0xfffffffdu, window);
    for (i = 0; i < sizeof billings / sizeof billings[0]; i++) {
        const struct billing *b = &billings[i];
        uint32_t status = 99;
        uint32_t answer = rc4hmac_window_bill(window, b->sequence, &status);

        check(b->what,
              answer == RC4HMAC_DONE && status == b->status
                  && window_is(window, 0xfffffffdu, b->next, b->seen,
                               b->billed));
    }
}

/* Words above 2^32 and a count at its end, which no history makes. */
static void check_window_words(void)
{
    const uint64_t high = UINT64_C(0xa5) << 32;
    uint64_t window[RC4HMAC_WINDOW_WORDS] = { 0, 0, 1, UINT64_MAX };
    uint32_t status = 99;
    uint32_t answer;

    window[0] = high | 5;
    window[1] = high | 2;
    answer = rc4hmac_window_bill(window, 6, &status);
    check("a duplicate leaves all words as they came",
          answer == RC4HMAC_DONE && status == RC4HMAC_STATUS_DUPLICATE
              && window_is(window, high | 5, high | 2, 1, UINT64_MAX));

    answer = rc4hmac_window_bill(window, 5, &status);
    check("a late number writes all words",
          answer == RC4HMAC_DONE && status == RC4HMAC_STATUS_LATE
              && window_is(window, 5, 2, 3, 0));
}

static void check_window_missing(void)
{
    uint64_t window[RC4HMAC_WINDOW_WORDS];
    uint32_t status = 99, missing = 99;
    uint32_t answer;

    rc4hmac_window_new(7, window);
    answer = rc4hmac_window_missing(window, &missing);
    check("a new window misses nothing",
          answer == RC4HMAC_DONE && missing == 0);

    rc4hmac_window_bill(window, 12, &status);
    answer = rc4hmac_window_missing(window, &missing);
    check("a gap of five misses five",
          answer == RC4HMAC_DONE && missing == 5
              && window_is(window, 7, 6, 1, 1));

    rc4hmac_window_bill(window, 1000, &status);
    answer = rc4hmac_window_missing(window, &missing);
    check("a long gap misses all but the newest",
          answer == RC4HMAC_DONE && missing == RC4HMAC_WINDOW_MARKS - 1u);
}

/* Receives the acceptor's sealed token from a copy with one octet changed by
 * `change`, by a window that stays as it is unless the token is billed. */
static void check_receive_wrap(const char *what, uint64_t *window,
                               uint8_t change, uint32_t expected,
                               uint32_t expected_status)
{
    uint8_t buf[sizeof sealed_token], before[sizeof sealed_token];
    uint64_t came[RC4HMAC_WINDOW_WORDS];
    uint32_t sequence = 99, sealed = 99, status = 99;
    size_t message_len = 99;
    uint32_t answer;
    int holds;

    memcpy(before, sealed_token, sizeof before);
    before[34] ^= change;
    memcpy(buf, before, sizeof buf);
    memcpy(came, window, sizeof came);
    answer = rc4hmac_receive_wrap(window, token_key, 1, 1, buf, sizeof buf,
                                  0, sizeof buf, &sequence, &sealed,
                                  &message_len, &status);
    holds = answer == expected && status == expected_status;
    if (expected == RC4HMAC_DONE) {
        holds = holds && sequence == TOKEN_SEQUENCE && sealed == 1
            && message_len == 4 && memcmp(buf, sealed_token, 24) == 0
            && memcmp(buf + RC4HMAC_WRAP_MESSAGE_OFFSET, "kiln\001", 5) == 0;
    } else {
        holds = holds && sequence == 0 && sealed == 0 && message_len == 0
            && memcmp(buf, before, sizeof buf) == 0;
    }
    if (expected_status != RC4HMAC_STATUS_GAP) {
        holds = holds && memcmp(window, came, sizeof came) == 0;
    }
    check(what, holds);
}

static void check_receive_wraps(void)
{
    uint64_t window[RC4HMAC_WINDOW_WORDS];

    rc4hmac_window_new(TOKEN_SEQUENCE - 3u, window);
    check_receive_wrap("a damaged token leaves the window", window, 0x10,
                       RC4HMAC_REFUSED_CHECKSUM, RC4HMAC_STATUS_NONE);
    check_receive_wrap("a token is opened and billed", window, 0,
                       RC4HMAC_DONE, RC4HMAC_STATUS_GAP);
    check("the window has billed one number",
          window_is(window, TOKEN_SEQUENCE - 3u, 4, 1, 1));
    check_receive_wrap("the token again is opened and not billed", window, 0,
                       RC4HMAC_DONE, RC4HMAC_STATUS_DUPLICATE);
}

/* Receives a MIC, which stays as it is, for the data. */
static void check_receive_mic(const char *what, uint64_t *window,
                              const uint8_t *token, const char *data,
                              uint32_t expected, uint32_t expected_sequence,
                              uint32_t expected_status, uint64_t expected_next,
                              uint64_t expected_seen, uint64_t expected_billed)
{
    uint8_t buf[RC4HMAC_MIC_LEN];
    uint32_t sequence = 99, status = 99;
    uint32_t answer;

    memcpy(buf, token, sizeof buf);
    answer = rc4hmac_receive_mic(window, token_key, 0, 0,
                                 (const uint8_t *)data, strlen(data),
                                 buf, sizeof buf, 0, sizeof buf,
                                 &sequence, &status);
    check(what,
          answer == expected && sequence == expected_sequence
              && status == expected_status
              && memcmp(buf, token, sizeof buf) == 0
              && window_is(window, TOKEN_SEQUENCE, expected_next,
                           expected_seen, expected_billed));
}

static void check_receive_mics(void)
{
    uint64_t window[RC4HMAC_WINDOW_WORDS];
    uint8_t other[RC4HMAC_MIC_LEN];

    rc4hmac_window_new(TOKEN_SEQUENCE, window);
    check_receive_mic("a MIC of other data leaves the window", window, mic,
                      "kilt", RC4HMAC_REFUSED_CHECKSUM, 0,
                      RC4HMAC_STATUS_NONE, 0, 0, 0);
    check_receive_mic("a MIC is read and billed", window, mic, "kiln",
                      RC4HMAC_DONE, TOKEN_SEQUENCE,
                      RC4HMAC_STATUS_IN_ORDER, 1, 1, 1);
    check_receive_mic("the MIC again is read and not billed", window, mic,
                      "kiln", RC4HMAC_DONE, TOKEN_SEQUENCE,
                      RC4HMAC_STATUS_DUPLICATE, 1, 1, 1);

    memcpy(other, mic, sizeof other);
    other[11] ^= 1;
    check_receive_mic("a MIC with another number is billed under it", window,
                      other, "kiln", RC4HMAC_DONE, TOKEN_SEQUENCE ^ 1u,
                      RC4HMAC_STATUS_IN_ORDER, 2, 3, 2);
}

/* Receives the acceptor's framed sealed token from a copy with the octet `at`
 * changed by `change`, by a window that stays as it is unless the token is
 * billed. Octets that are no part of the region stand around it. */
static void check_receive_framed_wrap(const char *what, uint64_t *window,
                                      size_t at, uint8_t change,
                                      size_t length, uint32_t expected,
                                      uint32_t expected_status)
{
    uint8_t buf[sizeof framed_token + 5u], before[sizeof framed_token + 5u];
    uint64_t came[RC4HMAC_WINDOW_WORDS];
    uint32_t sequence = 99, sealed = 99, status = 99;
    size_t message_len = 99;
    size_t len = sizeof framed_token;
    uint32_t answer;
    int holds;

    memset(before, 0x5a, sizeof before);
    memcpy(before + 3, framed_token, len);
    before[3 + at] ^= change;
    memcpy(buf, before, sizeof buf);
    memcpy(came, window, sizeof came);
    answer = rc4hmac_receive_framed_wrap(window, token_key, 1, 1,
                                         buf, sizeof buf, 3, length,
                                         &sequence, &sealed, &message_len,
                                         &status);
    holds = answer == expected && status == expected_status;
    if (expected == RC4HMAC_DONE) {
        holds = holds && sequence == TOKEN_SEQUENCE && sealed == 1
            && message_len == 4
            && memcmp(buf, before, 3 + 13 + 24) == 0
            && memcmp(buf + 3 + 13 + 24, token_confounder, 8) == 0
            && memcmp(buf + 3 + len - 1 - message_len, "kiln\001", 5) == 0
            && all_are(buf + 3 + len, 2, 0x5a);
    } else {
        holds = holds && sequence == 0 && sealed == 0 && message_len == 0
            && memcmp(buf, before, sizeof buf) == 0;
    }
    if (expected_status != RC4HMAC_STATUS_GAP) {
        holds = holds && memcmp(window, came, sizeof came) == 0;
    }
    check(what, holds);
}

/* A frame of 13 octets without a token, and one around a token with another
 * pad, which the initiator sent at full strength. */
static void check_receive_framed_whole(const char *what, uint64_t *window,
                                       const uint8_t *token, size_t token_len,
                                       uint32_t expected)
{
    uint8_t buf[13u + sizeof other_pad], before[13u + sizeof other_pad];
    uint64_t came[RC4HMAC_WINDOW_WORDS];
    uint32_t sequence = 99, sealed = 99, status = 99;
    size_t message_len = 99;
    uint32_t answer;

    memcpy(before, framed_token, 13);
    before[1] = (uint8_t)(11u + token_len);
    memcpy(before + 13, token, token_len);
    memcpy(buf, before, 13u + token_len);
    memcpy(came, window, sizeof came);
    answer = rc4hmac_receive_framed_wrap(window, token_key, 0, 0,
                                         buf, 13u + token_len,
                                         0, 13u + token_len,
                                         &sequence, &sealed, &message_len,
                                         &status);
    check(what,
          answer == expected && sequence == 0 && sealed == 0
              && message_len == 0 && status == RC4HMAC_STATUS_NONE
              && memcmp(buf, before, 13u + token_len) == 0
              && memcmp(window, came, sizeof came) == 0);
}

static void check_receive_framed_wraps(void)
{
    /* Each octet here is changed by the lowest bit. */
    static const struct {
        const char *what;
        size_t at;
        uint32_t expected;
    } changes[] = {
        { "another tag leaves the window", 0, RC4HMAC_REFUSED_FRAME },
        { "another length leaves the window", 1, RC4HMAC_REFUSED_FRAME },
        { "another mechanism leaves the window", 12, RC4HMAC_REFUSED_FRAME },
        { "another header in a frame leaves the window", 13,
          RC4HMAC_REFUSED_HEADER },
        { "another direction in a frame leaves the window", 13 + 12,
          RC4HMAC_REFUSED_DIRECTION },
        { "a damaged token in a frame leaves the window", 13 + 34,
          RC4HMAC_REFUSED_CHECKSUM }
    };
    uint64_t window[RC4HMAC_WINDOW_WORDS];
    size_t len = sizeof framed_token;
    size_t i;

    rc4hmac_window_new(TOKEN_SEQUENCE - 3u, window);
    for (i = 0; i < sizeof changes / sizeof changes[0]; i++) {
        check_receive_framed_wrap(changes[i].what, window, changes[i].at, 1,
                                  len, changes[i].expected,
                                  RC4HMAC_STATUS_NONE);
    }
    check_receive_framed_wrap("a frame cut off leaves the window", window,
                              0, 0, len - 1u, RC4HMAC_REFUSED_FRAME,
                              RC4HMAC_STATUS_NONE);
    check_receive_framed_wrap("a region past the buffer comes before a frame",
                              window, 0, 1, len + 3u, RC4HMAC_REFUSED_REGION,
                              RC4HMAC_STATUS_NONE);
    check_receive_framed_whole("a frame without a token leaves the window",
                               window, other_pad, 0, RC4HMAC_REFUSED_LENGTH);
    check_receive_framed_whole("another pad in a frame leaves the window",
                               window, other_pad, sizeof other_pad,
                               RC4HMAC_REFUSED_PAD);
    check("refused framed tokens have billed no number",
          window_is(window, TOKEN_SEQUENCE - 3u, 0, 0, 0));

    check_receive_framed_wrap("a framed token is opened and billed", window,
                              0, 0, len, RC4HMAC_DONE, RC4HMAC_STATUS_GAP);
    check("the window has billed one framed token",
          window_is(window, TOKEN_SEQUENCE - 3u, 4, 1, 1));
    check_receive_framed_wrap("the framed token again is not billed", window,
                              0, 0, len, RC4HMAC_DONE,
                              RC4HMAC_STATUS_DUPLICATE);

    /* Where 0 is the next number. */
    rc4hmac_window_new(0, window);
    check_receive_framed_wrap("a refused framed token does not bill 0", window,
                              13 + 34, 1, len, RC4HMAC_REFUSED_CHECKSUM,
                              RC4HMAC_STATUS_NONE);
    check("a window that expects 0 still expects it",
          window_is(window, 0, 0, 0, 0));
}

/* Receives a framed MIC of "kiln" that has one octet changed, and that stays as
 * it is, for the data. */
static void check_receive_framed_mic(const char *what, uint64_t *window,
                                     size_t at, uint8_t change,
                                     const char *data, size_t length,
                                     uint32_t expected,
                                     uint32_t expected_sequence,
                                     uint32_t expected_status,
                                     uint64_t expected_next,
                                     uint64_t expected_seen,
                                     uint64_t expected_billed)
{
    uint8_t buf[sizeof framed_mic], before[sizeof framed_mic];
    uint32_t sequence = 99, status = 99;
    uint32_t answer;

    memcpy(before, framed_mic, sizeof before);
    before[at] ^= change;
    memcpy(buf, before, sizeof buf);
    answer = rc4hmac_receive_framed_mic(window, token_key, 0, 0,
                                        (const uint8_t *)data, strlen(data),
                                        buf, sizeof buf, 0, length,
                                        &sequence, &status);
    check(what,
          answer == expected && sequence == expected_sequence
              && status == expected_status
              && memcmp(buf, before, sizeof buf) == 0
              && window_is(window, TOKEN_SEQUENCE, expected_next,
                           expected_seen, expected_billed));
}

static void check_receive_framed_mics(void)
{
    uint64_t window[RC4HMAC_WINDOW_WORDS];
    uint32_t sequence = 99, status = 99;
    size_t len = sizeof framed_mic;
    uint32_t answer;

    rc4hmac_window_new(TOKEN_SEQUENCE, window);
    check_receive_framed_mic("a framed MIC past the buffer leaves the window",
                             window, 0, 1, "kiln", len + 1u,
                             RC4HMAC_REFUSED_REGION, 0,
                             RC4HMAC_STATUS_NONE, 0, 0, 0);
    check_receive_framed_mic("a framed MIC with another tag leaves the window",
                             window, 0, 1, "kiln", len,
                             RC4HMAC_REFUSED_FRAME, 0,
                             RC4HMAC_STATUS_NONE, 0, 0, 0);
    answer = rc4hmac_receive_framed_mic(window, token_key, 0, 0,
                                        too_long, RC4HMAC_MESSAGE_MAX + 1u,
                                        framed_mic, len, 0, len,
                                        &sequence, &status);
    check("a framed MIC of data one octet too long leaves the window",
          answer == RC4HMAC_REFUSED_LENGTH && sequence == 0
              && status == RC4HMAC_STATUS_NONE
              && window_is(window, TOKEN_SEQUENCE, 0, 0, 0));
    check_receive_framed_mic("a framed MIC with another header leaves it too",
                             window, 13, 1, "kiln", len,
                             RC4HMAC_REFUSED_HEADER, 0,
                             RC4HMAC_STATUS_NONE, 0, 0, 0);
    check_receive_framed_mic("a framed MIC with another direction does so",
                             window, 13 + 12, 1, "kiln", len,
                             RC4HMAC_REFUSED_DIRECTION, 0,
                             RC4HMAC_STATUS_NONE, 0, 0, 0);
    check_receive_framed_mic("a framed MIC of other data leaves the window",
                             window, 0, 0, "kilt", len,
                             RC4HMAC_REFUSED_CHECKSUM, 0,
                             RC4HMAC_STATUS_NONE, 0, 0, 0);
    check_receive_framed_mic("a framed MIC is read and billed", window,
                             0, 0, "kiln", len, RC4HMAC_DONE, TOKEN_SEQUENCE,
                             RC4HMAC_STATUS_IN_ORDER, 1, 1, 1);
    check_receive_framed_mic("the framed MIC again is read and not billed",
                             window, 0, 0, "kiln", len,
                             RC4HMAC_DONE, TOKEN_SEQUENCE,
                             RC4HMAC_STATUS_DUPLICATE, 1, 1, 1);
    check_receive_framed_mic("a framed MIC with another number is billed so",
                             window, 13 + 11, 1, "kiln", len,
                             RC4HMAC_DONE, TOKEN_SEQUENCE ^ 1u,
                             RC4HMAC_STATUS_IN_ORDER, 2, 3, 2);
}

int main(void)
{
    check_md4();
    check_md5();
    check_hmac_md5();
    check_rc4();
    check_password_key();
    check_checksum();
    check_checksum_test();
    check_encrypt();
    check_decrypt();
    check_round_trip(0, "round trip, full strength");
    check_round_trip(1, "round trip, export strength");
    check_mic_write();
    check_mic_reads();
    check_wrap_write();
    check_wrap_open();
    check_wrap_refusals();
    check_token_round_trips();
    check_framed_mic_write();
    check_framed_mic_reads();
    check_framed_wrap_lead();
    check_framed_wrap_write();
    check_framed_wrap_open();
    check_framed_wrap_refusals();
    check_window_new();
    check_window_bill();
    check_window_words();
    check_window_missing();
    check_receive_wraps();
    check_receive_mics();
    check_receive_framed_wraps();
    check_receive_framed_mics();

    if (failed != 0) {
        printf("c: %u checks failed, %u passed\n", failed, passed);
        return 1;
    }
    printf("c: %u checks passed\n", passed);
    return 0;
}
