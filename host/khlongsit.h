/* The card as a C program calls it. This header is its manual.
 *
 * The card keeps nothing between calls. Its partner table is lent with every call as the stored image, a row of bytes
 * that the host keeps. A call works on what it was lent and on its own stack: it has no static variables, allocates
 * nothing, and may run in several threads at once on different buffers.
 *
 * For every call:
 * - A slice is a pointer and a length. The pointer is never null, also where the length is 0.
 * - Lent slices and the report do not overlap each other.
 * - The result is the answer, one of enum khl_answer. It is given exactly when its condition holds and none that the
 *   call tests earlier does; each call below names its answers in the order in which it tests them.
 * - The report is 32 bytes and always written whole. With a refusal (every answer but 0 and 4) it is zero throughout;
 *   with 4 it has the letters and the reply's length and is zero elsewhere.
 * - A refused call changes no byte of the image, the reply or the new image. Answer 4 writes a reply and changes no
 *   byte of the image. A reply or a new image touches only the bytes of its length, which the report tells.
 * - An image is lent at its exact length. A byte more or less, or anything else that is not legal, is 13.
 * - Identities, key names and services are lent bare, without filling blanks and without a zero byte at the end. Inside
 *   an image, a record and a request, names are filled with blanks to 16 bytes and numbers have the high byte first.
 *
 * What the host has to know besides:
 * - Store the image before the reply leaves: an image older than what was sent brings counts and keys back.
 * - A resend is the host sending the bytes of the key message again; the card does not keep them.
 * - NOS in a KSM says that its data keys are notarized: sealed not under the top key offset by CTP but under the
 *   notarizing key of X9.17's section 7.5, made of the top key, ORG, RCV and CTP, so that they open only as keys from
 *   that originator to that receiver. A request asks for it; a KSM received says so itself, and the report does not.
 *   Identities that are alike once they are repeated to 16 characters (A and AA) give one notarizing key.
 * - An ESM carries no MAC. Whoever can write to the line can break a waiting exchange with one, and an ESM whose CTP is
 *   99,999,999 spends the send count: no key message can be built for that partner until both ends load each other
 *   anew.
 * - A KSM of two equal KDs has a MAC key of zero whatever they decipher to. Whoever can write to the line can make one
 *   without the top key, and it is accepted: its keys are known to nobody, and the expected count rises with it, as far
 *   as 99,999,999, where every later KSM of that partner is P until both ends load each other anew.
 * - Nothing takes constant time: comparing MACs, names and keys does not, and the cipher's table look-ups have indices
 *   made of keys and data. Who can time the calls, or shares the processor's cache, may learn of keys.
 * - Image, record and request hold keys in the clear, and so does every copy of them: wiping them is the host's part.
 * - Keys and key schedules are left on the stack by a call, and keys may be left in registers. A host that wants them
 *   gone overwrites KHL_STACK bytes of stack after the call, from where it was called; host/bytes.c does so.
 * - A call needs at most KHL_STACK bytes of stack: a test paints the stack and holds every call to that, with 64
 *   partners. Today receive uses 3,984 bytes, build a KSM 3,168, build an RSI 1,800, give up 1,512, the others at most
 *   1,064.
 */
#ifndef KHLONGSIT_H
#define KHLONGSIT_H

#include <stddef.h>
#include <stdint.h>

#ifdef __cplusplus
extern "C" {
#endif

/* The answers. */
enum khl_answer {
    KHL_DONE = 0,          /* done */
    KHL_NO_MESSAGE = 1,    /* the text is not a message; also a text of 0 bytes or of more than 512 */
    KHL_NOT_FOR_US = 2,    /* RCV is not us */
    KHL_NO_PARTNER = 3,    /* partner not in the table; also a malformed identity (but 10 in start and load), and ORG
                            * equal to our own */
    KHL_ERROR = 4,         /* error: the letters are reported, the reply is an ESM, the table is unchanged */
    KHL_NONE_WAITING = 5,  /* nothing is waiting */
    KHL_NO_ROOM = 6,       /* reply room under 256 bytes, or room for a new image under 10,065 */
    KHL_WAITING = 7,       /* a key message is already waiting */
    KHL_COUNT_SPENT = 8,   /* next send count is 99,999,999 */
    KHL_TABLE_FULL = 9,    /* 64 entries in use */
    KHL_BAD_IDENTITY = 10, /* identity malformed, our own, or taken */
    KHL_BAD_PARITY = 11,   /* key not of odd parity where it must be */
    KHL_BAD_REQUEST = 12,  /* a field of the request malformed */
    KHL_BAD_IMAGE = 13     /* image not legal */
};

/* Sizes in bytes. */
enum {
    KHL_REPORT = 32,        /* a report, exactly */
    KHL_REQUEST = 74,       /* a request for a KSM, exactly */
    KHL_ROOM = 256,         /* a reply buffer, at least */
    KHL_TEXT_MOST = 512,    /* the text of a message, at most */
    KHL_KSM_MOST = 237,     /* the longest KSM that the card writes; 232 without NOS */
    KHL_IMAGE_LEAST = 81,   /* an image without partners */
    KHL_IMAGE_MOST = 10065, /* an image with 64 partners, and the least room for a new image */
    KHL_RECORD = 156,       /* the body of a partner's record */
    KHL_SET = 49,           /* a key set in it */
    KHL_NAME = 16,          /* a name or identity filled with blanks; bare, it has 1 to 16 of A-Z, 0-9 */
    KHL_KEY = 8,            /* a key; a pair has two, left then right */
    KHL_DATE = 12,          /* a date, YYMMDDHHMMSS in digits */
    KHL_PARTNERS = 64,      /* the slots of a table */
    KHL_STACK = 4096        /* the stack that a call needs, at most */
};

#define KHL_COUNT_LAST 99999999u /* the last count: neither sent nor accepted */

/* ---- numbers and names as image, record, request and report store them */

/* The number that stands there. */
static inline uint64_t khl_number(const uint8_t *at, size_t bytes) {
    uint64_t number = 0;
    for (size_t i = 0; i < bytes; i++)
        number = number << 8 | at[i];
    return number;
}

/* Puts a number there. */
static inline void khl_put_number(uint8_t *at, size_t bytes, uint64_t number) {
    for (size_t i = bytes; i > 0; i--, number >>= 8)
        at[i - 1] = (uint8_t)number;
}

/* The length of a name without the blanks that fill it; 0 where it is missing. */
static inline size_t khl_name_length(const uint8_t *name) {
    size_t length = 0;
    while (length < KHL_NAME && name[length] != ' ')
        length++;
    return length;
}

/* Puts a name there and fills it with blanks; what is longer than 16 bytes is cut. */
static inline void khl_put_name(uint8_t *at, const char *name) {
    for (size_t i = 0; i < KHL_NAME; i++)
        at[i] = (uint8_t)(*name != '\0' ? *name++ : ' ');
}

/* ---- the report: where each part stands */
enum {
    KHL_REPORT_LETTERS = 0,      /* 2 bytes: one bit for each letter, enum khl_letter */
    KHL_REPORT_LENGTH = 2,       /* 2 bytes: length of the reply, of the record asked for, or of the new image */
    KHL_REPORT_CLASS = 4,        /* 1 byte: the class received, enum khl_class */
    KHL_REPORT_SERVICE = 5,      /* 1 byte: the service wanted by an RSI, enum khl_service */
    KHL_REPORT_IV_PRESENT = 6,   /* 1 byte: 1 where the KSM received has an IV (an IV may be all zero), else 0 */
    KHL_REPORT_DATE_PRESENT = 7, /* 1 byte: 1 where it has a date, else 0 */
    KHL_REPORT_IV = 8,           /* 8 bytes: that IV in the clear, else zero */
    KHL_REPORT_DATE = 16,        /* 12 bytes: that date, digits, else zero */
    KHL_REPORT_ZERO = 28         /* 4 bytes: zero */
};

/* The letters of an error, in the order of ERF. The card itself sends F, I, K, M, O and P. */
enum khl_letter {
    KHL_LETTER_A = 1 << 0,
    KHL_LETTER_B = 1 << 1,
    KHL_LETTER_F = 1 << 2, /* format: IV not E or P and 16 hex digits, or EDK no date */
    KHL_LETTER_I = 1 << 3, /* an IDK2 that is not the entry's key name; alone */
    KHL_LETTER_K = 1 << 4, /* a KD marked P and not of odd parity once deciphered; alone */
    KHL_LETTER_M = 1 << 5, /* MAC differs */
    KHL_LETTER_O = 1 << 6, /* option not implemented; alone. NOS is no option */
    KHL_LETTER_P = 1 << 7, /* count below the expected one, or 99,999,999 */
    KHL_LETTER_U = 1 << 8
};

enum khl_class { KHL_CLASS_NONE, KHL_CLASS_RSI, KHL_CLASS_KSM, KHL_CLASS_RSM, KHL_CLASS_ESM };

/* The contents of SVR. One data key is always implied, so the empty contents ask for one. */
enum khl_service {
    KHL_SERVICE_NONE,      /* no RSI was received */
    KHL_SERVICE_EMPTY,     /* SVR/ */
    KHL_SERVICE_IV,        /* IV */
    KHL_SERVICE_KD,        /* KD */
    KHL_SERVICE_KD_IV,     /* KD.IV */
    KHL_SERVICE_KK,        /* KK */
    KHL_SERVICE_KK_IV,     /* KK.IV */
    KHL_SERVICE_KK_KD,     /* KK.KD */
    KHL_SERVICE_KK_KD_IV,  /* KK.KD.IV */
    KHL_SERVICE_PAIR,      /* *KK */
    KHL_SERVICE_PAIR_IV,   /* *KK.IV */
    KHL_SERVICE_PAIR_KD,   /* *KK.KD */
    KHL_SERVICE_PAIR_KD_IV /* *KK.KD.IV */
};

static inline unsigned khl_report_letters(const uint8_t *report) {
    return (unsigned)khl_number(report + KHL_REPORT_LETTERS, 2);
}
static inline size_t khl_report_length(const uint8_t *report) {
    return (size_t)khl_number(report + KHL_REPORT_LENGTH, 2);
}
static inline enum khl_class khl_report_class(const uint8_t *report) {
    return (enum khl_class)report[KHL_REPORT_CLASS];
}
static inline enum khl_service khl_report_service(const uint8_t *report) {
    return (enum khl_service)report[KHL_REPORT_SERVICE];
}
static inline int khl_report_iv_present(const uint8_t *report) { return report[KHL_REPORT_IV_PRESENT]; }
static inline int khl_report_date_present(const uint8_t *report) { return report[KHL_REPORT_DATE_PRESENT]; }
static inline const uint8_t *khl_report_iv(const uint8_t *report) { return report + KHL_REPORT_IV; }
static inline const uint8_t *khl_report_date(const uint8_t *report) { return report + KHL_REPORT_DATE; }

/* ---- the request for a KSM: where each part stands */
enum {
    KHL_REQUEST_COUNT = 0,      /* 1 byte: number of keys, 1 or 2 */
    KHL_REQUEST_FIRST = 1,      /* 25 bytes: the first key */
    KHL_REQUEST_SECOND = 26,    /* 25 bytes: the second key; not judged where there is one key */
    KHL_REQUEST_IV_KIND = 51,   /* 1 byte: enum khl_iv_kind; above 2 is 12 */
    KHL_REQUEST_IV = 52,        /* 8 bytes: the IV in the clear; not judged where there is none */
    KHL_REQUEST_DATED = 60,     /* 1 byte: 1 to write EDK, else 0 */
    KHL_REQUEST_DATE = 61,      /* 12 bytes: the date, digits; not judged where EDK is not written */
    KHL_REQUEST_NOTARIZED = 73, /* 1 byte: 1 to write NOS and notarize the keys, else 0 */

    /* and within each key's 25 bytes */
    KHL_ASKED_KEY = 0,   /* 8 bytes: the key in the clear */
    KHL_ASKED_FLAGS = 8, /* 1 byte: the sum of enum khl_flag */
    KHL_ASKED_NAME = 9   /* 16 bytes: the name for IDK1, filled with blanks; not judged where IDK1 is not written */
};

enum khl_flag {
    KHL_FLAG_P = 1,    /* marked P: the key has to be of odd parity */
    KHL_FLAG_IDK1 = 2, /* the key's name is written */
    KHL_FLAG_IDK2 = 4  /* the entry's key name is written */
};

enum khl_iv_kind { KHL_IV_NONE, KHL_IV_PLAIN, KHL_IV_ENCIPHERED };

/* A request begins as 74 zero bytes. The first key has place 0, the second 1; this is where its 25 bytes stand. */
static inline size_t khl_request_asked(int place) { return place == 0 ? KHL_REQUEST_FIRST : KHL_REQUEST_SECOND; }

static inline int khl_request_count(const uint8_t *request) { return request[KHL_REQUEST_COUNT]; }
static inline unsigned khl_request_flags(const uint8_t *request, int place) {
    return request[khl_request_asked(place) + KHL_ASKED_FLAGS];
}
static inline enum khl_iv_kind khl_request_iv_kind(const uint8_t *request) {
    return (enum khl_iv_kind)request[KHL_REQUEST_IV_KIND];
}
static inline int khl_request_dated(const uint8_t *request) { return request[KHL_REQUEST_DATED]; }
static inline int khl_request_notarized(const uint8_t *request) { return request[KHL_REQUEST_NOTARIZED]; }

static inline void khl_request_put_count(uint8_t *request, int keys) { request[KHL_REQUEST_COUNT] = (uint8_t)keys; }
static inline void khl_request_put_flags(uint8_t *request, int place, unsigned flags) {
    request[khl_request_asked(place) + KHL_ASKED_FLAGS] = (uint8_t)flags;
}
static inline void khl_request_put_iv_kind(uint8_t *request, enum khl_iv_kind kind) {
    request[KHL_REQUEST_IV_KIND] = (uint8_t)kind;
}
static inline void khl_request_put_dated(uint8_t *request, int dated) { request[KHL_REQUEST_DATED] = (uint8_t)dated; }
static inline void khl_request_put_notarized(uint8_t *request, int notarized) {
    request[KHL_REQUEST_NOTARIZED] = (uint8_t)notarized;
}

/* where the bytes of a key, its name, the IV and the date are put */
static inline uint8_t *khl_request_key(uint8_t *request, int place) {
    return request + khl_request_asked(place) + KHL_ASKED_KEY;
}
static inline uint8_t *khl_request_name(uint8_t *request, int place) {
    return request + khl_request_asked(place) + KHL_ASKED_NAME;
}
static inline uint8_t *khl_request_iv(uint8_t *request) { return request + KHL_REQUEST_IV; }
static inline uint8_t *khl_request_date(uint8_t *request) { return request + KHL_REQUEST_DATE; }

/* ---- the image: kind 1 and our identity (17 bytes), then 64 records, each kind 0 (an empty slot, 1 byte) or kind 2
 * and the 156 bytes of a partner (157 bytes) */
enum { KHL_IMAGE_OWN = 1, KHL_IMAGE_SLOTS = 17, KHL_KIND_EMPTY = 0, KHL_KIND_OWN = 1, KHL_KIND_PARTNER = 2 };

static inline const uint8_t *khl_image_own(const uint8_t *image) { return image + KHL_IMAGE_OWN; }

/* The record in a slot of a legal image, 0 to 63; null where the slot is empty. */
static inline const uint8_t *khl_image_record(const uint8_t *image, int slot) {
    const uint8_t *kind = image + KHL_IMAGE_SLOTS;
    for (; slot > 0; slot--)
        kind += *kind == KHL_KIND_PARTNER ? 1 + KHL_RECORD : 1;
    return *kind == KHL_KIND_PARTNER ? kind + 1 : NULL;
}

/* ---- a partner's record: where each part stands in its 156 bytes */
enum {
    KHL_RECORD_IDENTITY = 0,   /* 16 bytes */
    KHL_RECORD_NAME = 16,      /* 16 bytes: the key name */
    KHL_RECORD_FORM = 32,      /* 1 byte: enum khl_form */
    KHL_RECORD_TOP = 33,       /* 16 bytes: the top key, a single key's second half zero */
    KHL_RECORD_NEXT = 49,      /* 4 bytes: next send count */
    KHL_RECORD_EXPECTED = 53,  /* 4 bytes: next expected count */
    KHL_RECORD_PHASE = 57,     /* 1 byte: enum khl_phase */
    KHL_RECORD_OUTGOING = 58,  /* 49 bytes: a key set, the keys that we sent */
    KHL_RECORD_INCOMING = 107, /* 49 bytes: a key set, the keys that we accepted */

    /* and within a key set's 49 bytes: the number of keys, then two places of a key and its name; a missing name is 16
     * blanks, an unused place is 24 zero bytes */
    KHL_SET_COUNT = 0,
    KHL_SET_FIRST = 1,
    KHL_SET_SECOND = 25,
    KHL_PLACE_KEY = 0,
    KHL_PLACE_NAME = 8
};

enum khl_form { KHL_FORM_SINGLE = 1, KHL_FORM_PAIR = 2 };
enum khl_phase { KHL_PHASE_IDLE, KHL_PHASE_WAITING, KHL_PHASE_CONFIRMED, KHL_PHASE_BROKEN };

static inline const uint8_t *khl_record_identity(const uint8_t *record) { return record + KHL_RECORD_IDENTITY; }
static inline const uint8_t *khl_record_name(const uint8_t *record) { return record + KHL_RECORD_NAME; }
static inline enum khl_form khl_record_form(const uint8_t *record) { return (enum khl_form)record[KHL_RECORD_FORM]; }
static inline const uint8_t *khl_record_top(const uint8_t *record) { return record + KHL_RECORD_TOP; }
static inline uint32_t khl_record_next(const uint8_t *record) {
    return (uint32_t)khl_number(record + KHL_RECORD_NEXT, 4);
}
static inline uint32_t khl_record_expected(const uint8_t *record) {
    return (uint32_t)khl_number(record + KHL_RECORD_EXPECTED, 4);
}
static inline enum khl_phase khl_record_phase(const uint8_t *record) {
    return (enum khl_phase)record[KHL_RECORD_PHASE];
}
static inline const uint8_t *khl_record_outgoing(const uint8_t *record) { return record + KHL_RECORD_OUTGOING; }
static inline const uint8_t *khl_record_incoming(const uint8_t *record) { return record + KHL_RECORD_INCOMING; }

/* The first key of a set has place 0, the second 1. */
static inline int khl_set_count(const uint8_t *set) { return set[KHL_SET_COUNT]; }
static inline const uint8_t *khl_set_key(const uint8_t *set, int place) {
    return set + (place == 0 ? KHL_SET_FIRST : KHL_SET_SECOND) + KHL_PLACE_KEY;
}
static inline const uint8_t *khl_set_name(const uint8_t *set, int place) {
    return set + (place == 0 ? KHL_SET_FIRST : KHL_SET_SECOND) + KHL_PLACE_NAME;
}

/* ---- the calls of the line */

/* Receives a message. Answers 13, 6 (room under 256, also where no reply would follow), 1, 2, 3, then by class:
 * - RSI: 0; class and service are reported. No reply.
 * - KSM: 4 with I, 4 with K, or 4 with all that hold of F, M and P; otherwise 0: the keys and names replace the
 *   incoming ones, expected becomes count + 1, the reply is an RSM; class, reply length, and the IV and date that it
 *   has are reported. NOS between ORG and the first KD says how the keys are sealed and changes nothing else; a KSM
 *   whose NOS has contents, or has anything but a KD behind it, is 1.
 * - RSM: 5; 4 with M, still waiting; otherwise 0: phase 2. Class is reported. No reply.
 * - ESM: 5; otherwise 0: phase 3, outgoing keys wiped, next send the larger of itself and CTP, if there is one. Class
 *   and the ESM's letters are reported. No reply: no ESM is ever answered.
 * - DSM, ERS, RFS, RTR, or a KSM or RSI with an option: 4 with O.
 * With 0 only the partner's record changes, if anything does, and the image keeps its length. */
uint32_t khl_receive(uint8_t *image, size_t image_len, const uint8_t *text, size_t text_len, uint8_t *reply,
                     size_t reply_len, uint8_t *report);

/* Builds a KSM for a partner. Answers 13, 6, 3, 7, 8, 11 (a key to be marked P is not of odd parity), 12 (a request not
 * of 74 bytes, no key, more than two, two equal keys, or a bad name, date or flag, an IV kind above 2 and a notarized
 * above 1 among them; in a request of 74 bytes with one or two keys 11 comes before every fault of 12, otherwise no key
 * is used and there is no 11); otherwise 0: the reply is the message with the next send count, which rises by one; the
 * outgoing keys are set, named by the IDK1 written; phase 1. The reply's length is reported. In phase 2 the keys
 * confirmed before are dropped at once. */
uint32_t khl_build_ksm(uint8_t *image, size_t image_len, const uint8_t *partner, size_t partner_len,
                       const uint8_t *request, size_t request_len, uint8_t *reply, size_t reply_len, uint8_t *report);

/* Builds an RSI for a partner, in every phase; it changes nothing. The service is SVR's contents, one of the twelve of
 * enum khl_service, or empty. Answers 13, 6, 3, 12 (no legal SVR); otherwise 0: the reply is the message, its length is
 * reported. */
uint32_t khl_build_rsi(const uint8_t *image, size_t image_len, const uint8_t *partner, size_t partner_len,
                       const uint8_t *service, size_t service_len, uint8_t *reply, size_t reply_len, uint8_t *report);

/* Asks for a partner's entry. Answers 13, 6 (room under 256), 3; otherwise 0: the 156 bytes of the record's body are
 * written to the reply, and 156 is reported as its length. */
uint32_t khl_ask(const uint8_t *image, size_t image_len, const uint8_t *partner, size_t partner_len, uint8_t *reply,
                 size_t reply_len, uint8_t *report);

/* Gives up on a waiting key message. Answers 13, 3, 5; otherwise 0: phase 3 and the outgoing keys wiped. */
uint32_t khl_give_up(uint8_t *image, size_t image_len, const uint8_t *partner, size_t partner_len, uint8_t *report);

/* ---- the calls of the custodians: each writes a whole new image to `out`, which must have room for 10,065 bytes,
 * reports the new image's length, and leaves the bytes of `out` behind it as they were */

/* A new image with our identity and 64 empty slots. Answers 6, 10 (a malformed identity); otherwise 0. */
uint32_t khl_start(const uint8_t *own, size_t own_len, uint8_t *out, size_t out_len, uint8_t *report);

/* Loads a partner into the lowest free slot: counts 1, phase 0, no data keys. The key is 8 bytes, or 16 for a pair.
 * Answers 13, 6, 10 (an identity that is malformed, our own or taken), 12 (malformed key name, or a key of another
 * length), 11 (either half), 9; otherwise 0. */
uint32_t khl_load(const uint8_t *image, size_t image_len, const uint8_t *partner, size_t partner_len,
                  const uint8_t *name, size_t name_len, const uint8_t *key, size_t key_len, uint8_t *out,
                  size_t out_len, uint8_t *report);

/* Removes a partner, in every phase; its slot is empty. Answers 13, 6, 3; otherwise 0. */
uint32_t khl_remove(const uint8_t *image, size_t image_len, const uint8_t *partner, size_t partner_len, uint8_t *out,
                    size_t out_len, uint8_t *report);

/* ---- no part of the card's work: the bare cipher and MAC, for tests and for the check values of keys. Keys and blocks
 * are numbers, the first byte the highest; the result of the last is the 32-bit MAC. */

uint64_t khl_test_encipher(uint64_t key, uint64_t block);
uint64_t khl_test_decipher(uint64_t key, uint64_t block);
uint32_t khl_test_mac(uint64_t key, const uint8_t *text, size_t text_len);

#ifdef __cplusplus
}
#endif

#endif
