/* keyline.h: the delegation payload's reader and writer, and the whole kernel on a script, for C and for Rust through C.
 *
 * The functions are in libexports.a (`make exports`), for programs on x86-64 Linux. Each is proved to meet the contract in
 * src/lib.rt, which says on every input what it answers and what it leaves behind every pointer. Nothing checks this file against that
 * source, and nothing checks a caller: a caller that is not Rattle must pass what the parameters' types say. No function asks for more
 * than that: any bytes and any lengths may be handed over, and a bad input is refused.
 *
 * What the types say:
 *
 *   - Numbers pass as themselves: u8 as uint8_t, usize as size_t.
 *   - A slice passes as a pointer and then the number of its bytes. The pointer is to that many bytes, which are readable, and for a
 *     slice that is written (`out`, `answers`) writable, during the whole call. The number is below 2^63. An empty slice may have any
 *     pointer but null; nothing is read or written through it.
 *   - A pointer to one number (`beside`, `power`, `rank`, `citation` of the reader, `written`, `used`) is not null, is aligned for its
 *     type, and is to a number that may be written. What it holds before the call is not used; it is written on every call, on a
 *     refusal too.
 *   - What a call may write is that call's alone: `out`, `answers` and the numbers behind pointers overlap neither each other nor any
 *     slice that is read, and no one else reads or writes them until the call returns. Slices that are only read may overlap one
 *     another; no one writes to them until the call returns.
 *   - No pointer is kept after the call. The functions keep no state, and may be called from several threads at once.
 *
 * A number from 1 to 9 says why a call refused, as in document 01's table; the value beside it is written to *beside, or for a request
 * of a script to the first value of its reply:
 *
 *   number                      when                                                          beside it
 *   1 KEYLINE_BAD_LENGTH        a key or digest has not 32 bytes; a script is too long         its length
 *   2 KEYLINE_UNEXPECTED_END    the payload or the script ends too soon                        0
 *   3 KEYLINE_TRAILING_BYTES    the payload goes on behind its end                             0
 *   4 KEYLINE_INVALID_TAG       a power byte that is none of the four, or a tag but 0 and 1;   the byte
 *                               in a script an operation that is none
 *   5 KEYLINE_CONFLICT          the digest is held with other content                          0
 *   6 KEYLINE_FULL_DELEGATIONS  128 delegations are held                                       128
 *   7 KEYLINE_FULL_REVOCATIONS  64 revocations are held                                        64
 *   8 KEYLINE_FULL_KEYS         held and new keys would be over 64                             how many new ones
 *   9 KEYLINE_SMALL_BUFFER      a payload, a list or the replies do not fit                    the bytes needed
 *
 * 5 to 8 refuse insertions only, and come in replies alone. A caller should take a number that it does not know for a refusal.
 */
#ifndef KEYLINE_H
#define KEYLINE_H

#include <stddef.h>
#include <stdint.h>

#ifdef __cplusplus
extern "C" {
#endif

#define KEYLINE_NOT_REFUSED 0
#define KEYLINE_BAD_LENGTH 1
#define KEYLINE_UNEXPECTED_END 2
#define KEYLINE_TRAILING_BYTES 3
#define KEYLINE_INVALID_TAG 4
#define KEYLINE_CONFLICT 5
#define KEYLINE_FULL_DELEGATIONS 6
#define KEYLINE_FULL_REVOCATIONS 7
#define KEYLINE_FULL_KEYS 8
#define KEYLINE_SMALL_BUFFER 9

/* A payload: audience 32 bytes, subject 32, power 1, tag 1, then 32 bytes of citation if the tag is 1. */
#define KEYLINE_KEY_LENGTH 32
#define KEYLINE_DIGEST_LENGTH 32
#define KEYLINE_POWER_AT 64
#define KEYLINE_TAG_AT 65
#define KEYLINE_CITATION_AT 66
#define KEYLINE_PAYLOAD_LENGTH 66
#define KEYLINE_CITED_LENGTH 98

/* The power bytes, lowest level first. Levels are compared by rank (0 to 3), never by byte. */
#define KEYLINE_RELAY 'L'
#define KEYLINE_READ 'R'
#define KEYLINE_EDIT 'E'
#define KEYLINE_ADMIN 'A'

/* What a set of certificates holds at most. */
#define KEYLINE_MOST_KEYS 64
#define KEYLINE_MOST_DELEGATIONS 128
#define KEYLINE_MOST_REVOCATIONS 64

/* Reads the `payload_length` bytes at `payload`.
 *
 * Answers 0 if they are a payload, else 2, 3 or 4. The checks, in this order: under 66 bytes is 2; a power byte that is none of the four
 * is 4; tag 0 with more than 66 bytes is 3; tag 1 with under 98 is 2, with over 98 is 3; any other tag is 4.
 *
 *   *beside    0, or on a refusal the value beside the number
 *   *power     the power byte, or 0 on a refusal
 *   *rank      the power's rank, or 0 on a refusal
 *   *citation  how many bytes of citation there are: 32 or 0; 0 on a refusal. They stand at payload + KEYLINE_CITATION_AT.
 *
 * The audience of an accepted payload is its first 32 bytes, and the subject the next 32.
 */
uint8_t keyline_delegation_decode(const uint8_t *payload, size_t payload_length,
                                  size_t *beside, uint8_t *power, uint8_t *rank, size_t *citation);

/* Writes a payload to the front of the `out_length` bytes at `out`; the bytes behind it stay as they are.
 *
 * Takes an audience and a subject of 32 bytes each, a power byte, and a citation of 0 bytes (absent) or 32. Answers 0 if it wrote them,
 * else 1, 4 or 9, and then every byte of `out` is as it was. The checks, in this order: the lengths of audience, subject and citation
 * (1); the power byte (4); the room (9).
 *
 *   *written   the bytes written: 66, or 98 with a citation; 0 on a refusal
 *   *beside    0, or on a refusal the value beside the number
 */
uint8_t keyline_delegation_encode(const uint8_t *audience, size_t audience_length,
                                  const uint8_t *subject, size_t subject_length,
                                  uint8_t power,
                                  const uint8_t *citation, size_t citation_length,
                                  uint8_t *out, size_t out_length,
                                  size_t *written, size_t *beside);

/* A script is requests one behind the other. Numbers of more than one byte have the lowest byte first.
 *
 * A request has KEYLINE_REQUEST_HEAD bytes: the operation (1), the lengths of its three arguments (2 each), the sizes of the first room
 * (2) and of the second (1). Behind them stand the arguments. One that the operation does not have is read over.
 *
 * Its reply has KEYLINE_REPLY_HEAD bytes: 0 or a refusal's number (1), the first value, or what is beside the number (4), the second
 * value (4). Behind them stand the first room and the second, in the sizes that the request names: the buffers that the call is lent. The
 * first begins as those bytes of `answers` were, the second as zeros.
 *
 *   operation                     arguments                          first value                       rooms
 *   KEYLINE_OP_NEW                                                   0
 *   KEYLINE_OP_INSERT_DELEGATION  digest, issuer, payload            1 added, 0 held already
 *   KEYLINE_OP_INSERT_REVOCATION  digest, issuer, revoked digest     1 added, 0 held already
 *   KEYLINE_OP_EVALUATE                                              0
 *   KEYLINE_OP_VERSION, _LEN                                         the number
 *   KEYLINE_OP_IS_EMPTY                                              1 yes, 0 no
 *   KEYLINE_OP_CONTAINS_..        digest                             1 yes, 0 no
 *   KEYLINE_OP_DELEGATION         digest                             1 held, 0 absent                  issuer; payload
 *   KEYLINE_OP_REVOCATION         digest                             1 held, 0 absent                  issuer; revoked digest
 *   KEYLINE_OP_SUBJECTS                                              how many                          keys
 *   KEYLINE_OP_REVOCATIONS_OF     digest of a delegation             how many                          digests
 *   KEYLINE_OP_DELEGATIONS_TO     subject, audience                  how many                          digests
 *   KEYLINE_OP_CERTIFICATES                                          how many delegations              digests
 *   KEYLINE_OP_POSITIVE_POWER     subject, audience                  the power byte, 0 for none
 *   KEYLINE_OP_EFFECTIVE_POWER    subject, audience                  the power byte, 0 for none
 *   KEYLINE_OP_MEMBERS            subject                            how many                          keys; power bytes
 *   KEYLINE_OP_IS_LIVE            digest                             1 yes, 0 no
 *   KEYLINE_OP_CONVEYED_POWER     digest                             the power byte, 0 for none
 *   KEYLINE_OP_STANDING           digest                             KEYLINE_ABSENT to _UNSUPPORTED
 *   KEYLINE_OP_CLOSURE            subject                            how many delegations              digests
 *
 * The second value is the length of what is in the second room for the two lookups, how many revocations for _CERTIFICATES and _CLOSURE,
 * else 0. The operations from 32 on are about the set as it was at the last KEYLINE_OP_EVALUATE, and about the empty set before the first.
 */
#define KEYLINE_REQUEST_HEAD 10
#define KEYLINE_REPLY_HEAD 9
#define KEYLINE_MOST_SCRIPT 16777216

#define KEYLINE_OP_NEW 0
#define KEYLINE_OP_INSERT_DELEGATION 1
#define KEYLINE_OP_INSERT_REVOCATION 2
#define KEYLINE_OP_EVALUATE 3
#define KEYLINE_OP_VERSION 16
#define KEYLINE_OP_LEN 17
#define KEYLINE_OP_IS_EMPTY 18
#define KEYLINE_OP_CONTAINS_DELEGATION 19
#define KEYLINE_OP_CONTAINS_REVOCATION 20
#define KEYLINE_OP_DELEGATION 21
#define KEYLINE_OP_REVOCATION 22
#define KEYLINE_OP_SUBJECTS 23
#define KEYLINE_OP_REVOCATIONS_OF 24
#define KEYLINE_OP_DELEGATIONS_TO 25
#define KEYLINE_OP_CERTIFICATES 26
#define KEYLINE_OP_POSITIVE_POWER 32
#define KEYLINE_OP_EFFECTIVE_POWER 33
#define KEYLINE_OP_MEMBERS 34
#define KEYLINE_OP_IS_LIVE 35
#define KEYLINE_OP_CONVEYED_POWER 36
#define KEYLINE_OP_STANDING 37
#define KEYLINE_OP_CLOSURE 38

/* The first value of KEYLINE_OP_STANDING. */
#define KEYLINE_ABSENT 0
#define KEYLINE_LIVE 1
#define KEYLINE_REVOKED 2
#define KEYLINE_UNSUPPORTED 3

/* Runs the `script_length` bytes at `script`, from the empty set, and puts the replies to the front of the `answers_length` bytes at
 * `answers`; the bytes behind them stay as they are. Nothing is kept between calls. docs/SCRIPT.md says the same at more length.
 *
 * Answers 0, also if requests were refused: such a refusal is the reply to its request, and the script goes on. Else the whole script is
 * refused, with 1, 2, 4 or 9, and then every byte of `answers` is as it was. The checks, in this order: the script has more than
 * KEYLINE_MOST_SCRIPT bytes (1); a request or its arguments end too soon (2), or its operation is none (4), whichever is the first; the
 * room (9).
 *
 *   *used      the bytes of the replies; 0 on a refusal
 *   *beside    0, or on a refusal of the script the value beside the number
 *
 * For example, the owner S (key 32 times 01) makes B (32 times 02) an editor of S; then B's power over S is asked for:
 *
 *   01 20 00 20 00 42 00 00 00 00   KEYLINE_OP_INSERT_DELEGATION: arguments of 32, 32 and 66 bytes, no rooms
 *      d1 d1 .. d1                  digest
 *      01 01 .. 01                  issuer S
 *      02 .. 02 01 .. 01 45 00      payload: audience B, subject S, Edit, no citation
 *   03 00 00 00 00 00 00 00 00 00   KEYLINE_OP_EVALUATE
 *   21 20 00 20 00 00 00 00 00 00   KEYLINE_OP_EFFECTIVE_POWER
 *      01 .. 01  02 .. 02           subject S, audience B
 *
 * The replies, 27 bytes:
 *
 *   00 01 00 00 00 00 00 00 00      added
 *   00 00 00 00 00 00 00 00 00
 *   00 45 00 00 00 00 00 00 00      Edit
 */
uint8_t keyline_run(const uint8_t *script, size_t script_length,
                    uint8_t *answers, size_t answers_length,
                    size_t *used, size_t *beside);

#ifdef __cplusplus
}
#endif

#endif
