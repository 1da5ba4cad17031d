/*
 * Peatnickel: the controller's face.
 *
 * Translates rules, stored as 16-bit words, into their images in continuation-passing form, and packs and unpacks the
 * two file forms. The functions are proved against definitions that anyone can compare with the paper
 * (crates/peatnickel/specs and what it cites); the numbers below are those of crates/peatnickel/specs/Numbers.antt, and
 * the replies those of `Means` in crates/peatnickel/specs/Calls.antt. The code in this header is C, tested and not
 * proved: what reads a reply, and what tests for overlap.
 *
 * What every call has in common:
 *
 * - What is lent is a pointer and a length, in words or in bytes. Of an empty one the pointer is never read.
 * - Rules are of version 1 or of version 2; numbers and operations, kinds 10 and 11, stand in version 2 only. Every
 *   call on words is told the version, and refuses any other (11) before it looks at them. A file carries its version,
 *   and unpacking reports it. A version has 16 bits, and C cuts a larger number at the call: 65,537 is taken for 1. A
 *   program that has it in a wider type has to compare it before.
 * - The reply is one number of 32 bits. Below 65,536 it is a count, which never reaches that: an image has at most
 *   28,672 words, and its file 57,351 bytes. From 65,536 on it is a refusal: what it has above 65,536 holds the
 *   refusal's number in its low 16 bits and the refusal's place in its high 16 bits. Unpacking's reply has 64 bits: the
 *   low 32 are such a number, and above them stands the version that the file carries, or 0 at a refusal. The reply and
 *   all that a call leaves in an output are determined by what was told and lent.
 * - Refusals 3 to 8 and 18 carry the place of the word tested, counted from 0; 3 carries the number of words given. All
 *   other refusals carry place 0. No place is more than 4,096.
 * - A refusal leaves every buffer as it was. Success fills the front of the output; the rest of it is as it was.
 * - No call waits, allocates memory, or fails to return. The stack that each uses was measured: under 32 KiB on rules
 *   at the limit of depth (docs/COST.md).
 *
 * What is undefined, and what may happen:
 *
 * Any words, any bytes and any true lengths may be lent, and an overlap is refused. The functions see values and no
 * addresses, so that the following is the caller's part. Nothing tests it, and no proof speaks of a call that breaks
 * it: its reply may be any number, and the program may crash.
 *
 * - A length that is more than the elements that its pointer has: elements past the end are read, and those past the
 *   end of an output may be overwritten.
 * - A pointer to words that is not aligned for them: undefined in C, and not made up for here.
 * - An input or an output that something else changes during the call, as another thread, an interrupt or a device:
 *   what was checked is then not what is read again. As the writers test no bound, since it was proved of what was
 *   checked, elements past the end may be read, and those past the end of the output overwritten.
 * - An output that overlaps the input, given to one of the functions named _apart: the same, as the call itself
 *   overwrites what it has yet to read.
 *
 * Threads and interrupts:
 *
 * - No call keeps anything or shares anything: the archive has no writable data (face/test looks). Calls on separate
 *   outputs may run side by side, also one within another in an interrupt, and may read one input together.
 * - The archive is x86-64 code for the System V calling convention, and changes registers as any C function may. It
 *   uses xmm registers, for moves and bit operations of SSE2, but no wider vector register and none of x87 or MMX
 *   (face/test looks), and makes no floating-point operation. An interrupt handler that calls it has to save the xmm
 *   registers, as before any C function; one that does not must not call it.
 * - It uses the red zone of that convention, the 128 bytes below the stack pointer, and wants the stack aligned to 16
 *   bytes. An interrupt during a call must leave the red zone as it is; in a kernel it has to run on another stack.
 * - It calls no other library, not even C's (face/test looks), and may stand at any address.
 */
#ifndef PEATNICKEL_H
#define PEATNICKEL_H

#include <stddef.h>
#include <stdint.h>

#ifdef __cplusplus
extern "C" {
#endif

/*
 * The version of this header and its archive together. The first number grows when a program that used it rightly has
 * to be looked at again: something has another name or meaning, or some words get another reply. The second grows when
 * something was added. The version of rules and files is another number, and follows.
 */
#define PEATNICKEL_VERSION_MAJOR 2
#define PEATNICKEL_VERSION_MINOR 0

/* The versions of the language that rules are written in: what the calls are told, and what a file carries. */
#define PEATNICKEL_LANGUAGE_1 UINT16_C(1)
#define PEATNICKEL_LANGUAGE_2 UINT16_C(2) /* has numbers and operations */

/* The bytes of a file of so many words. */
#define PEATNICKEL_FILE_BYTES(words) (7 + 2 * (words))

/* The most words of a rule and of an image, and the most bytes of their files: the longest buffers that serve. */
#define PEATNICKEL_RULE_WORDS 4096
#define PEATNICKEL_IMAGE_WORDS 28672
#define PEATNICKEL_RULE_FILE_BYTES PEATNICKEL_FILE_BYTES(PEATNICKEL_RULE_WORDS)   /* 8,199 */
#define PEATNICKEL_IMAGE_FILE_BYTES PEATNICKEL_FILE_BYTES(PEATNICKEL_IMAGE_WORDS) /* 57,351 */

/* Where the refusals start, and what a place counts for: a refusal is 65,536 + its number + 65,536 * its place. */
#define PEATNICKEL_REFUSALS UINT32_C(65536)

/* What a version counts for in unpacking's reply, which is a count + 4,294,967,296 * the version, or a refusal. */
#define PEATNICKEL_VERSIONS UINT64_C(4294967296)

/* The refusals' numbers. 0 is of the face alone, the paper's numbers start at 1. */
enum peatnickel_refusal {
    PEATNICKEL_WRONG_USE = 0,      /* no such form, or an output that overlaps what else was lent */
    PEATNICKEL_NO_WORDS = 1,       /* no words */
    PEATNICKEL_TOO_MANY_WORDS = 2, /* more than 4,096 words (28,672 for an image file) */
    PEATNICKEL_NONE_LEFT = 3,      /* a word is needed and none is left */
    PEATNICKEL_WRONG_KIND = 4,     /* kind is not 1 to 7 at a term, not 8 at an arm; 10 and 11 at a term in version 2
                                      only */
    PEATNICKEL_OUT_OF_RANGE = 5,   /* low byte or second word outside its range */
    PEATNICKEL_TOO_DEEP = 6,       /* a term at depth 65 */
    PEATNICKEL_UNBOUND = 7,        /* variable index not below the number of source variables bound there */
    PEATNICKEL_LEFT_OVER = 8,      /* words left over */
    PEATNICKEL_NO_ROOM = 9,        /* the lent output is shorter than what is to be written */
    PEATNICKEL_WRONG_MARK = 10,    /* file under 7 bytes, or its mark is not that of the form asked for */
    PEATNICKEL_WRONG_VERSION = 11, /* version is neither 1 nor 2 */
    PEATNICKEL_WRONG_LENGTH = 12,  /* file length is not 7 plus twice its count */
    PEATNICKEL_DEAD_ARM = 18       /* an earlier arm of the same match has the same tag and arity */
};

/* The forms of files. */
#define PEATNICKEL_RULES UINT32_C(0)  /* mark LRS */
#define PEATNICKEL_IMAGES UINT32_C(1) /* mark LRI */

/*
 * Unpacking's reply taken apart: the reply as every other call gives it, for what follows; and the version that the
 * file carries, for the calls on its words, or 0 where it was refused.
 */
static inline uint32_t peatnickel_reply_of(uint64_t unpacked)
{
    return (uint32_t)(unpacked % PEATNICKEL_VERSIONS);
}

static inline uint16_t peatnickel_version_of(uint64_t unpacked)
{
    return (uint16_t)(unpacked / PEATNICKEL_VERSIONS);
}

/* Whether a reply is a refusal; and of one that is, its number and its place. */
static inline int peatnickel_is_refusal(uint32_t reply)
{
    return reply >= PEATNICKEL_REFUSALS;
}

static inline uint32_t peatnickel_refusal_of(uint32_t reply)
{
    return (reply - PEATNICKEL_REFUSALS) % PEATNICKEL_REFUSALS;
}

static inline uint32_t peatnickel_place_of(uint32_t reply)
{
    return (reply - PEATNICKEL_REFUSALS) / PEATNICKEL_REFUSALS;
}

/*
 * Whether the words are a rule of the version told: 0, or a refusal. That is 11, 1 or 2, tested in this order and all
 * at place 0, or else one of 3 to 8 or 18, with the place of the word tested.
 */
uint32_t peatnickel_check(uint16_t version, const uint16_t *words, size_t word_count);

/*
 * How many words the image of the rule has, or the refusal that peatnickel_check gives. At most seven for each word of
 * the rule.
 */
uint32_t peatnickel_measure(uint16_t version, const uint16_t *words, size_t word_count);

/* How a pointer is declared whose elements are reached through no other. */
#if defined(__cplusplus) || defined(_MSC_VER)
#define PEATNICKEL_RESTRICT __restrict
#else
#define PEATNICKEL_RESTRICT restrict
#endif

/*
 * The proved functions behind the calls that follow. Their caller owes that the output shares no byte with what else is
 * lent, as the name says; nothing tests it here. Programs in other languages bind these.
 */
uint32_t peatnickel_write_apart(uint16_t *PEATNICKEL_RESTRICT out, size_t out_count, uint16_t version,
                                const uint16_t *PEATNICKEL_RESTRICT words, size_t word_count);
uint32_t peatnickel_pack_apart(uint8_t *PEATNICKEL_RESTRICT out, size_t out_count, uint32_t form, uint16_t version,
                               const uint16_t *PEATNICKEL_RESTRICT words, size_t word_count);
uint64_t peatnickel_unpack_apart(uint16_t *PEATNICKEL_RESTRICT out, size_t out_count, uint32_t form,
                                 const uint8_t *PEATNICKEL_RESTRICT bytes, size_t byte_count);

/*
 * Whether two regions, each so many elements of a size in bytes, share no byte. An empty region is apart from every
 * other. The distance is divided and no length is multiplied, so that nothing overflows, whatever the counts.
 */
static inline int peatnickel_apart(const void *a, size_t a_count, size_t a_size, const void *b, size_t b_count,
                                   size_t b_size)
{
    const uintptr_t a_at = (uintptr_t)a;
    const uintptr_t b_at = (uintptr_t)b;

    if (a_count == 0 || a_size == 0 || b_count == 0 || b_size == 0)
        return 1;
    return a_at < b_at ? a_count <= (b_at - a_at) / a_size : b_count <= (a_at - b_at) / b_size;
}

/*
 * Writes the image of the rule at the front of the output: its word count, or refusal 0 where the output overlaps the
 * rule, or the refusal that peatnickel_check gives, whatever the room, or 9 at place 0. At a refusal 0 nothing else is
 * looked at.
 */
static inline uint32_t peatnickel_write(uint16_t *out, size_t out_count, uint16_t version, const uint16_t *words,
                                        size_t word_count)
{
    if (!peatnickel_apart(out, out_count, sizeof *out, words, word_count, sizeof *words))
        return PEATNICKEL_REFUSALS + PEATNICKEL_WRONG_USE;
    return peatnickel_write_apart(out, out_count, version, words, word_count);
}

/*
 * Writes the file of the words, of the form told and with the version told, at the front of the output: the bytes
 * written, or a refusal 0, 11, 1, 2 or 9, tested in this order and all at place 0. Reads no terms. The form is
 * PEATNICKEL_RULES or PEATNICKEL_IMAGES. Any other number gets refusal 0, and so does an output that overlaps the
 * words; nothing else is looked at then.
 */
static inline uint32_t peatnickel_pack(uint8_t *out, size_t out_count, uint32_t form, uint16_t version,
                                       const uint16_t *words, size_t word_count)
{
    if (!peatnickel_apart(out, out_count, sizeof *out, words, word_count, sizeof *words))
        return PEATNICKEL_REFUSALS + PEATNICKEL_WRONG_USE;
    return peatnickel_pack_apart(out, out_count, form, version, words, word_count);
}

/*
 * Writes the words of a file, of the form told, at the front of the output: how many and the file's version, or a
 * refusal 0, 10, 11, 12, 1, 2 or 9, tested in this order and all at place 0. Reads no terms. The form is told, and 0
 * is given, as by peatnickel_pack. The reply is no count as it stands: peatnickel_reply_of and peatnickel_version_of
 * take it apart.
 */
static inline uint64_t peatnickel_unpack(uint16_t *out, size_t out_count, uint32_t form, const uint8_t *bytes,
                                         size_t byte_count)
{
    if (!peatnickel_apart(out, out_count, sizeof *out, bytes, byte_count, sizeof *bytes))
        return PEATNICKEL_REFUSALS + PEATNICKEL_WRONG_USE;
    return peatnickel_unpack_apart(out, out_count, form, bytes, byte_count);
}

#ifdef __cplusplus
}
#endif

#endif
