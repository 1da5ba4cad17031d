#include "cases.h"

/* "a short and a long form of one call request", and their arms */
#define SHORT 0x0605, 0x0000
#define LONG 0x0605, 0x0001, 0x0602, 0x0000
#define SHORT_ARM 0x0805, 0x0000, 0x0601, 0x0000
#define LONG_ARM 0x0805, 0x0001, 0x0100
#define LATER_ARM 0x0805, 0x0000, 0x0603, 0x0000

/* Arms of both forms, and matches on a form that come to the long one. */
#define BOTH_ARMS SHORT_ARM, LONG_ARM
#define SHORT_TO_LONG 0x0702, SHORT, 0x0805, 0x0000, LONG, LONG_ARM
#define NEST_TO_LONG 0x0702, SHORT, 0x0805, 0x0000, SHORT_TO_LONG, LONG_ARM

/* A match up to its second arm's head, after which it may be dead. */
#define UP_TO_SECOND 0x0702, SHORT, SHORT_ARM, 0x0805

/* Constructors without arguments, and variables down from the first of 15. */
#define FOURTEEN                                                            \
    0x0600, 0x0000, 0x0601, 0x0000, 0x0602, 0x0000, 0x0603, 0x0000, 0x0604, \
        0x0000, 0x0605, 0x0000, 0x0606, 0x0000, 0x0607, 0x0000, 0x0608,     \
        0x0000, 0x0609, 0x0000, 0x060A, 0x0000, 0x060B, 0x0000, 0x060C,     \
        0x0000, 0x060D, 0x0000
#define FIFTEEN FOURTEEN, 0x060E, 0x0000
#define DOWN_TO_SECOND_LAST                                                 \
    0x010E, 0x010D, 0x010C, 0x010B, 0x010A, 0x0109, 0x0108, 0x0107, 0x0106, \
        0x0105, 0x0104, 0x0103, 0x0102, 0x0101

/* Of a chain in an image: a variable. */
#define CHAINED(variable) 0x0201, 0x0401, 0x0201, 0x0401, 0x0900, variable

const struct accepted_case accepted_cases[ACCEPTED_CASES] = {
    { "case A", WORD_LIST(0x0600, 0x0000), 8, WORD_LIST(0x0600, 0x0000), 2 },
    { "case B", WORD_LIST(0x0401, 0x0201, 0x0100, 0x0600, 0x0000), 27,
      WORD_LIST(0x0600, 0x0000), 8 },
    { "case C",
      WORD_LIST(0x0402, 0x0202, 0x0101, 0x0600, 0x0000, 0x0601, 0x0000), 35,
      WORD_LIST(0x0600, 0x0000), 10 },
    { "case D",
      WORD_LIST(0x0500, 0x0601, 0x0000, 0x0702, 0x0100, 0x0800, 0x0000, 0x0100,
                0x0801, 0x0000, 0x0602, 0x0000),
      41, WORD_LIST(0x0602, 0x0000), 8 },
    { "case E",
      WORD_LIST(0x0603, 0x0001, 0x0401, 0x0201, 0x0100, 0x0600, 0x0000), 35,
      WORD_LIST(0x0603, 0x0001, 0x0600, 0x0000), 10 },
    { "case F",
      WORD_LIST(0x0401, 0x0301, 0x0702, 0x0100, 0x0800, 0x0000, 0x0600, 0x0000,
                0x0801, 0x0001, 0x0401, 0x0102, 0x0100, 0x0601, 0x0001, 0x0600,
                0x0000),
      64, WORD_LIST(0x0600, 0x0000), 20 },
    { "case G", WORD_LIST(0x0601, 0x0001, 0x0600, 0x0000), 10,
      WORD_LIST(0x0601, 0x0001, 0x0600, 0x0000), 2 },
    { "short request, short arm first",
      WORD_LIST(0x0702, SHORT, SHORT_ARM, LONG_ARM), 30,
      WORD_LIST(0x0601, 0x0000), 5 },
    { "long request, short arm first",
      WORD_LIST(0x0702, LONG, SHORT_ARM, LONG_ARM), 32,
      WORD_LIST(0x0602, 0x0000), 5 },
    { "short request, long arm first",
      WORD_LIST(0x0702, SHORT, LONG_ARM, SHORT_ARM), 30,
      WORD_LIST(0x0601, 0x0000), 5 },
    { "long request, long arm first",
      WORD_LIST(0x0702, LONG, LONG_ARM, SHORT_ARM), 32,
      WORD_LIST(0x0602, 0x0000), 5 },
    { "match in the subject, with the outer's tag and arities",
      WORD_LIST(0x0702, SHORT_TO_LONG, BOTH_ARMS), 54,
      WORD_LIST(0x0602, 0x0000), 8 },
    { "match in an arm's body, with the outer's tag and arities",
      WORD_LIST(0x0702, LONG, 0x0805, 0x0001, 0x0702, LONG, BOTH_ARMS,
                SHORT_ARM),
      57, WORD_LIST(0x0602, 0x0000), 8 },
    { "matches in the subject and in an arm's body, with the outer's",
      WORD_LIST(0x0702, 0x0702, SHORT, 0x0805, 0x0000, SHORT, LONG_ARM, 0x0805,
                0x0000, 0x0702, SHORT, LONG_ARM, SHORT_ARM, LONG_ARM),
      74, WORD_LIST(0x0601, 0x0000), 11 },
    { "match in an arm's body in the subject, all with one tag and arities",
      WORD_LIST(0x0702, NEST_TO_LONG, BOTH_ARMS), 76,
      WORD_LIST(0x0602, 0x0000), 11 },
    { "call and function of fifteen arguments",
      WORD_LIST(0x040F, 0x020F, 0x010E, FIFTEEN), 139,
      WORD_LIST(0x0600, 0x0000), 36 },
    { "recursive function of fifteen, which calls itself once",
      WORD_LIST(0x040F, 0x030F, 0x0702, 0x0100, 0x080E, 0x0000, 0x040F, 0x010F,
                0x0100, DOWN_TO_SECOND_LAST, 0x080D, 0x0000, 0x010E, FIFTEEN),
      271, WORD_LIST(0x060E, 0x0000), 76 },
    { "constructor of fifteen, the last unfinished, and its arm",
      WORD_LIST(0x0701, 0x0607, 0x000F, FOURTEEN, 0x0500, 0x060E, 0x0000,
                0x0100, 0x0807, 0x000F, 0x0100),
      152, WORD_LIST(0x060E, 0x0000), 38 },
};

const struct refused_case refused_cases[REFUSED_CASES] = {
    { "case H", { NULL, 0 }, { REFUSED_NO_WORDS, 0 } },
    { "case I", WORD_LIST(0x0100), { REFUSED_UNBOUND, 0 } },
    { "case J", WORD_LIST(0x0401, 0x0201, 0x0100),
      { REFUSED_WORD_MISSING, 3 } },
    { "case K", WORD_LIST(0x0200, 0x0100), { REFUSED_RANGE, 0 } },
    { "case L", WORD_LIST(0x0600, 0x0000, 0x0600), { REFUSED_WORDS_LEFT, 2 } },
    { "case M", WORD_LIST(0x0A00), { REFUSED_KIND, 0 } },
    { "function of sixteen arguments", WORD_LIST(0x0210, 0x0100),
      { REFUSED_RANGE, 0 } },
    { "recursive function of sixteen", WORD_LIST(0x0310, 0x0100),
      { REFUSED_RANGE, 0 } },
    { "call of sixteen", WORD_LIST(0x0410), { REFUSED_RANGE, 0 } },
    { "constructor of sixteen", WORD_LIST(0x0600, 0x0010),
      { REFUSED_RANGE, 1 } },
    { "arm of sixteen", WORD_LIST(0x0701, 0x0600, 0x0000, 0x0800, 0x0010),
      { REFUSED_RANGE, 4 } },
};

const struct refused_case place_cases[PLACE_CASES] = {
    { "constructor's missing second word",
      WORD_LIST(0x0602, 0x0002, 0x0600, 0x0000, 0x0601),
      { REFUSED_WORD_MISSING, 5 } },
    { "constructor's missing last argument",
      WORD_LIST(0x0602, 0x0002, 0x0600, 0x0000), { REFUSED_WORD_MISSING, 4 } },
    { "missing only arm", WORD_LIST(0x0701, 0x0600, 0x0000),
      { REFUSED_WORD_MISSING, 3 } },
    { "missing last arm",
      WORD_LIST(0x0702, 0x0600, 0x0000, 0x0800, 0x0000, 0x0600, 0x0000),
      { REFUSED_WORD_MISSING, 7 } },
    { "arm's missing second word", WORD_LIST(0x0701, 0x0600, 0x0000, 0x0801),
      { REFUSED_WORD_MISSING, 4 } },
    { "arm's missing body", WORD_LIST(0x0701, 0x0600, 0x0000, 0x0801, 0x0001),
      { REFUSED_WORD_MISSING, 5 } },
    { "kind of a call's function", WORD_LIST(0x0401, 0x0A00, 0x0600, 0x0000),
      { REFUSED_KIND, 1 } },
    { "kind of a constructor's first argument, and its last's range",
      WORD_LIST(0x0602, 0x0002, 0x0A00, 0x0200, 0x0100), { REFUSED_KIND, 2 } },
    { "kind of a constructor's last argument",
      WORD_LIST(0x0602, 0x0002, 0x0600, 0x0000, 0x0900), { REFUSED_KIND, 4 } },
    { "kind of the first arm",
      WORD_LIST(0x0701, 0x0600, 0x0000, 0x0900, 0x0000, 0x0600, 0x0000),
      { REFUSED_KIND, 3 } },
    { "kind of the last arm",
      WORD_LIST(0x0702, 0x0600, 0x0000, 0x0800, 0x0000, 0x0600, 0x0000, 0x0600,
                0x0000),
      { REFUSED_KIND, 7 } },
    { "range of a function in a call's last argument",
      WORD_LIST(0x0402, 0x0202, 0x0101, 0x0600, 0x0000, 0x02FF, 0x0100),
      { REFUSED_RANGE, 5 } },
    { "range of a match's subject",
      WORD_LIST(0x0701, 0x0700, 0x0800, 0x0000, 0x0600, 0x0000),
      { REFUSED_RANGE, 1 } },
    { "constructor's second word", WORD_LIST(0x0600, 0x00FF, 0x0600, 0x0000),
      { REFUSED_RANGE, 1 } },
    { "second word of a constructor in a call's last argument",
      WORD_LIST(0x0401, 0x0201, 0x0100, 0x0600, 0x00FF),
      { REFUSED_RANGE, 4 } },
    { "first arm's second word",
      WORD_LIST(0x0701, 0x0600, 0x0000, 0x0800, 0x00FF, 0x0600, 0x0000),
      { REFUSED_RANGE, 4 } },
    { "last arm's second word",
      WORD_LIST(0x0702, 0x0600, 0x0000, 0x0800, 0x0000, 0x0600, 0x0000, 0x0801,
                0x00FF, 0x0600, 0x0000),
      { REFUSED_RANGE, 8 } },
    { "variable bound by the let, in its bound term",
      WORD_LIST(0x0500, 0x0100, 0x0600, 0x0000), { REFUSED_UNBOUND, 1 } },
    { "variable in a let's body", WORD_LIST(0x0500, 0x0201, 0x0100, 0x0101),
      { REFUSED_UNBOUND, 3 } },
    { "variable in the first arm's body",
      WORD_LIST(0x0702, 0x0600, 0x0000, 0x0800, 0x0001, 0x0101, 0x0801, 0x0000,
                0x0600, 0x0000),
      { REFUSED_UNBOUND, 5 } },
    { "variable in the last arm's body, bound in the first's",
      WORD_LIST(0x0702, 0x0600, 0x0000, 0x0800, 0x0002, 0x0101, 0x0801, 0x0001,
                0x0101),
      { REFUSED_UNBOUND, 8 } },
    { "variable below five forms",
      WORD_LIST(0x0201, 0x0500, 0x0601, 0x0001, 0x0100, 0x0702, 0x0100, 0x0800,
                0x0000, 0x0401, 0x0101, 0x0100, 0x0801, 0x0001, 0x0603, 0x0002,
                0x0100, 0x0401, 0x0102, 0x0103),
      { REFUSED_UNBOUND, 19 } },
    { "one word left over",
      WORD_LIST(0x0401, 0x0201, 0x0100, 0x0600, 0x0000, 0x0100),
      { REFUSED_WORDS_LEFT, 5 } },
    { "three words left over, one of no kind",
      WORD_LIST(0x0401, 0x0201, 0x0100, 0x0600, 0x0000, 0x0600, 0x0000, 0x0A00),
      { REFUSED_WORDS_LEFT, 5 } },
};

/* "18, with its place, at an arm's second word after 3 and 5" */
const struct refused_case dead_cases[DEAD_CASES] = {
    { "second arm dead", WORD_LIST(0x0702, SHORT, SHORT_ARM, LATER_ARM),
      { REFUSED_DEAD_ARM, 8 } },
    { "second arm dead, of arity 1",
      WORD_LIST(0x0702, LONG, LONG_ARM, LONG_ARM), { REFUSED_DEAD_ARM, 9 } },
    { "third arm dead by the first",
      WORD_LIST(0x0703, SHORT, BOTH_ARMS, LATER_ARM),
      { REFUSED_DEAD_ARM, 11 } },
    { "third arm dead by the second",
      WORD_LIST(0x0703, SHORT, BOTH_ARMS, LONG_ARM),
      { REFUSED_DEAD_ARM, 11 } },
    { "second and third arm dead",
      WORD_LIST(0x0703, SHORT, SHORT_ARM, LATER_ARM, LATER_ARM),
      { REFUSED_DEAD_ARM, 8 } },
    { "arm dead after a match in the subject",
      WORD_LIST(0x0702, SHORT_TO_LONG, LONG_ARM, LONG_ARM),
      { REFUSED_DEAD_ARM, 17 } },
    { "arm dead after a match in an arm's body",
      WORD_LIST(0x0702, SHORT, 0x0805, 0x0000, SHORT_TO_LONG, LATER_ARM),
      { REFUSED_DEAD_ARM, 18 } },
    { "arm dead in the subject's match",
      WORD_LIST(0x0702, 0x0702, SHORT, SHORT_ARM, LATER_ARM, BOTH_ARMS),
      { REFUSED_DEAD_ARM, 9 } },
    { "arm dead in the match of an arm's body",
      WORD_LIST(0x0702, SHORT, LONG_ARM, 0x0805, 0x0000, 0x0702, LONG, LONG_ARM,
                LONG_ARM),
      { REFUSED_DEAD_ARM, 17 } },
    { "dead arm's missing second word", WORD_LIST(UP_TO_SECOND),
      { REFUSED_WORD_MISSING, 8 } },
    { "dead arm's second word", WORD_LIST(UP_TO_SECOND, 0x00FF, SHORT),
      { REFUSED_RANGE, 8 } },
    { "second word with an earlier one's low byte",
      WORD_LIST(UP_TO_SECOND, 0x0100, SHORT), { REFUSED_RANGE, 8 } },
    { "kind of an arm that would be dead",
      WORD_LIST(0x0702, SHORT, SHORT_ARM, 0x0705, 0x0000, SHORT),
      { REFUSED_KIND, 7 } },
    { "dead arm's missing body", WORD_LIST(UP_TO_SECOND, 0x0000),
      { REFUSED_DEAD_ARM, 8 } },
    { "kind of a dead arm's body", WORD_LIST(UP_TO_SECOND, 0x0000, 0x0A00),
      { REFUSED_DEAD_ARM, 8 } },
    { "range of a dead arm's body",
      WORD_LIST(UP_TO_SECOND, 0x0000, 0x0200, 0x0100),
      { REFUSED_DEAD_ARM, 8 } },
    { "variable in a dead arm's body", WORD_LIST(UP_TO_SECOND, 0x0000, 0x0100),
      { REFUSED_DEAD_ARM, 8 } },
    { "words left over after a dead arm",
      WORD_LIST(UP_TO_SECOND, 0x0000, SHORT, 0x0100), { REFUSED_DEAD_ARM, 8 } },
    { "kind of the body before a dead arm",
      WORD_LIST(0x0702, SHORT, 0x0805, 0x0000, 0x0A00, LATER_ARM),
      { REFUSED_KIND, 5 } },
    { "range of the body before a dead arm",
      WORD_LIST(0x0702, SHORT, 0x0805, 0x0000, 0x0601, 0x00FF, LATER_ARM),
      { REFUSED_RANGE, 6 } },
    { "variable in the body before a dead arm",
      WORD_LIST(0x0702, SHORT, 0x0805, 0x0000, 0x0100, LATER_ARM),
      { REFUSED_UNBOUND, 5 } },
    { "variable in the subject before a dead arm",
      WORD_LIST(0x0702, 0x0100, SHORT_ARM, LATER_ARM), { REFUSED_UNBOUND, 1 } },
};

const struct image_case image_cases[IMAGE_CASES] = {
    { "function of fifteen arguments", WORD_LIST(0x020F, 0x010E),
      WORD_LIST(0x0401, 0x0201, 0x0401, 0x0900, 0x0210, 0x0401, 0x0201, 0x0401,
                0x0900, 0x010E, 0x0900, 0x0201, 0x0900) },
    { "recursive function of fifteen, which calls itself with all",
      WORD_LIST(0x030F, 0x040F, 0x010F, DOWN_TO_SECOND_LAST, 0x0100),
      WORD_LIST(0x0401, 0x0201, 0x0401, 0x0900, 0x0310, 0x0401,
                CHAINED(0x010F), CHAINED(0x010E), CHAINED(0x010D),
                CHAINED(0x010C), CHAINED(0x010B), CHAINED(0x010A),
                CHAINED(0x0109), CHAINED(0x0108), CHAINED(0x0107),
                CHAINED(0x0106), CHAINED(0x0105), CHAINED(0x0104),
                CHAINED(0x0103), CHAINED(0x0102), CHAINED(0x0101),
                CHAINED(0x0100), 0x0201, 0x0410, 0x090F, 0x0910, 0x090E,
                0x090D, 0x090C, 0x090B, 0x090A, 0x0909, 0x0908, 0x0907,
                0x0906, 0x0905, 0x0904, 0x0903, 0x0902, 0x0901, 0x0900,
                0x0900, 0x0201, 0x0900) },
};

const struct word_list case_b_image = WORD_LIST(
    0x0401, 0x0201, 0x0401, 0x0201, 0x0401, 0x0900, 0x0202, 0x0401,
    0x0201, 0x0401, 0x0900, 0x0100, 0x0900, 0x0201, 0x0401, 0x0201,
    0x0401, 0x0900, 0x0600, 0x0000, 0x0201, 0x0402, 0x0901, 0x0902,
    0x0900, 0x0201, 0x0900);

static const uint8_t case_b_bytes[] = { 0x4C, 0x52, 0x53, 0x01, 0x00, 0x05,
                                        0x00, 0x01, 0x04, 0x01, 0x02, 0x00,
                                        0x01, 0x00, 0x06, 0x00, 0x00 };

const struct byte_list case_b_file = { case_b_bytes, sizeof case_b_bytes };

void put_case_o(struct word_sink *sink, size_t functions)
{
    for (size_t i = 0; i < functions; i++)
        put_word(sink, head_word(KIND_FUNCTION, 1));
    put_words(sink, accepted_cases[0].rule);
}
