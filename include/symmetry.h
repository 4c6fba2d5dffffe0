/*
 * Groups of crystal symmetry, from C or C++: what a Hall symbol, a group record or a table of products says, and the subgroups of such a group.
 * Link with libcalls.a, which `rt lib --cpu x86-64` makes in crates/calls, under out. examples/layers.c is a small client. docs/RULES.md has all rules,
 * among them how symbols are spelt (R1, R2), what a record is (R5) and every refusal (R8).
 *
 * Every function is a pure one: the same arguments get the same answer, on every day and every machine. Nothing is kept between calls but what the
 * caller lends, there is no heap, and calls from several threads do not meet unless they lend the same memory.
 *
 * Slices. A slice is two arguments, a pointer and a length in bytes. The pointer must be good for reading (and where it is not const, for writing)
 * as many bytes as the length says; NULL with length 0 is an empty slice. A slice that is lent for writing overlaps no other slice of the call.
 *
 * Answers. Each function returns one number. Its top byte is 0 and the value stands below it; or its top byte is the number of a refusal and the rest
 * is the refusal's place. Two different answers never share a number. symmetry_number, symmetry_place and symmetry_value take an answer apart; ask
 * symmetry_refused first, since a refusal has no value. symmetry_reason says a refusal's number in words, and what its place is stands at the number below.
 *
 * Sources. The functions come in families that differ in what the group is given by:
 *   symmetry_symbol_...   text    the bytes of a Hall symbol, at most 80; no byte 0 ends it. Elements are numbered in list order: breadth first from
 *                                 the identity, right factors running over the symbol's generators in order. Refusals 1 to 14 and 17.
 *   symmetry_layer_...    text    the bytes of a layer symbol, which is spelt as a Hall symbol but with the letter p or c. Its list is that of the text
 *                                 with P or C. Refusals 1 to 14 and 17, then 19.
 *   symmetry_magnetic_... text    the bytes of a magnetic symbol, which is spelt as a Hall symbol, but an N token may end with an apostrophe: time
 *                                 reversal. Operations have a flag, products combine flags by exclusive or, and a rotation may come once with the flag
 *                                 and once without it: up to 96 operations. Refusals 1 to 14 and 17.
 *   symmetry_magnetic_record_...  record   bytes that end with a record of a magnetic symbol's group, which is of edition 2. Refusals 30 to 35.
 *   symmetry_record_...   record  bytes that end with a group record, of edition 1 or 3; what stands before it is not looked at. Elements are numbered
 *                                 in the record's order, by ascending rotation code. Refusals 30 to 35.
 *   symmetry_table_...    order and table   n and n * n bytes by rows, the byte at i * n + j being the product of i and j. Refusals 21 to 25.
 * A source is checked in every call, before anything else that is asked; no function takes a group on trust.
 *
 * Lines. symmetry_line_operation and symmetry_operation_line are about one operation and no group.
 *
 * Sets. A set of elements is a 64-bit number: bit i is set if i is a member. A list of sets is lent as bytes, eight bytes a slot, high byte first;
 * bytes left over behind the last whole slot are no slot and are never written. symmetry_set reads a slot. In a list of conjugators or positions a
 * slot is one byte. In the order of a list of sets, the one with more members stands first; of two with as many, the one that holds the lowest
 * element in which they differ. So a subgroup has the same position in its list whenever it is asked for: that position, from 0, is its layer number. A
 * symbol and its record number their elements differently, so one subgroup may have two layer numbers, one by the symbol and one by the record.
 *
 * Lent memory. Where a function writes, its comment says what the lent bytes hold after it: in the first slots a list, and every other byte as it
 * was. Where the answer is a refusal nothing was written, except by refusal 26: it leaves 0 in every slot of every list lent to that call. Lists that
 * fit exactly are no refusal.
 *
 * Asking again. Refusal 26 does not say how many slots are missing. Lend more and ask again, or lend from the start what is always enough: the sizes
 * below are for that. A list of conjugates or positions never has more than SYMMETRY_MOST_ORDER entries, and a list of classes never more than that
 * of subgroups.
 *
 * Stack. The deepest call that was measured takes 7,792 bytes below its caller (docs/MEASURES.md has the functions and their figures): 10 KiB is enough.
 */
#ifndef SYMMETRY_H
#define SYMMETRY_H

#include <stddef.h>
#include <stdint.h>

#ifdef __cplusplus
extern "C" {
#endif

/*
 * The version of this header: the first number changes when something that stands here changes, the second when something is added.
 */
enum symmetry_version { SYMMETRY_VERSION_MAJOR = 2, SYMMETRY_VERSION_MINOR = 1 };

/* Sizes that are always enough, and that something needs. */
enum symmetry_most {
    SYMMETRY_MOST_TEXT = 80,              /* bytes of a symbol's text */
    SYMMETRY_MOST_ORDER = 48,             /* elements of a group */
    SYMMETRY_MOST_MAGNETIC_ORDER = 96,    /* operations of a magnetic symbol: each rotation with the flag and without it */
    SYMMETRY_MOST_RECORD = 245,           /* bytes of a record: 5 * 48 + 5; of edition 3 4 * 48 + 5 */
    SYMMETRY_MOST_MAGNETIC_RECORD = 581,  /* bytes of a magnetic symbol's record: 6 * 96 + 5 */
    SYMMETRY_MAGNETIC_ITEM = 6,           /* bytes of one operation in it: the code, high byte first, then x, y, z, then the flag */
    SYMMETRY_MOST_LIST = 240,             /* bytes of another program's list: 5 * 48 */
    SYMMETRY_MOST_REPORT = 864,           /* bytes of a report on two records: 9 * 96 */
    SYMMETRY_REPORT_ENTRY = 9,            /* bytes of one difference in it */
    SYMMETRY_MOST_TABLE = 2304,           /* bytes of a table: 48 * 48 */
    SYMMETRY_MOST_LINE = 64,              /* bytes of an operation line that is read */
    SYMMETRY_MOST_LINE_WRITTEN = 34,      /* bytes of an operation line that is written */
    SYMMETRY_OPERATION = 5,               /* bytes of one operation: the code, high byte first, then x, y, z */
    SYMMETRY_MOST_SYMBOL_SUBGROUPS = 98,  /* subgroups of a symbol's group or a record's: those of the cube's */
    SYMMETRY_MOST_SUBGROUPS = 374,        /* subgroups of any group up to order 48: those of five independent elements of order 2 */
    SYMMETRY_SLOT = 8,                    /* bytes of a slot in a list of sets */
    SYMMETRY_CATALOGUE_STATE = 81,        /* bytes that a catalogue needs between two calls */
    SYMMETRY_MOST_PIECE = 4096            /* bytes of a catalogue that may be handed in at once */
};

/*
 * Why there is no answer. "At" says what the place is; places are in bytes from 0, and a token's place is that of its first byte.
 * A misspelt token and a wrong digit are pointed at byte by byte: the first byte that offends, or the place where a missing fold should stand.
 * The numbers 15 and 16 belong to parts of the port that C has no function for.
 */
enum symmetry_refusal {
    /* The text of a symbol, read from the left. */
    SYMMETRY_TEXT_TOO_LONG = 1,     /* over 80 bytes; at 80 */
    SYMMETRY_BYTE_FORBIDDEN = 2,    /* a byte that is not 9 to 13 or 32 to 126; at the first such byte */
    SYMMETRY_NO_TOKEN = 3,          /* nothing but whitespace; at 0 */
    SYMMETRY_LATTICE_WRONG = 4,     /* the first token is not one of P A B C I R F H, of a layer symbol not p or c, with or without a minus; at
                                       that token */
    SYMMETRY_TOKEN_MISSPELT = 5,    /* an N token that no rule spells; at its first offending byte, or where a missing fold should stand */
    SYMMETRY_AXIS_UNSETTLED = 6,    /* no axis follows from the token and those before it, or fold and axis have no matrix; at that token */
    SYMMETRY_DIGIT_WRONG = 7,       /* a screw digit out of range, on another axis than z, not first, or a second one; at the first such digit */
    SYMMETRY_TOKEN_PRIMED = 8,      /* an apostrophe, which only magnetic symbols have; of a magnetic symbol more than one in a token, or one that is
                                       not its last byte; at that token */
    SYMMETRY_SHIFT_MALFORMED = 9,   /* the shift of origin is not three numbers -11 to 11 in brackets at the end; at its opening bracket */
    SYMMETRY_NO_ROTATION = 10,      /* no N token; at the opening bracket, or at the text's length */
    SYMMETRY_TOO_MANY_TOKENS = 11,  /* a ninth N token; at that token */
    SYMMETRY_LETTER_DOUBLED = 17,   /* a letter a b c n u v w d twice in one N token; at the first that repeats an earlier one */
    /* The generators that a symbol spells. */
    SYMMETRY_LATTICE_NOT_KEPT = 12, /* a generator does not map the centred lattice onto itself; at its index from 0 */
    SYMMETRY_TOO_MANY_ROTATIONS = 13, /* over 48 rotations, of a magnetic symbol over 96 pairs of a rotation and a flag, or a rotation with an entry
                                       outside -1..1; at 0 */
    SYMMETRY_TWO_TRANSLATIONS = 14, /* one rotation, of a magnetic symbol with one flag, with two translations that differ by no vector of the
                                       lattice; at 0 */
    SYMMETRY_NO_LAYER = 19,         /* of a layer symbol: an operation mixes z with x or y, or keeps the sense of z and moves along it; at the list
                                       index of the first such operation */
    /* A place in lent memory; at 0. */
    SYMMETRY_NO_ROOM = 20,          /* the start is beyond the buffer, or fewer bytes than the record, the line or the report needs are left from it;
                                       or a catalogue's state has under 81 bytes */
    /* A table of products; at 0. */
    SYMMETRY_ORDER = 21,            /* the order is 0 or over 48 */
    SYMMETRY_CELLS = 22,            /* not as many bytes as the square of the order, or a byte that is no element */
    SYMMETRY_NO_IDENTITY = 23,      /* no two-sided identity */
    SYMMETRY_NO_INVERSE = 24,       /* an element without a two-sided inverse */
    SYMMETRY_NOT_ASSOCIATIVE = 25,  /* the product is not associative */
    /* What is asked of a group; at 0. */
    SYMMETRY_TOO_FEW_SLOTS = 26,    /* a lent list is shorter than the answer; all its slots are 0 now */
    SYMMETRY_NOT_A_SUBGROUP = 27,   /* the set is no subgroup */
    SYMMETRY_NOT_AN_ELEMENT = 28,   /* the element or the index is not below the order */
    SYMMETRY_NOT_NORMALIZING = 29,  /* a permutation asked for an element that does not conjugate the subgroup to itself */
    /* A group record; at 0. */
    SYMMETRY_RECORD_SHORT = 30,     /* under 9 bytes; of a comparison and of a magnetic record under 10 */
    SYMMETRY_RECORD_EDITION = 31,   /* the edition is not 1 or 3; of a comparison not 1; of a magnetic record not 2 */
    SYMMETRY_RECORD_LETTER = 32,    /* the letter is not one of P A B C I R F H p c; of a magnetic record not one of P A B C I R F H */
    SYMMETRY_RECORD_LENGTH = 33,    /* not 1 to 48 operations, of a magnetic record not 1 to 96, or a stated length that is wrong or beyond the
                                       buffer */
    SYMMETRY_RECORD_ITEM = 34,      /* a code over 19682, a coordinate over 11, a translation not the smallest of its class, or codes not ascending;
                                       of a magnetic record also a flag over 1, and two operations with one code ascend by their flags;
                                       of a single operation: not five bytes, or such a code or coordinate */
    SYMMETRY_RECORD_NO_GROUP = 35,  /* what is listed is no group that a record may hold; under p or c also: an operation is none of a layer; of a
                                       magnetic record: no group of motions with flags, in which only lattice translations lack the flag */
    /* An operation line. */
    SYMMETRY_LINE_TOO_LONG = 40,    /* over 64 bytes; at 0 */
    SYMMETRY_LINE_MISSPELT = 41,    /* at the first byte that no line has after the bytes before it, or at the line's length if it breaks off */
    SYMMETRY_LINE_DETERMINANT = 42, /* the determinant is not 1 or -1; at 0 */
    /* Another program's list of operations. */
    SYMMETRY_LIST_LENGTH = 43,      /* the length is no multiple of five, or over 240 bytes; at 0 */
    SYMMETRY_LIST_ENTRY = 44,       /* a code over 19682 or a coordinate over 11; at the index of the first such entry */
    /* A catalogue; at 0. */
    SYMMETRY_PIECE_TOO_LONG = 45,   /* a piece over 4,096 bytes */
    SYMMETRY_CATALOGUE_ENDED = 46,  /* a piece or an end after the end was announced */
    /* The second record of a comparison; at 0. The first's has the numbers 30 to 35. */
    SYMMETRY_SECOND_SHORT = 60,     /* under 10 bytes */
    SYMMETRY_SECOND_EDITION = 61,   /* as 31 */
    SYMMETRY_SECOND_LETTER = 62,    /* as 32 */
    SYMMETRY_SECOND_LENGTH = 63,    /* as 33 */
    SYMMETRY_SECOND_ITEM = 64,      /* as 34 */
    SYMMETRY_SECOND_NO_GROUP = 65   /* as 35 */
};

/* ---- an answer, taken apart ---- */

/* The number of the refusal, or 0 for an answer with a value. */
static inline unsigned symmetry_number(uint64_t answer) { return (unsigned)(answer >> 56); }

/* 1 if the answer is a refusal, else 0. */
static inline int symmetry_refused(uint64_t answer) { return symmetry_number(answer) != 0; }

/* A few words on a refusal's number, and "no refusal" for 0; never NULL. */
static inline const char *symmetry_reason(unsigned number)
{
    switch (number) {
    case 0: return "no refusal";
    case SYMMETRY_TEXT_TOO_LONG: return "over 80 bytes";
    case SYMMETRY_BYTE_FORBIDDEN: return "a byte that no symbol has";
    case SYMMETRY_NO_TOKEN: return "no token";
    case SYMMETRY_LATTICE_WRONG: return "the first token is no lattice letter";
    case SYMMETRY_TOKEN_MISSPELT: return "a misspelt token";
    case SYMMETRY_AXIS_UNSETTLED: return "no axis, or no rotation for it";
    case SYMMETRY_DIGIT_WRONG: return "a wrong screw digit";
    case SYMMETRY_TOKEN_PRIMED: return "an apostrophe";
    case SYMMETRY_SHIFT_MALFORMED: return "a malformed shift of origin";
    case SYMMETRY_NO_ROTATION: return "no rotation";
    case SYMMETRY_TOO_MANY_TOKENS: return "over eight rotations are spelled";
    case SYMMETRY_LETTER_DOUBLED: return "a letter twice in one token";
    case SYMMETRY_LATTICE_NOT_KEPT: return "a generator does not keep the lattice";
    case SYMMETRY_TOO_MANY_ROTATIONS: return "too many rotations, or too large an entry";
    case SYMMETRY_TWO_TRANSLATIONS: return "one rotation with two translations";
    case SYMMETRY_NO_LAYER: return "an operation that is none of a layer";
    case SYMMETRY_NO_ROOM: return "no room for the record, the line or the report";
    case SYMMETRY_ORDER: return "an order of 0 or over 48";
    case SYMMETRY_CELLS: return "a table of another size, or a cell that is no element";
    case SYMMETRY_NO_IDENTITY: return "no identity";
    case SYMMETRY_NO_INVERSE: return "an element without an inverse";
    case SYMMETRY_NOT_ASSOCIATIVE: return "a product that is not associative";
    case SYMMETRY_TOO_FEW_SLOTS: return "too few slots";
    case SYMMETRY_NOT_A_SUBGROUP: return "no subgroup";
    case SYMMETRY_NOT_AN_ELEMENT: return "no element";
    case SYMMETRY_NOT_NORMALIZING: return "an element outside the normalizer";
    case SYMMETRY_RECORD_SHORT: return "a record of under 9 bytes";
    case SYMMETRY_RECORD_EDITION: return "another edition of the record";
    case SYMMETRY_RECORD_LETTER: return "a record with no letter of a lattice";
    case SYMMETRY_RECORD_LENGTH: return "a wrong count or length in the record";
    case SYMMETRY_RECORD_ITEM: return "a wrong operation in the record";
    case SYMMETRY_RECORD_NO_GROUP: return "a record that holds no group";
    case SYMMETRY_LINE_TOO_LONG: return "a line of over 64 bytes";
    case SYMMETRY_LINE_MISSPELT: return "a misspelt line";
    case SYMMETRY_LINE_DETERMINANT: return "a determinant other than 1 and -1";
    case SYMMETRY_LIST_LENGTH: return "a list of another length";
    case SYMMETRY_LIST_ENTRY: return "a wrong operation in the list";
    case SYMMETRY_PIECE_TOO_LONG: return "a piece of over 4,096 bytes";
    case SYMMETRY_CATALOGUE_ENDED: return "the catalogue has ended";
    case SYMMETRY_SECOND_SHORT: return "a second record of under 10 bytes";
    case SYMMETRY_SECOND_EDITION: return "another edition of the second record";
    case SYMMETRY_SECOND_LETTER: return "a second record with no lattice letter";
    case SYMMETRY_SECOND_LENGTH: return "a wrong count or length in the second record";
    case SYMMETRY_SECOND_ITEM: return "a wrong operation in the second record";
    case SYMMETRY_SECOND_NO_GROUP: return "a second record that holds no group";
    default: return "no refusal of these functions";
    }
}

/* The place of a refusal. */
static inline uint64_t symmetry_place(uint64_t answer) { return answer & UINT64_C(0x00FFFFFFFFFFFFFF); }

/* The value of an answer that is no refusal. */
static inline uint64_t symmetry_value(uint64_t answer) { return answer & UINT64_C(0x00FFFFFFFFFFFFFF); }

/* The set in slot k of a list of sets, which must have that slot. */
static inline uint64_t symmetry_set(const uint8_t *sets, size_t k)
{
    uint64_t set = 0;
    size_t i;
    for (i = 0; i < 8; i++)
        set = set << 8 | sets[8 * k + i];
    return set;
}

/*
 * The value that symmetry_symbol_operation, symmetry_layer_operation and symmetry_magnetic_operation answer, taken apart: the entry -1, 0 or 1 of the
 * rotation's matrix in a row and a column 0 to 2, the translation 0 to 11 twelfths along axis 0, 1 or 2, and the flag, 1 for time reversal, else 0; that
 * of an operation of a symbol without flags is 0.
 */
static inline int symmetry_entry(uint64_t value, unsigned row, unsigned column)
{
    uint64_t code = value / 1728;
    unsigned i;
    for (i = 3 * row + column; i < 8; i++)
        code /= 3;
    return (int)(code % 3) - 1;
}

static inline unsigned symmetry_twelfths(uint64_t value, unsigned axis)
{
    return (unsigned)(axis == 0 ? value / 144 % 12 : axis == 1 ? value / 12 % 12 : value % 12);
}

static inline unsigned symmetry_flag(uint64_t value) { return (unsigned)(value / 34012224); }

/*
 * The value that symmetry_catalogue_piece and symmetry_catalogue_end answer, taken apart: how many bytes of the piece were taken; 1 if they finished a
 * line, else 0; and the answer for that line, in the form of all answers: how many operations the record in the room holds, or the refusal of the line.
 */
static inline uint64_t symmetry_catalogue_taken(uint64_t value) { return value % 65536; }

static inline int symmetry_catalogue_finished(uint64_t value) { return value / 65536 != 0; }

static inline uint64_t symmetry_catalogue_answer(uint64_t value)
{
    uint64_t said = value / 65536 - 1;
    return said < 256 ? said : (said / 256) << 56 | said % 256;
}

/* ---- the group itself ---- */

/* The order: how many operations modulo the lattice, or how many elements. 1 to 48; of a magnetic symbol or record 1 to 96. */
uint64_t symmetry_symbol_order(const uint8_t *text, size_t text_length);
uint64_t symmetry_layer_order(const uint8_t *text, size_t text_length);
uint64_t symmetry_magnetic_order(const uint8_t *text, size_t text_length);
uint64_t symmetry_record_order(const uint8_t *record, size_t record_length);
uint64_t symmetry_magnetic_record_order(const uint8_t *record, size_t record_length);
uint64_t symmetry_table_order(uint64_t order, const uint8_t *table, size_t table_length);

/* The index of the identity; a symbol's is 0. */
uint64_t symmetry_symbol_identity(const uint8_t *text, size_t text_length);
uint64_t symmetry_record_identity(const uint8_t *record, size_t record_length);
uint64_t symmetry_table_identity(uint64_t order, const uint8_t *table, size_t table_length);

/* The byte of the centring letter, one of P A B C I R F H; of a layer symbol p or c; of a record any of these. */
uint64_t symmetry_symbol_letter(const uint8_t *text, size_t text_length);
uint64_t symmetry_layer_letter(const uint8_t *text, size_t text_length);
uint64_t symmetry_magnetic_letter(const uint8_t *text, size_t text_length);
uint64_t symmetry_record_letter(const uint8_t *record, size_t record_length);
uint64_t symmetry_magnetic_record_letter(const uint8_t *record, size_t record_length);

/*
 * The operation with this index in list order: code * 1728 + x * 144 + y * 12 + z, the code being the sum of (entry + 1) * 3^(8 - i) over the
 * rotation's nine entries by rows, and x, y, z its translation in twelfths. 28 if the index is not below the order.
 */
uint64_t symmetry_symbol_operation(const uint8_t *text, size_t text_length, uint64_t index);
uint64_t symmetry_layer_operation(const uint8_t *text, size_t text_length, uint64_t index);

/*
 * The same with the flag before the code: (flag * 19683 + code) * 1728 + x * 144 + y * 12 + z. symmetry_entry and symmetry_twelfths read it as they read
 * the other, and symmetry_flag reads the flag. The identity without the flag stands first. The two operations of P 1a' are x,y,z and x+1/2,y,z with
 * time reversal.
 */
uint64_t symmetry_magnetic_operation(const uint8_t *text, size_t text_length, uint64_t index);

/* ---- lists of another program ---- */

/* What symmetry_symbol_check says of a list that is compared, and what the number beside it is. */
enum symmetry_check {
    SYMMETRY_CHECK_YES = 0,      /* the list is the group's; nothing beside it */
    SYMMETRY_CHECK_ENTRY = 1,    /* an entry is foreign or repeated; its index */
    SYMMETRY_CHECK_MISSING = 2   /* an operation is missing; its rotation code */
};

/*
 * Whether a list of five-byte operations, as a record has them but in any order and with any translations 0 to 11, holds every operation of the
 * symbol's group modulo the lattice, each once, and nothing else. The value is 0 if it does. Else it is 65536 + i, i being the index of the first entry
 * that is foreign (no operation of the group, modulo the lattice) or repeated (an entry further left is the same operation, modulo the lattice); or, if
 * no entry is, 131072 + the lowest code of a rotation of the group that no entry has. 43, then 44, after the symbol's own refusals; an empty list is
 * compared. symmetry_check_kind and symmetry_check_detail take the value apart.
 */
uint64_t symmetry_symbol_check(const uint8_t *text, size_t text_length, const uint8_t *list, size_t list_length);

static inline enum symmetry_check symmetry_check_kind(uint64_t value) { return (enum symmetry_check)(value / 65536); }
static inline unsigned symmetry_check_detail(uint64_t value) { return (unsigned)(value % 65536); }

/* ---- group records ---- */

/*
 * The layout. n operations of five bytes each, by ascending rotation code: the code, high byte first, then x, y and z of the translation in twelfths,
 * the smallest such triple that differs from it by a vector of the lattice, x compared first. Behind them five bytes: the letter, the edition 1, the
 * count n, and the total length 5 * n + 5, high byte first. A record is found by its end. That of -P 1 is, in hex,
 *   0C 7E 00 00 00   40 64 00 00 00   50 01 02 00 0F
 * Edition 3 has four bytes an operation: the number code * 1728 + x * 144 + y * 12 + z, high byte first. Else it is the same, with the edition 3 and the
 * total length 4 * n + 5. That of -P 1 is
 *   00 54 52 80   01 B2 A3 00   50 03 02 00 0D
 * and the shortest, that of P 1, has nine bytes. Every symmetry_record_ function reads both editions. A program that knows edition 1 alone refuses
 * edition 3 with 31, and nine bytes with 30.
 * The record of a layer symbol has its small letter, p or c, and is else that of the same group with P or C: a layer symbol and a plain one never share a
 * record, even where their motions agree. That of -p 1 is
 *   0C 7E 00 00 00   40 64 00 00 00   70 01 02 00 0F
 * Every symmetry_record_ function reads these too, in both editions, and a copy and a move keep the letter. A program that knows capital letters alone
 * refuses them with 32.
 * The record of a magnetic symbol has edition 2 and six bytes an operation, the flag 0 or 1 behind x, y and z. Operations ascend by code, and of two with
 * one code the one without the flag stands first; there are 1 to 96, and the total length is 6 * n + 5. Else it is that of edition 1. That of P 1a' is
 *   40 64 00 00 00 00   40 64 06 00 00 01   50 02 02 00 11
 * Only the symmetry_magnetic_record_ functions read it, and they read nothing else: the others refuse it with 31, and these refuse the editions 1 and 3 so.
 */

/*
 * Writes the record of the group from out + start on, and answers the order n. The 5 * n + 5 bytes from there hold the record, all others are as they
 * were. Two symbols get the same bytes exactly if their groups are the same set of motions. 20 if the record has no room there.
 */
uint64_t symmetry_symbol_record(const uint8_t *text, size_t text_length, uint8_t *out, size_t out_length, uint64_t start);

/*
 * The same for a layer symbol, with its small letter. Two layer symbols get the same bytes exactly if their groups are the same set of motions. 20 after
 * the layer symbol's own refusals.
 */
uint64_t symmetry_layer_record(const uint8_t *text, size_t text_length, uint8_t *out, size_t out_length, uint64_t start);

/*
 * The same for a magnetic symbol, in edition 2: the 6 * n + 5 bytes from out + start on hold the record. Two magnetic symbols get the same bytes exactly
 * if their groups are the same set of motions with flags. 20 after the symbol's own refusals.
 */
uint64_t symmetry_magnetic_record(const uint8_t *text, size_t text_length, uint8_t *out, size_t out_length, uint64_t start);

/* The same for the group that a record holds: reads it, and writes it from out + start on, in the edition in which it was read. */
uint64_t symmetry_record_copy(const uint8_t *record, size_t record_length, uint8_t *out, size_t out_length, uint64_t start);
uint64_t symmetry_magnetic_record_copy(const uint8_t *record, size_t record_length, uint8_t *out, size_t out_length, uint64_t start);

/* The edition of a record, 1 or 3. */
uint64_t symmetry_record_edition(const uint8_t *record, size_t record_length);

/*
 * Moves a record to the other edition: reads one of edition 1 or 3, writes it in edition 3 or 1 from out + start on, and answers the count n. It holds the
 * same letter and operations; moved back, it has the bytes that were read. 20 goes by the length that is written, 4 * n + 5 or 5 * n + 5.
 */
uint64_t symmetry_record_move(const uint8_t *record, size_t record_length, uint8_t *out, size_t out_length, uint64_t start);

/*
 * Compares two records of edition 1, writes from out on how they differ, and answers how many bytes that is; 0 exactly if the two records are equal byte
 * for byte. If their letters differ, the report is the two letters, the first's and the second's, and nothing else. If not, it has nine bytes for each
 * difference, by ascending rotation code: the kind, 1 if only the first has the rotation, 2 if only the second has it, 3 if both have it with
 * translations that differ by no vector of the lattice; the code, high byte first; the first's triple; the second's. A triple that is absent is 0 0 0.
 * Bytes behind the report are as they were. To make the second record of the first, take out each operation whose code an entry has, put in the second's
 * triple of each entry of kind 2 or 3, keep the order of codes, and count anew. 30 to 35 for the first record, then 60 to 65 for the second, then 20.
 */
uint64_t symmetry_record_compare(const uint8_t *first, size_t first_length, const uint8_t *second, size_t second_length, uint8_t *out, size_t out_length);

/* ---- operation lines ---- */

/*
 * Reads an operation line, as -x,-y+1/2,z, and answers the operation's number, as symmetry_symbol_operation does. Three parts stand between commas,
 * each of one or more terms in any order: a letter x y z, each at most once, and at most one fraction p/q with q one of 2 3 4 6 12 and p from 1 to
 * q - 1. Every term has a sign, but that a part's first plus may be missing. Spaces may stand anywhere but inside a fraction. 40, then 41, then 42.
 */
uint64_t symmetry_line_operation(const uint8_t *line, size_t line_length);

/*
 * Writes the line of an operation, given by its five bytes, from out on, and answers how many bytes it has: in each part the letters in the order
 * x y z, no leading plus, then +p/q in lowest terms if the translation is not 0; no spaces. The bytes behind it are as they were. What was written is
 * read as the same operation. 34, then 42, then 20.
 */
uint64_t symmetry_operation_line(const uint8_t *operation, size_t operation_length, uint8_t *out, size_t out_length);

/* ---- catalogues ---- */

/*
 * A catalogue of symbols, one a line, that comes in pieces cut anywhere. Lines end with byte 10; a last line without it counts when the end is
 * announced, unless it holds no byte. What is known between two calls stands in 81 bytes that the caller lends: a status, and the bytes of the line that
 * goes on. Any 81 bytes are a state, so there is nothing to be wrong in them; bytes behind the 81 are never written.
 *
 *   symmetry_catalogue_start(state, 81);
 *   for each piece:
 *       until it is taken whole: answer = symmetry_catalogue_piece(state, 81, rest of the piece, its length, out, 245), and if it finished a line, use it
 *   symmetry_catalogue_end(state, 81, out, 245), and if it finished a line, use it
 *
 * However the catalogue is cut, the answers and their order are those for the uncut text.
 */

/* Makes the state that of a fresh catalogue, and answers 0. 20 if it has under 81 bytes, here and below before everything else. */
uint64_t symmetry_catalogue_start(uint8_t *state, size_t state_length);

/*
 * Takes the bytes of the piece up to its first byte 10, with it, or all. If they finish a line, the record of its symbol is written from the start of out
 * and the answer holds what symmetry_symbol_record answers for the line, 20 if the record has no room there; else out stays as it was. A line over 80
 * bytes is refused 1 once, at its end. 45 if the piece has over 4,096 bytes, then 46 if the end was announced; the state stays then.
 */
uint64_t symmetry_catalogue_piece(uint8_t *state, size_t state_length, const uint8_t *piece, size_t piece_length, uint8_t *out, size_t out_length);

/* Announces the end: no bytes are taken, and a last line is answered as above. 46 if it was announced before. */
uint64_t symmetry_catalogue_end(uint8_t *state, size_t state_length, uint8_t *out, size_t out_length);

/* ---- subgroups ---- */

/* Lists all subgroups in the slots of sets, and answers how many there are. 26 if there are more than slots. */
uint64_t symmetry_symbol_subgroups(const uint8_t *text, size_t text_length, uint8_t *sets, size_t sets_length);
uint64_t symmetry_record_subgroups(const uint8_t *record, size_t record_length, uint8_t *sets, size_t sets_length);
uint64_t symmetry_table_subgroups(uint64_t order, const uint8_t *table, size_t table_length, uint8_t *sets, size_t sets_length);

/*
 * Lists of each class of conjugate subgroups the one that stands first in the list of all subgroups, in the order of that list, and answers how many
 * classes there are. 26 if there are more than slots.
 */
uint64_t symmetry_symbol_classes(const uint8_t *text, size_t text_length, uint8_t *sets, size_t sets_length);
uint64_t symmetry_record_classes(const uint8_t *record, size_t record_length, uint8_t *sets, size_t sets_length);
uint64_t symmetry_table_classes(uint64_t order, const uint8_t *table, size_t table_length, uint8_t *sets, size_t sets_length);

/* The conjugate of a subgroup H by an element g, the set of all inverse(g) h g. 27 if the set is no subgroup, then 28 if g is not below the order. */
uint64_t symmetry_symbol_conjugate(const uint8_t *text, size_t text_length, uint64_t set, uint64_t element);
uint64_t symmetry_record_conjugate(const uint8_t *record, size_t record_length, uint64_t set, uint64_t element);
uint64_t symmetry_table_conjugate(uint64_t order, const uint8_t *table, size_t table_length, uint64_t set, uint64_t element);

/*
 * Lists the conjugates of a subgroup in the slots of sets, and beside each, in the byte of conjugators with the same position, the smallest element
 * that conjugates to it: the subgroup itself first with the identity, then the others in the order of lists. Answers how many there are. 27 if the
 * set is no subgroup, then 26 if either list is too short; both lists are 0 then, also one that was long enough.
 */
uint64_t symmetry_symbol_conjugates(const uint8_t *text, size_t text_length, uint64_t set, uint8_t *sets, size_t sets_length,
                                    uint8_t *conjugators, size_t conjugators_length);
uint64_t symmetry_record_conjugates(const uint8_t *record, size_t record_length, uint64_t set, uint8_t *sets, size_t sets_length,
                                    uint8_t *conjugators, size_t conjugators_length);
uint64_t symmetry_table_conjugates(uint64_t order, const uint8_t *table, size_t table_length, uint64_t set, uint8_t *sets, size_t sets_length,
                                   uint8_t *conjugators, size_t conjugators_length);

/* The set of the elements that conjugate a subgroup to itself. 27 if the set is no subgroup. */
uint64_t symmetry_symbol_normalizer(const uint8_t *text, size_t text_length, uint64_t set);
uint64_t symmetry_record_normalizer(const uint8_t *record, size_t record_length, uint64_t set);
uint64_t symmetry_table_normalizer(uint64_t order, const uint8_t *table, size_t table_length, uint64_t set);

/*
 * How an element g of its normalizer permutes a subgroup's members: members ascend and have positions from 0, and byte i of positions becomes the
 * position of inverse(g) h g, h being the member at position i. Answers how many members there are. 27 if the set is no subgroup, then 28 if g is not
 * below the order, then 29 if it is not in the normalizer, then 26 if the list is too short.
 */
uint64_t symmetry_symbol_permutation(const uint8_t *text, size_t text_length, uint64_t set, uint64_t element, uint8_t *positions, size_t positions_length);
uint64_t symmetry_record_permutation(const uint8_t *record, size_t record_length, uint64_t set, uint64_t element, uint8_t *positions, size_t positions_length);
uint64_t symmetry_table_permutation(uint64_t order, const uint8_t *table, size_t table_length, uint64_t set, uint64_t element,
                                    uint8_t *positions, size_t positions_length);

#ifdef __cplusplus
}
#endif

#endif
