/*
 * Weighhare: garbled circuits. Link with libweighhare.a.
 *
 * A circuit computes bits from bits. The garbler gives each wire two 16-byte tokens, one for 0 and one for 1, and writes
 * the material: what an evaluator who holds one token for each input needs to find the one token of each other wire.
 * docs/FORMATS.md has the bytes of a circuit and of the material, docs/SCHEMES.md what tokens and rows are.
 *
 * Every function of the archive
 *   - returns 0, or the number of the refusal (WEIGHHARE_.. below): the first condition that holds. Conditions are tried
 *     in rising number, 5 to 7 together as one search over the gates in file order, but that 21 to 24 come before all
 *     others, and 25 and 26 right after 7, together as one search over the output records in file order; an operation
 *     skips what it has no argument for. A condition on several lists or buffers is tried in the order of the arguments;
 *   - sets all four words of `answer`. If it refuses, answer[0] is the refusal's place; else the words are its results.
 *     Words that are not used are 0;
 *   - leaves every output buffer as it was if it refuses, and else writes only the bytes named, at the front. There is
 *     one exception, refusal 30 of garble: the bytes that it would have written are zero, all others as they were;
 *   - takes any bytes and any lengths, and keeps nothing: no memory, no state, no pointer.
 * weighhare_words and weighhare_place_words, at the end, say in words what a refusal's number and its place mean.
 *
 * What the caller must see to: each pointer is to as many bytes as its length says, readable, and writable for an output
 * buffer; `gates` is to q gates, aligned as uint16_t is; a pointer is not null, even where its length is 0; `answer` is
 * to four words, aligned as uint64_t is; an output buffer and `answer` overlap nothing else that is handed in. Nothing
 * checks this, and nothing holds where it is broken.
 *
 * What is secret, and what the caller must do about it, since nothing here does:
 *   - The seed is 16 bytes of the system's random numbers, from getrandom(2) or another such source. One seed is for one
 *     garbling for each run number: two garblings from one seed with the same run number have the same R, the block by
 *     which the two tokens of every wire differ. With different run numbers no block that comes from the seed, to make R
 *     or an input's tokens, is the same in both. How little one run tells of another rests on AES, and is not proved.
 *     Nothing here notices a run number that is used twice.
 *   - A garbling is for one evaluation. Evaluated on two input lists it shows R wherever two tokens of a wire differ, and
 *     whoever has R makes each wire's other token from the one.
 *   - With the mark 43 49 any wire can be an output, an input too, and nothing refuses it: decoding then shows that
 *     input's bit, and for a middle wire the bit that it carries. Who garbles a circuit that somebody else wrote looks at
 *     its outputs first.
 *   - After use the garbler wipes the seed, `zeros` and `ones`, the evaluator its `tokens` and `wires`, and each its own
 *     values, by a call that a compiler does not drop, such as explicit_bzero. Nothing here wipes anything. What a
 *     function leaves on the stack is not wiped either.
 *   - Secret are, at the garbler's, the seed, R, both tokens of every wire and the values; at the evaluator's, the
 *     tokens that it holds. The circuit, the material, lengths, the run number, the scheme, the mark and what is
 *     refused are not. In garble, encode and decode no look-up and no branch depends on a secret, but for two branches
 *     with the mark 47 4A: of garble on whether it refuses with 30, of decode on whether it refuses with 29. This is
 *     tested on the archive, for x86-64, under valgrind's memcheck, and not proved. evaluate, in both forms, is not
 *     constant-time, and what pick answers shows its bit: see there. How long anything takes is promised of no
 *     function.
 *
 * Below n, m, q and p are the circuit's inputs, outputs, gates and charged gates. Limits: n is 2 to 4,096, m is 1 to q,
 * with the mark 43 49 1 to n+q, q is at least 1, and n+q is at most 65,535. Wires are numbered from 1: the inputs 1 to n,
 * then the gates n+1 to n+q. A gate's operands a and b are wires: 1 <= a < b < the gate's own wire number, also where its
 * code uses only one of them.
 *
 * A circuit begins with one of two marks, which say what its outputs are. With 43 48 they are the last m wires, in rising
 * order. With 43 49 they are the wires that m output records name, after the gates, in the order of the records: inputs,
 * gates' wires, in any order, a wire more than once too. Lists of tokens and of values of all wires, or of the inputs, are
 * in the order of the wires; those of the outputs are in the order of the outputs.
 *
 * The material begins with one of two marks too, which say what decoding goes by. With 47 48 it has a colour for each
 * output, and any token decodes to some bit. With 47 4A it has two hashes for each output, of its zero token and of its
 * one token, and a token that has neither hash is refused, 29: one that was mistyped, that was mixed up with one of
 * another output or garbling, or that came of a damaged row. It is no help against whoever changes the material, or
 * garbles wrongly: with an output's two hashes exchanged its tokens decode to the opposite bit, and nothing sees it.
 * garble takes the mark that is wanted; all other functions go by that of the material.
 */
#ifndef WEIGHHARE_H
#define WEIGHHARE_H

/*
 * The version of this header, and of the archive and the Rust crate that come with it. The archive itself holds none,
 * and no linker compares arguments: compile every object with the header that came with the archive. docs/CHANGES.md
 * has what each version changed.
 */
#define WEIGHHARE_VERSION "0.11.0"

#include <stddef.h>
#include <stdint.h>

#ifdef __cplusplus
extern "C" {
#endif

/*
 * What the functions return: 0, or why they refused. In brackets: what the refusal's place is, which answer[0] gives, and
 * after a colon more about it. Marks are in hexadecimal; offsets count from 0. No function gives 22 to 24 yet: they are
 * kept for a reader of circuits that are text. Nor 27 and 28, for an evaluator that is driven as a board.
 */
enum {
    WEIGHHARE_DONE = 0,             /* nothing refused */
    WEIGHHARE_CIRCUIT_SHORT = 1,    /* the circuit has under 8 bytes [its length] */
    WEIGHHARE_CIRCUIT_MARK = 2,     /* the circuit does not begin with the mark 43 48 or 43 49 [offset: 0] */
    WEIGHHARE_LIMITS = 3,           /* the circuit's n, m or q breaks a limit [offset: 2] */
    WEIGHHARE_CIRCUIT_LENGTH = 4,   /* the circuit's length is not 8+7q, or 8+7q+4m with the mark 43 49 [its length] */
    WEIGHHARE_GATE_MARK = 5,        /* a gate does not begin with the mark 43 47 [its wire number] */
    WEIGHHARE_OPERANDS = 6,         /* a gate's operands a and b are not 1 <= a < b < its wire number [its wire number] */
    WEIGHHARE_CODE = 7,             /* a gate's code is neither charged nor free [its wire number] */
    WEIGHHARE_SEED_LENGTH = 8,      /* the seed has not 16 bytes [its length] */
    WEIGHHARE_VALUES_LENGTH = 9,    /* the value list has not a byte for each input [its length] */
    WEIGHHARE_VALUE = 10,           /* a value is neither 0 nor 1 [its index: the first, from 0]; in pick, the bit [0] */
    WEIGHHARE_TOKENS_LENGTH = 11,   /* a token list has the wrong length [its length: the first such]; in pick, the lists'
                                       lengths differ or are no multiple of 16 [the zero list's length] */
    WEIGHHARE_MATERIAL_SHORT = 12,  /* the material has under 9 bytes [its length] */
    WEIGHHARE_MATERIAL_MARK = 13,   /* the mark, the argument or the material's, is not 47 48 or 47 4A [offset: 0] */
    WEIGHHARE_SCHEME = 14,          /* the scheme, the argument or the material's, is not 1, 2, 3 or 4 [the scheme] */
    WEIGHHARE_MATERIAL_SIZES = 15,  /* the material's n, m or q is not the circuit's [offset: 3] */
    WEIGHHARE_MATERIAL_LENGTH = 16, /* the material's length is not that of its mark, its scheme and the circuit
                                       [its length] */
    WEIGHHARE_ROW_RECORD = 17,      /* a row record has a wrong mark or wire number [the wire number due] */
    WEIGHHARE_LAST_RECORD = 18,     /* the material's last record has a wrong mark or a colour over 1
                                       [where it starts] */
    WEIGHHARE_ROOM = 19,            /* an output buffer is too short [bytes needed: for the first such] */
    WEIGHHARE_PICK_WIRE = 20,       /* pick's wire is 0 or past the lists [the wire] */
    WEIGHHARE_WIDTH = 21,           /* the width is not 1 to 64 [the width] */
    WEIGHHARE_TEXT_LINE = 22,       /* a line of the text is not of its form, is missing or lacks its line feed
                                       [the line: from 1] */
    WEIGHHARE_TEXT_COUNTS = 23,     /* the text's gate lines are not as many as its gate count, or its wire count is not
                                       inputs plus gates [the line: 1] */
    WEIGHHARE_TEXT_OUTPUT = 24,     /* a gate's output is not the next wire [the line: from 1] */
    WEIGHHARE_OUTPUT_MARK = 25,     /* an output record does not begin with the mark 43 4F [the output: from 1] */
    WEIGHHARE_OUTPUT_WIRE = 26,     /* an output record's wire is 0 or above n+q [the output: from 1] */
    WEIGHHARE_COMMAND = 27,         /* the board's command is not 1 to 4 [the command] */
    WEIGHHARE_NOT_READY = 28,       /* the board is not loaded, is done, or its next gate is outside n+1 to n+q
                                       [always: 0] */
    WEIGHHARE_OUTPUT_TOKEN = 29,    /* the hash of an output's token is neither of its two in the material
                                       [the output: the first, from 1] */
    WEIGHHARE_OUTPUT_HASHES = 30    /* an output's two hashes are equal [the output: the first, from 1] */
};

/*
 * Codes of gates. A code is a truth table: its bit 2u+v, bit 0 the lowest, is the gate's value for a=u and b=v. A charged
 * gate has rows in the material, a free one has none. Every other code is refused: 0, 15 and all above 15.
 */
enum {
    WEIGHHARE_NOR = 1,       /* charged */
    WEIGHHARE_LESS = 2,      /* charged: a < b, that is NOT a AND b */
    WEIGHHARE_NOT_A = 3,     /* free: NOT a; b is not used */
    WEIGHHARE_GREATER = 4,   /* charged: a > b, that is a AND NOT b */
    WEIGHHARE_NOT_B = 5,     /* free: NOT b; a is not used */
    WEIGHHARE_XOR = 6,       /* free */
    WEIGHHARE_NAND = 7,      /* charged */
    WEIGHHARE_AND = 8,       /* charged */
    WEIGHHARE_XNOR = 9,      /* free */
    WEIGHHARE_COPY_B = 10,   /* free: b; a is not used */
    WEIGHHARE_AT_MOST = 11,  /* charged: a <= b, that is NOT a OR b */
    WEIGHHARE_COPY_A = 12,   /* free: a; b is not used */
    WEIGHHARE_AT_LEAST = 13, /* charged: a >= b, that is a OR NOT b */
    WEIGHHARE_OR = 14        /* charged */
};

/*
 * Schemes: rows for each charged gate, and so the material's length, 11 + m + p(4 + 16 rows), with the mark 47 4A
 * 11 + 32m + p(4 + 16 rows). Schemes 3 and 4 differ in their hash alone, and their material has one length: where its
 * scheme byte is changed from the one to the other, nothing refuses it, and it opens to other tokens.
 */
enum {
    WEIGHHARE_GAX = 1,               /* four rows */
    WEIGHHARE_GAXR = 2,              /* three rows */
    WEIGHHARE_HALF_GATES = 3,        /* two rows; its hash has one fixed key */
    WEIGHHARE_REKEYED_HALF_GATES = 4 /* two rows; the key of its hash changes with each tweak */
};

/* Marks of the material: its first two bytes as a number, and what its last record has for each output. */
enum {
    WEIGHHARE_COLOURS = 0x4748, /* 47 48: a colour, 1 byte; decode takes any token */
    WEIGHHARE_HASHES = 0x474A   /* 47 4A: two hashes, 32 bytes; decode refuses a token that has neither, 29 */
};

/*
 * Checks a circuit. Refusals 1 to 7, 25, 26.
 *   circuit  the circuit's bytes
 *   answer   n, m, q, p, with either mark
 */
uint8_t weighhare_check(const uint8_t *circuit, size_t circuit_len, uint64_t answer[4]);

/*
 * Evaluates the plain circuit: the value that each wire carries. Refusals 1 to 7, 25, 26, 9, 10, 19.
 *   circuit  the circuit's bytes
 *   values   n bytes, each 0 or 1: the inputs' values
 *   wires    output: n+q bytes, each 0 or 1: the value of every wire
 *   answer   0, 0, 0, 0
 */
uint8_t weighhare_plain(const uint8_t *circuit, size_t circuit_len, const uint8_t *values, size_t values_len,
                        uint8_t *wires, size_t wires_len, uint64_t answer[4]);

/*
 * Garbles a circuit. Refusals 1 to 7, 25, 26, 8, 13, 14, 19, 30.
 *
 * Refusal 30 is of the mark 47 4A alone: the two hashes of some output are equal, so that decoding could not tell 0
 * from 1. It comes last, and it is the one refusal that changes buffers: the bytes that would have been written to
 * `material`, `zeros` and `ones` are zero then. No run is known that meets it: two values of 128 bits would have to
 * agree by chance. Who meets it takes another seed or run number.
 *
 * No look-up and no branch depends on the seed, R or a token, but for one branch with the mark 47 4A, on whether it
 * refuses with 30: AES is bitsliced, four blocks at once. This is tested on the archive and not proved.
 *
 *   circuit   the circuit's bytes
 *   seed      16 bytes from getrandom(2) or another source of the system's random numbers, used for no other garbling
 *             with the same run number; secret, to wipe when its last garbling is made
 *   run       the run number: which of the seed's garblings this is; 0 for a seed that has one alone. Every number is
 *             taken. It stands in no file, and no other function asks for it
 *   scheme    1, 2, 3 or 4
 *   mark      WEIGHHARE_COLOURS or WEIGHHARE_HASHES: the mark that the material is to have; the tokens are the same
 *   material  output: 11 + m + p(4 + 16 rows) bytes, with 4, 3, 2, 2 rows in schemes 1, 2, 3, 4; with the mark 47 4A
 *             11 + 32m + p(4 + 16 rows); for the evaluator
 *   zeros     output: 16(n+q) bytes, the zero token of every wire; secret, to wipe when the inputs' tokens are chosen
 *   ones      output: 16n bytes, the one token of every input; secret, to wipe then too
 *   answer    the material's length, the calls of the block cipher made (4p, with the mark 47 4A 4p + 2m), 0, 0. A
 *             call is one encryption; expanding a key is none, and encryptions under the seed are not counted
 */
uint8_t weighhare_garble(const uint8_t *circuit, size_t circuit_len, const uint8_t *seed, size_t seed_len, uint64_t run,
                         uint8_t scheme, uint16_t mark, uint8_t *material, size_t material_len, uint8_t *zeros,
                         size_t zeros_len, uint8_t *ones, size_t ones_len, uint64_t answer[4]);

/*
 * Chooses the inputs' tokens: for value 0 that of the zero list, for value 1 that of the one list.
 * Refusals 1 to 7, 25, 26, 9, 10, 11, 19.
 *
 * No look-up and no branch depends on a token, or on whether a value is 0 or 1: both tokens of an input are read, and a
 * mask chooses. This is tested on the archive and not proved. That a value is neither, and which is the first, is no
 * secret.
 *
 *   circuit  the circuit's bytes
 *   values   n bytes, each 0 or 1
 *   zeros    16n bytes: the inputs' zero tokens, the first 16n bytes that garble wrote
 *   ones     16n bytes: the inputs' one tokens
 *   tokens   output: 16n bytes, a token for each input; for the evaluator
 *   answer   0, 0, 0, 0
 */
uint8_t weighhare_encode(const uint8_t *circuit, size_t circuit_len, const uint8_t *values, size_t values_len,
                         const uint8_t *zeros, size_t zeros_len, const uint8_t *ones, size_t ones_len, uint8_t *tokens,
                         size_t tokens_len, uint64_t answer[4]);

/*
 * Evaluates a garbled circuit: from a token for each input, the token of every wire.
 * Refusals 1 to 7, 25, 26, 11, 12 to 18, 19.
 *
 * Not constant-time: AES looks T-tables up at bytes that come of the tokens, and in schemes 1 and 2 the tokens' colours
 * choose the row that is read. Through the cache, somebody who runs code on the same machine may learn bits of the
 * tokens that are held, or all of them. A token alone shows no value. But whoever has those of all inputs and the
 * material evaluates and decodes as the caller does; and to the garbler, who knows which token of a wire stands for
 * which value, a bit of the one that is held can show it. So evaluate on a machine that is shared with nobody who may
 * not have these tokens.
 *
 * A garbling is for one evaluation: a second, on another input list, shows R wherever two tokens of a wire differ.
 *
 * Material that somebody else made can be well-formed and wrong. No row is checked: a bad one still ends in some token,
 * which decode refuses, with the mark 47 4A, if it is an output's and not one of its two.
 *
 *   circuit   the circuit's bytes
 *   tokens    16n bytes: a token for each input; to wipe after use
 *   material  the material, of either mark, exactly as long as garble's answer says
 *   wires     output: 16(n+q) bytes, the token of every wire; to wipe after use
 *   answer    the calls of the block cipher made (p in schemes 1 and 2, 2p in schemes 3 and 4), 0, 0, 0
 */
uint8_t weighhare_evaluate(const uint8_t *circuit, size_t circuit_len, const uint8_t *tokens, size_t tokens_len,
                           const uint8_t *material, size_t material_len, uint8_t *wires, size_t wires_len,
                           uint64_t answer[4]);

/* A gate that is already read: two operands, which are wire numbers, and a code. Its padding has no effect. */
typedef struct {
    uint16_t a, b;
    uint8_t code;
} weighhare_gate;

/*
 * Evaluates as weighhare_evaluate does, from the gates already read: the answer that a circuit of the bytes made from
 * them, with the mark 43 48, would get. For a caller that runs one circuit many times. Refusals 3, 6, 7, 11, 12 to 18,
 * 19; more than 65,535 gates are refusal 3, and so are more outputs than gates.
 *
 * The three warnings of weighhare_evaluate hold here too: it is not constant-time, a garbling is for one evaluation, and
 * somebody else's material can be wrong.
 *
 *   n, m      the inputs and the outputs
 *   gates     q gates, in the order of their wire numbers
 *   tokens, material, wires, answer   as in weighhare_evaluate
 */
uint8_t weighhare_evaluate_gates(uint16_t n, uint16_t m, const weighhare_gate *gates, size_t q, const uint8_t *tokens,
                                 size_t tokens_len, const uint8_t *material, size_t material_len, uint8_t *wires,
                                 size_t wires_len, uint64_t answer[4]);

/*
 * Gathers the outputs' tokens from those of all wires, in the order of the outputs: what weighhare_decode takes.
 * Refusals 1 to 7, 25, 26, 11, 19.
 *   circuit  the circuit's bytes
 *   wires    16(n+q) bytes: the token of every wire, what evaluate wrote, and no more; to wipe after use
 *   tokens   output: 16m bytes, the token of each output, of a wire that is named twice both times; with the mark 43 48
 *            they are the last 16m bytes of `wires`
 *   answer   0, 0, 0, 0
 */
uint8_t weighhare_output_tokens(const uint8_t *circuit, size_t circuit_len, const uint8_t *wires, size_t wires_len,
                                uint8_t *tokens, size_t tokens_len, uint64_t answer[4]);

/*
 * Decodes the outputs' tokens to bits. Refusals 1 to 7, 25, 26, 11, 12 to 18, 19, 29.
 *
 * With the mark 47 48 any tokens decode. With 47 4A a token's hash must be one of the two that the material has for its
 * output: 0 if it is the first, else 1 if it is the second, else refusal 29, at the first such output. So a token shows
 * that was mistyped, mixed up with another, or came of a damaged row.
 *
 * Material that somebody else made can be well-formed and wrong, with either mark: a colour flipped, or an output's two
 * hashes exchanged, turns a 0 into a 1, and nothing here sees it.
 *
 * No look-up and no branch depends on a token, but for one branch with the mark 47 4A, on whether it refuses with 29:
 * then it looks for the first. This is tested on the archive and not proved.
 *
 *   circuit   the circuit's bytes
 *   tokens    16m bytes: the tokens of the outputs, what weighhare_output_tokens writes; for a circuit of mark 43 48 the
 *             last 16m of the 16(n+q) bytes that evaluate wrote
 *   material  the material, of either mark, exactly as long as garble's answer says
 *   bits      output: m bytes, each 0 or 1, in the order of the outputs
 *   answer    0, 0, 0, 0
 */
uint8_t weighhare_decode(const uint8_t *circuit, size_t circuit_len, const uint8_t *tokens, size_t tokens_len,
                         const uint8_t *material, size_t material_len, uint8_t *bits, size_t bits_len,
                         uint64_t answer[4]);

/*
 * Finds the token of one wire for one bit in the lists of zero and of one tokens. Refusals 10, 11, 20.
 *
 * No look-up and no branch depends on a token, which is tested and not proved. But the bit does not stay hidden: the
 * answer names the list, and the caller then reads the token from the one or the other. Where nobody on the machine may
 * learn the bits, weighhare_encode chooses by a mask: it takes 0 for the inputs of others, whose tokens are then left
 * out.
 *
 *   zeros, ones  lists of tokens, of one length, which is a multiple of 16
 *   wire         from 1
 *   bit          0 or 1
 *   answer       which list (0: zeros, 1: ones), where in it the token starts (16(wire-1)), the token's length (16), 0
 */
uint8_t weighhare_pick(const uint8_t *zeros, size_t zeros_len, const uint8_t *ones, size_t ones_len, uint16_t wire,
                       uint8_t bit, uint64_t answer[4]);

/*
 * Writes the circuit that compares two figures of `width` bits each, a price and a ceiling. Refusals 21, 19.
 *
 * There is one circuit for each width, so that whoever agrees on the width has the same bytes. It is no secret.
 * docs/FORMATS.md has its gates. For w bits it has n = 2w, m = 1, q = 4w-3 and p = w, as weighhare_check answers.
 *
 *   width    w, 1 to 64
 *   circuit  output: 28w-13 bytes, which are 1,779 for 64 bits. Inputs 1 to w are the price and w+1 to 2w the ceiling, the
 *            lowest bit of each first; the one output is 1 exactly when price <= ceiling
 *   answer   the circuit's length, 0, 0, 0
 */
uint8_t weighhare_comparator(uint64_t width, uint8_t *circuit, size_t circuit_len, uint64_t answer[4]);

/*
 * How long the buffers must be, in bytes. `sizes` is what weighhare_check answered: n, m, q, p. These are not of the archive,
 * and not proved: where one were wrong, refusal 19 or 11 would say so.
 */

/* A token for every wire, 16(n+q): garble's `zeros`, evaluate's `wires`. */
static inline size_t weighhare_wire_tokens_length(const uint64_t sizes[4]) { return (size_t)(16 * (sizes[0] + sizes[2])); }

/* A token for every input, 16n: garble's `ones`, encode's `tokens`. */
static inline size_t weighhare_input_tokens_length(const uint64_t sizes[4]) { return (size_t)(16 * sizes[0]); }

/* A token for every output, 16m: output_tokens' `tokens`. */
static inline size_t weighhare_output_tokens_length(const uint64_t sizes[4]) { return (size_t)(16 * sizes[1]); }

/* The material of mark 47 48 under a scheme, 11 + m + p(4 + 16 rows); 0 for a scheme that there is not. */
static inline size_t weighhare_material_length(const uint64_t sizes[4], uint8_t scheme) {
    const uint64_t rows[5] = {0, 4, 3, 2, 2};
    if (scheme < WEIGHHARE_GAX || scheme > WEIGHHARE_REKEYED_HALF_GATES) return 0;
    return (size_t)(11 + sizes[1] + sizes[3] * (4 + 16 * rows[scheme]));
}

/* The material of mark 47 4A under a scheme, 11 + 32m + p(4 + 16 rows); 0 for a scheme that there is not. */
static inline size_t weighhare_hashed_material_length(const uint64_t sizes[4], uint8_t scheme) {
    const size_t with_colours = weighhare_material_length(sizes, scheme);
    return with_colours == 0 ? 0 : with_colours + (size_t)(31 * sizes[1]);
}

/* The circuit that weighhare_comparator writes for a width w, 28w-13; 0 for a width that it refuses. */
static inline size_t weighhare_comparator_length(uint64_t width) {
    return width < 1 || width > 64 ? 0 : (size_t)(28 * width - 13);
}

/* What a function's number says, in words: for 0 "nothing refused", from 31 "no such refusal". */
static inline const char *weighhare_words(uint8_t number) {
    switch (number) {
    case WEIGHHARE_DONE: return "nothing refused";
    case WEIGHHARE_CIRCUIT_SHORT: return "the circuit has under 8 bytes";
    case WEIGHHARE_CIRCUIT_MARK: return "the circuit does not begin with the mark 43 48 or 43 49";
    case WEIGHHARE_LIMITS: return "the circuit's n, m or q breaks a limit";
    case WEIGHHARE_CIRCUIT_LENGTH: return "the circuit's length is not 8+7q, or 8+7q+4m with the mark 43 49";
    case WEIGHHARE_GATE_MARK: return "a gate does not begin with the mark 43 47";
    case WEIGHHARE_OPERANDS: return "a gate's operands a and b are not 1 <= a < b < its wire number";
    case WEIGHHARE_CODE: return "a gate's code is neither charged nor free";
    case WEIGHHARE_SEED_LENGTH: return "the seed has not 16 bytes";
    case WEIGHHARE_VALUES_LENGTH: return "the value list has not a byte for each input";
    case WEIGHHARE_VALUE: return "a value is neither 0 nor 1";
    case WEIGHHARE_TOKENS_LENGTH: return "a token list has the wrong length";
    case WEIGHHARE_MATERIAL_SHORT: return "the material has under 9 bytes";
    case WEIGHHARE_MATERIAL_MARK: return "the mark, the argument or the material's, is not 47 48 or 47 4A";
    case WEIGHHARE_SCHEME: return "the scheme, the argument or the material's, is not 1, 2, 3 or 4";
    case WEIGHHARE_MATERIAL_SIZES: return "the material's n, m or q is not the circuit's";
    case WEIGHHARE_MATERIAL_LENGTH: return "the material's length is not that of its mark, its scheme and the circuit";
    case WEIGHHARE_ROW_RECORD: return "a row record has a wrong mark or wire number";
    case WEIGHHARE_LAST_RECORD: return "the material's last record has a wrong mark or a colour over 1";
    case WEIGHHARE_ROOM: return "an output buffer is too short";
    case WEIGHHARE_PICK_WIRE: return "pick's wire is 0 or past the lists";
    case WEIGHHARE_WIDTH: return "the width is not 1 to 64";
    case WEIGHHARE_TEXT_LINE: return "a line of the text is not of its form, is missing or lacks its line feed";
    case WEIGHHARE_TEXT_COUNTS:
        return "the text's gate lines are not as many as its gate count, or its wire count is not inputs plus gates";
    case WEIGHHARE_TEXT_OUTPUT: return "a gate's output is not the next wire";
    case WEIGHHARE_OUTPUT_MARK: return "an output record does not begin with the mark 43 4F";
    case WEIGHHARE_OUTPUT_WIRE: return "an output record's wire is 0 or above n+q";
    case WEIGHHARE_COMMAND: return "the board's command is not 1 to 4";
    case WEIGHHARE_NOT_READY: return "the board is not loaded, is done, or its next gate is outside n+1 to n+q";
    case WEIGHHARE_OUTPUT_TOKEN: return "the hash of an output's token is neither of its two in the material";
    case WEIGHHARE_OUTPUT_HASHES: return "an output's two hashes are equal";
    default: return "no such refusal";
    }
}

/*
 * What a refusal's place, answer[0], is, in words: for "a gate's code is neither charged nor free (its wire number: 3)".
 * For 0 and from 31, "no place".
 */
static inline const char *weighhare_place_words(uint8_t number) {
    switch (number) {
    case WEIGHHARE_CIRCUIT_SHORT:
    case WEIGHHARE_CIRCUIT_LENGTH:
    case WEIGHHARE_SEED_LENGTH:
    case WEIGHHARE_VALUES_LENGTH:
    case WEIGHHARE_TOKENS_LENGTH:
    case WEIGHHARE_MATERIAL_SHORT:
    case WEIGHHARE_MATERIAL_LENGTH: return "its length";
    case WEIGHHARE_CIRCUIT_MARK:
    case WEIGHHARE_LIMITS:
    case WEIGHHARE_MATERIAL_MARK:
    case WEIGHHARE_MATERIAL_SIZES: return "offset";
    case WEIGHHARE_GATE_MARK:
    case WEIGHHARE_OPERANDS:
    case WEIGHHARE_CODE: return "its wire number";
    case WEIGHHARE_VALUE: return "its index";
    case WEIGHHARE_SCHEME: return "the scheme";
    case WEIGHHARE_ROW_RECORD: return "the wire number due";
    case WEIGHHARE_LAST_RECORD: return "where it starts";
    case WEIGHHARE_ROOM: return "bytes needed";
    case WEIGHHARE_PICK_WIRE: return "the wire";
    case WEIGHHARE_WIDTH: return "the width";
    case WEIGHHARE_TEXT_LINE:
    case WEIGHHARE_TEXT_COUNTS:
    case WEIGHHARE_TEXT_OUTPUT: return "the line";
    case WEIGHHARE_OUTPUT_MARK:
    case WEIGHHARE_OUTPUT_WIRE:
    case WEIGHHARE_OUTPUT_TOKEN:
    case WEIGHHARE_OUTPUT_HASHES: return "the output";
    case WEIGHHARE_COMMAND: return "the command";
    case WEIGHHARE_NOT_READY: return "always";
    default: return "no place";
    }
}

#ifdef __cplusplus
}
#endif

#endif
