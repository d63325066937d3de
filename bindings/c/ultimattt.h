/* The engine's C interface. Link target/staticlib/libinterface.a (tools/build interface).
 *
 * Every slice is a pointer and a length in elements. A slice that is longer than needed keeps its other places. The slices of a call
 * must not overlap, and each pointer is good for its length and aligned; it may be null only if its length is 0.
 *
 * Asked wrongly (a slice too short, words that are no position, a draw winner over 2) a call returns ULTIMATTT_BAD_ARGUMENT and changes
 * nothing; ultimattt_answer alone returns a length in any case. The other numbers are those of the refusals: 1 to 6 of a text, 9 to 13
 * of a move, 14 of the endgame analysis, 15 to 18 and 20 of the search, 20 of the evaluation. 15: the depth is 0 or over 81. 16: the
 * allowance is 0 or over 1,000,000,000. 17: the words are no table. 20: a weight is over 1,000. 18: the allowance was spent before depth 1
 * was whole. The search tests them in this order.
 *
 * Nothing is kept between calls, so threads may call at once, each with slices of its own. ultimattt_answer and ultimattt_analyze use
 * up to 400 KB of the caller's stack; with less the process may end.
 */
#ifndef ULTIMATTT_H
#define ULTIMATTT_H

#include <stddef.h>
#include <stdint.h>

#ifdef __cplusplus
extern "C" {
#endif

#define ULTIMATTT_BAD_ARGUMENT 255

/* A position: the cells of X and of O in each of the three rows of boards (27 bits, board by board, the low bits first), the boards of X
 * and of O (9 bits; a drawn board has both), the side to move (0 X, 1 O), the due board (0 to 8, or ULTIMATTT_FREE), the game's state
 * (0 in play, 1 drawn, 2 won by X, 3 won by O), the hash that play keeps (without due board and side), by which the table is searched.
 * Twelve words are a position if none is over its bound: six times 0xffffffff, twice 0xffff, 1, 256, 3, any. Words made by hand may be one
 * that no play gives. */
#define ULTIMATTT_POSITION 12
#define ULTIMATTT_FREE 256

/* A move is 16 times board plus cell, each 0 to 8; 0xff is no move. */
#define ULTIMATTT_NO_MOVE 0xff

#define ULTIMATTT_TEXT 101
#define ULTIMATTT_RESPONSES 512

/* Settings: six words, of which the last three are the weights. */
#define ULTIMATTT_SETTINGS 6
enum {
    ULTIMATTT_SETTINGS_DEPTH = 0,       /* 1 to 81 */
    ULTIMATTT_SETTINGS_ALLOWANCE = 1,   /* positions that may be entered, 1 to 1,000,000,000 */
    ULTIMATTT_SETTINGS_DRAW_WINNER = 2, /* for whom a drawn game counts as won: 0 nobody, 1 X, 2 O */
    ULTIMATTT_SETTINGS_WEIGHTS = 3
};

/* What the evaluation gives, each 0 to 1,000; the defaults are 1, 3 and 20. */
#define ULTIMATTT_WEIGHTS 3
enum {
    ULTIMATTT_WEIGHTS_ONE = 0,  /* for one place of a board's line */
    ULTIMATTT_WEIGHTS_TWO = 1,  /* for two places */
    ULTIMATTT_WEIGHTS_BOARD = 2 /* for a won board, in each overall line */
};

/* A report: seven words, then 81 moves, then seven words for each of 81 depths. Places after the last whole depth are empty: no move,
 * zeros. Moves of the line after one that ends the game say nothing, and with the table on it may hold moves left over from other lines.
 * Scores are in two's complement, for the side to move. */
#define ULTIMATTT_REPORT 655
enum {
    ULTIMATTT_NUMBER = 0,         /* 0, or the search's refusal */
    ULTIMATTT_STOPPED = 1,        /* 1 if the allowance stopped the search */
    ULTIMATTT_DEPTH = 2,          /* the last whole depth */
    ULTIMATTT_SCORE = 3,
    ULTIMATTT_COUNT = 4,          /* positions entered, over all depths */
    ULTIMATTT_ENDGAME_NUMBER = 5, /* 0, or 14 */
    ULTIMATTT_STATUS = 6,         /* the results left: 1 X wins, 2 O wins, 4 draw, added */
    ULTIMATTT_LINE = 7,           /* 81 moves */
    ULTIMATTT_STATS = 88          /* of depth d, from 1 on, at ULTIMATTT_STATS + ULTIMATTT_STATS_WORDS * (d - 1) */
};

/* The places among the words of a depth. */
enum {
    ULTIMATTT_STATS_DEPTH = 0,
    ULTIMATTT_STATS_SCORE = 1,
    ULTIMATTT_STATS_VISITED = 2,    /* positions entered */
    ULTIMATTT_STATS_TERMINAL = 3,   /* of these evaluated, not searched further */
    ULTIMATTT_STATS_CUTS = 4,
    ULTIMATTT_STATS_TT_HIT = 5,     /* positions that the table had an entry for */
    ULTIMATTT_STATS_TT_SUFFICE = 6, /* of these answered by it */
    ULTIMATTT_STATS_WORDS = 7
};

/* The program's answer to a line `position depth` without its line feed. Returns its length; its bytes are written only if out has room for
 * all of them. No answer is longer than 201 bytes. */
size_t ultimattt_answer(const uint8_t *line, size_t line_len, uint8_t *out, size_t out_len);

/* The empty board, into 12 words. Returns 0. */
uint64_t ultimattt_new(uint64_t *position, size_t position_len);

/* Reads a text as a position. Returns 0, or 1 to 6 with the empty board. place, of at least 2 words: offset and length of the part
 * that is refused, 0 and 0 for none and for 1. */
uint64_t ultimattt_read(const uint8_t *text, size_t text_len, uint64_t *position, size_t position_len, uint64_t *place, size_t place_len);

/* Writes the 101 bytes of a position's text. Returns 0. */
uint64_t ultimattt_render(const uint64_t *position, size_t position_len, uint8_t *out, size_t out_len);

/* Tries moves one after the other; a refused one changes nothing. answers[i]: 0, or 9 to 13. answers has at least as many places as
 * moves. Returns 0. */
uint64_t ultimattt_play(uint64_t *position, size_t position_len, const uint8_t *moves, size_t moves_len, uint8_t *answers,
                        size_t answers_len);

/* Tries moves from a position, then searches and analyses the position reached. responses: 512 of them, to X's moves and then to O's,
 * each at the move that it responds to; 0xff for none. words: the table, three words an entry, at first zeros; empty, the table is off.
 * A number of words that is no multiple of 3, or over 196,608, is 17. responses and words are as the search left them; what other weights
 * have left in them is taken as it is. 14, which the endgame analysis alone gives, is in the report. Returns the report's number: 0, or 15
 * to 18 or 20. */
uint64_t ultimattt_analyze(const uint64_t *position, size_t position_len, const uint8_t *moves, size_t moves_len, const uint64_t *settings,
                           size_t settings_len, uint8_t *responses, size_t responses_len, uint64_t *words, size_t words_len,
                           uint64_t *report, size_t report_len);

/* The evaluation of a position for the side to move, by three weights, in two's complement: 2^60 for a game that is won or counts as won,
 * -2^60 for the opposite. Returns 0, or 20 with a score of 0. */
uint64_t ultimattt_evaluate(const uint64_t *position, size_t position_len, uint64_t draw_winner, const uint64_t *weights,
                            size_t weights_len, uint64_t *score, size_t score_len);

#ifdef __cplusplus
}
#endif

#endif
