/* Answers four lines, as the program does, searches the empty board, plays a move, and evaluates. It prints the lines of example.out. */
#include <stdio.h>
#include <string.h>

#include "ultimattt.h"

#define EMPTY "........."
#define EMPTY_3 EMPTY "/" EMPTY "/" EMPTY
#define EMPTY_9 EMPTY_3 "/" EMPTY_3 "/" EMPTY_3

static void answer(const char *line) {
    uint8_t out[224];
    size_t n = ultimattt_answer((const uint8_t *)line, strlen(line), out, sizeof out);
    printf("%.*s\n", (int)n, (const char *)out);
}

/* Depth 2 of the empty board, with an allowance that depth 1 uses up. */
static void analyze(const uint64_t *position) {
    uint8_t responses[ULTIMATTT_RESPONSES];
    uint64_t report[ULTIMATTT_REPORT];
    const uint64_t *first = report + ULTIMATTT_STATS;
    const uint64_t settings[ULTIMATTT_SETTINGS] = {2, 82, 0, 1, 3, 20};
    memset(responses, ULTIMATTT_NO_MOVE, sizeof responses);
    ultimattt_analyze(position, ULTIMATTT_POSITION, NULL, 0, settings, ULTIMATTT_SETTINGS, responses, sizeof responses, NULL, 0, report,
                      ULTIMATTT_REPORT);
    printf("number %d, stopped %d, depth %d, score %d, count %d, endgame %d, status %d, line %02x\n", (int)report[ULTIMATTT_NUMBER],
           (int)report[ULTIMATTT_STOPPED], (int)report[ULTIMATTT_DEPTH], (int)report[ULTIMATTT_SCORE], (int)report[ULTIMATTT_COUNT],
           (int)report[ULTIMATTT_ENDGAME_NUMBER], (int)report[ULTIMATTT_STATUS], (int)report[ULTIMATTT_LINE]);
    printf("depth %d, score %d, visited %d, terminal %d, cuts %d\n", (int)first[ULTIMATTT_STATS_DEPTH], (int)first[ULTIMATTT_STATS_SCORE],
           (int)first[ULTIMATTT_STATS_VISITED], (int)first[ULTIMATTT_STATS_TERMINAL], (int)first[ULTIMATTT_STATS_CUTS]);
}

/* With weights of its own, and with one that is refused. */
static void evaluate(const uint64_t *position) {
    const uint64_t weights[ULTIMATTT_WEIGHTS] = {5, 70, 900}, refused[ULTIMATTT_WEIGHTS] = {5, 70, 1001};
    uint64_t score[2], number[2];
    number[0] = ultimattt_evaluate(position, ULTIMATTT_POSITION, 0, weights, ULTIMATTT_WEIGHTS, score, 1);
    number[1] = ultimattt_evaluate(position, ULTIMATTT_POSITION, 0, refused, ULTIMATTT_WEIGHTS, score + 1, 1);
    printf("number %d, score %d; number %d, score %d\n", (int)number[0], (int)score[0], (int)number[1], (int)score[1]);
}

int main(void) {
    answer("X;.........;" EMPTY_9 " 1");
    answer("X;XX@......;XXX....../XXX....../XX......./" EMPTY_3 "/" EMPTY_3 " 3");
    answer("O;XXX......;" EMPTY_9 " 5");
    answer("X 3");

    uint64_t position[ULTIMATTT_POSITION];
    const uint8_t moves[] = {0x44, 0x44};
    uint8_t answers[2], text[ULTIMATTT_TEXT];
    ultimattt_new(position, ULTIMATTT_POSITION);
    analyze(position);
    ultimattt_play(position, ULTIMATTT_POSITION, moves, 2, answers, 2);
    ultimattt_render(position, ULTIMATTT_POSITION, text, sizeof text);
    printf("%d %d %.*s\n", answers[0], answers[1], ULTIMATTT_TEXT, (const char *)text);
    evaluate(position);
    return 0;
}
