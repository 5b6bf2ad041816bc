/* Builds the viability routine line by line from a table, prints it, and has it checked. */
#include <stdio.h>

#include "rithwellu.h"

#define B INT64_MIN /* a blank field */
#define TRAYS {"STRP", {16, 4, 1, B, B, 0}}       /* register 1 trays of 4 bytes fit into the trays */
#define RESULTS {"STRP", {17, 1, 1, B, B, 0}}     /* and as many bytes into the results */
#define THIS_TRAY {"STRP", {16, 4, 0, B, B, 4}}   /* tray number register 0 is one of them */
#define THIS_RESULT {"STRP", {17, 1, 0, B, B, 1}} /* and so is its result */
#define SOWN {"LEAS", {2, B, B, B, B, 1}}         /* something was sown */

typedef struct {
    const char *word;
    int64_t fields[6];
} row;

static const row rows[] = {
    TRAYS, RESULTS, {"SETC", {0, B, B, B, B, 0}},
    TRAYS, RESULTS, {"BLTU", {B, 0, B, 3, 0, 1}},
    {"STOP", {B, B, B, B, B, B}},
    TRAYS, RESULTS, THIS_TRAY, THIS_RESULT, {"LOAD", {2, 2, 0, 4, 0, 0}},
    TRAYS, RESULTS, THIS_TRAY, THIS_RESULT, {"BEQU", {B, 2, B, 10, 1, 0}},
    SOWN, TRAYS, RESULTS, THIS_TRAY, THIS_RESULT, {"LOAD", {3, 2, 0, 4, 0, 2}},
    SOWN, {"MOST", {3, B, B, B, B, 65535}}, TRAYS, RESULTS, THIS_RESULT, {"BLTU", {B, 2, B, 12, 0, 3}},
    SOWN, {"MOST", {3, B, B, B, B, 65535}}, TRAYS, RESULTS, THIS_RESULT, {"MULW", {3, 3, B, B, 1, 100}},
    SOWN, {"MOST", {3, B, B, B, B, 6553500}}, TRAYS, RESULTS, THIS_RESULT, {"DIVF", {3, 3, B, B, 0, 2}},
    TRAYS, RESULTS, THIS_RESULT, {"JUMP", {B, B, B, 13, B, B}},
    TRAYS, RESULTS, THIS_RESULT, {"SETC", {3, B, B, B, B, 0}},
    TRAYS, RESULTS, THIS_RESULT, {"JUMP", {B, B, B, 13, B, B}},
    TRAYS, RESULTS, THIS_RESULT, {"SETC", {3, B, B, B, B, 255}},
    TRAYS, RESULTS, THIS_RESULT, {"STOR", {3, 1, B, 1, 0, 0}},
    TRAYS, RESULTS, {"ADDW", {0, 0, B, B, 1, 1}},
    TRAYS, RESULTS, {"JUMP", {B, B, B, 1, B, B}},
};

int main(void)
{
    static uint8_t listing[sizeof rows / sizeof rows[0] * 40];
    uint8_t printed[40];

    for (size_t i = 0; i < sizeof listing / 40; i++) {
        uint8_t kinds[6];
        uint64_t numbers[6], answer[2];
        for (int j = 0; j < 6; j++) {
            int64_t field = rows[i].fields[j];
            kinds[j] = field == B ? RITHWELLU_BLANK : field < 0 ? RITHWELLU_NEGATIVE : RITHWELLU_NUMBER;
            numbers[j] = field == B ? 0 : (uint64_t)(field < 0 ? -field : field);
        }
        rithwellu_set_line((const uint8_t *)rows[i].word, 4, kinds, numbers, i + 1, listing, sizeof listing, answer);
        if (answer[0] != 0) {
            printf("line %d is turned back by %d\n", (int)answer[1], (int)answer[0]);
            return 1;
        }
    }
    fwrite(listing, 1, sizeof listing, stdout);
    rithwellu_print(listing, sizeof listing, printed);
    fwrite(printed, 1, sizeof printed, stdout);
    return 0;
}
