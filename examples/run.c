/* Runs the viability routine over three trays, 20 steps in a call. The second is a bare control tray: nothing was sown. */
#include <stdio.h>

#include "rithwellu.h"

int main(void)
{
    static uint8_t listing[65521]; /* one byte more than a listing may have */
    const uint8_t trays[12] = {44, 1, 200, 0, 0, 0, 0, 0, 10, 0, 11, 0}; /* sown and sprouted, 2 bytes each */
    uint8_t results[3] = {0};
    rithwellu_state state = {0, {0, 3}}; /* point 0; register 1 holds the number of trays */
    uint64_t answer[6];
    const char *path = "examples/viability.lst";
    FILE *file = fopen(path, "rb");

    if (file == NULL) {
        perror(path);
        return 1;
    }
    size_t length = fread(listing, 1, sizeof listing, file);
    fclose(file);
    do {
        rithwellu_run_in_place(listing, length, &state, trays, sizeof trays, results, sizeof results, 20, answer);
        if (answer[0] == 2) {
            printf("turned back by %d\n", (int)answer[1]);
            return 1;
        }
        printf("%s after %d steps at point %d\n", answer[0] == 0 ? "stopped" : "paused", (int)answer[4], (int)answer[5]);
    } while (answer[0] == 1);
    printf("%d %d %d\n", results[0], results[1], results[2]);
    return 0;
}
