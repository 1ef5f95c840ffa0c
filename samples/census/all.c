/* Runs the compiled decoder over all 2^32 words and compares what it counts with the lines of standard input, which are those of crates/census/stdout:
   a line for each class, in the order of their numbers, with its name, its unconditional words and its conditional ones. */
#include <inttypes.h>
#include <stdint.h>
#include <stdio.h>

extern uint32_t arm_class(uint32_t word);

static uint64_t counted[74][2];

int main(void) {
    uint32_t word = 0;
    do {
        uint32_t class = arm_class(word);
        if (class >= 74) {
            printf("FAILED: %08" PRIx32 " has no class\n0 passed, 1 failed\n", word);
            return 1;
        }
        counted[class][word >> 28 < 14]++;
    } while (++word != 0);
    int agreed = 0, differed = 0;
    for (int class = 0; class < 74; class++) {
        char name[16];
        uint64_t unconditional, conditional;
        if (scanf("%15s %" SCNu64 " %" SCNu64, name, &unconditional, &conditional) != 3) break;
        if (counted[class][0] == unconditional && counted[class][1] == conditional) {
            agreed++;
        } else {
            differed++;
            printf("FAILED: %s: counted %" PRIu64 " and %" PRIu64 "\n", name, counted[class][0], counted[class][1]);
        }
    }
    printf("%d passed, %d failed\n", agreed, differed + (agreed + differed != 74));
    return agreed != 74;
}
