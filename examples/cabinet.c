/* A cabinet of 3 disks of 8 blocks: a write, a write that loses its power after one store, a restart and a read. The
   region is dirty from the first write, so that one store is the new block on disk 0: the second write counts. */
#include "cabinet.h"
#include <stdio.h>
#include <stdlib.h>
#include <string.h>

static struct cabinet_state expect(enum cabinet_refusal refusal, const char *call, struct cabinet_answer answer)
{
    printf("%s: refusal %d (%s), stores %d, current %d\n", call, answer.refusal, cabinet_refusal_text(answer.refusal),
           answer.stores, answer.state.current);
    if (answer.refusal != refusal)
        exit(EXIT_FAILURE);
    return answer.state;
}

int main(void)
{
    static uint8_t area[CABINET_AREA_SIZE(3, 8)];
    uint8_t sevens[CABINET_BLOCK_SIZE], eights[CABINET_BLOCK_SIZE], found[CABINET_BLOCK_SIZE] = {0};
    memset(sevens, 7, sizeof sevens);
    memset(eights, 8, sizeof eights);
    struct cabinet_state s = expect(CABINET_DONE, "format", cabinet_format(3, 8, area, sizeof area));
    s = expect(CABINET_DONE, "write", cabinet_write(s, area, sizeof area, 0, sevens, sizeof sevens, 99));
    s = expect(CABINET_POWER_LOST, "write", cabinet_write(s, area, sizeof area, 0, eights, sizeof eights, 1));
    s = expect(CABINET_DONE, "restart", cabinet_restart(s, area, sizeof area, 99));
    s = expect(CABINET_DONE, "read", cabinet_read(s, area, sizeof area, 0, found, sizeof found, 99));
    printf("first byte %d\n", found[0]);
    return found[0] == eights[0] ? EXIT_SUCCESS : EXIT_FAILURE;
}
