/* A board that calls the step and the restart file's two functions, and nothing else. It is linked for both processors
   and not run: second/test looks at what the linker took of the archive. */

#include "wankitare.h"

static uint8_t file[2 * WANKITARE_RECORD_BYTES];
static uint8_t image[WANKITARE_BANK_BYTES];
static uint8_t accesses[WANKITARE_STEP_ROOM];

int main(void)
{
    uint8_t *record = file + wankitare_place(wankitare_restart(file, WANKITARE_RECORD_BYTES));
    uint64_t word = wankitare_step(record, WANKITARE_RECORD_BYTES, image, sizeof image, WANKITARE_RES, 0, accesses,
                                   sizeof accesses);

    return wankitare_refusal(word) != 0 || wankitare_refusal(wankitare_append_at(WANKITARE_RECORD_BYTES)) != 0;
}
