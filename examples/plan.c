/* Plans the project file on standard input and says where each panel lies. docs/FORMAT.md says how to build it. */
#include <inttypes.h>
#include <stdio.h>

uint32_t optimizer_optimize(const uint8_t *file, size_t file_len, uint32_t *workspace, size_t workspace_len,
                            uint32_t *plan, size_t plan_len);

static uint64_t id(const uint32_t *words) { return words[0] | (uint64_t)words[1] << 32; }

int main(void) {
    static uint8_t file[3105];                     /* a byte more than the largest project file */
    static uint32_t workspace[16384], plan[4500];  /* the least that may be lent */
    size_t size = fread(file, 1, sizeof file, stdin);
    uint32_t refusal = optimizer_optimize(file, size, workspace, 16384, plan, 4500);
    if (refusal != 0) return printf("refused %" PRIu32 "\n", refusal), 1;
    for (uint32_t s = 0; s < plan[0]; s++) {
        const uint32_t *sheet = plan + plan[4 + 2 * s], *piece = sheet + 10;
        printf("board %" PRIu64 ".%" PRIu32 ", %" PRIu32 " x %" PRIu32 "\n", id(sheet), sheet[2], sheet[3], sheet[4]);
        for (uint32_t k = 0; k < sheet[7]; k++, piece += 9)
            printf("  panel %" PRIu64 ".%" PRIu32 " at %" PRIu32 ", %" PRIu32 "\n", id(piece), piece[2], piece[3], piece[4]);
    }
    return 0;
}
