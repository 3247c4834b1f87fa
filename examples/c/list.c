/* Lists the sheet on standard input, as an order system would. */
#include <stdio.h>

#include "set_chooser.h"

int main(void) {
    static uint8_t sheet[32769];
    uint8_t listing[1043];
    size_t length = fread(sheet, 1, sizeof sheet, stdin);
    int64_t written = set_chooser_list(sheet, length, listing, sizeof listing);
    if (written < 0) {
        fprintf(stderr, "refused: %lld\n", (long long)written);
        return 1;
    }
    fwrite(listing, 1, (size_t)written, stdout);
    return 0;
}
