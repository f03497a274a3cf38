/* Decides the sheet on standard input: prints the answer, or e,number,line. See README.md, "From C and from Rust". */
#include <stdio.h>

#include "lochkave.h"

int main(void) {
    static uint8_t sheet[1 << 20], out[65536];
    size_t n = fread(sheet, 1, sizeof sheet, stdin);
    uint64_t r = lochkave_decide(sheet, n, out, sizeof out);
    if (lochkave_number(r) != 0) {
        printf("e,%u,%u\n", lochkave_number(r), lochkave_line(r));
        return 1;
    }
    fwrite(out, 1, (size_t)r, stdout);
    return 0;
}
