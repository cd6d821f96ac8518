/* What libFuzzer needs beside the calls: an input that fails is kept. */
#include "boundary.h"
#include "caught.h"
#include "checks.h"

#include <inttypes.h>
#include <stdio.h>
#include <stdlib.h>

int LLVMFuzzerInitialize(int *argc, char ***argv);

/* Writes the input to a file; the program makes its calls again when it is given the file's name. */
static void tell(void) {
    FILE *file = fopen("target/fuzz/failed", "wb");
    if (file != NULL && fwrite(current_input.at, 1, current_input.left, file) == current_input.left && fclose(file) == 0) {
        fprintf(stderr, "again: target/fuzz/boundary target/fuzz/failed\n");
    }
}

static void tell_calls(void) { fprintf(stderr, "calls: %" PRIu64 "\n", calls_made()); }

int LLVMFuzzerInitialize(int *argc, char ***argv) {
    (void)argc, (void)argv;
    catch_failures(tell);
    atexit(tell_calls);
    return 0;
}
