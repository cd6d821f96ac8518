/* Fuzzes the boundary: bytes are read as a list of calls, and each call is checked. */
#ifndef BOUNDARY_H
#define BOUNDARY_H

#include "bytes.h"

/* The input whose calls are being made. */
extern struct bytes current_input;

/* libFuzzer's name for it. */
int LLVMFuzzerTestOneInput(const uint8_t *data, size_t size);

#endif
