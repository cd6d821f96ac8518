/* What a program does when a call fails a check or faults: it tells the call, then what it is given here, and ends with 1. */
#ifndef CAUGHT_H
#define CAUGHT_H

void catch_failures(void (*tell)(void));

#endif
