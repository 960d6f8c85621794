/* The fixed functions for the length-first order of keys, over the byte strings of `runtime.c`. */
#define LENGTH_FIRST
#include "runtime.c"
