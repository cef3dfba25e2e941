/* The version of the headers with which packages/c/build makes liblugcurrant.so. It is no part of the flow, which programs compile by themselves. */
#include <lugcurrant.h>

uint32_t lugcurrant_library_version(void) { return LUGCURRANT_VERSION_NUMBER; }
