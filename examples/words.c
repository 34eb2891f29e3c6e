/* The words of a refusal as a function that is exported, for languages that cannot use the header's inline one. */
#include "dorrivand.h"

const char *words(uint32_t refusal) { return dorrivand_words(refusal); }
