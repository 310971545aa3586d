/* The length of a shortest list of a class of five marks, worked out by glpk. */
#include <stddef.h>
#include <stdint.h>

size_t glpk_length(uint32_t class);
