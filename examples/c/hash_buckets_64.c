/* hash_buckets.c for a chip of 64 hash buckets. */
#define ROWS 64
#include "hash_buckets.c"
