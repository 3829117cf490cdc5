/* restarts.c for a chip with a row for each conversation, by rows.h: that all carry says then, too, that each row names a port of its trunk, in equal shares. */
#define WITH_ROWS
#include "restarts.c"
