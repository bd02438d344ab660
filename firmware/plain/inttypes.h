#include <stdint.h>
#define PRIx64 "lx"
#define PRIu32 "u"
