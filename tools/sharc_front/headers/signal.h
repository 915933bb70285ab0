#include <stddef.h>
typedef int sig_atomic_t;
