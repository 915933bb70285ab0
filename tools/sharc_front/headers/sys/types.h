#include <stddef.h>
#include <stdint.h>
#include <time.h>
#ifndef SHARC_FRONT_STDIO_H
typedef long ssize_t;
#endif
typedef int pid_t;
typedef unsigned int uint;
typedef unsigned long ulong;
