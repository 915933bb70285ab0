#ifndef SHARC_FRONT_UNISTD_H
#define SHARC_FRONT_UNISTD_H
#include <stddef.h>
#include <stdio.h>
typedef unsigned int useconds_t;
static inline unsigned sleep(unsigned seconds) { return 0; }
static inline int usleep(useconds_t time) { return 0; }
#endif
