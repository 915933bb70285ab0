#include <stdio.h>
#include <stdlib.h>
#include "sharc_marks.h"

struct limits { int SHARC_READONLY low; int SHARC_READONLY high; };

int main(void)
{
    struct limits *p = malloc(sizeof *p), copy;

    *p = (struct limits) { 2, 9 };
    copy = *p;
    printf("%d\n", copy.high - copy.low);
    return 0;
}
