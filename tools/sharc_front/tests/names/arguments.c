#include <stdio.h>
#include <stdlib.h>

int main(int argc, char **argv)
{
    for (int i = 1; i < argc; i++)
        printf("%d\n", atoi(argv[i]) * 2);
    return argc > 3;
}
