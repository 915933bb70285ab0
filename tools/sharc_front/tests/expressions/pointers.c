#include <stdio.h>
#include <stdlib.h>
#include <string.h>
static char text[20] = "abcdef"; static char *cursor = text;
static int len(const char *s, int k) { return (int) strlen(s + k) + (int) strlen(&s[1]); }
static int *gp;
struct n { char name[8]; int v; struct n *next; };
int main(void)
{
    char local[10]; int *h = malloc(4 * sizeof *h);
    strcpy(local, "xyz"); strcpy(text + 2, "QQ"); strcat(cursor + 1, "w");
    printf("%d %d %d %d\n", len(text, 2), len(cursor, 1), (int) strlen(cursor + 1), (int) strlen(local + 1));
    memset(cursor + 1, 'k', 2); printf("%d %d\n", text[1], text[3]);
    h[2] = 5; printf("%d %d\n", *(h + 2), h[2]); gp = h; *(gp + 1) = 4; (*(gp + 1))++; gp[1] += 2; printf("%d\n", h[1]);
    cursor += 2; cursor[-1] = 'z'; *(cursor - 2) = 'y'; printf("%d %d %d\n", text[0], text[1], (int) (cursor - text));
    int k = 1; cursor = cursor - k; unsigned u = 1; cursor = cursor - u; size_t z = 1; printf("%d %d\n", *(cursor + z), (int) (cursor - text)); 
    struct n *list = calloc(1, sizeof *list); strcpy(list->name, "abc"); list->next = list; list->next->next->v += 3; list->next->name[k++]++;
    printf("%d %d %d %d\n", list->v, list->name[1], k, (int) strlen(list->name + 1));
    return 0;
}
