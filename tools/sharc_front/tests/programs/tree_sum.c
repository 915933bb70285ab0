/* A binary tree whose two halves are summed by two threads; insertion is recursive. */
#include <pthread.h>
#include <stdio.h>
#include <stdlib.h>

struct node {
    int key;
    struct node *left, *right;
};

struct result {
    long sum;
    int nodes, height;
};

static struct node *insert(struct node *n, int key)
{
    if (n == NULL) {
        n = malloc(sizeof(struct node));
        n->key = key;
        n->left = n->right = NULL;
    } else if (key < n->key)
        n->left = insert(n->left, key);
    else if (key > n->key)
        n->right = insert(n->right, key);
    return n;
}

static struct result walk(const struct node *n)
{
    struct result r = { 0, 0, 0 }, a, b;

    if (!n)
        return r;
    a = walk(n->left);
    b = walk(n->right);
    r.sum = a.sum + b.sum + n->key;
    r.nodes = a.nodes + b.nodes + 1;
    r.height = 1 + (a.height > b.height ? a.height : b.height);
    return r;
}

static void *walker(void *arg)
{
    struct result *r = malloc(sizeof *r);
    *r = walk(arg);
    return r;
}

static void destroy(struct node *n)
{
    if (n) {
        destroy(n->left);
        destroy(n->right);
        free(n);
    }
}

int main(void)
{
    struct node *root = NULL;
    pthread_t l, r;
    struct result *a, *b;
    unsigned x = 42;

    for (int i = 0; i < 64; i++) {
        x = (x * 75 + 74) % 65537;
        root = insert(root, (int) x);
    }
    pthread_create(&l, NULL, walker, root->left);
    pthread_create(&r, NULL, walker, root->right);
    pthread_join(l, (void **) &a);
    pthread_join(r, (void **) &b);
    printf("root %d sum %ld nodes %d heights %d %d\n", root->key, a->sum + b->sum + root->key,
           a->nodes + b->nodes + 1, a->height, b->height);
    free(a);
    free(b);
    destroy(root);
    return 0;
}
