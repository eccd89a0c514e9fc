/* What the actions of a GLR grammar build: nodes, and a node over two derivations that are merged. */
#include <stdarg.h>
#include <stddef.h>
#include <stdio.h>

struct node {
    int tag;
    int count;
    struct node *children[];
};

extern struct node *result;
extern const int classes[256];
struct node *make(int tag, int count, ...);
static struct node *merge(struct node *a, struct node *b);
void yyerror(const char *text);
int yylex(void);

#define YYMAXDEPTH 400000000
#define YYINITDEPTH 1000
