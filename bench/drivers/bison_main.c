/* Bison's GLR: reads files and parses them by characters. Ends with status 0 where all are permitted. */
#include <stdlib.h>
#include "grammar.c"

struct node *result;
static unsigned char *text;
static size_t length, at;
static char *pool;
static size_t room;

struct node *make(int tag, int count, ...) {
    size_t size = sizeof(struct node) + count * sizeof(struct node *);
    if (size > room) {
        room = 1 << 20;
        pool = malloc(room);
    }
    struct node *n = (struct node *)pool;
    pool += size;
    room -= size;
    n->tag = tag;
    n->count = count;
    va_list list;
    va_start(list, count);
    for (int k = 0; k < count; k++) n->children[k] = va_arg(list, struct node *);
    va_end(list);
    return n;
}

static struct node *merge(struct node *a, struct node *b) { return make(0, 2, a, b); }

void yyerror(const char *text) { fprintf(stderr, "%s at %zu\n", text, at); }

int yylex(void) {
    if (at >= length) return 0;
    yylval = NULL;
    return classes[text[at++]];
}

static int parse(const char *name) {
    FILE *f = fopen(name, "rb");
    if (!f) return 2;
    fseek(f, 0, SEEK_END);
    length = ftell(f);
    rewind(f);
    text = malloc(length + 1);
    at = 0;
    if (fread(text, 1, length, f) != length) return 2;
    fclose(f);
    return yyparse();
}

int main(int argc, char **argv) {
    for (int k = 1; k < argc; k++) {
        int status = parse(argv[k]);
        if (status) return status;
    }
    return 0;
}
