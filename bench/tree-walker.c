/* An interpreter of trees, for comparison with the sequential run of crates/seq_meaning: it walks
 * bench/sweeps.f and bench/product.f by recursion, with loops, index expressions as lists of
 * coefficients, cells by columns from the bounds, and whole numbers of 64 bits that wrap.
 *
 * With one word it runs 200 sweeps over 100,000 elements, with two the product of two lower
 * triangular matrices of 500 rows; with none three sweeps over ten elements. It writes the
 * program's output.
 */
#include <stdint.h>
#include <stdio.h>
#include <stdlib.h>

enum { MOST_TERMS = 2, MOST_DIMENSIONS = 2, MOST_LOOPS = 8, MOST_VARIABLES = 4 };

typedef struct {
    int64_t constant;
    int count;
    int loops[MOST_TERMS];
    int64_t coefficients[MOST_TERMS];
} Form;

typedef struct {
    int variable;
    int dimensions;
    Form subscripts[MOST_DIMENSIONS];
} Access;

typedef enum { LOOP_VALUE, LOAD, ADD, MUL, DIV } Operator;

typedef struct Expr {
    Operator operator;
    int loop;
    int64_t divisor;
    Access access;
    struct Expr *left, *right;
} Expr;

typedef enum { LOOP, ASSIGN, PRINT } Kind;

typedef struct Statement {
    Kind kind;
    int loop;
    int64_t step;
    Form first, last;
    Access target;
    Expr *value;
    struct Statement *body, *next;
} Statement;

typedef struct {
    int64_t first_cell, low[MOST_DIMENSIONS], extent[MOST_DIMENSIONS];
} Variable;

static Variable variables[MOST_VARIABLES];
static int64_t *memory;
static int64_t loop_values[MOST_LOOPS];

static int64_t wrapped_add(int64_t a, int64_t b) { return (int64_t)((uint64_t)a + (uint64_t)b); }
static int64_t wrapped_mul(int64_t a, int64_t b) { return (int64_t)((uint64_t)a * (uint64_t)b); }

static int64_t form_value(const Form *form) {
    int64_t sum = form->constant;
    for (int k = 0; k < form->count; k++)
        sum += form->coefficients[k] * loop_values[form->loops[k]];
    return sum;
}

static int64_t *cell(const Access *access) {
    const Variable *variable = &variables[access->variable];
    int64_t place = 0;
    for (int d = access->dimensions - 1; d >= 0; d--)
        place = form_value(&access->subscripts[d]) - variable->low[d] + variable->extent[d] * place;
    return &memory[variable->first_cell + place];
}

static int64_t value(const Expr *e) {
    switch (e->operator) {
    case LOOP_VALUE: return loop_values[e->loop];
    case LOAD: return *cell(&e->access);
    case ADD: { int64_t left = value(e->left); return wrapped_add(left, value(e->right)); }
    case MUL: { int64_t left = value(e->left); return wrapped_mul(left, value(e->right)); }
    case DIV: {
        int64_t left = value(e->left);
        return e->divisor == -1 ? (int64_t)(0 - (uint64_t)left) : left / e->divisor;
    }
    }
    return 0;
}

static void run(const Statement *s) {
    for (; s; s = s->next) {
        switch (s->kind) {
        case LOOP: {
            int64_t first = form_value(&s->first);
            int64_t count = (form_value(&s->last) - first + s->step) / s->step;
            for (int64_t n = 0, v = first; n < count; n++, v += s->step) {
                loop_values[s->loop] = v;
                run(s->body);
            }
            loop_values[s->loop] = 0;
            break;
        }
        case ASSIGN: { int64_t v = value(s->value); *cell(&s->target) = v; break; }
        case PRINT: printf(" %lld\n", (long long)*cell(&s->target)); break;
        }
    }
}

/* The pieces of a program. */
static void *made(size_t size) {
    void *p = calloc(1, size);
    if (!p) exit(1);
    return p;
}

static Form number(int64_t constant) { return (Form){.constant = constant}; }

static Form shifted(int loop, int64_t constant) {
    return (Form){.constant = constant, .count = 1, .loops = {loop}, .coefficients = {1}};
}

static Access of_one(int variable, Form f) {
    return (Access){.variable = variable, .dimensions = 1, .subscripts = {f}};
}

static Access of_two(int variable, Form f, Form g) {
    return (Access){.variable = variable, .dimensions = 2, .subscripts = {f, g}};
}

static Expr *load(Access access) {
    Expr *e = made(sizeof *e);
    *e = (Expr){.operator = LOAD, .access = access};
    return e;
}

static Expr *loop_value(int loop) {
    Expr *e = made(sizeof *e);
    *e = (Expr){.operator = LOOP_VALUE, .loop = loop};
    return e;
}

static Expr *both(Operator operator, Expr *left, Expr *right) {
    Expr *e = made(sizeof *e);
    *e = (Expr){.operator = operator, .left = left, .right = right};
    return e;
}

static Expr *quotient(Expr *left, int64_t divisor) {
    Expr *e = made(sizeof *e);
    *e = (Expr){.operator = DIV, .left = left, .divisor = divisor};
    return e;
}

static Statement *assignment(Access target, Expr *e) {
    Statement *s = made(sizeof *s);
    *s = (Statement){.kind = ASSIGN, .target = target, .value = e};
    return s;
}

static Statement *around(int loop, Form first, Form last, Statement *body) {
    Statement *s = made(sizeof *s);
    *s = (Statement){.kind = LOOP, .loop = loop, .step = 1, .first = first, .last = last, .body = body};
    return s;
}

static Statement *shown(Access access) {
    Statement *s = made(sizeof *s);
    *s = (Statement){.kind = PRINT, .target = access};
    return s;
}

static Statement *then(Statement *s, Statement *rest) {
    s->next = rest;
    return s;
}

static void jacobi(int64_t sweeps, int64_t n, int64_t last) {
    variables[1] = (Variable){.first_cell = 0, .low = {1}, .extent = {n}};
    variables[2] = (Variable){.first_cell = n, .low = {1}, .extent = {n}};
    memory = made(2 * (size_t)n * sizeof *memory);
    Expr *three = both(ADD, both(ADD, load(of_one(1, shifted(3, -1))), load(of_one(1, shifted(3, 0)))), load(of_one(1, shifted(3, 1))));
    Statement *mean = assignment(of_one(2, shifted(3, 0)), quotient(three, 3));
    Statement *copied = assignment(of_one(1, shifted(4, 0)), load(of_one(2, shifted(4, 0))));
    Statement *sweep = then(around(3, number(2), number(last), mean), around(4, number(2), number(last), copied));
    Statement *begin = around(1, number(1), number(n), assignment(of_one(1, shifted(1, 0)), loop_value(1)));
    run(then(begin, then(around(2, number(1), number(sweeps), sweep), shown(of_one(1, number(2))))));
}

static Statement *filled(int variable, int outer, int inner, int written, int64_t n) {
    Statement *s = assignment(of_two(variable, shifted(outer, 0), shifted(inner, 0)), loop_value(written));
    return around(outer, number(1), number(n), around(inner, number(1), number(n), s));
}

static void product(int64_t n) {
    for (int v = 1; v <= 3; v++)
        variables[v] = (Variable){.first_cell = (v - 1) * n * n, .low = {1, 1}, .extent = {n, n}};
    memory = made(3 * (size_t)(n * n) * sizeof *memory);
    Access c = of_two(3, shifted(5, 0), shifted(6, 0));
    Expr *ab = both(MUL, load(of_two(1, shifted(5, 0), shifted(7, 0))), load(of_two(2, shifted(7, 0), shifted(6, 0))));
    Statement *term = assignment(c, both(ADD, load(c), ab));
    Statement *nest = around(5, number(1), number(n), around(6, number(1), shifted(5, 0), around(7, shifted(6, 0), shifted(5, 0), term)));
    run(then(filled(1, 1, 2, 1, n), then(filled(2, 3, 4, 4, n), then(nest, shown(of_two(3, number(n), number(1)))))));
}

int main(int words, char **word) {
    (void)word;
    if (words == 1)
        jacobi(3, 10, 9);
    else if (words == 2)
        jacobi(200, 100000, 99999);
    else
        product(500);
    return 0;
}
