/* Repairs a mesh of three elements and prints the counts. In the repository's folder, after `bash tools/archive halmafir`:

     cc -O2 -Wall -Iinclude examples/c/repair.c -Ltarget/staticlib -lhalmafir -o target/repair && target/repair

   Elements 0 and 1 share a face; vertex 4 lies so close to vertex 0 that element 1 is thin. `improve` collapses that edge. Element 2 is
   flat; `smooth` moves its free vertices. `flip` finds no face or edge to reconnect. */
#include "halmafir.h"

#include <stdio.h>

enum { VERTICES = 9, ELEMENTS = 3 };

static double points[3 * VERTICES] = {
    0, 0, 0,    16, 0, 0,   0, 16, 0,   0, 0, 16, 0.5, 0, 0,
    40, 40, 40, 41, 40, 40, 40, 41, 40, 41, 41, 40.0625,
};
static double parameters[3 * VERTICES];
static uint32_t masks[VERTICES];
static uint32_t elements[HALMAFIR_ELEMENT_WORDS(ELEMENTS)] = {4, 1, 2, 3, 0, 4, 2, 3, 5, 6, 7, 8};
static uint32_t surface[HALMAFIR_SURFACE_WORDS(ELEMENTS)];
static struct halmafir_sizes sizes = {VERTICES, ELEMENTS, 0};

static uint32_t words[HALMAFIR_WORDS(VERTICES, ELEMENTS)];
static double floats[HALMAFIR_FLOATS(VERTICES)];

/* The box is -100 to 100 in each direction, of 200 cells; two rounds; one field, the level 50. */
static const struct halmafir_settings settings = {.cells = {200, 200, 200}, .passes = 2, .field_count = 1, .kinds = {HALMAFIR_LEVEL}};
static const struct halmafir_numbers numbers = {.bounds = {-100, 100, -100, 100, -100, 100}, .fields = {{50}}};

/* A buffer with its length, the buffers of the mesh, and those of the work. */
#define LENT(array) array, sizeof(array) / sizeof((array)[0])
#define MESH LENT(parameters), LENT(points), LENT(masks), LENT(elements), LENT(surface)
#define WORK LENT(words), LENT(floats)

/* Prints what a pass gave and takes over the new sizes. */
static int done(const char *pass, uint32_t number, const struct halmafir_result *result) {
    if (number != 0) {
        printf("%s: refused %u\n", pass, number);
        return 0;
    }
    sizes = (struct halmafir_sizes){result->vertices, result->elements, result->triples};
    printf("%s: count %zu, now %zu vertices, %zu elements, %zu surface triples\n", pass, result->count, sizes.vertices, sizes.elements,
           sizes.triples);
    return 1;
}

int main(void) {
    struct halmafir_result result;
    uint32_t number;

    if (!halmafir_environment()) {
        fprintf(stderr, "the floating-point environment is not the one that the promises are made for\n");
        return 1;
    }

    /* Parameters are the points here. */
    for (size_t i = 0; i < 3 * VERTICES; i++) parameters[i] = points[i];

    number = halmafir_boundary(LENT(elements), ELEMENTS, LENT(surface), LENT(words), &sizes.triples);
    printf("boundary: number %u, %zu triples\n", number, sizes.triples);

    number = halmafir_improve(MESH, &sizes, &settings, &numbers, WORK, &result);
    if (!done("improve", number, &result)) return 1;

    number = halmafir_smooth(MESH, &sizes, &settings, &numbers, 0, masks, 0, WORK, &result);
    if (!done("smooth", number, &result)) return 1;

    number = halmafir_flip(MESH, &sizes, &settings, &numbers, WORK, &result);
    if (!done("flip", number, &result)) return 1;

    for (size_t e = 0; e < sizes.elements; e++)
        printf("element %u %u %u %u\n", elements[4 * e], elements[4 * e + 1], elements[4 * e + 2], elements[4 * e + 3]);

    /* Kind 9 is unknown. */
    struct halmafir_settings unknown = settings;
    unknown.kinds[0] = 9;
    number = halmafir_improve(MESH, &sizes, &unknown, &numbers, WORK, &result);
    printf("a field of kind 9: refused %u\n", number);
    return 0;
}
