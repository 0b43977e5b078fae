/* Halmafir: repair of tetrahedral meshes. This header states the functions of crates/halmafir for C and C++ on x86-64.

   Each function is proved to give, for every content of its arguments, exactly what its definition gives: NaN, infinities and any
   integers included, there is no call that it does not answer. In this header the promises stand in words; in crates/halmafir/src they
   stand as equations with definitions, and docs/INTERFACE.md says how to link.

   What a caller owes, which nothing here tests:
   - Each pointer is aligned and not null, also beside a length of 0, and behind it stand as many initialised places as the length beside
     it says, or one struct.
   - What a call may write (a pointer without const) overlaps nothing else that is lent to the same call.
   - Nobody else writes to what is lent until the call returns, or reads what is lent to be written.
   - The floating-point environment is the one that a program starts with: rounding to nearest, subnormal numbers neither written nor
     read as zero, all exceptions masked. -ffast-math changes it for the whole program: an element of side 2^-350 that passes otherwise
     then gives 15. With exceptions unmasked a sound mesh can end in SIGFPE. halmafir_environment below tests it.
   - The stack has 64 KiB left for halmafir_report, which needs about 50, and 16 KiB for each other function.
   Lengths count numbers, not bytes.

   No function keeps anything between calls, allocates, or prints; calls on separate buffers may run at the same time.

   Numbers that a call returns. 0: done. Otherwise the call is refused, and this is the first row, from the top, that applies:

     10  over 4,096 vertices, 16,384 elements or 4 surface triples an element; a slice shorter than its count; a surface buffer under
         4 triples an element; an element buffer under twice its elements; work that is too short (HALMAFIR_WORDS, HALMAFIR_FLOATS)
     11  a bound or field number not finite or over 2^20 in size, lo not below hi, cells outside 1 to 4,096, passes over 16, over 8
         fields, an unknown kind or periodic bit
     12  a coordinate not finite or over 2^20 in size, or a parameter not within lo to hi
     13  a vertex number out of range or twice in an element
     14  two elements with the same four vertices
     15  a determinant not above 0
     16  a face three times or more   } whichever bad face has the lower key gives the number; at the start of each pass,
     17  a shared face turned wrong   } and at the end of improve and flip
     22  end of improve: a nonmanifold boundary vertex
     23  end of flip: the sorted surface triples differ from those given

   A refusal returns its number alone: the mesh buffers hold what they held, in every place. */
#ifndef HALMAFIR_H
#define HALMAFIR_H

#include <stddef.h>
#include <stdint.h>
#include <xmmintrin.h>

#ifdef __cplusplus
extern "C" {
#endif

/* 1 where this thread's floating-point environment is the one that the promises are made for, else 0. It reads the control register of
   the floating-point unit (MXCSR: denormals-are-zero, the six exception masks, rounding and flush-to-zero), so no option of the compiler
   can change the answer. */
static inline int halmafir_environment(void)
{
    return (_mm_getcsr() & 0xFFC0u) == 0x1F80u;
}

/* How long the buffers of a pass must be at least, for so many vertices and elements: 32-bit words and doubles of work, 32-bit words of
   the element buffer (twice the elements) and of the surface buffer (4 triples an element). */
#define HALMAFIR_WORDS(vertices, elements) (256 * (size_t)(elements) + 32 * (size_t)(vertices) + 1024)
#define HALMAFIR_FLOATS(vertices) (16 * (size_t)(vertices))
#define HALMAFIR_ELEMENT_WORDS(elements) (8 * (size_t)(elements))
#define HALMAFIR_SURFACE_WORDS(elements) (12 * (size_t)(elements))

/* Words of work for halmafir_boundary. */
#define HALMAFIR_BOUNDARY_WORDS(elements) (36 * (size_t)(elements))

/* Kinds of field, and the numbers that each uses, from the first of its four places on. */
enum {
    HALMAFIR_LEVEL = 0, /* c: z - c */
    HALMAFIR_PLANE = 1, /* n (three), d: n.p + d */
    HALMAFIR_BALL = 2   /* c (three), r: |p - c|^2 - r^2 */
};

/* Periodic bits. */
enum { HALMAFIR_PERIODIC_X = 1, HALMAFIR_PERIODIC_Y = 2, HALMAFIR_PERIODIC_Z = 4 };

/* ---- What stands beside the buffers of a mesh

   The functions take these structs as arrays of 3 and 4 size_t, 14 words and 38 doubles, place by place. */

/* How many vertices, elements and surface triples a mesh has. */
struct halmafir_sizes {
    size_t vertices, elements, triples;
};

/* The whole numbers of a call. */
struct halmafir_settings {
    uint32_t cells[3];    /* in x, y, z */
    uint32_t periodic;    /* periodic bits */
    uint32_t passes;      /* most rounds of improve */
    uint32_t field_count; /* how many fields there are, at most 8 */
    uint32_t kinds[8];    /* the kind of each field; places from field_count on are not looked at */
};

/* The box and the fields' numbers. */
struct halmafir_numbers {
    double bounds[6];    /* x lo, x hi, y lo, y hi, z lo, z hi */
    double fields[8][4]; /* four for each field; those that a field's kind does not use are not looked at */
};

/* What a pass gives: its count, and the mesh's new sizes. */
struct halmafir_result {
    size_t count, vertices, elements, triples;
};

#ifdef __cplusplus
#define HALMAFIR_ASSERT(test) static_assert(test, #test)
#else
#define HALMAFIR_ASSERT(test) _Static_assert(test, #test)
#endif
HALMAFIR_ASSERT(sizeof(size_t) == 8 && sizeof(double) == 8);
HALMAFIR_ASSERT(sizeof(struct halmafir_sizes) == 3 * sizeof(size_t));
HALMAFIR_ASSERT(sizeof(struct halmafir_settings) == 14 * sizeof(uint32_t));
HALMAFIR_ASSERT(sizeof(struct halmafir_numbers) == 38 * sizeof(double));
HALMAFIR_ASSERT(sizeof(struct halmafir_result) == 4 * sizeof(size_t));

/* ---- The passes

   A mesh stands in five buffers, at their front:
     parameters  three doubles a vertex, within the box
     points      three doubles a vertex
     masks       one word a vertex: bit j says that the vertex lies on field j
     elements    four vertex numbers an element, room for twice as many elements
     surface     three vertex numbers a triple, room for 4 triples an element
   and `sizes` says how many there are. The other inputs of a pass are `settings`, `numbers` and its work:
     words       HALMAFIR_WORDS(vertices, elements) at least
     floats      HALMAFIR_FLOATS(vertices) at least

   The work may hold anything before a call. After every call, refused or not, both work slices hold zeros in their whole length.

   `result` is written by every call. With 0 returned: the count, and the mesh's new sizes. Each place of the mesh buffers past the new
   sizes keeps what it held. After a refusal: four zeros. */

/* Collapses short edges of badly shaped elements, renumbers the vertices by first use, drops those that no element has, and writes the
   boundary to the surface buffer. The count is that of the vertices replaced. The surface given is only counted. */
uint32_t halmafir_improve(
    double *parameters, size_t parameters_len,
    double *points, size_t points_len,
    uint32_t *masks, size_t masks_len,
    uint32_t *elements, size_t elements_len,
    uint32_t *surface, size_t surface_len,
    const struct halmafir_sizes *sizes,
    const struct halmafir_settings *settings,
    const struct halmafir_numbers *numbers,
    uint32_t *words, size_t words_len,
    double *floats, size_t floats_len,
    struct halmafir_result *result);

/* Moves vertices of badly shaped elements. The count is that of the vertices moved; the sizes stay. Masks, elements and surface are only
   read. regions_given: 0 where there is no list of regions, any other number where regions is the list, each a mask of fields. No list
   and an empty list are different: with an empty list every point is outside. Without a list regions is not looked at. */
uint32_t halmafir_smooth(
    double *parameters, size_t parameters_len,
    double *points, size_t points_len,
    const uint32_t *masks, size_t masks_len,
    const uint32_t *elements, size_t elements_len,
    const uint32_t *surface, size_t surface_len,
    const struct halmafir_sizes *sizes,
    const struct halmafir_settings *settings,
    const struct halmafir_numbers *numbers,
    uint32_t regions_given,
    const uint32_t *regions, size_t regions_len,
    uint32_t *words, size_t words_len,
    double *floats, size_t floats_len,
    struct halmafir_result *result);

/* Reconnects badly shaped elements and writes the boundary to the surface buffer. The count is that of the flips made. Parameters, points
   and masks are only read. */
uint32_t halmafir_flip(
    const double *parameters, size_t parameters_len,
    const double *points, size_t points_len,
    const uint32_t *masks, size_t masks_len,
    uint32_t *elements, size_t elements_len,
    uint32_t *surface, size_t surface_len,
    const struct halmafir_sizes *sizes,
    const struct halmafir_settings *settings,
    const struct halmafir_numbers *numbers,
    uint32_t *words, size_t words_len,
    double *floats, size_t floats_len,
    struct halmafir_result *result);

/* ---- The boundary

   The sorted boundary triples of the first element_count elements, four vertex numbers each. With 0 returned they stand at the front of
   surface, their number is in *triples, and each place past them keeps what it held. 16 and 17 are as in the table; 10 where element_count
   is over 16,384, elements is under 4 words, surface under 12 words (HALMAFIR_SURFACE_WORDS) or words under 36 words
   (HALMAFIR_BOUNDARY_WORDS) an element. After a refusal *triples is 0 and surface holds what it held. After every call words holds
   zeros in its whole length. */
uint32_t halmafir_boundary(
    const uint32_t *elements, size_t elements_len,
    size_t element_count,
    uint32_t *surface, size_t surface_len,
    uint32_t *words, size_t words_len,
    size_t *triples);

/* ---- Block files

   What the program plot prints for the bytes of a block file: the table, or a line "refused N". The text is written to the front of out,
   without a zero behind it, and its length is returned, at most HALMAFIR_TEXT; bytes past the end of out are passed over, and each place
   past the text keeps what it held. Beside the numbers above N can be
      1  the file ends before its last block is whole, or bytes follow that block
      2  a block's words do not add to 0
      3  a block's kind, number or count is not the expected one
     30  a spare word of a block is not zero: one of words 3 to 126 that no record uses, of a place that no field uses, or of a number that
         a field's kind does not use
   and 10 stands for over 24 vertices or 24 elements. Blocks are looked at one by one, each for 1, 2, 3 and 30 in this order; 10 comes right
   after the header block, and bytes that follow are looked for after the last block. A field of unknown kind uses all its numbers, and
   with more than 8 fields there is no unused place. After every number, 30 too, the line "refused N" is written to out: that a refusal
   leaves buffers as they were is said of the mesh and of what else a caller hands over to be kept, not of this text. No byte past the first
   2,561 can change the text. */
#define HALMAFIR_TEXT 50000
size_t halmafir_report(const uint8_t *input, size_t input_len, uint8_t *out, size_t out_len);

#ifdef __cplusplus
}
#endif

#endif
