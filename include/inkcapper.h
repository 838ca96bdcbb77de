/*
 * Inkcapper: the dart and beta part of a 3-map, proved. C99.
 *
 * The exact rules are docs/SCOPE.md; "scope: 3-link" below is its paragraph of that name.
 *
 * THE MAP (scope: rows, flags, map). Four u32 numbers for each dart, its images by beta 0 to 3, dart after
 * dart, and a flag for each, a byte that is not 0 where the dart is unused. There are n darts with the null
 * dart 0, from 1 to 1,048,576. They are a map if dart 0 has no image, each image is below n, and each leads
 * back: beta 1 by beta 0 and beta 0 by beta 1, beta 2 and beta 3 by themselves; and if no unused dart has an
 * image. By beta 2 and beta 3 no dart is its own image; by beta 1 one may be. Flags are lent to every call but
 * the reads, and only the reader writes them. The map test does not look at the flag of dart 0.
 *
 * ANSWERS (scope: numbers, order). Every function returns one of the numbers below and always writes three
 * values, 0 where absent. When done, values[0] is the dart or yes/no answered (0 where none), values[1]
 * the count written (darts for orbits, lists and the reader, entries for plans, bytes for the writer) or, of a
 * vertex, edge or volume identifier, the size of the cell (0 where none), and values[2] is 0. Refusals 1 to 5
 * come first, in that order, then 6 to 10, whichever is met first, and 11 last; lists of commands, the reader
 * and the writer say their own order.
 *
 * WHAT IS LEFT (scope: what is left, scratch). A refusal leaves rows, flags, vertices, plan, output and bytes
 * as they were. A refusal from 1 to 5 leaves scratch (marks and queue) too; any other answer wipes its first n
 * places to 0 and leaves the rest. Places of output and plan behind the count are never written, nor are
 * bytes behind an image.
 *
 * THE CALLER'S DUTIES. Everything else is tested by the call; these three it cannot test.
 *   Lengths: a slice is a pointer and a length in elements (not bytes), and that many elements can be
 *     read, or read and written where the pointer is not const. An empty slice has a pointer that is not
 *     null all the same. values points to three u64.
 *   Alignment: a pointer is aligned for what it points to: 4 bytes for uint32_t, 8 for double and
 *     uint64_t.
 *   No overlap: what a call may write overlaps nothing else that it is lent, values included, and no
 *     other thread touches it meanwhile.
 * A call keeps no pointer after it returns, allocates nothing and has no state of its own.
 *
 * COSTS. Every call but the reads and the reader makes one pass over rows and flags first; a list of
 * commands makes one for all of them. Lists, the reader and the writer take time linear in the darts, but for
 * list_faces on faces that are not regular; what grows faster is said at the call.
 *
 * LOANS (scope: loans). Sizes are least sizes; more is allowed and left alone.
 *   1 marks          n bytes      scratch
 *   2 queue          n u32        scratch
 *   3 output         n u32        where orbits and lists are written; for commands five u32 for each of them
 *   4 flags          n bytes      non-zero means unused: part of the map
 *   5 vertex marks   n bytes      non-zero means that the dart's slot holds a point
 *   6 coordinates    3n doubles   x, y, z of each slot
 *   7 rows           4n u32       for the reader alone
 * The writer's bytes have no number here: where they are too few it says how many it needs.
 *
 * PLAN (scope: plan). What a sew or unsew asks of the caller's own stores, in order, as entries of six u32: a
 * code; then for a merge the cell that stays, the left and the right one, for a split the left and the right one
 * and the cell that they come from; then the size of the left and that of the right cell, for a merge as they
 * were before linking, for a split as they are once all is unlinked. A size is how many darts a cell has; a null
 * cell has identifier 0 and size 0. A face split says in both places how many pairs of darts were parted. A plan
 * has room for as many entries as it has whole sixes of places; those behind the last whole six are never
 * written.
 *
 * SUMS (scope: sums). What a merge leaves has exactly the darts of its two cells, so that their sizes add up,
 * where it is a 1-sew's vertex merge or a 2-sew's edge merge; and a 2-sew's vertex merge where it is the only
 * one, or names no cell that the other names too. Where both name a cell, one vertex is left of all that they
 * name, and neither the sum of an entry nor the cell that it says stays can be relied on. The smallest maps: with
 * beta 1 of 3 = 1 and beta 3 of 1 = 2 a 2-sew of 2 and 3 plans two vertex merges of sizes 1 and 1, and leaves a
 * vertex of 3 darts; with beta 1 of 3 = 2 and beta 3 of 1 = 2 a 2-sew of 1 and 3 plans, last, that 2 stays of the
 * vertices 2 and 3, and what is left is the vertex 1. inkcapper_vertex_id, asked afterwards, has name and size.
 *
 * A CALLER OF VERSION 4 has to change these places, which no compiler finds, since all parameters are as they
 * were:
 *   plan loans: six u32 for each entry that there may be, where four did; with fewer a call is refused with 11,
 *     which counts entries as before;
 *   plans read: from entry to entry by six, in the plan of a list of commands too; code and identifiers are the
 *     first four and say what they said;
 *   identifiers: values[1] of inkcapper_vertex_id, inkcapper_edge_id and inkcapper_volume_id is the size of the
 *     cell, where it was 0; that of inkcapper_face_id is 0 as before.
 */
#ifndef INKCAPPER_H
#define INKCAPPER_H

#include <stddef.h>
#include <stdint.h>

#ifdef __cplusplus
extern "C" {
#endif

/* The version of this boundary, raised whenever a function's parameters or its meaning change. Versions up to 3
 * had no such number; since 4 the flags belong to the map; since 5 identifiers and plans say the sizes of cells. */
#define INKCAPPER_VERSION 5

/* What a call returns; the comment gives values[0], values[1], values[2]. */
enum inkcapper_number {
    INKCAPPER_DONE = 0,                /* dart or yes/no, count written or size of a cell */
    INKCAPPER_BAD_SIZE = 1,            /* how long the rows are: nothing, no multiple of 4, or too many darts */
    INKCAPPER_SHORT_LOAN = 2,          /* which loan: the first that is too short; never the plan or the bytes */
    INKCAPPER_NOT_A_MAP = 3,           /* beta, dart: the first image that breaks a rule, by dart and then by beta; */
                                       /* beta 4, behind the betas of a dart, that it is unused and not free */
    INKCAPPER_BAD_DART = 4,            /* which dart argument, 1 or 2: not of the map, or 0 or unused where refused */
    INKCAPPER_BAD_BETA = 5,            /* the number: a beta above 3, alone or first in a list */
    INKCAPPER_NON_FREE_BASE = 6,       /* i, l, r: beta i of l is not null */
    INKCAPPER_NON_FREE_IMAGE = 7,      /* i, l, r: beta i of r is not null, or l = r under beta 2 or 3 */
    INKCAPPER_ALREADY_FREE = 8,        /* i, d: beta i of d is null */
    INKCAPPER_ASYMMETRICAL_FACES = 9,  /* ld, rd: the two faces do not go together */
    INKCAPPER_BAD_GEOMETRY = 10,       /* 2, ld, rd: the two edges do not point against each other */
    INKCAPPER_PLAN_ROOM = 11,          /* entries needed: more than the plan has room for, of six u32 each */
    INKCAPPER_BAD_IMAGE = 12,          /* header word 0 to 6, or 7 for flags, 8 for vertices */
    INKCAPPER_BAD_COMMAND = 13,        /* the operation: none of 1 to 11; 0 for a list of no whole commands */
    INKCAPPER_IMAGE_ROOM = 14          /* bytes needed: more than are lent */
};

/* The loans as INKCAPPER_SHORT_LOAN names them. */
enum inkcapper_loan {
    INKCAPPER_MARKS = 1,
    INKCAPPER_QUEUE = 2,
    INKCAPPER_OUTPUT = 3,
    INKCAPPER_FLAGS = 4,
    INKCAPPER_VERTEX_MARKS = 5,
    INKCAPPER_COORDINATES = 6,
    INKCAPPER_ROWS = 7
};

/* The operations of commands. */
enum inkcapper_operation {
    INKCAPPER_ONE_LINK = 1,
    INKCAPPER_TWO_LINK = 2,
    INKCAPPER_THREE_LINK = 3,
    INKCAPPER_ONE_SEW = 4,
    INKCAPPER_TWO_SEW = 5,
    INKCAPPER_ONE_UNLINK = 6,
    INKCAPPER_TWO_UNLINK = 7,
    INKCAPPER_THREE_UNLINK = 8,
    INKCAPPER_ONE_UNSEW = 9,
    INKCAPPER_TWO_UNSEW = 10,
    INKCAPPER_THREE_UNSEW = 11
};

/* The codes of plan entries. */
enum inkcapper_entry {
    INKCAPPER_VERTEX_MERGE = 1,
    INKCAPPER_EDGE_MERGE = 2,
    INKCAPPER_VERTEX_SPLIT = 11,
    INKCAPPER_EDGE_SPLIT = 12,
    INKCAPPER_FACE_SPLIT = 13
};

/* How many u32 an entry of a plan has: code, three identifiers, two sizes. */
#define INKCAPPER_ENTRY_NUMBERS 6

/* The most darts that a map may have, the null dart counted. */
#define INKCAPPER_MOST_DARTS 1048576

/* ---- Reads (scope: reads): the rows need not be a map, and dart 0 is allowed. Refusals 1, 4, 5. ---- */

/* Answers the image of dart d under beta i. */
uint32_t inkcapper_beta(const uint32_t *rows, size_t rows_len, uint32_t i, uint32_t d, uint64_t values[3]);

/* Answers 1 if dart d has no image under beta i, else 0. */
uint32_t inkcapper_is_i_free(const uint32_t *rows, size_t rows_len, uint32_t i, uint32_t d, uint64_t values[3]);

/* Answers 1 if dart d has no image under any beta, else 0. */
uint32_t inkcapper_is_free(const uint32_t *rows, size_t rows_len, uint32_t d, uint64_t values[3]);

/* ---- The map test (scope: map). Refusals 1 to 3. ---- */

/* Done, with nothing answered, if rows and flags are a well-formed map. */
uint32_t inkcapper_check_map(const uint32_t *rows, size_t rows_len,
                             const uint8_t *flags, size_t flags_len, uint64_t values[3]);

/* ---- Links (scope: link core, 1-link, 2-link, 3-link): real darts in use.
 *      Refusals 1 to 4, 6, 7, and 9 for the 3-link. ---- */

/* Makes rd the beta 1 image of ld and ld the beta 0 image of rd; refuses 6 (1, ld, rd) if ld has a beta 1
 * image, else 7 (0, ld, rd) if rd has a beta 0 image. */
uint32_t inkcapper_one_link(uint32_t *rows, size_t rows_len,
                            const uint8_t *flags, size_t flags_len, uint32_t ld, uint32_t rd, uint64_t values[3]);

/* Makes ld and rd each other's beta 2 image; refuses 6 (2, ld, rd) if ld has one, else 7 (2, ld, rd) if rd
 * has one or is ld. */
uint32_t inkcapper_two_link(uint32_t *rows, size_t rows_len,
                            const uint8_t *flags, size_t flags_len, uint32_t ld, uint32_t rd, uint64_t values[3]);

/* Makes the darts of two faces each other's beta 3 images: ld with rd, then forward from ld by beta 1 and
 * from rd by beta 0 until back at ld or at an end, and from an end the other way too; refuses 6 or 7 with
 * (3, l, r) at a pair that is not free, and 9 (ld, rd) where one side ends before the other. */
uint32_t inkcapper_three_link(uint32_t *rows, size_t rows_len,
                              const uint8_t *flags, size_t flags_len, uint32_t ld, uint32_t rd, uint64_t values[3]);

/* ---- Unlinks (scope: unlink core, 3-unlink): a real dart in use; each answers rd, the image taken away.
 *      Refusals 1 to 4, 8, and 9 for the 3-unlink. ---- */

/* Takes the beta 1 image of ld away, and with it the beta 0 image of that dart. */
uint32_t inkcapper_one_unlink(uint32_t *rows, size_t rows_len,
                              const uint8_t *flags, size_t flags_len, uint32_t ld, uint64_t values[3]);

/* Takes the beta 2 image of ld away, and with it that dart's own. */
uint32_t inkcapper_two_unlink(uint32_t *rows, size_t rows_len,
                              const uint8_t *flags, size_t flags_len, uint32_t ld, uint64_t values[3]);

/* Takes the beta 3 images of the face of ld away, walking as the 3-link does; refuses 9 (ld, rd) where a
 * left dart is not beta 3 of its right one. */
uint32_t inkcapper_three_unlink(uint32_t *rows, size_t rows_len,
                                const uint8_t *flags, size_t flags_len, uint32_t ld, uint64_t values[3]);

/* ---- Sews and unsews (scope: 1-sew to 3-unsew, room): real darts in use; links and unlinks with a plan.
 * Scratch: marks and queue. Refusals 1, 2, 3, 4, then as the links and unlinks inside them, then 11; after
 * any of them the rows are as before. Below, M of two images is the larger one: the one that there is, where
 * the other is null (scope: far end). ---- */

/* 1-links ld to rd and, if both have beta 3, beta 3 of rd to beta 3 of ld; refuses 6 and 7 as the 1-link
 * that meets them. At the new joint stand the vertex of M(beta 3, beta 2 of ld) and the vertex of rd, as they
 * were before; where that M is not null and they differ it plans their merge. */
uint32_t inkcapper_one_sew(uint32_t *rows, size_t rows_len,
                           uint8_t *marks, size_t marks_len, uint32_t *queue, size_t queue_len,
                           const uint8_t *flags, size_t flags_len,
                           uint32_t *plan, size_t plan_len,
                           uint32_t ld, uint32_t rd, uint64_t values[3]);

/* 1-unlinks ld, 8 (1, ld) if it has no beta 1 image, and answers rd. If both darts then have beta 3, that of
 * rd has to lead to that of ld by beta 1, else 9 (ld, rd), and is 1-unlinked too. Plans the split of the
 * vertices that stand at the joint now: that of M(beta 3, beta 2 of ld) and that of rd. */
uint32_t inkcapper_one_unsew(uint32_t *rows, size_t rows_len,
                             uint8_t *marks, size_t marks_len, uint32_t *queue, size_t queue_len,
                             const uint8_t *flags, size_t flags_len,
                             uint32_t *plan, size_t plan_len,
                             uint32_t ld, uint64_t values[3]);

/* 2-links ld and rd; refuses 6 and 7 as the 2-link. Plans, on the cells as they stood before, the merge of
 * their edges, of the vertex of ld with that of M(beta 1, beta 3 of rd), and of the vertex of
 * M(beta 1, beta 3 of ld) with that of rd, each where they differ and the M is not null. If the slots named by
 * these four vertices are all defined and the dot product of the two edges, each from its dart's vertex to its
 * far one, is zero or more it refuses 10 (2, ld, rd), before any 6 or 7; a NaN does not refuse. */
uint32_t inkcapper_two_sew(uint32_t *rows, size_t rows_len,
                           uint8_t *marks, size_t marks_len, uint32_t *queue, size_t queue_len,
                           const uint8_t *flags, size_t flags_len,
                           const uint8_t *vertex_marks, size_t vertex_marks_len,
                           const double *coordinates, size_t coordinates_len,
                           uint32_t *plan, size_t plan_len,
                           uint32_t ld, uint32_t rd, uint64_t values[3]);

/* 2-unlinks ld, 8 (2, ld) if it has no beta 2 image; plans the edge split and the vertex splits at both ends
 * as the 2-sew has them, on the cells as they stand after, and answers rd. */
uint32_t inkcapper_two_unsew(uint32_t *rows, size_t rows_len,
                             uint8_t *marks, size_t marks_len, uint32_t *queue, size_t queue_len,
                             const uint8_t *flags, size_t flags_len,
                             uint32_t *plan, size_t plan_len,
                             uint32_t ld, uint64_t values[3]);

/* 3-unlinks the face of ld, 8 (3, ld) or 9 (ld, rd) as the 3-unlink; plans the face split (least left dart,
 * least right dart, the lesser, and as both sizes the number of pairs), then for each pair l, r in walk order,
 * on the cells as they stand after the last pair is parted: the edge split; the split of the vertex of
 * M(beta 1, beta 2 of l) and that of r; and, where beta 0 of l is null, of the vertex of l and that of
 * M(beta 1, beta 2 of r). The vertex of a null M is 0, of size 0, and such a split is listed. Answers rd.
 * Costs: it names the cells of every pair, so that a fan, where many pairs share one large vertex, costs the
 * pairs times the vertex, and twice that where the plan is too short to be sure. */
uint32_t inkcapper_three_unsew(uint32_t *rows, size_t rows_len,
                               uint8_t *marks, size_t marks_len, uint32_t *queue, size_t queue_len,
                               const uint8_t *flags, size_t flags_len,
                               uint32_t *plan, size_t plan_len,
                               uint32_t ld, uint64_t values[3]);

/* ---- Lists of commands (scope: commands): links, sews, unlinks and unsews in one call, under one map test.
 *      Refusals of a whole list: 1, 2, 13, 3, in that order. Scratch: marks and queue. ---- */

/* Makes commands one after another. A command is three u32: its operation, a dart, and a second dart, which
 * for unlinks and unsews is not looked at, whatever it is. Each is the call of its name on what the ones
 * before have left, of the rows and of the plan: its entries stand straight behind theirs. One that is
 * refused changes nothing, and the list goes on. Output takes five u32 for each command: the number of its
 * answer; its three values, of which one that is done has at most the first, the dart that an unlink or unsew
 * answers; and the entries that it wrote, 0 where it is refused. A command is refused with 13 for its
 * operation, before 4, and else as its call, with 4 for an unused dart too; 11 says the entries that it needs
 * itself. The list is done whatever came of its commands, and values[1] counts the entries written in all.
 * The whole list is refused with 13 (0), after 2 and before 3, where its length is no multiple of three.
 * Every list is lent marks, queue, output, flags, vertex marks and coordinates and wipes the scratch, one of
 * links alone too, though a single link is lent rows and flags alone.
 * Costs: one map test and one clearing of scratch for the whole list; beyond these a command costs what it
 * touches and nothing that grows with n: a 1- or 2-link or unlink a few places, a 3-link or 3-unlink its two
 * faces, a sew or unsew the cells that it names. */
uint32_t inkcapper_commands(uint32_t *rows, size_t rows_len,
                            uint8_t *marks, size_t marks_len, uint32_t *queue, size_t queue_len,
                            uint32_t *output, size_t output_len,
                            const uint8_t *flags, size_t flags_len,
                            const uint8_t *vertex_marks, size_t vertex_marks_len,
                            const double *coordinates, size_t coordinates_len,
                            uint32_t *plan, size_t plan_len,
                            const uint32_t *commands, size_t commands_len, uint64_t values[3]);

/* ---- Identifiers (scope: identifier, face_id): dart 0 allowed, and answered with 0, of size 0; an unused dart,
 *      and answered with itself, of size 1. Refusals 1 to 4. Scratch: marks and queue. ---- */

/* Answers the least dart of the Vertex orbit of d, and in values[1] its size: how many darts the orbit has. */
uint32_t inkcapper_vertex_id(const uint32_t *rows, size_t rows_len,
                             uint8_t *marks, size_t marks_len, uint32_t *queue, size_t queue_len,
                             const uint8_t *flags, size_t flags_len, uint32_t d, uint64_t values[3]);

/* Answers the least dart of the Edge orbit of d, and in values[1] its size. */
uint32_t inkcapper_edge_id(const uint32_t *rows, size_t rows_len,
                           uint8_t *marks, size_t marks_len, uint32_t *queue, size_t queue_len,
                           const uint8_t *flags, size_t flags_len, uint32_t d, uint64_t values[3]);

/* Answers the face of d as honeycomb's face_id walks it, which is not always the least dart of the Face
 * orbit: the two darts at which its leg back begins on an open face are not asked for the minimum. It says no
 * size: values[1] is 0. */
uint32_t inkcapper_face_id(const uint32_t *rows, size_t rows_len,
                           uint8_t *marks, size_t marks_len, uint32_t *queue, size_t queue_len,
                           const uint8_t *flags, size_t flags_len, uint32_t d, uint64_t values[3]);

/* Answers the least dart of the Volume orbit of d, and in values[1] its size. */
uint32_t inkcapper_volume_id(const uint32_t *rows, size_t rows_len,
                             uint8_t *marks, size_t marks_len, uint32_t *queue, size_t queue_len,
                             const uint8_t *flags, size_t flags_len, uint32_t d, uint64_t values[3]);

/* ---- Orbits (scope: steps, orbit): d and what the steps lead to from it, in the order in which it is
 *      found; dart 0 and unused darts are allowed, each alone in its orbit. Refusals 1 to 4. Scratch: marks.
 *      In b1b2 the inner beta is last. ---- */

/* Writes the orbit of d under b1b2, b2b0, b1b3, b3b0, b2b3, b3b2. */
uint32_t inkcapper_orbit_vertex(const uint32_t *rows, size_t rows_len,
                                uint8_t *marks, size_t marks_len,
                                uint32_t *output, size_t output_len,
                                const uint8_t *flags, size_t flags_len, uint32_t d, uint64_t values[3]);

/* Writes the orbit of d under b1b2, b1b3, b2b3. */
uint32_t inkcapper_orbit_vertex_linear(const uint32_t *rows, size_t rows_len,
                                       uint8_t *marks, size_t marks_len,
                                       uint32_t *output, size_t output_len,
                                       const uint8_t *flags, size_t flags_len, uint32_t d, uint64_t values[3]);

/* Writes the orbit of d under b2, b3. */
uint32_t inkcapper_orbit_edge(const uint32_t *rows, size_t rows_len,
                              uint8_t *marks, size_t marks_len,
                              uint32_t *output, size_t output_len,
                              const uint8_t *flags, size_t flags_len, uint32_t d, uint64_t values[3]);

/* Writes the orbit of d under b1, b0, b3. */
uint32_t inkcapper_orbit_face(const uint32_t *rows, size_t rows_len,
                              uint8_t *marks, size_t marks_len,
                              uint32_t *output, size_t output_len,
                              const uint8_t *flags, size_t flags_len, uint32_t d, uint64_t values[3]);

/* Writes the orbit of d under b1, b3. */
uint32_t inkcapper_orbit_face_linear(const uint32_t *rows, size_t rows_len,
                                     uint8_t *marks, size_t marks_len,
                                     uint32_t *output, size_t output_len,
                                     const uint8_t *flags, size_t flags_len, uint32_t d, uint64_t values[3]);

/* Writes the orbit of d under b1, b0, b2. */
uint32_t inkcapper_orbit_volume(const uint32_t *rows, size_t rows_len,
                                uint8_t *marks, size_t marks_len,
                                uint32_t *output, size_t output_len,
                                const uint8_t *flags, size_t flags_len, uint32_t d, uint64_t values[3]);

/* Writes the orbit of d under b1, b2. */
uint32_t inkcapper_orbit_volume_linear(const uint32_t *rows, size_t rows_len,
                                       uint8_t *marks, size_t marks_len,
                                       uint32_t *output, size_t output_len,
                                       const uint8_t *flags, size_t flags_len, uint32_t d, uint64_t values[3]);

/* Writes the orbit of d under lent betas, in their order; there may be none. Refuses 5, after 4, with the
 * first of them that is above 3. */
uint32_t inkcapper_orbit_custom(const uint32_t *rows, size_t rows_len,
                                uint8_t *marks, size_t marks_len,
                                uint32_t *output, size_t output_len,
                                const uint8_t *flags, size_t flags_len,
                                const uint8_t *betas, size_t betas_len,
                                uint32_t d, uint64_t values[3]);

/* ---- Lists of cells (scope: list): the real darts in use that name their own cell, ascending. Refusals
 *      1 to 3. Scratch: marks and queue. ---- */

/* Writes the vertices. */
uint32_t inkcapper_list_vertices(const uint32_t *rows, size_t rows_len,
                                 uint8_t *marks, size_t marks_len, uint32_t *queue, size_t queue_len,
                                 uint32_t *output, size_t output_len,
                                 const uint8_t *flags, size_t flags_len, uint64_t values[3]);

/* Writes the edges. */
uint32_t inkcapper_list_edges(const uint32_t *rows, size_t rows_len,
                              uint8_t *marks, size_t marks_len, uint32_t *queue, size_t queue_len,
                              uint32_t *output, size_t output_len,
                              const uint8_t *flags, size_t flags_len, uint64_t values[3]);

/* Writes the faces, as inkcapper_face_id names them. Costs: a closed face none or all of whose darts have
 * beta 3 images that go with it is walked once; any other is walked from each of its darts, so that k darts
 * cost k times k. */
uint32_t inkcapper_list_faces(const uint32_t *rows, size_t rows_len,
                              uint8_t *marks, size_t marks_len, uint32_t *queue, size_t queue_len,
                              uint32_t *output, size_t output_len,
                              const uint8_t *flags, size_t flags_len, uint64_t values[3]);

/* Writes the volumes. */
uint32_t inkcapper_list_volumes(const uint32_t *rows, size_t rows_len,
                                uint8_t *marks, size_t marks_len, uint32_t *queue, size_t queue_len,
                                uint32_t *output, size_t output_len,
                                const uint8_t *flags, size_t flags_len, uint64_t values[3]);

/* ---- The reader (scope: form 1, reader) ---- */

/* Reads a stored image of form 1: writes n darts' rows, flags (0 or 1), vertex marks (0 or 1) and
 * coordinates (positive 0 where no vertex) and no more, and counts n. Refuses 12 with the first wrong
 * header word, then 2, then 12 with 7 for flags or 8 for vertices, then 3, the map test with the image's own
 * flags; a refusal writes nothing. */
uint32_t inkcapper_read_image(const uint8_t *bytes, size_t bytes_len,
                              uint8_t *flags, size_t flags_len,
                              uint8_t *vertex_marks, size_t vertex_marks_len,
                              double *coordinates, size_t coordinates_len,
                              uint32_t *rows, size_t rows_len, uint64_t values[3]);

/* ---- The writer (scope: form 1, writer) ---- */

/* Writes a stored image of form 1 from the start of bytes, 28 + 17n + 28v of them for v points, and counts
 * them: the rows, each flag as 0 or 1, and a record for each defined slot from 1 on, ascending, with the bits
 * of its coordinates. Slot 0 and the coordinates of undefined slots are not looked at. Refuses 1, 2 and 3,
 * then 12 with 7 if the flag of dart 0 is not 0, with 8 if a point has a NaN or an infinity, and 14 last. */
uint32_t inkcapper_write_image(const uint32_t *rows, size_t rows_len,
                               const uint8_t *flags, size_t flags_len,
                               const uint8_t *vertex_marks, size_t vertex_marks_len,
                               const double *coordinates, size_t coordinates_len,
                               uint8_t *bytes, size_t bytes_len, uint64_t values[3]);

#ifdef __cplusplus
}
#endif

#endif
