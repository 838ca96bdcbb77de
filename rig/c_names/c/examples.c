/* The worked examples (scope: examples) from C, through the header: prints nothing and ends with 0 if all hold. */
#include "inkcapper.h"

#include <stdio.h>
#include <string.h>

static int wrong = 0;

static void expect(const char *what, uint32_t number, const uint64_t values[3],
                   uint32_t no, uint64_t a, uint64_t b, uint64_t c) {
    if (number != no || values[0] != a || values[1] != b || values[2] != c) {
        printf("%s: %u (%llu, %llu, %llu)\n", what, (unsigned)number, (unsigned long long)values[0],
               (unsigned long long)values[1], (unsigned long long)values[2]);
        wrong = 1;
    }
}

static void join(uint32_t *rows, unsigned i, uint32_t l, uint32_t r) {
    rows[4 * l + i] = r;
    rows[4 * r + (i == 1 ? 0 : i)] = l;
}

/* what an unused dart is refused for, and what it is not */
static void unused(void) {
    uint64_t v[3];
    uint32_t rows[16] = {0}, queue[4], output[4], plan[6], answers[10];
    uint8_t marks[4], bytes[96];
    const uint8_t third[4] = {0, 0, 0, 255}, second[4] = {9, 0, 1, 0}, no_points[4] = {0};
    const double nowhere[12] = {0};
    const uint32_t list[6] = {INKCAPPER_TWO_LINK, 3, 2, INKCAPPER_TWO_UNLINK, 1, 3};
    join(rows, 2, 1, 2);
    expect("map", inkcapper_check_map(rows, 16, third, 4, v), v, 0, 0, 0, 0);
    expect("short", inkcapper_check_map(rows, 16, third, 3, v), v, 2, INKCAPPER_FLAGS, 0, 0);
    expect("linked", inkcapper_check_map(rows, 16, second, 4, v), v, 3, 4, 2, 0);
    expect("linked", inkcapper_two_unlink(rows, 16, second, 4, 1, v), v, 3, 4, 2, 0);
    expect("linked", inkcapper_write_image(rows, 16, second, 4, no_points, 4, nowhere, 12, bytes, 96, v), v,
           3, 4, 2, 0);
    expect("first", inkcapper_one_link(rows, 16, third, 4, 3, 0, v), v, 4, 1, 0, 0);
    expect("second", inkcapper_one_sew(rows, 16, marks, 4, queue, 4, third, 4, plan, 6, 1, 3, v), v, 4, 2, 0, 0);
    expect("alone", inkcapper_edge_id(rows, 16, marks, 4, queue, 4, third, 4, 3, v), v, 0, 3, 1, 0);
    expect("alone", inkcapper_orbit_volume(rows, 16, marks, 4, output, 4, third, 4, 3, v), v, 0, 0, 1, 0);
    expect("commands",
           inkcapper_commands(rows, 16, marks, 4, queue, 4, answers, 10, third, 4, no_points, 4, nowhere, 12, plan, 6,
                              list, 6, v), v, 0, 0, 0, 0);
    const uint32_t wanted[10] = {INKCAPPER_BAD_DART, 1, 0, 0, 0, INKCAPPER_DONE, 2, 0, 0, 0};
    if (memcmp(answers, wanted, sizeof wanted) || output[0] != 3) {
        puts("unused: other answers");
        wrong = 1;
    }
}

/* an entry of a plan, by its place */
static const uint32_t *entry(const uint32_t *plan, unsigned at) { return plan + INKCAPPER_ENTRY_NUMBERS * at; }

/* where a merged vertex goes: both points, each weighted by the darts that its vertex had */
static double weighted(const uint32_t *merge, double left, double right) {
    return (merge[4] * left + merge[5] * right) / (merge[4] + merge[5]);
}

/* the sizes of cells, beside their names and in a plan */
static void sizes(void) {
    uint64_t v[3];
    uint32_t rows[24] = {0}, queue[6], plan[INKCAPPER_ENTRY_NUMBERS];
    uint8_t marks[6];
    const uint8_t used[6] = {0};
    /* 2 is alone, 3 and 5 are one vertex, and a 1-sew of 1 and 3 makes one of both */
    join(rows, 2, 1, 2), join(rows, 2, 3, 4), join(rows, 1, 4, 5);
    expect("left", inkcapper_vertex_id(rows, 24, marks, 6, queue, 6, used, 6, 2, v), v, 0, 2, 1, 0);
    expect("right", inkcapper_vertex_id(rows, 24, marks, 6, queue, 6, used, 6, 5, v), v, 0, 3, 2, 0);
    expect("edge", inkcapper_edge_id(rows, 24, marks, 6, queue, 6, used, 6, 4, v), v, 0, 3, 2, 0);
    expect("null", inkcapper_volume_id(rows, 24, marks, 6, queue, 6, used, 6, 0, v), v, 0, 0, 0, 0);
    expect("room", inkcapper_one_sew(rows, 24, marks, 6, queue, 6, used, 6, plan, 5, 1, 3, v), v, 11, 1, 0, 0);
    expect("1-sew", inkcapper_one_sew(rows, 24, marks, 6, queue, 6, used, 6, plan, 6, 1, 3, v), v, 0, 0, 1, 0);
    const uint32_t wanted[6] = {INKCAPPER_VERTEX_MERGE, 2, 2, 3, 1, 2};
    if (memcmp(plan, wanted, sizeof wanted) || weighted(plan, 0, 9) != 6) {
        puts("1-sew: plan");
        wrong = 1;
    }
    expect("both", inkcapper_vertex_id(rows, 24, marks, 6, queue, 6, used, 6, 5, v), v, 0, 2, 3, 0);
}

/* 2-sews whose vertex merges name a vertex in common, which an entry by itself does not show (header: SUMS) */
static void shared(void) {
    uint64_t v[3];
    uint32_t rows[16] = {0}, queue[4], plan[3 * INKCAPPER_ENTRY_NUMBERS];
    uint8_t marks[4];
    const uint8_t used[4] = {0}, no_points[4] = {0};
    const double nowhere[12] = {0};
    /* twice two vertices of one dart: one vertex of three */
    join(rows, 1, 3, 1), join(rows, 3, 1, 2);
    expect("2-sew",
           inkcapper_two_sew(rows, 16, marks, 4, queue, 4, used, 4, no_points, 4, nowhere, 12, plan, 18, 2, 3, v), v,
           0, 0, 3, 0);
    const uint32_t merges[12] = {INKCAPPER_VERTEX_MERGE, 1, 2, 1, 1, 1, INKCAPPER_VERTEX_MERGE, 1, 1, 3, 1, 1};
    if (memcmp(entry(plan, 1), merges, sizeof merges)) {
        puts("2-sew: merges");
        wrong = 1;
    }
    expect("three", inkcapper_vertex_id(rows, 16, marks, 4, queue, 4, used, 4, 1, v), v, 0, 1, 3, 0);

    /* of 2 and 3 it is 2 that stays, and the vertex is 1 */
    memset(rows, 0, sizeof rows);
    join(rows, 1, 3, 2), join(rows, 3, 1, 2);
    expect("2-sew",
           inkcapper_two_sew(rows, 16, marks, 4, queue, 4, used, 4, no_points, 4, nowhere, 12, plan, 18, 1, 3, v), v,
           0, 0, 3, 0);
    const uint32_t last[6] = {INKCAPPER_VERTEX_MERGE, 2, 2, 3, 1, 1};
    if (memcmp(entry(plan, 2), last, sizeof last)) {
        puts("2-sew: last merge");
        wrong = 1;
    }
    expect("one", inkcapper_vertex_id(rows, 16, marks, 4, queue, 4, used, 4, 2, v), v, 0, 1, 3, 0);
}

int main(void) {
    uint64_t v[3] = {9, 9, 9};
    /* in every map below no dart is unused, and dart 0 is not asked */
    const uint8_t used[8] = {1, 0, 0, 0, 0, 0, 0, 0};
    unused();
    sizes();
    shared();

    /* loops 1 2 3; 4 5 6 7 */
    uint32_t rows[32] = {0};
    join(rows, 1, 1, 2), join(rows, 1, 2, 3), join(rows, 1, 3, 1);
    join(rows, 1, 4, 5), join(rows, 1, 5, 6), join(rows, 1, 6, 7), join(rows, 1, 7, 4);
    expect("3-link 4,1", inkcapper_three_link(rows, 32, used, 8, 4, 1, v), v, 7, 3, 7, 1);
    expect("3-link 1,4", inkcapper_three_link(rows, 32, used, 8, 1, 4, v), v, 0, 0, 0, 0);
    expect("beta 3 of 2", inkcapper_beta(rows, 32, 3, 2, v), v, 0, 7, 0, 0);
    expect("3-unlink 4", inkcapper_three_unlink(rows, 32, used, 8, 4, v), v, 9, 4, 1, 0);
    expect("3-unlink 1", inkcapper_three_unlink(rows, 32, used, 8, 1, v), v, 0, 4, 0, 0);
    expect("size", inkcapper_is_free(rows, 31, 0, v), v, 1, 31, 0, 0);

    /* two darts, 3-linked */
    uint32_t pair[12] = {0}, queue[3], plan[4 * INKCAPPER_ENTRY_NUMBERS];
    uint8_t marks[3];
    join(pair, 3, 1, 2);
    expect("room", inkcapper_three_unsew(pair, 12, marks, 3, queue, 3, used, 3, plan, 23, 1, v), v, 11, 4, 0, 0);
    expect("short", inkcapper_three_unsew(pair, 12, marks, 3, queue, 2, used, 3, plan, 24, 1, v), v, 2, 2, 0, 0);
    expect("3-unsew", inkcapper_three_unsew(pair, 12, marks, 3, queue, 3, used, 3, plan, 24, 1, v), v, 0, 2, 4, 0);
    const uint32_t wanted[24] = {13, 1, 2, 1, 1, 1, 12, 1, 2, 1, 1, 1, 11, 0, 2, 0, 0, 1, 11, 1, 0, 0, 1, 0};
    if (memcmp(plan, wanted, sizeof plan)) {
        puts("3-unsew: plan");
        wrong = 1;
    }

    /* open 1 2; 3 4, glued along 1 and 3 */
    uint32_t strips[20] = {0}, queue5[5], plan3[18];
    uint8_t marks5[5], defined[5] = {0, 1, 1, 1, 1};
    double at[15] = {0, 0, 0, 0, 0, 0, 1, 0, 0, 0, 0, 0, 0, 1, 0};
    join(strips, 1, 1, 2), join(strips, 1, 3, 4);
    expect("2-sew",
           inkcapper_two_sew(strips, 20, marks5, 5, queue5, 5, used, 5, defined, 5, at, 15, plan3, 18, 1, 3, v), v,
           10, 2, 1, 3);
    const double against[15] = {0, 0, 0, 0, 0, 0, 1, 0, 0, 1, 0, 0, 0, 0, 0};
    expect("2-sew",
           inkcapper_two_sew(strips, 20, marks5, 5, queue5, 5, used, 5, defined, 5, against, 15, plan3, 18, 1, 3, v), v,
           0, 0, 3, 0);
    const uint32_t merges[18] = {2, 1, 1, 3, 1, 1, 1, 1, 1, 4, 1, 1, 1, 2, 2, 3, 1, 1};
    if (memcmp(plan3, merges, sizeof merges)) {
        puts("2-sew: other merges");
        wrong = 1;
    }

    /* the triangle and the quad glued by one list; a 3-link that is refused, and the faces parted again */
    const uint32_t list[36] = {
        INKCAPPER_ONE_LINK, 1, 2, INKCAPPER_ONE_LINK, 2, 3, INKCAPPER_ONE_LINK, 3, 1, INKCAPPER_ONE_LINK, 4, 5,
        INKCAPPER_ONE_LINK, 5, 6, INKCAPPER_ONE_LINK, 6, 7, INKCAPPER_ONE_LINK, 7, 4, INKCAPPER_THREE_LINK, 4, 1,
        INKCAPPER_THREE_LINK, 1, 4, INKCAPPER_THREE_UNSEW, 1, 99, INKCAPPER_THREE_UNSEW, 1, 99, 12, 0, 0};
    uint32_t free_darts[32] = {0}, queue8[8], answers[60], plan7[42], left[32] = {0};
    uint8_t marks8[8], no_points[8] = {0};
    const double nowhere[24] = {0};
    const uint32_t last[25] = {7, 3, 7, 1, 0, 0, 0, 0, 0, 0, 0, 4, 0, 0, 7, 8, 3, 1, 0, 0, 13, 12, 0, 0, 0};
    expect("no whole commands",
           inkcapper_commands(free_darts, 32, marks8, 8, queue8, 8, answers, 60, used, 8, no_points, 8, nowhere, 24,
                              plan7, 42, list, 35, v), v, 13, 0, 0, 0);
    expect("short",
           inkcapper_commands(free_darts, 32, marks8, 8, queue8, 8, answers, 59, used, 7, no_points, 8, nowhere, 24,
                              plan7, 42, list, 36, v), v, 2, 3, 0, 0);
    expect("list",
           inkcapper_commands(free_darts, 32, marks8, 8, queue8, 8, answers, 60, used, 8, no_points, 8, nowhere, 24,
                              plan7, 42, list, 36, v), v, 0, 0, 7, 0);
    join(left, 1, 1, 2), join(left, 1, 2, 3), join(left, 1, 3, 1);
    join(left, 1, 4, 5), join(left, 1, 5, 6), join(left, 1, 6, 7), join(left, 1, 7, 4);
    if (memcmp(answers + 35, last, sizeof last) || memcmp(free_darts, left, sizeof left) ||
        plan7[0] != INKCAPPER_FACE_SPLIT || plan7[1] != 1 || plan7[2] != 4 || plan7[4] != 3 || plan7[5] != 3) {
        puts("list: other answers, rows or plan");
        wrong = 1;
    }

    /* cells of a triangle */
    uint32_t triangle[16] = {0}, queue4[4], output[4];
    uint8_t marks4[4], flags[4] = {0};
    const uint8_t betas[2] = {1, 4};
    join(triangle, 1, 1, 2), join(triangle, 1, 2, 3), join(triangle, 1, 3, 1);
    expect("face", inkcapper_orbit_face(triangle, 16, marks4, 4, output, 4, used, 4, 2, v), v, 0, 0, 3, 0);
    expect("custom", inkcapper_orbit_custom(triangle, 16, marks4, 4, output, 4, used, 4, betas, 2, 2, v), v,
           5, 4, 0, 0);
    expect("faces", inkcapper_list_faces(triangle, 16, marks4, 4, queue4, 4, output, 4, flags, 4, v), v, 0, 0, 1, 0);
    expect("volume", inkcapper_volume_id(triangle, 16, marks4, 4, queue4, 4, used, 4, 3, v), v, 0, 1, 3, 0);
    expect("face", inkcapper_face_id(triangle, 16, marks4, 4, queue4, 4, used, 4, 3, v), v, 0, 1, 0, 0);

    /* an image that is none */
    uint8_t bytes[4] = {2, 0, 0, 0}, f[1], m[1];
    double c[3];
    uint32_t r[4];
    expect("image", inkcapper_read_image(bytes, 4, f, 1, m, 1, c, 3, r, 4, v), v, 12, 0, 0, 0);

    /* the triangle written, with a point at dart 2, and read back */
    const uint8_t of_null[4] = {1, 0, 0, 0}, none[4] = {0, 0, 0, 0}, point[4] = {0, 0, 9, 0};
    const double at2[12] = {0, 0, 0, 0, 0, 0, 1, -0.0, 2.5, 0, 0, 0};
    uint8_t image[130], read[4];
    double places[12];
    uint32_t again[16];
    memset(image, 7, sizeof image);
    expect("room", inkcapper_write_image(triangle, 16, flags, 4, none, 4, at2, 12, image, 95, v), v, 14, 96, 0, 0);
    expect("room", inkcapper_write_image(triangle, 16, flags, 4, point, 4, at2, 12, image, 123, v), v, 14, 124, 0, 0);
    expect("short", inkcapper_write_image(triangle, 16, flags, 4, point, 4, at2, 11, image, 130, v), v, 2, 6, 0, 0);
    expect("flag", inkcapper_write_image(triangle, 16, of_null, 4, point, 4, at2, 12, image, 130, v), v, 12, 7, 0, 0);
    if (image[0] != 7) {
        puts("write: a refusal wrote");
        wrong = 1;
    }
    expect("write", inkcapper_write_image(triangle, 16, flags, 4, point, 4, at2, 12, image, 130, v), v, 0, 0, 124, 0);
    expect("read", inkcapper_read_image(image, 124, read, 4, marks4, 4, places, 12, again, 16, v), v, 0, 0, 4, 0);
    if (image[124] != 7 || memcmp(again, triangle, sizeof again) || memcmp(read, flags, sizeof read) ||
        marks4[2] != 1 || memcmp(places, at2, sizeof places)) {
        puts("write: not what was read");
        wrong = 1;
    }
    return wrong;
}
