/* The day of document 01's sample sheet, planned from C: three places, the depot among them, and two routes of one stop each.
 *
 *   (cd crates/cobrwydd && rt lib)
 *   cc -Iinclude examples/c/sheet.c crates/cobrwydd/out/libcobrwydd.a -o sheet && ./sheet
 *
 * prints 'returned 0: routes 1 steps 2 draws 0, stops 1 2, distance 25'. */
#include <stdint.h>
#include <stdio.h>

#include "cobrwydd.h"

enum { N = 3 };

static const int32_t demand[N] = { 0, 4, 5 };
static const double service[N], ready[N], due[N], penalty[N];
static const uint8_t flags[N];
static const double distances[N * N] = { 0, 10, 10, 10, 0, 5, 10, 5, 0 };
static const double times[1];

/* Capacity 10, depot 0, no fixed cost, 1 for a unit of distance, no limits and no break. */
#define PROBLEM                                                                                                                      \
    N, demand, N, service, N, ready, N, due, N, penalty, N, flags, N, distances, N * N, times, 0, 10, 0, 0.0, 1.0, 0, 0.0, 0.0, 0.0, \
        0.0, 0.0

static uint16_t work[8192];
static double cells[2048];

int main(void) {
    uint16_t lengths[2] = { 1, 1 };
    uint16_t stops[2] = { 1, 2 };
    uint64_t counts[3] = { 0, 0, 0 };
    double distance[1] = { 0 };
    const uint64_t tape[1] = { 7 };
    uint8_t code = cobrwydd_minimise(lengths, 2, stops, 2, work, 8192, cells, 2048, counts, 3, tape, 1, 5, 5, PROBLEM);
    if (code == 0) {
        code = cobrwydd_route_distance(distance, 1, stops, lengths[0], PROBLEM);
    }
    printf("returned %d: routes %d steps %d draws %d, stops %d %d, distance %g\n", code, (int)counts[0], (int)counts[1], (int)counts[2],
           stops[0], stops[1], distance[0]);
    return code;
}
