/* Cobrwydd's C interface: route reduction and route evaluation, proved.
 *
 * Link the archive that `rt lib` writes in crates/cobrwydd, crates/cobrwydd/out/libcobrwydd.a. The functions allocate nothing, keep no
 * pointer, have no state, and may be called from several threads at once, each on slices of its own.
 *
 * A slice is a pointer and a number of elements, NAME and NAME_len. The pointer may not be null, also where the number is 0, and has the
 * element type's alignment. Slices that a function writes (pointers without const) may not overlap any other slice of the call. These are
 * the only things that a caller has to see to: every value, every number of elements and every float, NaN and infinities included, has a
 * stated outcome.
 *
 * Every function returns a number:
 *
 *   0    done: the answer is in the slices lent for it
 *   1    n is 0 or over 256, or a slice has the wrong length (times: 0 or n * n)
 *   2    a float of the problem is not finite, has its sign bit set (-0.0 too) or exceeds 1e12 (those under a clear bit are not read);
 *        cost_per_distance is above 0 and below 1e-6; a demand is outside -1000000..1000000; flags over 3
 *   3    a window has ready > due
 *   4    depot >= n
 *   5    over 256 routes, or the lengths do not sum to the number of stops
 *   6    a stop >= n, equal to the depot, or present twice
 *   7    minimise: the draw tape is empty
 *   8    minimise: the step limit is over 65535
 *   9    minimise, eliminate: fewer than 8192 u16 or 2048 f64 work cells
 *   100  a slice for the answer has not the length that the function asks for
 *   101  given is over 7
 *   102  run_calls: the words of the list and the lengths of its slices do not fit together
 *
 * 100 is judged first, then 101, then 102, then 1 to 9 in their order, and the first that applies is returned. A function that returns
 * another number than 0 has changed no slice, work cells included. */
#ifndef COBRWYDD_H
#define COBRWYDD_H

#include <stddef.h>
#include <stdint.h>

#ifdef __cplusplus
extern "C" {
#endif

/* The bits of `given`. */
#define COBRWYDD_MAX_DISTANCE 1u
#define COBRWYDD_MAX_DURATION 2u
#define COBRWYDD_BREAK 4u

/* The bits of a place's flags. */
#define COBRWYDD_WINDOW 1u
#define COBRWYDD_PENALTY 2u

/* The problem, which the functions take last.
 *
 *   n                  the number of places, 1 to 256; the places are 0 to n - 1
 *   demand             of each place, n of them; a route's load is their sum, and may be below 0
 *   service            how long the service at each place takes, n
 *   ready, due         the window of each place, n each: service starts no earlier than ready, and an arrival after due is late
 *   penalty            of each place, n: what a unit of lateness costs there
 *   flags              of each place, n: bit 0 (COBRWYDD_WINDOW) says that it has a window, bit 1 (COBRWYDD_PENALTY) a penalty; a window with
 *                      a penalty may be missed, one without may not; values under a clear bit are not read
 *   distances          n * n, row by row: from place i to place j at i * n + j
 *   times              the same for travel times, or none (times_len 0): travel time is then the distance
 *   capacity           the load that a route may have at most, any number
 *   depot              the place where every route starts and ends; it is no stop
 *   fixed_cost         what a route costs whatever its distance
 *   cost_per_distance  what a unit of distance costs: 0, or at least 1e-6
 *   given              which of the five next values there are: COBRWYDD_MAX_DISTANCE, COBRWYDD_MAX_DURATION, COBRWYDD_BREAK, or'ed;
 *                      a value whose bit is clear is not read
 *   max_distance       the most that a route's distance may be
 *   max_duration       the latest time at which a route may be back at the depot, which it leaves at 0
 *   earliest, latest   the driver's break starts no earlier and no later, at a stop and before its service
 *   duration           how long the break takes */
#define COBRWYDD_PROBLEM                                                                                                                  \
    size_t n, const int32_t *demand, size_t demand_len, const double *service, size_t service_len, const double *ready,                   \
        size_t ready_len, const double *due, size_t due_len, const double *penalty, size_t penalty_len, const uint8_t *flags,             \
        size_t flags_len, const double *distances, size_t distances_len, const double *times, size_t times_len, int32_t capacity,         \
        size_t depot, double fixed_cost, double cost_per_distance, uint8_t given, double max_distance, double max_duration,               \
        double earliest, double latest, double duration

/* ---- Calls that change a plan. Refused with 100, 101 or 1 to 9.
 *
 *   lengths            the number of stops of each route, at most 256 routes; 0 is an empty route. After a call that returns 0 the first
 *                      counts[0] of them are the routes that are left, and later ones are 0
 *   stops              the stops of the routes, one route after the other: places, none of them the depot, each once
 *   work               work cells, 8192 or more, of any content; what they hold afterwards has no meaning
 *   cells              work cells, 2048 or more, of any content (eliminate only counts them)
 *   counts             3 words: the routes that are left, the steps and the draws of the call */

/* Fewer routes by an ejection pool: one route after the other, the shortest first, is emptied into the others, stops that stand in the way
 * going onto the pool, as long as the plan gets cheaper. With a window that may be missed the plan stays as it is.
 *
 *   tape               the draws, 1 word or more: a draw takes the next word, after the last the first again
 *   limit              the most steps of an attempt to empty a route, at most 65535; a step places one stop of the pool
 *   clock              the most steps of the whole call */
uint8_t cobrwydd_minimise(uint16_t *lengths, size_t lengths_len, uint16_t *stops, size_t stops_len, uint16_t *work, size_t work_len,
                          double *cells, size_t cells_len, uint64_t *counts, size_t counts_len, const uint64_t *tape, size_t tape_len,
                          uint64_t limit, uint64_t clock, COBRWYDD_PROBLEM);

/* Fewer routes where the others take a route's stops for less than the route costs. Its steps and draws are 0. */
uint8_t cobrwydd_eliminate(uint16_t *lengths, size_t lengths_len, uint16_t *stops, size_t stops_len, uint16_t *work, size_t work_len,
                           const double *cells, size_t cells_len, uint64_t *counts, size_t counts_len, COBRWYDD_PROBLEM);

/* A list of such calls, one after the other on the same plan. It returns 0, also where calls of the list are refused, or 101 or 102.
 *
 *   lengths, stops     the plan, as above; each call gets both as the last one left them
 *   work, cells        work cells; a call is lent the first of them, as many as its words say
 *   answers            4 words for each call: what it would return (0, or 1 to 9), and its routes, steps and draws, 0 where it is refused
 *   history            for each call the lengths and then the stops after it: calls * (lengths_len + stops_len) cells
 *   calls              6 words for each call: its kind (0 minimise, 1 eliminate), limit, clock, the number of words of its tape, its numbers of
 *                      u16 and f64 work cells, which are no more than there are; limit, clock and tape of an eliminate are 0
 *   tapes              the tapes of the calls, one after the other, and nothing else */
uint8_t cobrwydd_run_calls(uint16_t *lengths, size_t lengths_len, uint16_t *stops, size_t stops_len, uint16_t *work, size_t work_len,
                           double *cells, size_t cells_len, uint64_t *answers, size_t answers_len, uint16_t *history, size_t history_len,
                           const uint64_t *calls, size_t calls_len, const uint64_t *tapes, size_t tapes_len, COBRWYDD_PROBLEM);

/* ---- Questions about one route, a list of stops in order (it may be empty). Refused with 100, 101, 1 to 4 or 6.
 *
 *   route              the stops: places, none of them the depot, each once */

/* Whether the route passes the check: its windows without penalty, its limits and its break. (Its load is not looked at.)
 *
 *   found              1 word. found[0]: 1 it passes, 0 it does not */
uint8_t cobrwydd_route_feasible(uint64_t *found, size_t found_len, const uint16_t *route, size_t route_len, COBRWYDD_PROBLEM);

/* What the route comes to.
 *
 *   out                5 floats: distance, duration, lateness, cost of the lateness, start of the break
 *   found              3 words. found[0]: 1 it passes the check, 0 it does not, and all else is 0;
 *                      found[1]: 1 the break is taken, 0 it is not, and its start and stop are 0;
 *                      found[2]: the stop at which it is taken, as an index into route */
uint8_t cobrwydd_route_eval(double *out, size_t out_len, uint64_t *found, size_t found_len, const uint16_t *route, size_t route_len,
                            COBRWYDD_PROBLEM);

/* The route's distance and the cost of its lateness in one number.
 *
 *   out                1 float: the number, infinite where the route does not pass the check */
uint8_t cobrwydd_effective_cost(double *out, size_t out_len, const uint16_t *route, size_t route_len, COBRWYDD_PROBLEM);

/* What the route comes to with the break that is given here in place of the vehicle's, and without limits.
 *
 *   out, found         as for cobrwydd_route_eval
 *   break_earliest, break_latest, break_duration
 *                      the break; row 2 covers these floats too */
uint8_t cobrwydd_schedule(double *out, size_t out_len, uint64_t *found, size_t found_len, const uint16_t *route, size_t route_len,
                          double break_earliest, double break_latest, double break_duration, COBRWYDD_PROBLEM);

/* The route's distance, there and back; 0 for an empty route.
 *
 *   out                1 float */
uint8_t cobrwydd_route_distance(double *out, size_t out_len, const uint16_t *route, size_t route_len, COBRWYDD_PROBLEM);

/* ---- Questions about the problem. Refused with 100, 101 or 1 to 4. */

/* A bound on what the lateness of any plan can cost; 0 where no window may be missed.
 *
 *   out                1 float */
uint8_t cobrwydd_lateness_bound(double *out, size_t out_len, COBRWYDD_PROBLEM);

/* The least gain that eliminate counts as one: 1e-12 times the largest distance.
 *
 *   out                1 float */
uint8_t cobrwydd_gain_floor(double *out, size_t out_len, COBRWYDD_PROBLEM);

/* ---- A window of two floats, any two. Refused with 100 only.
 *
 *   out                2 floats: ready and due again where there is a window, else 0 and 0
 *   found              1 word. found[0]: 1 both are finite and ready <= due, 0 there is no window */
uint8_t cobrwydd_time_window_new(double *out, size_t out_len, uint64_t *found, size_t found_len, double ready, double due);

/* ---- A sheet: read, minimised, eliminated, and listed. Returns 0 or 100; a sheet that is refused prints the line of its refusal.
 *
 *   out                6000 bytes: what the text prints stands from the first byte on, and the rest stays as it is
 *   written            1 word. written[0]: how many bytes are printed, at most 6000
 *   text               the bytes of the sheet, any number of them */
uint8_t cobrwydd_plan_sheet(uint8_t *out, size_t out_len, uint64_t *written, size_t written_len, const uint8_t *text, size_t text_len);

#ifdef __cplusplus
}
#endif

#endif
