//! The port through its C interface: the functions of include/cobrwydd.h, each behind a safe function over slices.

use crate::problem::Problem;

/// The bits of `given`.
pub const MAX_DISTANCE: u8 = 1;
pub const MAX_DURATION: u8 = 2;
pub const BREAK: u8 = 4;

/// The vehicle as numbers. A value whose bit of `given` is clear is not read.
#[derive(Clone, Copy, Debug)]
pub struct Numbers {
    pub capacity: i32,
    pub depot: usize,
    pub fixed_cost: f64,
    pub cost_per_distance: f64,
    pub given: u8,
    pub max_distance: f64,
    pub max_duration: f64,
    pub earliest: f64,
    pub latest: f64,
    pub duration: f64,
}

/// Declares functions whose last parameters are the problem and the vehicle.
macro_rules! declared {
    ($($name:ident($($first:ident: $of:ty),*);)*) => {
        extern "C" {
            $(fn $name(
                $($first: $of,)*
                n: usize,
                demand: *const i32,
                demand_len: usize,
                service: *const f64,
                service_len: usize,
                ready: *const f64,
                ready_len: usize,
                due: *const f64,
                due_len: usize,
                penalty: *const f64,
                penalty_len: usize,
                flags: *const u8,
                flags_len: usize,
                distances: *const f64,
                distances_len: usize,
                times: *const f64,
                times_len: usize,
                capacity: i32,
                depot: usize,
                fixed_cost: f64,
                cost_per_distance: f64,
                given: u8,
                max_distance: f64,
                max_duration: f64,
                earliest: f64,
                latest: f64,
                duration: f64,
            ) -> u8;)*
        }
    };
}

declared! {
    cobrwydd_minimise(
        lengths: *mut u16, lengths_len: usize, stops: *mut u16, stops_len: usize, work: *mut u16, work_len: usize,
        cells: *mut f64, cells_len: usize, counts: *mut u64, counts_len: usize, tape: *const u64, tape_len: usize,
        limit: u64, clock: u64
    );
    cobrwydd_eliminate(
        lengths: *mut u16, lengths_len: usize, stops: *mut u16, stops_len: usize, work: *mut u16, work_len: usize,
        cells: *const f64, cells_len: usize, counts: *mut u64, counts_len: usize
    );
    cobrwydd_run_calls(
        lengths: *mut u16, lengths_len: usize, stops: *mut u16, stops_len: usize, work: *mut u16, work_len: usize,
        cells: *mut f64, cells_len: usize, answers: *mut u64, answers_len: usize, history: *mut u16, history_len: usize,
        calls: *const u64, calls_len: usize, tapes: *const u64, tapes_len: usize
    );
    cobrwydd_route_feasible(found: *mut u64, found_len: usize, route: *const u16, route_len: usize);
    cobrwydd_route_eval(
        out: *mut f64, out_len: usize, found: *mut u64, found_len: usize, route: *const u16, route_len: usize
    );
    cobrwydd_effective_cost(out: *mut f64, out_len: usize, route: *const u16, route_len: usize);
    cobrwydd_schedule(
        out: *mut f64, out_len: usize, found: *mut u64, found_len: usize, route: *const u16, route_len: usize,
        break_earliest: f64, break_latest: f64, break_duration: f64
    );
    cobrwydd_route_distance(out: *mut f64, out_len: usize, route: *const u16, route_len: usize);
    cobrwydd_lateness_bound(out: *mut f64, out_len: usize);
    cobrwydd_gain_floor(out: *mut f64, out_len: usize);
}

extern "C" {
    fn cobrwydd_time_window_new(
        out: *mut f64,
        out_len: usize,
        found: *mut u64,
        found_len: usize,
        ready: f64,
        due: f64,
    ) -> u8;
}

/// Calls a declared function: the slices that it writes, those that it reads, its numbers, then the problem's slices and the vehicle's
/// numbers.
macro_rules! called {
    ($name:ident, [$($written:ident),*], [$($read:ident),*], ($($number:expr),*), $problem:expr, $numbers:expr) => {{
        let (p, v): (&Problem, &Numbers) = ($problem, $numbers);
        // every pointer goes with the length of the slice that it is taken from, and the port keeps none
        unsafe {
            $name(
                $($written.as_mut_ptr(), $written.len(),)*
                $($read.as_ptr(), $read.len(),)*
                $($number,)*
                p.places,
                p.demand.as_ptr(),
                p.demand.len(),
                p.service.as_ptr(),
                p.service.len(),
                p.ready.as_ptr(),
                p.ready.len(),
                p.due.as_ptr(),
                p.due.len(),
                p.penalty.as_ptr(),
                p.penalty.len(),
                p.flags.as_ptr(),
                p.flags.len(),
                p.distances.as_ptr(),
                p.distances.len(),
                p.times.as_ptr(),
                p.times.len(),
                v.capacity,
                v.depot,
                v.fixed_cost,
                v.cost_per_distance,
                v.given,
                v.max_distance,
                v.max_duration,
                v.earliest,
                v.latest,
                v.duration,
            )
        }
    }};
}

/// The slices that a call that changes a plan is lent: the plan, work cells, and words for what it counts.
pub struct Lent<'a> {
    pub lengths: &'a mut [u16],
    pub stops: &'a mut [u16],
    pub work: &'a mut [u16],
    pub cells: &'a mut [f64],
    pub counts: &'a mut [u64],
}

pub fn minimise(lent: Lent, tape: &[u64], limit: u64, clock: u64, p: &Problem, v: &Numbers) -> u8 {
    let Lent { lengths, stops, work, cells, counts } = lent;
    called!(cobrwydd_minimise, [lengths, stops, work, cells, counts], [tape], (limit, clock), p, v)
}

/// The f64 work cells stand before the counts, and are only read.
pub fn eliminate(lent: Lent, p: &Problem, v: &Numbers) -> u8 {
    let Lent { lengths, stops, work, cells, counts } = lent;
    called!(cobrwydd_eliminate, [lengths, stops, work, cells, counts], [], (), p, v)
}

/// The calls as words, and their tapes; `lent.counts` is for the answers, four words a call, and `history` for both
/// slices after each.
pub fn run_calls(lent: Lent, history: &mut [u16], calls: &[u64], tapes: &[u64], p: &Problem, v: &Numbers) -> u8 {
    let Lent { lengths, stops, work, cells, counts } = lent;
    called!(cobrwydd_run_calls, [lengths, stops, work, cells, counts, history], [calls, tapes], (), p, v)
}

pub fn route_feasible(found: &mut [u64], route: &[u16], p: &Problem, v: &Numbers) -> u8 {
    called!(cobrwydd_route_feasible, [found], [route], (), p, v)
}

pub fn route_eval(out: &mut [f64], found: &mut [u64], route: &[u16], p: &Problem, v: &Numbers) -> u8 {
    called!(cobrwydd_route_eval, [out, found], [route], (), p, v)
}

pub fn effective_cost(out: &mut [f64], route: &[u16], p: &Problem, v: &Numbers) -> u8 {
    called!(cobrwydd_effective_cost, [out], [route], (), p, v)
}

/// `rest` is the break's earliest, latest and duration.
pub fn schedule(out: &mut [f64], found: &mut [u64], route: &[u16], rest: [f64; 3], p: &Problem, v: &Numbers) -> u8 {
    called!(cobrwydd_schedule, [out, found], [route], (rest[0], rest[1], rest[2]), p, v)
}

pub fn route_distance(out: &mut [f64], route: &[u16], p: &Problem, v: &Numbers) -> u8 {
    called!(cobrwydd_route_distance, [out], [route], (), p, v)
}

pub fn lateness_bound(out: &mut [f64], p: &Problem, v: &Numbers) -> u8 {
    called!(cobrwydd_lateness_bound, [out], [], (), p, v)
}

pub fn gain_floor(out: &mut [f64], p: &Problem, v: &Numbers) -> u8 {
    called!(cobrwydd_gain_floor, [out], [], (), p, v)
}

pub fn time_window_new(out: &mut [f64], found: &mut [u64], ready: f64, due: f64) -> u8 {
    // as in `called`
    unsafe { cobrwydd_time_window_new(out.as_mut_ptr(), out.len(), found.as_mut_ptr(), found.len(), ready, due) }
}

extern "C" {
    fn cobrwydd_plan_sheet(
        out: *mut u8,
        out_len: usize,
        written: *mut u64,
        written_len: usize,
        text: *const u8,
        text_len: usize,
    ) -> u8;
}

/// A sheet from bytes to bytes.
pub fn plan_sheet(out: &mut [u8], written: &mut [u64], text: &[u8]) -> u8 {
    // as in `called`
    unsafe {
        cobrwydd_plan_sheet(out.as_mut_ptr(), out.len(), written.as_mut_ptr(), written.len(), text.as_ptr(), text.len())
    }
}
