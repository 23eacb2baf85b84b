//! The events that a run must reach, counted by the model as it steps.

macro_rules! events {
    ($($(#[doc = $group:literal])? $event:ident $text:literal,)*) => {
        #[derive(Clone, Copy, PartialEq)]
        pub enum Event { $($event,)* }

        /// Each event with its words; a group's heading stands before its first event.
        pub const EVENTS: &[(Event, Option<&str>, &str)] =
            &[$((Event::$event, events!(@heading $($group)?), $text),)*];
    };
    (@heading $group:literal) => { Some($group) };
    (@heading) => { None };
}

events! {
    #[doc = "minimise: the rounds"]
    SoftReturn "soft window: the plan comes back as given",
    SoftReturnWithEmpty "soft window: empty routes stay too",
    EmptyDropped "empty routes dropped",
    Accepted "attempt accepted",
    NotCheaper "success that is not cheaper",
    WithinTolerance "success that is cheaper by less than the tolerance",
    EqualLengths "routes of one length, taken in plan order",
    LastRoute "the only route tried",
    #[doc = "minimise: an attempt"]
    StoppedByLimit "attempt stopped by M",
    LongAttempt "attempt of 65,535 steps",
    StoppedByClock "attempt stopped by the clock",
    EmptiedAtLimit "pool emptied by the M-th step",
    EmptiedAtClock "pool emptied by the K-th step",
    Inserted "stop inserted at its cheapest place",
    InsertedAfterEjection "ejected stop inserted again",
    CostTie "equal cost at a later place, not taken",
    Full "route too full for a stop",
    FullToTheUnit "route filled to the unit",
    NegativeLoad "load below zero",
    RoutePassedOver "route passed over: its departures miss a window",
    KeptPassedOver "kept part passed over: its departures miss a window",
    BoundMinusInfinity "a bound of minus infinity",
    QuickRefuses "quick test refuses what the check accepts, at an insertion",
    QuickRefusesEjection "quick test refuses what the check accepts, at an ejection",
    QuickSlack "quick test accepts within its tolerance only",
    CheckRefuses "check refuses what the quick test accepts",
    #[doc = "minimise: ejection"]
    Single "single ejection",
    Double "double ejection",
    KeptEmpty "kept part empty",
    ByFailures "ejection preferred for its failures, though dearer",
    ByCost "ejection preferred for its cost at equal failures",
    EjectionTie "equal failures and cost, the first found stays",
    EjectedAgain "stop ejected again in one attempt",
    NoEjection "no ejection found",
    #[doc = "minimise: perturb"]
    Alone "perturb over fewer than two routes",
    Exchange "exchange stands",
    ExchangeRefused "exchange refused",
    TailSwap "tail swap stands",
    TailSwapRefused "tail swap refused",
    TailSwapEmpties "tail swap that would empty a route",
    TailSwapWhole "tail swap of two whole routes",
    TailSwapNothing "tail swap of two empty tails",
    OnlyFirstPasses "move refused by the second route only",
    TapeAgain "tape taken from its first word again",
    #[doc = "eliminate"]
    EliminatedHard "elimination accepted, no soft window",
    EliminatedSoft "elimination accepted, soft windows",
    Cut "cut: added + cost reaches what is saved",
    GainFloor "gain floor refuses",
    NoPlace "no place for a stop",
    CandidateRefused "candidate refused by the check",
    CandidateTie "equal costs, the first place taken",
    DemandTie "equal demands, taken in route order",
    IntoInfeasible "stop put into a route that failed the check",
    WorthInfinite "soft: route passed over, its worth is infinite",
    CostPlusInfinity "soft: cost of plus infinity dropped",
    CostMinusInfinity "soft: cost of minus infinity dropped",
    CostNan "soft: cost of NaN dropped",
    #[doc = "the route"]
    WindowMissed "hard window missed",
    WindowExact "window met exactly",
    Late "late at a soft window",
    Waited "waited for a window",
    StartBelowReady "service starts below ready by rounding",
    StartAboveReady "service starts above ready by rounding",
    DistanceExact "distance limit met exactly",
    DistanceOver "distance limit passed",
    DurationExact "duration limit met exactly",
    DurationOver "duration limit passed",
    EmptyNotFeasible "empty route not feasible",
    NoFixedCost "cost per distance 0: no fixed cost in distance",
    #[doc = "the break"]
    BreakTaken "break taken",
    BreakTakenLater "break taken after the first stop",
    BreakAtLatest "break started at its latest",
    BreakPastLatest "break refused: past its latest",
    BreakNotNeeded "home by earliest: no break",
    HomeExactly "home exactly at earliest",
    BreakImpossible "not home by earliest and no break taken: not feasible",
    BreakTie "equal time and cost, the break carried on stays",
    BreakByCost "equal time, the break chosen by lateness cost",
    BeforeDead "only the label after the break lives",
    BothDead "both labels dead",
    #[doc = "the rest"]
    BoundZero "lateness bound 0",
    Bound "lateness bound above 0",
    WindowNew "time window made",
    NoWindowNew "time window refused",
}

/// How often each event was reached.
pub struct Events {
    counts: Vec<u64>,
}

impl Events {
    pub fn new() -> Self {
        Events { counts: vec![0; EVENTS.len()] }
    }

    pub fn add(&mut self, event: Event) {
        self.counts[event as usize] += 1;
    }

    pub fn count(&self, event: Event) -> u64 {
        self.counts[event as usize]
    }

    /// The events that were never reached.
    pub fn missing(&self) -> Vec<&'static str> {
        EVENTS.iter().filter(|entry| self.count(entry.0) == 0).map(|entry| entry.2).collect()
    }

    pub fn print(&self) {
        for &(event, heading, text) in EVENTS {
            if let Some(heading) = heading {
                println!("  {heading}");
            }
            println!("{:>12}  {text}", self.count(event));
        }
    }
}

impl Default for Events {
    fn default() -> Self {
        Self::new()
    }
}
