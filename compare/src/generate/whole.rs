//! Random problems of whole numbers with place 0 as the depot, and a plan and a minimise call for each: what a sheet can say.

use super::numbers::Scale;
use super::{Kind, Maker, Routes};
use crate::model::Model;
use crate::problem::{Call, Plan, Problem};

/// The most places of a sheet, and the most routes.
const MOST: usize = 64;

/// The most draws of a sheet.
const MOST_DRAWS: usize = 1_024;

/// The largest number of a sheet.
const LARGEST: f64 = 999_999_999.0;

/// The problem, plan and minimise call of a seed, within a sheet's limits.
pub fn whole(seed: u64) -> (Problem, Plan, Call) {
    Maker { random: crate::random::Random::new(seed), scale: Scale::Whole }.whole()
}

impl Maker {
    fn whole(&mut self) -> (Problem, Plan, Call) {
        let kind = match self.random.below(10) {
            0..=4 => Kind::General,
            5 | 6 => Kind::Capacity,
            7 => Kind::Windows,
            _ => Kind::Break,
        };
        let places = match kind {
            Kind::General if self.random.chance(4) => MOST,
            Kind::General if self.random.chance(10) => self.random.between(17, MOST),
            Kind::General => self.places().min(MOST),
            Kind::Capacity => self.random.between(5, 13),
            _ => self.random.between(3, 9),
        };
        self.scale =
            self.random.pick(&[Scale::Whole, Scale::Whole, Scale::Whole, Scale::Sparse, Scale::Huge, Scale::Steep]);
        let mut problem = self.problem(places);
        problem.vehicle.depot = 0;
        cut(&mut problem);
        let routes = self.routes(kind, &problem);
        let target = self.target(&routes);
        self.fit(kind, &mut problem, &routes, &target);
        cut(&mut problem);
        let plan = Plan::of(&self.with_few_empty(routes));
        let mut call = self.minimise(&problem, &plan, &mut Model::default());
        if let Call::Minimise { tape, clock, .. } = &mut call {
            if self.random.chance(4) {
                let word = self.random.word();
                tape.resize(MOST_DRAWS, word);
            }
            tape.truncate(MOST_DRAWS);
            tape.iter_mut().for_each(|word| *word %= 1_000_000_000);
            *clock = (*clock).min(LARGEST as u64);
        }
        (problem, plan, call)
    }

    /// A plan with empty routes here and there, sometimes as many as a sheet may have.
    fn with_few_empty(&mut self, routes: Routes) -> Routes {
        let mut routes = self.with_empty(routes);
        while routes.len() > MOST {
            let empty = routes.iter().position(|route| route.is_empty()).unwrap();
            routes.remove(empty);
        }
        routes
    }
}

/// Cuts every number of a problem to a whole one that a sheet can say. Order is kept, so that a window stays one.
fn cut(problem: &mut Problem) {
    let v = &mut problem.vehicle;
    v.capacity = v.capacity.clamp(-(LARGEST as i32), LARGEST as i32);
    let mut floats = vec![&mut v.fixed_cost, &mut v.cost_per_distance];
    floats.extend(&mut v.max_distance);
    floats.extend(&mut v.max_duration);
    if let Some(rest) = &mut v.rest {
        floats.extend([&mut rest.earliest, &mut rest.latest, &mut rest.duration]);
    }
    let lists = [&mut problem.service, &mut problem.ready, &mut problem.due, &mut problem.penalty];
    for value in floats.into_iter().chain(lists.into_iter().flatten()) {
        *value = value.trunc().min(LARGEST);
    }
    for value in problem.distances.iter_mut().chain(&mut problem.times) {
        *value = value.trunc().min(LARGEST);
    }
}
