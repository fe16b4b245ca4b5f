//! Times of acts on the three servers.
use crate::servers::{Calls, Second};
use clock::{measured, median, opaque, timed, Plan};
use reference::server::Sizes;
use server::proved::{self, Proved};

type OnServer<'a> = &'a dyn Fn(&mut dyn Calls);

/// What is timed, what comes before it untimed, and what it is held against.
pub struct Act<'a> {
    pub name: &'static str,
    /// The calls that are made.
    pub calls: usize,
    /// The bytes that are carried, where copying them once is the measure.
    pub bytes: Option<usize>,
    /// An act that can be made once only is prepared each time.
    pub before: Option<OnServer<'a>>,
    pub act: OnServer<'a>,
}

/// The median time of one act on each server, in nanoseconds.
pub struct Row {
    pub name: &'static str,
    pub proved: f64,
    pub second: f64,
    /// The second program with the facts of refusal 35 tested at each call.
    pub checked: f64,
    /// Copying the bytes.
    pub copy: Option<f64>,
    /// The part of the proved server's time that its test of these facts takes.
    pub share: f64,
}

/// The three servers, brought into the same state.
pub struct Servers {
    proved: Proved,
    second: Second,
    checked: Second,
}

fn run(server: &mut dyn Calls, act: &Act, acts: usize) -> f64 {
    if let Some(before) = act.before {
        before(server);
    }
    timed(acts, || (act.act)(server))
}

/// Copying so many bytes.
fn copied(bytes: usize) -> f64 {
    let (from, mut to) = (vec![7; bytes], vec![0; bytes]);
    measured(|| {
        to.copy_from_slice(opaque(&from));
        opaque(&mut to);
    })
}

impl Servers {
    pub fn new(sizes: Sizes) -> Servers {
        Servers {
            proved: proved::empty(sizes, 0),
            second: Second::new(sizes, false),
            checked: Second::new(sizes, true),
        }
    }

    fn all(&mut self) -> [&mut dyn Calls; 3] {
        [&mut self.proved, &mut self.second, &mut self.checked]
    }

    pub fn each(&mut self, act: impl Fn(&mut dyn Calls)) {
        self.all().into_iter().for_each(act);
    }

    /// The runs of the servers take turns, so that the machine's load is the same for all.
    pub fn times(&mut self, act: &Act) -> [f64; 3] {
        let mut servers = self.all();
        let plans: Vec<Plan> = servers
            .iter_mut()
            .map(|server| Plan::new(act.before.is_none(), |acts| run(*server, act, acts)))
            .collect();
        let mut times: [Vec<f64>; 3] = Default::default();
        let most = plans.iter().map(|plan| plan.runs).max().unwrap_or(0);
        for turn in 0..most {
            for ((server, plan), times) in servers.iter_mut().zip(&plans).zip(&mut times) {
                if turn < plan.runs {
                    times.push(run(*server, act, plan.acts));
                }
            }
        }
        times.map(median)
    }

    /// A call that takes no byte: what is left is the test of the facts.
    pub fn check(&mut self) -> Row {
        let act = Act {
            name: "receive no byte: the check alone",
            calls: 1,
            bytes: None,
            before: None,
            act: &|server| {
                opaque(server.receive(1, opaque(&[])));
            },
        };
        self.row(&act, None)
    }

    /// The time of a check in the same state says what share it has.
    pub fn row(&mut self, act: &Act, check: Option<&Row>) -> Row {
        let [proved, second, checked] = self.times(act);
        let check = check.map_or(proved, |row| row.proved);
        Row {
            name: act.name,
            proved,
            second,
            checked,
            copy: act.bytes.map(copied),
            share: (act.calls as f64 * check / proved).min(1.0),
        }
    }
}
