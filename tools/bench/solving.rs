// The search of `ipsens solve` in plain Rust, without a proof: best bound first, over a living dual tableau whose proposals an exact check
// decides. It reads a canonical model text and prints the least cost, the nodes, and what the proposals were worth. Words of the command
// line try what the program leaves out: `probing` looks at new columns by some dual steps on a copy of the tableau, `narrow` has a
// tableau of 64 bits propose first, and `exact` proposes nothing, so that the defined simplex decides at each node.
mod fractions;
#[path = "solving/certificates.rs"]
mod certificates;
#[path = "solving/choosers.rs"]
mod choosers;
#[path = "solving/dual.rs"]
mod dual;
#[path = "solving/models.rs"]
mod models;
#[path = "solving/simplex.rs"]
mod simplex;

use certificates::{Cert, Proposal, cert_of_prices, cert_of_ray, is_right, leaf_bound};
use choosers::Chooser;
use dual::Proposed;
use fractions::{Frac, frac};
use models::{Area, Model};
use simplex::{Answer, solve_lp};
use std::cmp::Reverse;
use std::collections::BinaryHeap;
use std::io::Read;

const PIVOTS: u32 = 5000;

#[derive(Clone, Copy)]
enum Cut {
    Below(usize, i128),
    Above(usize, i128),
}

struct Node {
    edge: Option<(usize, Cut)>,
    depth: u32,
    bound: i128,
    solved: Option<Branch>,
}

struct Branch {
    col: usize,
    at: i128,
    point: Option<(Vec<Frac>, Cert)>,
    bound: i128,
}

enum Visit {
    Closed,
    Whole(i128),
    Split(Branch),
}

/// What the proposals were worth.
#[derive(Default)]
struct Counts {
    skipped: u64,
    waited: u64,
    proposals: u64,
    gave_up: u64,
    rejected: u64,
    exact: u64,
    dual_steps: u64,
    exact_steps: u64,
}

struct Search<'a> {
    model: &'a Model,
    probes: usize,
    proposes: bool,
    narrow: Option<dual::narrow::Tableau>,
    wide: dual::wide::Tableau,
    chooser: Chooser,
    taken: Vec<i128>,
    found: Option<i128>,
    nodes: Vec<Node>,
    order: BinaryHeap<(Reverse<i128>, u32, usize)>,
    counts: Counts,
}

impl Search<'_> {
    fn closes(&self, bound: Option<i128>) -> bool {
        bound.is_none_or(|bound| self.found.is_some_and(|found| found <= bound))
    }

    fn bound(&mut self, area: &[(i128, i128)], cert: &Cert) -> Option<i128> {
        leaf_bound(self.model, cert, area, &mut self.taken)
    }

    fn propose(&mut self, area: &[(i128, i128)]) -> Proposed {
        self.counts.proposals += 1;
        let steps = &mut self.counts.dual_steps;
        if let Some(narrow) = &mut self.narrow {
            let (proposed, is_wide) = narrow.propose(self.model, area, PIVOTS, self.found, steps);
            if !is_wide {
                return proposed;
            }
        }
        self.wide.propose(self.model, area, PIVOTS, self.found, steps).0
    }

    fn accepted(&mut self, area: &[(i128, i128)], proposed: Proposed) -> Option<Visit> {
        match proposed {
            Proposed::Best(proposal) => {
                if is_right(self.model, area, &proposal, &mut self.taken) {
                    let Proposal { numerators, denominator, cert } = proposal;
                    let point = numerators.iter().map(|number| frac(*number, denominator)).collect();
                    return Some(self.bounded(area, point, cert));
                }
            }
            Proposed::Cut(cert) | Proposed::Empty(cert) => {
                let bound = self.bound(area, &cert);
                if cert.is_within_limits() && self.closes(bound) {
                    return Some(Visit::Closed);
                }
            }
            Proposed::GaveUp => {
                self.counts.gave_up += 1;
                return None;
            }
        }
        self.counts.rejected += 1;
        None
    }

    fn bounded(&mut self, area: &[(i128, i128)], point: Vec<Frac>, cert: Cert) -> Visit {
        let bound = self.bound(area, &cert);
        if self.closes(bound) {
            return Visit::Closed;
        }
        let (model, wide, steps) = (self.model, &self.wide, &mut self.counts.dual_steps);
        let mut half = area.to_vec();
        let probe = |j: usize, is_upper: bool| {
            let floor = point[j].num.div_euclid(point[j].den);
            half[j] = if is_upper { (floor + 1, area[j].1) } else { (area[j].0, floor) };
            let risen = wide.probe(model, &half, 20, steps);
            half[j] = area[j];
            risen
        };
        match self.chooser.choose(model, &point, self.probes, probe) {
            Some(col) => {
                let at = point[col].num.div_euclid(point[col].den);
                self.split_or_close(area, col, at, Some((point, cert)))
            }
            None => Visit::Whole(self.model.constant + point.iter().zip(&self.model.costs).map(|(x, cost)| x.num * cost).sum::<i128>()),
        }
    }

    fn split_or_close(&mut self, area: &[(i128, i128)], col: usize, at: i128, point: Option<(Vec<Frac>, Cert)>) -> Visit {
        let Some(sum) = self.bound(area, &Cert::plain()).filter(|sum| !self.closes(Some(*sum))) else {
            return Visit::Closed;
        };
        let Some((point, cert)) = point else {
            return Visit::Split(Branch { col, at, point: None, bound: sum });
        };
        match self.bound(area, &cert).map(|own| own.max(sum)) {
            Some(bound) if !self.closes(Some(bound)) => Visit::Split(Branch { col, at, point: Some((point, cert)), bound }),
            _ => Visit::Closed,
        }
    }

    fn relax_exactly(&mut self, area: &[(i128, i128)], widest: usize) -> Visit {
        self.counts.exact += 1;
        let certified = match solve_lp(self.model, area, PIVOTS, &mut self.counts.exact_steps) {
            Answer::Best(point, prices) => cert_of_prices(&prices).map(|cert| (Some(point), cert)),
            Answer::Empty(ray) => cert_of_ray(&ray).map(|cert| (None, cert)),
            Answer::Stopped | Answer::Wide => None,
        };
        match certified {
            Some((Some(point), cert)) => self.bounded(area, point, cert),
            Some((None, _)) => Visit::Closed,
            None => {
                let at = (area[widest].0 + area[widest].1).div_euclid(2);
                self.split_or_close(area, widest, at, None)
            }
        }
    }

    fn visit(&mut self, area: &[(i128, i128)]) -> Visit {
        let bound = self.bound(area, &Cert::plain());
        if self.closes(bound) {
            return Visit::Closed;
        }
        let (mut widest, mut most) = (0, 0);
        for (j, side) in area.iter().enumerate() {
            if side.1 - side.0 > most {
                (widest, most) = (j, side.1 - side.0);
            }
        }
        if most == 0 {
            let is_within = |row: &models::Row| {
                let sum: i128 = row.coefs.iter().map(|(j, coefficient)| coefficient * area[*j].0).sum();
                row.low.is_none_or(|low| low <= sum) && row.high.is_none_or(|high| sum <= high)
            };
            return if self.model.rows.iter().all(is_within) { Visit::Whole(bound.unwrap_or(0)) } else { Visit::Closed };
        }
        if self.proposes {
            let proposed = self.propose(area);
            if let Some(visit) = self.accepted(area, proposed) {
                return visit;
            }
        }
        self.relax_exactly(area, widest)
    }

    fn cut_to_node(&self, key: usize, area: &mut Area) {
        if let Some((parent, cut)) = self.nodes[key].edge {
            self.cut_to_node(parent, area);
            match cut {
                Cut::Below(j, at) => area[j].1 = area[j].1.min(at),
                Cut::Above(j, at) => area[j].0 = area[j].0.max(at + 1),
            }
        }
    }

    fn add(&mut self, edge: Option<(usize, Cut)>, depth: u32, bound: i128) {
        self.order.push((Reverse(bound), depth, self.nodes.len()));
        self.nodes.push(Node { edge, depth, bound, solved: None });
    }

    fn settle(&mut self, key: usize, was_solved: bool, branch: Branch) {
        let (bound, depth) = (branch.bound.max(self.nodes[key].bound), self.nodes[key].depth);
        let is_later = self.order.peek().is_some_and(|rank| rank.0.0 < bound);
        if !was_solved && branch.point.is_some() && is_later {
            self.counts.waited += 1;
            self.order.push((Reverse(bound), depth, key));
            (self.nodes[key].bound, self.nodes[key].solved) = (bound, Some(branch));
            return;
        }
        match &branch.point {
            Some((point, _)) => self.chooser.split(self.model, point, branch.col),
            None => {
                self.counts.skipped += 1;
                self.chooser.halve();
            }
        }
        self.add(Some((key, Cut::Below(branch.col, branch.at))), depth + 1, bound);
        self.add(Some((key, Cut::Above(branch.col, branch.at))), depth + 1, bound);
    }

    fn grow(&mut self) {
        let mut area = self.model.area.clone();
        let root = self.bound(&area, &Cert::plain()).unwrap_or(0);
        self.add(None, 0, root);
        while let Some((_, _, key)) = self.order.pop() {
            area.copy_from_slice(&self.model.area);
            self.cut_to_node(key, &mut area);
            self.chooser.enter(key);
            let solved = self.nodes[key].solved.take();
            let was_solved = solved.is_some();
            let visit = match solved {
                None => self.visit(&area),
                Some(branch) => self.split_or_close(&area, branch.col, branch.at, branch.point),
            };
            match visit {
                Visit::Closed => {}
                Visit::Whole(cost) => self.found = Some(cost),
                Visit::Split(branch) => self.settle(key, was_solved, branch),
            }
        }
    }
}

fn main() {
    let mut text = String::new();
    std::io::stdin().read_to_string(&mut text).unwrap();
    let model = models::read(&text);
    let words: Vec<String> = std::env::args().skip(1).collect();
    let has = |word: &str| words.iter().any(|one| one == word);
    let columns = model.costs.len();
    let mut search = Search {
        model: &model,
        probes: if has("probing") { 8 } else { 0 },
        proposes: !has("exact"),
        narrow: has("narrow").then(|| dual::narrow::Tableau::start(&model)),
        wide: dual::wide::Tableau::start(&model),
        chooser: Chooser::new(columns),
        taken: vec![0; columns],
        found: None,
        nodes: Vec::new(),
        order: BinaryHeap::new(),
        counts: Counts::default(),
    };
    search.grow();
    match search.found {
        Some(cost) => println!("least {cost} / 10^{}", model.cost_decimals),
        None => println!("empty"),
    }
    let Counts { skipped, waited, proposals, gave_up, rejected, exact, dual_steps, exact_steps } = search.counts;
    println!("nodes {}\nskipped {skipped}\nwaited {waited}\nproposals {proposals}\ndual_steps {dual_steps}", search.nodes.len());
    println!("gave_up {gave_up}\nrejected {rejected}\nexact {exact}\nexact_steps {exact_steps}");
}
