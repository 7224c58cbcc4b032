//! Lists as generators of fits give them: the residuals of a model and their derivatives in its parameters, made here
//! from the model. A list has as many of them, in order, as its occurrences allow.
use crate::derive::{derivative, minus, negated, over, plus, power, square, times};
use crate::large::ROOTS;
use crate::tree::*;
use std::collections::HashMap;

#[derive(Clone, Copy, Debug)]
pub enum Fit {
    /// intensities of dyes: spots of light of which each channel sees a part
    Dyes,
    /// cycles of sequencing in which strands fall behind or run ahead
    Phasing,
    /// a camera that is turned and moved, with radial distortion
    Camera,
}

pub const FITS: [Fit; 3] = [Fit::Dyes, Fit::Phasing, Fit::Camera];
pub const SIZES: [usize; 7] = [75, 125, 250, 400, 600, 800, 1024];

/// A model's symbols by their names, each made once.
struct Model {
    symbols: HashMap<String, T>,
    /// whether it has the switches that such a model can have: a dye, base or lens that is chosen, a detector that is
    /// full, a point behind the camera
    switches: bool,
}

/// Such a list of at most so many occurrences.
pub fn list(fit: Fit, switches: bool, most: usize) -> Vec<T> {
    let mut model = Model {
        symbols: HashMap::new(),
        switches,
    };
    let mut es = Vec::new();
    let mut total = 0;
    for n in 0..ROOTS {
        let (residuals, parameters) = match fit {
            Fit::Dyes => model.dyes(n, if most < 200 { 1 } else { 2 }),
            Fit::Phasing => model.phasing(n),
            Fit::Camera => model.camera(n, most > 600),
        };
        for t in roots(&residuals, &parameters) {
            if total + size(&t) <= most && es.len() < ROOTS {
                total += size(&t);
                es.push(t);
            }
        }
    }
    assert!(total * 2 > most, "{fit:?} has formulas for {most} occurrences");
    es
}

/// The residuals and their derivatives, but for those that are numbers.
fn roots(residuals: &[T], parameters: &[String]) -> Vec<T> {
    let derived = parameters.iter().flat_map(|p| residuals.iter().map(move |t| derivative(t, p)));
    residuals.iter().cloned().chain(derived).filter(|t| size(t) > 1).collect()
}

impl Model {
    fn symbol(&mut self, name: &str) -> T {
        let made = || sym(name.to_string().leak());
        self.symbols.entry(name.to_string()).or_insert_with(made).clone()
    }

    fn numbered(&mut self, name: &str, n: usize) -> T {
        self.symbol(&format!("{name}{n}"))
    }

    /// What a detector gives of a signal: no more than it can hold.
    fn detected(&mut self, signal: T) -> T {
        if !self.switches {
            return signal;
        }
        let full = self.symbol("full");
        op(BRANCH, vec![minus(full.clone(), signal.clone()), signal, full])
    }

    // ---- dyes

    /// One channel's residual at one place, where so many spots overlap.
    fn dyes(&mut self, channel: usize, spots: usize) -> (Vec<T>, Vec<String>) {
        let mut signal = self.numbered("back", channel);
        let mut parameters = vec![format!("back{channel}"), "width".to_string()];
        for spot in 0..spots {
            let part = self.part(channel, spot);
            let light = self.light(spot);
            let bright = self.numbered("bright", spot);
            signal = plus(signal, times(times(part, bright), light));
            parameters.extend(["bright", "x", "y"].map(|p| format!("{p}{spot}")));
        }
        let seen = self.numbered("seen", channel);
        (vec![minus(seen, self.detected(signal))], parameters)
    }

    /// The part of a spot's light that a channel sees, by its dye.
    fn part(&mut self, channel: usize, spot: usize) -> T {
        if !self.switches {
            return self.symbol(&format!("part{channel}_{spot}"));
        }
        let mut parts = vec![self.numbered("dye", spot)];
        parts.extend((0..4).map(|dye| self.symbol(&format!("part{channel}_{dye}"))));
        op(SELECT, parts)
    }

    /// A round spot's light at (u, v).
    fn light(&mut self, spot: usize) -> T {
        let (u, v) = (self.symbol("u"), self.symbol("v"));
        let (x, y) = (self.numbered("x", spot), self.numbered("y", spot));
        let distance = plus(square(minus(u, x)), square(minus(v, y)));
        let width = self.symbol("width");
        op(EXP, vec![negated(over(distance, times(num(2), square(width))))])
    }

    // ---- phasing

    /// The residual of a cycle from the second on: what strands give that are in step, one or two behind, or one ahead.
    fn phasing(&mut self, n: usize) -> (Vec<T>, Vec<String>) {
        let cycle = n as i64 + 2;
        let (behind, ahead) = (self.symbol("behind"), self.symbol("ahead"));
        let stay = minus(minus(num(1), behind.clone()), ahead.clone());
        let once = times(num(cycle), power(stay.clone(), cycle - 1));
        let twice = times(num(cycle * (cycle - 1) / 2), power(stay.clone(), cycle - 2));
        let shares = [
            times(twice, square(behind.clone())),
            times(once.clone(), behind),
            power(stay, cycle),
            times(once, ahead),
        ];
        let mut signal = num(0);
        for (i, share) in shares.into_iter().enumerate() {
            signal = plus(signal, times(share, self.base(n + i)));
        }
        let fading = times(self.symbol("fading"), num(cycle));
        let signal = times(op(EXP, vec![negated(fading)]), signal);
        let seen = self.numbered("seen", n);
        (vec![minus(seen, signal)], ["behind", "ahead", "fading"].map(String::from).to_vec())
    }

    /// The brightness of a base, one of four.
    fn base(&mut self, place: usize) -> T {
        if !self.switches {
            return self.numbered("base", place);
        }
        let parts = [self.numbered("base", place)].into_iter();
        op(SELECT, parts.chain((0..4).map(|n| self.numbered("bright", n))).collect())
    }

    // ---- camera

    /// Both residuals of a point whose place is known, by a camera that is turned too, or only moved and more distorted.
    fn camera(&mut self, n: usize, turned: bool) -> (Vec<T>, Vec<String>) {
        let (mut x, y, mut z) = (self.numbered("x", n), self.numbered("y", n), self.numbered("z", n));
        if turned {
            let angle = self.symbol("angle");
            let (s, c) = (op(SIN, vec![angle.clone()]), op(COS, vec![angle]));
            let across = plus(times(c.clone(), x.clone()), times(s.clone(), z.clone()));
            (x, z) = (across, minus(times(c, z), times(s, x)));
        }
        let depth = plus(z, self.symbol("tz"));
        let (p, q) = (over(plus(x, self.symbol("tx")), depth.clone()), over(plus(y, self.symbol("ty")), depth.clone()));
        let bent = self.bent(plus(square(p.clone()), square(q.clone())), !turned);
        let residuals = vec![self.residual("u", n, times(p, bent.clone()), &depth), self.residual("v", n, times(q, bent), &depth)];
        (residuals, ["fu", "fv", "k1", "k2", "ty", "tx", "tz", "angle"].map(String::from).to_vec())
    }

    /// Along one axis of the picture.
    fn residual(&mut self, axis: &str, n: usize, at: T, depth: &T) -> T {
        let (f, c) = (self.symbol(&format!("f{axis}")), self.symbol(&format!("c{axis}")));
        let place = plus(times(f, at), c);
        let place = if self.switches { op(BRANCH, vec![depth.clone(), place, num(0)]) } else { place };
        minus(self.symbol(&format!("seen{axis}{n}")), place)
    }

    /// By how much a point at such a square of its distance from the middle is moved outwards, by one coefficient or two;
    /// not at all by an ideal lens.
    fn bent(&mut self, distance: T, two: bool) -> T {
        let mut bent = plus(num(1), times(self.symbol("k1"), distance.clone()));
        if two {
            bent = plus(bent, times(self.symbol("k2"), square(distance)));
        }
        if self.switches { op(SELECT_OR, vec![self.symbol("lens"), num(1), bent]) } else { bent }
    }
}
