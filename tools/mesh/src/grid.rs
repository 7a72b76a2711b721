//! A model laid out on the grid: its scale, its vertices welded, those dropped that nothing uses.

use crate::model::Model;
use crate::words::{finite, Words};
use std::collections::{HashMap, HashSet};

pub const LEAST: f64 = -2048.0;
pub const MOST: f64 = 2047.0;
const STEPS: f64 = MOST - LEAST;

/// Grid point g stands for origin + step * g, in the file's units.
#[derive(Debug, PartialEq)]
pub struct Frame {
    pub step: f64,
    pub origin: [f64; 3],
}

/// The least and the most of each coordinate.
struct Bounds {
    least: [f64; 3],
    most: [f64; 3],
}

impl Bounds {
    fn of(points: &[[f64; 3]]) -> Self {
        let mut bounds = Bounds { least: [f64::INFINITY; 3], most: [f64::NEG_INFINITY; 3] };
        for point in points {
            bounds.least = [0, 1, 2].map(|i| bounds.least[i].min(point[i]));
            bounds.most = [0, 1, 2].map(|i| bounds.most[i].max(point[i]));
        }
        bounds
    }

    fn extent(&self) -> f64 {
        (0..3).map(|i| self.most[i] - self.least[i]).fold(0.0, f64::max)
    }
}

impl Frame {
    /// The frame of points. A scale is taken as it is, in steps for each unit. Without one, whole numbers stay as they are if they fit,
    /// and all else is made to fill the grid along its largest extent. The origin is 0 where the points fit so, or their middle.
    pub fn of(points: &[[f64; 3]], scale: Option<f64>) -> Result<Frame, String> {
        let bounds = Bounds::of(points);
        let extent = bounds.extent();
        let whole = points.iter().flatten().all(|c| c.fract() == 0.0) && extent <= STEPS;
        let step = match scale {
            Some(scale) => 1.0 / scale,
            None if whole || extent == 0.0 => 1.0,
            None => extent / STEPS,
        };
        if scale.is_some() && extent / step > STEPS + 0.01 {
            let (long, most) = (extent / step, STEPS / extent);
            return Err(format!("the model is {long} steps long, and the grid has {STEPS}: the scale may be {most} at most"));
        }
        let middle = |i: usize| bounds.least[i] / 2.0 + bounds.most[i] / 2.0 + step / 2.0;
        let rounded = |c: f64| if whole && step == 1.0 { c.floor() } else { c };
        let about_middle = Frame { step, origin: [0, 1, 2].map(|i| rounded(middle(i))) };
        let as_it_is = Some(Frame { step, origin: [0.0; 3] }).filter(|_| whole || scale.is_some());
        let frame = as_it_is.into_iter().chain([about_middle]).find(|frame| step.is_normal() && frame.holds(points));
        frame.ok_or(format!("the model's extent of {extent} units is too large, or too small for where it lies, to be reckoned with"))
    }

    /// Whether the points lie on the grid.
    fn holds(&self, points: &[[f64; 3]]) -> bool {
        points.iter().all(|&p| self.steps(p).iter().all(|c| (LEAST..=MOST).contains(c)))
    }

    /// The nearest grid point.
    pub fn steps(&self, point: [f64; 3]) -> [f64; 3] {
        [0, 1, 2].map(|i| ((point[i] - self.origin[i]) / self.step).round() + 0.0)
    }

    /// The point that a grid point stands for.
    pub fn point(&self, steps: [f64; 3]) -> [f64; 3] {
        [0, 1, 2].map(|i| self.origin[i] + self.step * steps[i])
    }

    pub fn text(&self) -> String {
        let [x, y, z] = self.origin;
        format!("step {}\norigin {x} {y} {z}\n", self.step)
    }

    pub fn read(text: &[u8]) -> Result<Frame, String> {
        let mut words = Words::new(text, true);
        words.expect("step")?;
        let step: f64 = words.number("the units of a step")?;
        words.expect("origin")?;
        let origin = words.point()?;
        match finite([step; 3]) {
            true => Ok(Frame { step, origin }),
            false => Err("the step is not finite".into()),
        }
    }
}

/// Which vertices are made one.
#[derive(Clone, Copy, PartialEq)]
pub enum Weld {
    /// Those with equal coordinates in the file.
    Equal,
    /// Those on one grid point.
    Grid,
    Nothing,
}

/// A model on the grid, with where its vertices and triangles come from.
pub struct Laid {
    pub frame: Frame,
    pub positions: Vec<[f64; 3]>,
    pub list: Vec<[usize; 3]>,
    /// The vertex of the file that each vertex of the list comes from, the first of those welded.
    pub vertex_of: Vec<usize>,
    /// The triangle of the model that each triangle of the list comes from.
    pub triangle_of: Vec<usize>,
    /// Triangles of the model with a vertex twice.
    pub collapsed: Vec<usize>,
    pub unused: usize,
    pub welded: usize,
    pub rounding: f64,
}

/// For each point the first that it is one with.
fn weld(model: &Model, frame: &Frame, weld: Weld) -> Vec<usize> {
    let mut first = HashMap::new();
    let key = |i: usize, point: [f64; 3]| match weld {
        Weld::Equal => point.map(|c| (c + 0.0).to_bits()),
        Weld::Grid => frame.steps(point).map(f64::to_bits),
        Weld::Nothing => [i as u64; 3],
    };
    model.points.iter().enumerate().map(|(i, &point)| *first.entry(key(i, point)).or_insert(i)).collect()
}

fn has_twice([a, b, c]: [usize; 3]) -> bool {
    a == b || b == c || c == a
}

/// Which of so many vertices the triangles have.
fn used(count: usize, triangles: &[[usize; 3]]) -> Vec<bool> {
    let mut used = vec![false; count];
    for &corner in triangles.iter().flatten() {
        used[corner] = true;
    }
    used
}

/// Lays a model out. Triangles with a vertex twice are left out unless they are to be kept: what bordered on the two sides of such a
/// triangle then borders on each other, so that this opens no hole.
pub fn lay(model: &Model, scale: Option<f64>, which: Weld, keep_collapsed: bool) -> Result<Laid, String> {
    let count = model.points.len();
    let named: Vec<[usize; 3]> = model.triangles.iter().map(|t| t.corners).collect();
    let in_use = used(count, &named);
    let points: Vec<[f64; 3]> = (0..count).filter(|&i| in_use[i]).map(|i| model.points[i]).collect();
    if points.is_empty() {
        return Err("the file has no triangle".into());
    }
    let frame = Frame::of(&points, scale)?;
    let first = weld(model, &frame, which);
    let welded: Vec<[usize; 3]> = named.iter().map(|t| t.map(|c| first[c])).collect();
    let (collapsed, kept): (Vec<usize>, Vec<usize>) = (0..welded.len()).partition(|&t| has_twice(welded[t]));
    let triangle_of = if keep_collapsed { (0..welded.len()).collect() } else { kept };
    let list: Vec<[usize; 3]> = triangle_of.iter().map(|&t| welded[t]).collect();
    let stays = used(count, &list);
    let vertex_of: Vec<usize> = (0..count).filter(|&i| stays[i]).collect();
    let new: HashMap<usize, usize> = vertex_of.iter().enumerate().map(|(n, &old)| (old, n)).collect();
    let rounding = points.iter().map(|&p| distance(p, frame.point(frame.steps(p)))).fold(0.0, f64::max);
    Ok(Laid {
        positions: vertex_of.iter().map(|&v| frame.steps(model.points[v])).collect(),
        list: list.iter().map(|t| t.map(|c| new[&c])).collect(),
        vertex_of,
        triangle_of,
        collapsed,
        unused: count - points.len(),
        welded: (0..count).filter(|&i| in_use[i] && first[i] != i).count(),
        rounding,
        frame,
    })
}

/// The largest difference of a coordinate.
fn distance(p: [f64; 3], q: [f64; 3]) -> f64 {
    (0..3).map(|i| (p[i] - q[i]).abs()).fold(0.0, f64::max)
}

impl Laid {
    /// How many vertices lie on the grid point of an earlier one.
    pub fn on_one_point(&self) -> usize {
        let points: HashSet<[u64; 3]> = self.positions.iter().map(|p| p.map(f64::to_bits)).collect();
        self.positions.len() - points.len()
    }
}
