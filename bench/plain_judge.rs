//! What `judge` prints of the scene and the recordings of `recordings.py`, in plain Rust, to compare times with: plain_judge SCENARIO LATTICE RECORDS.
//! It knows the book and its order, takes its files as they are made there, and stops where a file is another.

use std::collections::HashMap;
use std::io::Write;

const RULES: [&str; 5] = ["collision", "road", "gap", "smooth", "lane"];
/// collision above road above gap, and gap above both smooth and lane.
const ABOVE: [&[usize]; 5] = [&[], &[0], &[0, 1], &[0, 1, 2], &[0, 1, 2]];
const LENGTH: i64 = 45_000;
const WIDTH: i64 = 18_000;
const FARTHEST: i64 = 10_000_000;
const MILLION: i64 = 1_000_000;

type Point = (i64, i64);
type Vector = [u64; 5];

/// Corners, and the least box round them.
struct Shape {
    corners: Vec<Point>,
    low: Point,
    high: Point,
}

impl Shape {
    fn new(corners: Vec<Point>) -> Shape {
        let least = |of: fn(&Point) -> i64| corners.iter().map(of).min().expect("corners");
        let most = |of: fn(&Point) -> i64| corners.iter().map(of).max().expect("corners");
        let (low, high) = (
            (least(|p| p.0), least(|p| p.1)),
            (most(|p| p.0), most(|p| p.1)),
        );
        Shape { corners, low, high }
    }

    fn gap(&self, other: &Shape) -> i64 {
        0.max(self.low.0 - other.high.0)
            .max(other.low.0 - self.high.0)
            .max(self.low.1 - other.high.1)
            .max(other.low.1 - self.high.1)
    }

    fn edges(&self) -> impl Iterator<Item = (Point, Point)> + '_ {
        let next = self.corners.iter().cycle().skip(1);
        self.corners.iter().copied().zip(next.copied())
    }

    fn holds(&self, p: Point) -> bool {
        let mut inside = false;
        for (a, b) in self.edges() {
            if is_on(p, a, b) {
                return true;
            }
            if (a.1 > p.1) != (b.1 > p.1) && (cross(a, b, p) > 0) == (b.1 > a.1) {
                inside = !inside;
            }
        }
        inside
    }

    fn meets(&self, other: &Shape) -> bool {
        self.gap(other) == 0
            && (self.edges().any(|e| other.edges().any(|f| meet(e, f)))
                || self.holds(other.corners[0])
                || other.holds(self.corners[0]))
    }
}

fn cross(a: Point, b: Point, c: Point) -> i64 {
    (b.0 - a.0) * (c.1 - a.1) - (b.1 - a.1) * (c.0 - a.0)
}

fn is_on(p: Point, a: Point, b: Point) -> bool {
    cross(a, b, p) == 0
        && a.0.min(b.0) <= p.0
        && p.0 <= a.0.max(b.0)
        && a.1.min(b.1) <= p.1
        && p.1 <= a.1.max(b.1)
}

fn meet((a, b): (Point, Point), (c, d): (Point, Point)) -> bool {
    let opposite = |x: i64, y: i64| x.signum() * y.signum() < 0;
    is_on(a, c, d)
        || is_on(b, c, d)
        || is_on(c, a, b)
        || is_on(d, a, b)
        || (opposite(cross(a, b, c), cross(a, b, d)) && opposite(cross(c, d, a), cross(c, d, b)))
}

/// Cosine and sine of microradians, in millionths.
fn direction(angle: i64) -> Point {
    let quarter = (angle + 785_398).div_euclid(1_570_796);
    let r = angle - quarter * 1_570_796;
    let z = r * r / MILLION;
    let weighed = |inner: i64, weight: i64| MILLION - z * inner / (weight * MILLION);
    let c = weighed(weighed(weighed(MILLION - z / 56, 30), 12), 2);
    let s = r * weighed(weighed(MILLION - z / 42, 20), 6) / MILLION;
    match quarter.rem_euclid(4) {
        0 => (c, s),
        1 => (-s, c),
        2 => (-c, -s),
        _ => (s, -c),
    }
}

fn round_div(a: i64, b: i64) -> i64 {
    (a.abs() + b / 2) / b * a.signum()
}

fn rectangle((x, y): Point, heading: i64) -> Shape {
    let (c, s) = direction(heading);
    let corner = |i: i64, j: i64| {
        let along = round_div(i * LENGTH * c - j * WIDTH * s, 2 * MILLION);
        let across = round_div(i * LENGTH * s + j * WIDTH * c, 2 * MILLION);
        (x + along, y + across)
    };
    Shape::new(vec![
        corner(-1, -1),
        corner(1, -1),
        corner(1, 1),
        corner(-1, 1),
    ])
}

fn number(text: &str, places: i32) -> i64 {
    let value: f64 = text.parse().expect("a number");
    (value * 10f64.powi(places)).round() as i64
}

/// The texts between the tags, in their order.
fn between<'a>(text: &'a str, tag: &'a str) -> impl Iterator<Item = &'a str> {
    let open = format!("<{tag}>");
    let close = format!("</{tag}>");
    let mut rest = text;
    std::iter::from_fn(move || {
        let start = rest.find(&open)? + open.len();
        let end = start + rest[start..].find(&close)?;
        let inside = &rest[start..end];
        rest = &rest[end..];
        Some(inside)
    })
}

fn points(text: &str) -> Vec<Point> {
    let xs = between(text, "x").map(|x| number(x, 4));
    xs.zip(between(text, "y").map(|y| number(y, 4))).collect()
}

/// The polygons of the lanelets, and for each car its shape at each tick.
fn scene(document: &str) -> (Vec<Shape>, Vec<Vec<Shape>>) {
    let lanelets = document.split("<lanelet ").skip(1).map(|lanelet| {
        let (left, right) = lanelet.split_once("<rightBound>").expect("two bounds");
        let right = right.split_once("</rightBound>").expect("an end").0;
        let mut corners = points(left);
        corners.extend(points(right).into_iter().rev());
        Shape::new(corners)
    });
    let cars = document.split("<dynamicObstacle ").skip(1).map(|car| {
        let car = car.split_once("</dynamicObstacle>").expect("an end").0;
        points(car)
            .into_iter()
            .map(|place| rectangle(place, 0))
            .collect()
    });
    (lanelets.collect(), cars.collect())
}

/// The place of each maneuver's rule: smooth for up and down, lane for left and right.
fn maneuvers(lattice: &str) -> HashMap<&str, Option<usize>> {
    let names = lattice.split("[[maneuver]]").skip(1);
    let names = names.map(|text| text.split('"').nth(1).expect("a name"));
    let rule = |name: &str| match name.split('_').next() {
        Some("up" | "down") => Some(3),
        Some("left" | "right") => Some(4),
        _ => None,
    };
    names.map(|name| (name, rule(name))).collect()
}

fn no_worse(x: &Vector, y: &Vector) -> bool {
    why_not(x, y).is_none()
}

/// The first rule that the first violates more, with no rule above it that it violates less.
fn why_not(x: &Vector, y: &Vector) -> Option<usize> {
    (0..5).find(|&rule| x[rule] > y[rule] && !ABOVE[rule].iter().any(|&over| x[over] < y[over]))
}

fn verdict(x: &Vector, y: &Vector) -> String {
    match (why_not(x, y), why_not(y, x)) {
        (None, None) => "equal".to_string(),
        (None, Some(rule)) => format!("first {}", RULES[rule]),
        (Some(rule), None) => format!("second {}", RULES[rule]),
        (Some(one), Some(other)) => format!("neither {} {}", RULES[one], RULES[other]),
    }
}

fn layers(vectors: &[Vector]) -> Vec<usize> {
    let beats = |x: &Vector, y: &Vector| no_worse(x, y) && !no_worse(y, x);
    let mut layers = vec![0; vectors.len()];
    let mut left: Vec<usize> = (0..vectors.len()).collect();
    for layer in 0.. {
        let (beaten, front): (Vec<usize>, Vec<usize>) = left
            .iter()
            .partition(|&&i| left.iter().any(|&j| beats(&vectors[j], &vectors[i])));
        for i in front {
            layers[i] = layer;
        }
        if beaten.is_empty() {
            return layers;
        }
        left = beaten;
    }
    layers
}

/// The scene, and the rule of each maneuver.
struct Scene<'a> {
    lanelets: Vec<Shape>,
    cars: Vec<Vec<Shape>>,
    maneuvers: HashMap<&'a str, Option<usize>>,
}

impl Scene<'_> {
    fn add_step(&self, vector: &mut Vector, tick: usize, ego: &Shape, maneuver: &str) {
        let present = || self.cars.iter().filter_map(|car| car.get(tick));
        let is_off = |corner: &&Point| !self.lanelets.iter().any(|lane| lane.holds(**corner));
        let gap = present().map(|car| car.gap(ego)).min();
        vector[0] += present().filter(|car| car.meets(ego)).count() as u64;
        vector[1] += ego.corners.iter().filter(is_off).count() as u64;
        vector[2] += 0.max(20_000 - gap.unwrap_or(FARTHEST)) as u64;
        if !maneuver.is_empty() {
            if let Some(rule) = self.maneuvers[maneuver] {
                vector[rule] += 1;
            }
        }
    }

    /// The name and the vector of each recording.
    fn measure<'b>(&self, records: &'b str) -> Vec<(&'b str, Vector)> {
        let mut rows = records.lines();
        let header = "name,tick,x,y,heading,speed,accel,turn,maneuver";
        assert_eq!(rows.next(), Some(header));
        let mut runs: Vec<(&str, Vector)> = Vec::new();
        for row in rows {
            let fields: Vec<&str> = row.split(',').collect();
            let [name, tick, x, y, heading, _, _, _, maneuver] = fields[..] else {
                panic!("nine fields")
            };
            if runs.last().is_none_or(|run| run.0 != name) {
                runs.push((name, [0; 5]));
            }
            let ego = rectangle((number(x, 4), number(y, 4)), number(heading, 6));
            let vector = &mut runs.last_mut().expect("a run").1;
            self.add_step(vector, number(tick, 0) as usize, &ego, maneuver);
        }
        runs
    }
}

fn told(runs: &[(&str, Vector)]) -> String {
    let vectors: Vec<Vector> = runs.iter().map(|run| run.1).collect();
    let mut text = format!("rules {}\n", RULES.join(" "));
    for ((name, vector), layer) in runs.iter().zip(layers(&vectors)) {
        let [a, b, c, d, e] = vector;
        text += &format!("{name} {layer} {a} {b} {c} {d} {e}\n");
    }
    for (i, (name, vector)) in runs.iter().enumerate() {
        for (later, other) in &runs[i + 1..] {
            text += &format!("{name} {later} {}\n", verdict(vector, other));
        }
    }
    text
}

fn main() -> std::io::Result<()> {
    let words = std::env::args().skip(1);
    let files: Vec<String> = words
        .map(std::fs::read_to_string)
        .collect::<Result<_, _>>()?;
    let (lanelets, cars) = scene(&files[0]);
    let maneuvers = maneuvers(&files[1]);
    let scene = Scene {
        lanelets,
        cars,
        maneuvers,
    };
    let text = told(&scene.measure(&files[2]));
    std::io::stdout().write_all(text.as_bytes())
}
