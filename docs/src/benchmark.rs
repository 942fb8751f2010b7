//! The engine against the plain program: the same calls, the same answers, cells and values, and what each costs.
//!
//!     benchmark            a table: time and instructions of both, and their ratios
//!     benchmark counts     instructions alone, a line a call (needs valgrind); the call for coefficients beside the engine's own build
//!     benchmark threads    sheets a second on one core and on all
//!     benchmark scipy      the same positions through scipy's BSpline too (from the repository's root; needs python3-scipy)
//!
//! Every mode first checks that both give the same, and stops where they do not.

mod plain;
#[allow(dead_code)] // the benchmark needs some of the calls
#[path = "../../rust/src/lib.rs"]
mod walzhik;

use plain::{Refusal, Space, CELLS};
use std::hint::black_box;
use std::io::Write;
use std::path::Path;
use std::process::{exit, Command, Stdio};
use std::time::{Duration, Instant};
use walzhik::raw::{walzhik_build, walzhik_coefficients, walzhik_curve, Reply};

const PART_SEGMENTS: usize = 12;
const BEAM_SEGMENTS: usize = 48;
const CORE_SEGMENTS: usize = 6;
const MOST_COLUMNS: usize = 6 * BEAM_SEGMENTS;
const MAX_POSITIONS: usize = 4096;
/// The lengths of the segments of a part, in rings.
const LENGTHS: [i32; PART_SEGMENTS] = [20, 30, 20, 40, 30, 20, 20, 30, 40, 20, 30, 20];
/// The degrees of the segments of mixed spaces, over and over; a join has the highest order that both sides allow.
const MIXED_DEGREES: [i32; 8] = [1, 2, 3, 4, 5, 3, 4, 2];
const MAX_ORDER: i32 = 2;
const DISCONTINUITY: i32 = -1;
const FIRST_BREAK: i32 = -100;
/// 256ths of a ring.
const FINE: i32 = 256;
const CORE_RINGS: usize = 200;
/// The segment that holds the positions of the pattern "one segment"; where degrees are mixed its degree is 1.
const ONE_SEGMENT: usize = 8;
const ROUNDS: usize = 201;
/// The slope of the straight line whose coefficients are recovered: a multiple of every degree, so that its ordinates are whole.
const LINE_SLOPE: i32 = 60;

// ---- the engine

fn answer(reply: Reply) -> Result<usize, Refusal> {
    if reply.number == 0 { Ok(reply.count as usize) } else { Err((reply.number, reply.place)) }
}

// ---- a call

#[derive(Clone, Copy, PartialEq)]
enum Pattern {
    Scattered,
    Rising,
    OneSegment,
    /// The end of every ring, as for a core.
    Rings,
}

impl Pattern {
    const ALL: [Pattern; 3] = [Pattern::Scattered, Pattern::Rising, Pattern::OneSegment];

    fn name(self) -> &'static str {
        match self {
            Pattern::Scattered => "scattered",
            Pattern::Rising => "rising",
            Pattern::OneSegment => "one-segment",
            Pattern::Rings => "rings",
        }
    }
}

/// One degree and one order throughout, or mixed degrees.
#[derive(Clone, Copy)]
enum Kind {
    Uniform(i32, i32),
    Mixed,
}

/// Every `part_segments`-th join is a discontinuity; no positions is a build.
#[derive(Clone, Copy)]
struct Shape {
    kind: Kind,
    segments: usize,
    part_segments: usize,
    positions: usize,
    pattern: Pattern,
}

impl Shape {
    fn parts(&self) -> usize {
        self.segments.div_ceil(self.part_segments)
    }

    fn kind_name(&self) -> String {
        match self.kind {
            Kind::Uniform(degree, order) => format!("degree {degree} order {order}"),
            Kind::Mixed => "mixed degrees".to_string(),
        }
    }

    fn call_name(&self) -> String {
        match self.positions {
            0 => "build".to_string(),
            positions => format!("curve {positions} {}", self.pattern.name()),
        }
    }

    fn name(&self) -> String {
        format!("{} segments {} parts {} {}", self.kind_name(), self.segments, self.parts(), self.call_name())
    }
}

/// A row of numbers that looks random and is the same in every run.
struct Mixer(u64);

impl Mixer {
    fn below(&mut self, limit: i32) -> i32 {
        self.0 = self.0.wrapping_mul(6364136223846793005).wrapping_add(1442695040888963407);
        ((self.0 >> 33) % limit as u64) as i32
    }
}

#[derive(Clone)]
struct Call {
    breaks: Vec<i32>,
    degrees: Vec<i32>,
    orders: Vec<i32>,
    coefs: Vec<i32>,
    positions: Vec<i32>,
    ordinates: Vec<i32>,
}

impl Call {
    fn new(shape: &Shape) -> Call {
        let mut mixer = Mixer(14);
        let mut breaks = vec![FIRST_BREAK];
        for i in 0..shape.segments {
            breaks.push(match shape.pattern {
                Pattern::Rings => FIRST_BREAK + ((i + 1) * CORE_RINGS / shape.segments) as i32,
                _ => breaks[i] + LENGTHS[i % PART_SEGMENTS],
            });
        }
        let degrees: Vec<i32> = (0..shape.segments)
            .map(|i| match shape.kind {
                Kind::Uniform(degree, _) => degree,
                Kind::Mixed => MIXED_DEGREES[i % MIXED_DEGREES.len()],
            })
            .collect();
        let orders: Vec<i32> = (1..shape.segments)
            .map(|i| match shape.kind {
                _ if i % shape.part_segments == 0 => DISCONTINUITY,
                Kind::Uniform(_, order) => order,
                Kind::Mixed => (degrees[i - 1].min(degrees[i]) - 1).min(MAX_ORDER),
            })
            .collect();
        let rows: i32 = degrees.iter().map(|p| p + 1).sum::<i32>() - orders.iter().map(|r| r + 1).sum::<i32>();
        let coefs = (0..2 * rows).map(|_| mixer.below(4_000) - 1_000).collect();
        let positions = positions(shape, &breaks, &mut mixer);
        let ordinates = line_ordinates(&breaks, &degrees);
        Call { breaks, degrees, orders, coefs, positions, ordinates }
    }
}

/// The local ordinates of a straight line, which every space holds.
fn line_ordinates(breaks: &[i32], degrees: &[i32]) -> Vec<i32> {
    let segment = |(i, &degree): (usize, &i32)| {
        let rise = LINE_SLOPE * (breaks[i + 1] - breaks[i]);
        let start = LINE_SLOPE * breaks[i];
        (0..=degree).map(move |k| start + rise / degree * k)
    };
    degrees.iter().enumerate().flat_map(segment).collect()
}

fn positions(shape: &Shape, breaks: &[i32], mixer: &mut Mixer) -> Vec<i32> {
    let (from, to) = match shape.pattern {
        Pattern::OneSegment => (breaks[ONE_SEGMENT], breaks[ONE_SEGMENT + 1]),
        _ => (breaks[0], breaks[shape.segments]),
    };
    if shape.pattern == Pattern::Rings {
        return (from + 1..=to).map(|ring| FINE * ring).take(shape.positions).collect();
    }
    let mut positions: Vec<i32> = (0..shape.positions).map(|_| FINE * from + mixer.below(FINE * (to - from))).collect();
    if shape.pattern == Pattern::Rising {
        positions.sort();
    }
    positions
}

// ---- both programs on it

/// What a call is lent and what it answers.
#[derive(PartialEq)]
struct Lent {
    num: Vec<i64>,
    den: Vec<i64>,
    values: Vec<i32>,
    coef_num: Vec<i64>,
    coef_den: Vec<i64>,
    answer: Result<usize, Refusal>,
}

impl Lent {
    fn new() -> Lent {
        Lent {
            num: vec![7; CELLS],
            den: vec![7; CELLS],
            values: vec![7; 2 * MAX_POSITIONS],
            coef_num: vec![7; MOST_COLUMNS],
            coef_den: vec![7; MOST_COLUMNS],
            answer: Err((0, 0)),
        }
    }
}

/// The engine on a call.
fn on_engine(call: &Call, lent: &mut Lent) {
    let Call { breaks, degrees, orders, coefs, positions, .. } = call;
    let Lent { num, den, values, .. } = lent;
    // SAFETY: every pointer comes from a live vector with the length given beside it; the three buffers are vectors of their
    // own, so that none overlaps another or a list, and the calls keep no pointer.
    lent.answer = answer(unsafe {
        if positions.is_empty() {
            walzhik_build(
                breaks.as_ptr(), breaks.len(), degrees.as_ptr(), degrees.len(), orders.as_ptr(), orders.len(), num.as_mut_ptr(),
                num.len(), den.as_mut_ptr(), den.len(),
            )
        } else {
            walzhik_curve(
                breaks.as_ptr(), breaks.len(), degrees.as_ptr(), degrees.len(), orders.as_ptr(), orders.len(), coefs.as_ptr(),
                coefs.len(), positions.as_ptr(), positions.len(), num.as_mut_ptr(), num.len(), den.as_mut_ptr(), den.len(),
                values.as_mut_ptr(), values.len(),
            )
        }
    });
}

/// The engine's call for coefficients on the space of a call. The plain program has none.
fn on_coefficients(call: &Call, lent: &mut Lent) {
    let Call { breaks, degrees, orders, ordinates, .. } = call;
    let Lent { num, den, coef_num, coef_den, .. } = lent;
    // SAFETY: as for the other calls; the four buffers are vectors of their own.
    lent.answer = answer(unsafe {
        walzhik_coefficients(
            breaks.as_ptr(), breaks.len(), degrees.as_ptr(), degrees.len(), orders.as_ptr(), orders.len(), ordinates.as_ptr(),
            ordinates.len(), num.as_mut_ptr(), num.len(), den.as_mut_ptr(), den.len(), coef_num.as_mut_ptr(), coef_num.len(),
            coef_den.as_mut_ptr(), coef_den.len(),
        )
    });
}

/// The plain program on a call.
fn on_plain(call: &Call, lent: &mut Lent) {
    let Call { breaks, degrees, orders, coefs, positions, .. } = call;
    let space = Space { breaks, degrees, orders };
    let Lent { num, den, values, .. } = lent;
    lent.answer = match positions.is_empty() {
        true => plain::build(space, num, den),
        false => plain::curve(space, coefs, positions, num, den, values),
    };
}

type Program = fn(&Call, &mut Lent);
const PROGRAMS: [Program; 2] = [on_engine, on_plain];
/// The call for coefficients, and the engine's own build of the same space.
const RECOVERY: [Program; 2] = [on_coefficients, on_engine];

/// Both programs give the same answer, cells and values, and accept the call.
fn check_same(shape: &Shape) {
    let call = Call::new(shape);
    let [engine, plain] = PROGRAMS.map(|program| {
        let mut lent = Lent::new();
        program(&call, &mut lent);
        lent
    });
    if engine != plain || engine.answer.is_err() {
        eprintln!("{}: the engine answers {:?}, the plain program {:?}", shape.name(), engine.answer, plain.answer);
        eprintln!("the cells or the values differ, or the call is refused");
        exit(1);
    }
}

/// The call for coefficients is accepted, and leaves the weights that the build leaves.
fn check_recovery(shape: &Shape) {
    let call = Call::new(shape);
    let [recovered, built] = RECOVERY.map(|program| {
        let mut lent = Lent::new();
        program(&call, &mut lent);
        lent
    });
    if recovered.answer.is_err() || recovered.answer != built.answer || recovered.num != built.num || recovered.den != built.den {
        eprintln!("{}: the call for coefficients ends with {:?}, the build with {:?}", shape.name(), recovered.answer, built.answer);
        eprintln!("or the weights differ");
        exit(1);
    }
}

// ---- the shapes measured

/// The degrees 1 to 5 with the orders 0 to 2 that each allows.
fn kinds() -> impl Iterator<Item = Kind> {
    (1..=5).flat_map(|degree| (0..degree.min(3)).map(move |order| Kind::Uniform(degree, order)))
}

/// A build of 12 segments in one part.
fn full(kind: Kind) -> Shape {
    Shape { kind, segments: PART_SEGMENTS, part_segments: PART_SEGMENTS, positions: 0, pattern: Pattern::Scattered }
}

/// A build, and a curve call for each pattern.
fn rows_of(build: Shape) -> Vec<Shape> {
    let curves = Pattern::ALL.map(|pattern| Shape { positions: MAX_POSITIONS, pattern, ..build });
    [vec![build], curves.to_vec()].concat()
}

/// Every degree and order; mixed degrees, also with three discontinuities, also as a beam of 48; and a core.
fn table_shapes() -> Vec<Shape> {
    let mixed = full(Kind::Mixed);
    let cut = Shape { part_segments: PART_SEGMENTS / 4, ..mixed };
    let beam = Shape { segments: BEAM_SEGMENTS, ..mixed };
    let core = Shape { segments: CORE_SEGMENTS, pattern: Pattern::Rings, ..full(Kind::Uniform(3, 1)) };
    let spaces = kinds().map(full).chain([mixed, cut, beam]);
    spaces.flat_map(rows_of).chain([core, Shape { positions: CORE_RINGS, ..core }]).collect()
}

/// Builds of 2 to 12 segments, curve calls of 256 to 4,096 positions, and beams of 48 in 4 to 48 parts.
fn growth_shapes() -> Vec<Shape> {
    let mut shapes = Vec::new();
    for (degree, order) in [(1, 0), (3, 1), (5, 2)] {
        let build = full(Kind::Uniform(degree, order));
        shapes.extend([2, 4, 6, 8, 10, 12].map(|segments| Shape { segments, ..build }));
        shapes.extend([256, 512, 1024, 2048, 4096].map(|positions| Shape { positions, ..build }));
        let beams = [12, 6, 4, 2, 1].map(|part_segments| Shape { segments: BEAM_SEGMENTS, part_segments, ..build });
        shapes.extend(beams.iter().flat_map(|beam| [*beam, Shape { positions: MAX_POSITIONS, ..*beam }]));
    }
    shapes
}

fn all_shapes() -> Vec<Shape> {
    [table_shapes(), growth_shapes()].concat()
}

/// The spaces whose coefficients are recovered: 12 segments of one degree and order, of mixed degrees, and a beam of 48 in 4 parts.
fn recovery_shapes() -> Vec<Shape> {
    let uniform = [(1, 0), (3, 1), (3, 2), (5, 2)].map(|(degree, order)| full(Kind::Uniform(degree, order)));
    let mixed = full(Kind::Mixed);
    [uniform.to_vec(), vec![mixed, Shape { segments: BEAM_SEGMENTS, ..mixed }]].concat()
}

/// Every call that is counted, on its two programs.
fn counted_calls() -> Vec<(Shape, [Program; 2])> {
    let both = all_shapes().into_iter().map(|shape| (shape, PROGRAMS));
    both.chain(recovery_shapes().into_iter().map(|shape| (shape, RECOVERY))).collect()
}

// ---- time

/// The least times of both programs in microseconds, taken in turns.
fn times(shape: &Shape) -> [f64; 2] {
    let call = Call::new(shape);
    let mut lent = PROGRAMS.map(|_| Lent::new());
    let mut least = PROGRAMS.map(|_| Duration::MAX);
    for _ in 0..ROUNDS {
        for ((program, lent), least) in PROGRAMS.iter().zip(&mut lent).zip(&mut least) {
            let start = Instant::now();
            program(black_box(&call), black_box(lent));
            *least = start.elapsed().min(*least);
        }
    }
    least.map(|time| time.as_secs_f64() * 1e6)
}

// ---- instructions

/// One call of one program; callgrind counts what is done under this name.
#[no_mangle]
#[inline(never)]
fn counted_call(program: Program, call: &Call, lent: &mut Lent) {
    program(call, lent);
    black_box(lent);
}

/// Runs each call once on each program, for callgrind to count.
fn run_calls() {
    let mut lent = Lent::new();
    for (shape, programs) in counted_calls() {
        let call = Call::new(&shape);
        programs.iter().for_each(|program| counted_call(black_box(*program), &call, &mut lent));
    }
}

/// Callgrind counts a string store or move of the C library once for each byte: with this it clears and moves by plain stores.
const PLAIN_STORES: (&str, &str) =
    ("GLIBC_TUNABLES", "glibc.cpu.x86_rep_stosb_threshold=100000000:glibc.cpu.x86_rep_movsb_threshold=100000000");

/// Runs `benchmark calls` under callgrind with its profiles in the folder; false where that fails.
fn profile_calls(folder: &Path) -> bool {
    let Ok(this) = std::env::current_exe() else { return false };
    let profile = folder.join("profile");
    let mut valgrind = Command::new("valgrind");
    valgrind.args(["-q", "--tool=callgrind", "--collect-atstart=no", "--toggle-collect=counted_call", "--dump-after=counted_call"]);
    valgrind.arg(format!("--callgrind-out-file={}", profile.display())).arg(this).arg("calls");
    valgrind.env(PLAIN_STORES.0, PLAIN_STORES.1);
    valgrind.status().is_ok_and(|status| status.success())
}

/// The instructions in the profile of one counted call; the first call's is 1.
fn profiled(folder: &Path, call: usize) -> Option<u64> {
    let text = std::fs::read_to_string(folder.join(format!("profile.{call}"))).ok()?;
    text.lines().find_map(|line| line.strip_prefix("totals: "))?.parse().ok()
}

/// The instructions of both programs for each counted call; none without valgrind.
fn instructions() -> Option<Vec<[u64; 2]>> {
    let folder = std::env::temp_dir().join(format!("walzhik-benchmark-{}", std::process::id()));
    std::fs::create_dir_all(&folder).ok()?;
    let counts = match profile_calls(&folder) {
        true => (0..counted_calls().len()).map(|k| Some([profiled(&folder, 2 * k + 1)?, profiled(&folder, 2 * k + 2)?])).collect(),
        false => None,
    };
    std::fs::remove_dir_all(&folder).ok()?;
    counts
}

fn print_counts() {
    let Some(counts) = instructions() else {
        eprintln!("valgrind's callgrind counted nothing");
        exit(2);
    };
    let shapes = all_shapes();
    for (shape, [engine, plain]) in shapes.iter().zip(&counts) {
        println!("{}: {engine} {plain}", shape.name());
    }
    for (shape, [recovered, built]) in recovery_shapes().iter().zip(&counts[shapes.len()..]) {
        println!("{} segments {} parts {} coefficients: {recovered} {built}", shape.kind_name(), shape.segments, shape.parts());
    }
}

fn print_table() {
    let counts = instructions();
    println!("| Space | Call | Engine, µs | Plain, µs | Ratio | Engine, instructions | Plain, instructions | Ratio |");
    println!("|---|---|---|---|---|---|---|---|");
    for (k, shape) in table_shapes().iter().enumerate() {
        let [engine, plain] = times(shape);
        let space = format!("{}, {} segments, {} parts", shape.kind_name(), shape.segments, shape.parts());
        print!("| {space} | {} | {engine:.1} | {plain:.1} | {:.2} |", shape.call_name(), engine / plain);
        if let Some(counts) = &counts {
            let [engine, plain] = counts[k];
            print!(" {engine} | {plain} | {:.2} |", engine as f64 / plain as f64);
        }
        println!();
    }
    if counts.is_none() {
        println!("(valgrind is missing: no instructions)");
    }
}

// ---- scipy

const BSPLINE: &str = "docs/src/bspline_speed.py";

/// What bspline_speed.py reads of a call.
fn bspline_lines(shape: &Shape) -> Option<String> {
    let Kind::Uniform(degree, order) = shape.kind else { return None };
    let Call { breaks, positions, .. } = Call::new(shape);
    let [breaks, positions] = [breaks, positions].map(|list| list.iter().map(i32::to_string).collect::<Vec<_>>().join(" "));
    Some(format!("{degree} {order}\n{breaks}\n{positions}\n"))
}

/// The least times of BSpline in microseconds, one for each shape; none where Python or scipy fails.
fn bspline_times(shapes: &[Shape]) -> Option<Vec<f64>> {
    let text = shapes.iter().map(bspline_lines).collect::<Option<String>>()?;
    let mut python = Command::new("/usr/bin/python3").arg(BSPLINE).stdin(Stdio::piped()).stdout(Stdio::piped()).spawn().ok()?;
    python.stdin.take()?.write_all(text.as_bytes()).ok()?;
    let output = python.wait_with_output().ok().filter(|output| output.status.success())?;
    String::from_utf8(output.stdout).ok()?.lines().map(|line| line.parse().ok()).collect()
}

fn print_scipy() {
    let shapes = [(1, 0), (3, 2), (5, 2)].map(|(degree, order)| Shape { positions: MAX_POSITIONS, ..full(Kind::Uniform(degree, order)) });
    let Some(bspline) = bspline_times(&shapes) else {
        eprintln!("{BSPLINE} gave no times: run from the repository's root, with python3-scipy installed");
        exit(2);
    };
    println!("| Space | Engine, both woods, weights built, µs | Plain, the same, µs | BSpline, one curve ready-built, µs |");
    println!("|---|---|---|---|");
    for (shape, one_curve) in shapes.iter().zip(bspline) {
        let [engine, plain] = times(shape);
        println!("| {}, {} | {engine:.0} | {plain:.0} | {one_curve:.0} |", shape.kind_name(), shape.call_name());
    }
}

// ---- all cores

/// One after another, `sheets` curve calls of each of the kinds; true if every one left what the first did.
fn archive(sheets: usize) -> bool {
    let calls: Vec<Call> = kinds()
        .map(|kind| Call::new(&Shape { positions: MAX_POSITIONS, ..full(kind) }))
        .collect();
    let expected: Vec<Lent> = calls
        .iter()
        .map(|call| {
            let mut lent = Lent::new();
            on_plain(call, &mut lent);
            lent
        })
        .collect();
    let mut lent = Lent::new();
    (0..sheets).all(|k| {
        let at = k % calls.len();
        on_engine(&calls[at], &mut lent);
        lent == expected[at]
    })
}

fn print_threads() {
    const SHEETS: usize = 6_000;
    let cores = std::thread::available_parallelism().map_or(1, |count| count.get());
    println!("threads  sheets a second");
    for threads in if cores == 1 { vec![1] } else { vec![1, cores] } {
        let start = Instant::now();
        let same = std::thread::scope(|scope| {
            let running: Vec<_> = (0..threads).map(|_| scope.spawn(|| archive(SHEETS))).collect();
            running.into_iter().all(|thread| thread.join().unwrap_or(false))
        });
        if !same {
            eprintln!("{threads} threads: an answer differs");
            exit(1);
        }
        println!("{threads:7}  {:.0}", (threads * SHEETS) as f64 / start.elapsed().as_secs_f64());
    }
}

fn main() {
    let mode = std::env::args().nth(1);
    if mode.as_deref() == Some("calls") {
        return run_calls();
    }
    all_shapes().iter().for_each(check_same);
    recovery_shapes().iter().for_each(check_recovery);
    match mode.as_deref() {
        None => print_table(),
        Some("counts") => print_counts(),
        Some("threads") => print_threads(),
        Some("scipy") => print_scipy(),
        Some(_) => {
            eprintln!("usage: benchmark [counts | threads | scipy]");
            exit(2);
        }
    }
}
