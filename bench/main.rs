//! Processor time of the proved calls beside the independent model and beside a plain implementation with tables of logarithms, in one
//! run, of a coin that rejects beside one that accepts, of the converter beside a plain copy, and the time of the delivery report beside that
//! of the counter; before them the memory that the proved calls take. The plain implementation checks no input; the proved calls make all
//! their checks. With two file names, plots are written there: of encoder, decoder and prover, and of the correction.
#[path = "../tests/independent/arithmetic.rs"]
mod arithmetic;
#[path = "../tests/independent/degree.rs"]
#[allow(dead_code)]
mod degree;
#[path = "../tests/independent/model.rs"]
#[allow(dead_code)]
mod model;
#[path = "../tests/independent/file.rs"]
#[allow(dead_code)]
mod file;
#[path = "../tests/independent/nearest.rs"]
#[allow(dead_code)]
mod nearest;
#[path = "../tests/independent/calls.rs"]
#[allow(dead_code)]
mod calls;
mod branch;
mod correction;
mod dimension;
mod forms;
mod gao;
mod memory;
mod plain;
mod plain_proof;
mod plot;
mod reject;
mod stored;

const MODULUS: u32 = 65581;

/// The largest dimensions, at which memory, files and the cost of a symbol of a proof are shown.
const LARGE: [usize; 3] = [12, 13, 14];

/// Processor time in microseconds, by C's own call.
fn now() -> i64 {
    extern "C" {
        fn clock() -> i64;
    }
    unsafe { clock() }
}

/// Microseconds of processor time for n turns.
fn run(f: &mut dyn FnMut(u64), n: u64) -> i64 {
    let start = now();
    (0..n).for_each(f);
    now() - start
}

/// Nanoseconds of processor time for one turn of each: the least of many runs of a millisecond or one turn, which take turns with each
/// other so that all of them see the same machine.
fn times<const N: usize>(mut fs: [&mut dyn FnMut(u64); N]) -> [f64; N] {
    let (mut turns, mut least) = ([1; N], [i64::MAX; N]);
    for (f, n) in fs.iter_mut().zip(&mut turns) {
        while run(f, *n) < 1_000 {
            *n *= 2;
        }
    }
    let (mut spent, mut rounds) = (0, 0);
    while rounds < 5 || (spent < 300_000 * N as i64 && rounds < 300) {
        for i in 0..N {
            let t = run(fs[i], turns[i]);
            least[i] = least[i].min(t);
            spent += t;
        }
        rounds += 1;
    }
    std::array::from_fn(|i| least[i] as f64 * 1000.0 / turns[i] as f64)
}

fn time(mut f: impl FnMut(u64)) -> f64 {
    times([&mut f])[0]
}

fn coin_at(k: usize, i: u64) -> u64 {
    i.wrapping_mul(0x9e3779b97f4a7c15) >> (64 - model::coin_bits(k))
}

/// The coefficients of a word of dimension k.
fn coefficients(k: usize) -> Vec<u16> {
    (0..1u32 << (k - 3)).map(|i| (i * 25717 + 11) as u16).collect()
}

fn field(basis: &[u16]) {
    let mut x = 3u32;
    println!("product with its checks, chained  {:10.1} ns", time(|_| x = calls::product(MODULUS, x as u16 | 1, 40503) & 65535));
    let (f, mut y, mut z) = (plain::Field::new(MODULUS), 3u16, 3u16);
    println!("  model                           {:10.1} ns", time(|_| y = model::mul(MODULUS, y | 1, 40503)));
    println!("  log tables                      {:10.1} ns", time(|_| z = f.mul(z | 1, 40503)));
    println!("checks 1 to 5 at l = 16, k = 12   {:10.1} ns", time(|_| assert_eq!(calls::setting(MODULUS, basis, 0), 0)));
    println!("  model                           {:10.1} ns", time(|_| assert_eq!(model::setting(MODULUS, basis, 0), 0)));
}

/// Microseconds of one operation, at some k or number of differences: proved, with log tables, by the model.
#[derive(Clone, Copy)]
pub struct Row {
    pub at: usize,
    pub proved: f64,
    pub plain: f64,
    pub model: Option<f64>,
}

impl Row {
    /// From nanoseconds.
    fn new(at: usize, proved: f64, plain: f64, model: Option<f64>) -> Row {
        Row { at, proved: proved / 1000.0, plain: plain / 1000.0, model: model.map(|ns| ns / 1000.0) }
    }
}

fn table(name: &str, at: &str, rows: &[Row]) {
    println!("\n{name} (microseconds)\n{at:>4}      proved  log tables       ratio       model");
    for r in rows {
        let model = r.model.map_or("-".to_string(), |x| format!("{x:.1}"));
        println!("{:4} {:11.2} {:11.2} {:11.2} {model:>11}", r.at, r.proved, r.plain, r.proved / r.plain);
    }
}

fn main() {
    let basis: Vec<u16> = (0..plain::MAX).map(|i| 1 << i).collect();
    memory::all(&basis);
    field(&basis[..12]);
    branch::all();
    let f = plain::Field::new(MODULUS);
    let encoding = dimension::all(&f, &basis);
    reject::all(&basis);
    let corrections = correction::all(&f, &basis);
    stored::all(&f, &basis);
    for (path, charts) in std::env::args().skip(1).zip([&[encoding][..], &corrections]) {
        std::fs::write(&path, plot::draw(charts)).expect("the plot can be written");
        println!("plot: {path}");
    }
}
