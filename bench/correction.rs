//! Processor time of the proved correction beside Gao's decoder with tables of logarithms.
use crate::plain::{Field, Space, MAX};
use crate::plot::{Chart, Line};
use crate::{calls, gao, nearest, plain, table, time, times, Row, MODULUS};

/// The damage that is measured at k = 12, about four times more in each step; the last is the radius.
const DAMAGE: [usize; 6] = [0, 5, 25, 100, 400, 1792];

/// The damage that is measured at each k, by the length of the word, and where its name stands beside its line.
const AT_EACH_K: [(&str, fn(usize) -> usize, f64); 3] =
    [("0 differences", |_| 0, 8.0), ("5 differences", |_| 5, -8.0), ("7n/16 differences", |n| 7 * n / 16, 0.0)];

fn noise(i: usize) -> u16 {
    ((i as u64 + 1).wrapping_mul(0x9e3779b97f4a7c15) >> 40) as u16
}

/// The word of a polynomial.
fn codeword(f: &Field, basis: &[u16]) -> Vec<u16> {
    let p: Vec<u16> = (0..1usize << (basis.len() - 3)).map(noise).collect();
    plain::encode(f, &Space::new(f, basis), &p)
}

/// A word with so many symbols changed.
pub fn damaged(word: &[u16], count: usize) -> Vec<u16> {
    let mut w = word.to_vec();
    (0..count).for_each(|i| w[i * 40503 % word.len()] ^= noise(i) | 1);
    w
}

/// Microseconds of the correction of a word whose answer is known: proved, with log tables, and by the model where it is quick enough.
fn correction(f: &Field, basis: &[u16], w: &[u16], near: Option<(Vec<u16>, usize)>, at: usize) -> Row {
    let (n, space) = (w.len(), Space::new(f, basis));
    let (mut out, mut s) = (vec![0; n], vec![0; 16 * n]);
    let answer = near.as_ref().map_or(65536 + 13, |x| x.1 as u64);
    let [proved, fast] = times([
        &mut |_| assert_eq!(calls::correct(MODULUS, basis, 0, w, &mut out, &mut s), answer),
        &mut |_| assert_eq!(gao::correct(f, &space, w), near),
    ]);
    let right = near.map(|x| x.0);
    assert!(right.as_ref().map_or(true, |c| *c == out));
    let model = (n <= 256).then(|| time(|_| assert_eq!(nearest::nearest(MODULUS, basis, 0, w), right)));
    Row::new(at, proved, fast, model)
}

fn with_damage(f: &Field, basis: &[u16], count: usize, at: usize) -> Row {
    let c = codeword(f, basis);
    correction(f, basis, &damaged(&c, count), Some((c, count)), at)
}

/// The decoder and the correction of an undamaged word, in turns.
fn undamaged(f: &Field, basis: &[u16]) {
    let (c, space) = (codeword(f, basis), Space::new(f, basis));
    let n = c.len();
    let (mut p, mut out, mut s) = (vec![0; n / 8], vec![0; n], vec![0; 16 * n]);
    let mut t = s.clone();
    let [decode, plain_decode, correct, plain_correct] = times([
        &mut |_| assert_eq!(calls::decode(MODULUS, basis, 0, &c, &mut p, &mut s), 0),
        &mut |_| assert!(plain::decode(f, &space, &c).is_some()),
        &mut |_| assert_eq!(calls::correct(MODULUS, basis, 0, &c, &mut out, &mut t), 0),
        &mut |_| assert!(gao::correct(f, &space, &c).is_some()),
    ]);
    println!("an undamaged word at k = 12, decoded: proved {:.1}, log tables {:.1} microseconds;", decode / 1000.0, plain_decode / 1000.0);
    println!("  corrected, in decodings: proved {:.2}, log tables {:.2}", correct / decode, plain_correct / plain_decode);
}

/// The tables of correction, and its charts: against damage at k = 12, and against k.
pub fn all(f: &Field, basis: &[u16]) -> [Chart; 2] {
    let at_12 = &basis[..12];
    let damage: Vec<Row> = DAMAGE.iter().map(|e| with_damage(f, at_12, *e, *e)).collect();
    table("correction, with log tables by Gao's decoder, against the number of differences at k = 12", "off", &damage);
    let far: Vec<u16> = (0..4096).map(|i| noise(i * i + 7)).collect();
    let r = correction(f, at_12, &far, None, 0);
    println!("no near codeword (13) at k = 12: proved {:.1}, log tables {:.1}, ratio {:.2}", r.proved, r.plain, r.proved / r.plain);
    undamaged(f, at_12);

    let against_k = AT_EACH_K.map(|(name, count, shift)| {
        let rows: Vec<Row> = (7..=MAX).map(|k| with_damage(f, &basis[..k], count(1 << k), k)).collect();
        table(&format!("correction with {name}"), "k", &rows);
        Line { name, rows, shift }
    });
    let against_damage = vec![Line { name: "correct", rows: damage, shift: 0.0 }];
    let title = |axis| format!("Correction at l = 16 against {axis}: solid proved, dashed with log tables");
    [
        Chart { title: title("differences, k = 12"), axis: "", lines: against_damage },
        Chart { title: title("k"), axis: "k = ", lines: against_k.into() },
    ]
}
