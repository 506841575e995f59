//! The size of the scratch at every dimension: too short by one symbol or by more, just enough, and more than that. What is enough for encoder,
//! decoder and prover is not enough for correction.
use crate::correction::same;
use crate::largest::{delivery, gives, Call, Delivery};
use crate::model::{CORRECTION_SCRATCH, SCRATCH};
use crate::{calls, Draw, Met, Shifts, Tally};

/// A call, what it is given, the same with one symbol changed and with one out of range where there are such numbers, and its output.
type Lent<'a> = (Call, [&'a [u16]; 3], &'a [u16]);

/// Encoder, decoder and prover on the delivery, from all the sizes; on damaged lists, and on one that is too short, from those around the
/// least one.
fn three_calls(d: &mut Draw, y: &Delivery, mut seen: impl FnMut(u32, bool)) {
    let (n, l, least) = (1 << y.k, y.x.s.l, SCRATCH << y.k);
    let at = d.below(1 << (y.k - 3)) as usize;
    let damaged = |xs: &[u16], mask: u32| {
        let mut xs = xs.to_vec();
        xs[at] ^= mask as u16;
        xs
    };
    let (word, list) = (&y.x.w[..], &y.p[..]);
    let [off, high, high_list] = [damaged(word, 1), damaged(word, 1 << l), damaged(list, 1 << l)];
    let calls: [Lent; 3] = [
        (calls::encode, [list, list, &high_list], word),
        (calls::decode, [word, &off, &high], list),
        (calls::prove, [word, &off, &high], &y.x.proof),
    ];
    for (call, [given, changed, outside], right) in calls {
        let mut try_one = |given: &[u16], past: u32, room: usize| {
            let number = if past != 6 && room < least { 7 } else { past };
            seen(number, gives(d, y, call, given, number, right, room));
        };
        for room in [0, 1, n - 1, n, least - 1, least, least + 1, 3 * n, 4 * n - 1, 4 * n, 4 * n + 5] {
            try_one(given, 0, room);
        }
        for room in [least - 1, least, 4 * n + 5] {
            try_one(changed, if changed == given { 0 } else { 10 }, room);
            try_one(outside, if outside == given { 0 } else { 9 }, room);
            try_one(&given[1..], 6, room);
        }
    }
}

/// Correction on the delivery's word, which is its own.
fn correction(d: &mut Draw, y: &Delivery, mut seen: impl FnMut(u32, bool)) {
    let (w, least) = (&y.x.w, CORRECTION_SCRATCH << y.k);
    for room in [0, w.len(), SCRATCH << y.k, 4 * w.len(), least - 1, least, least + 5] {
        let (number, old, work) = (if room < least { 7 } else { 0 }, d.list(w.len(), 65536), d.list(room, 65536));
        seen(number, same(&y.x.s, w, number, w.clone(), &old, &work));
    }
}

pub fn sizes(t: &mut Tally, name: &str, d: &mut Draw, y: &Delivery) {
    let (mut wrong, mut met) = (0, Met::default());
    let mut seen = |number: u32, good: bool| {
        wrong += u64::from(!good);
        met.add(number);
    };
    three_calls(d, y, &mut seen);
    correction(d, y, &mut seen);
    t.answers(&format!("sizes of the scratch {name}"), wrong, &met, if y.x.s.l < 16 { &[0, 6, 7, 9, 10] } else { &[0, 6, 7, 10] });
}

/// The lower dimensions; the others are tried on the deliveries of `largest` and `columns`.
pub fn all(t: &mut Tally, shifts: Shifts) {
    let mut d = Draw(0x1f83d9abfb41bd6b);
    for k in 3..=7 {
        let y = delivery(&mut d, shifts, k);
        sizes(t, &shifts.name(&format!("at k = {k}")), &mut d, &y);
    }
}
