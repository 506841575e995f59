//! The delivery report: the program on whole streams, whose files have either form, beside the independent model.
use crate::entries::{any_form, cut, head, large, noise};
use crate::file::Form;
use crate::files::{bytes, damaged_file, delivery, delivery_in, samples};
use crate::stream::{entries, report, Known, FILES};
use crate::{damage, file, setting, setting_of, Draw, Met, Setting, Tally};
use std::io::{ErrorKind, Write};
use std::process::{Child, Command, Output, Stdio};
use std::time::Duration;

/// Writes the stream in pieces of any length, with pauses, so that reads come short. The program may stop reading before the end, so
/// the draws are apart from all others: how many they are depends on the time.
fn feed(mut d: Draw, program: &mut Child, stream: &[u8]) {
    let mut to = program.stdin.take().expect("the program has an input");
    let longest = [6, 300, 5000, 50000][d.below(4) as usize].max(stream.len() as u64 / 60);
    let mut rest = stream;
    while !rest.is_empty() {
        let (piece, more) = rest.split_at((1 + d.below(longest) as usize).min(rest.len()));
        match to.write_all(piece) {
            Err(e) if e.kind() == ErrorKind::BrokenPipe => return,
            written => written.expect("the stream can be written"),
        }
        if d.below(8) == 0 {
            std::thread::sleep(Duration::from_micros(50));
        }
        rest = more;
    }
}

fn run(d: Draw, stream: &[u8]) -> Output {
    let mut command = Command::new("target/bin/delivery_report");
    command.stdin(Stdio::piped()).stdout(Stdio::piped()).stderr(Stdio::piped());
    let mut program = command.spawn().expect("target/bin/delivery_report can be run");
    feed(d, &mut program, stream);
    program.wait_with_output().expect("the program ends")
}

/// The files that streams are made of, and how the program did with the streams of one group.
struct Streams {
    d: Draw,
    /// accepted files by dimension less 3, four of each in form 1, then four in form 2: of four the second has a damaged word, the
    /// third a damaged proof
    files: Vec<Vec<Vec<u8>>>,
    known: Known,
    wrong: u64,
    met: Met,
}

impl Streams {
    fn new() -> Streams {
        let mut d = Draw(0x7137449123ef65cd);
        let mut accepted = |k, i| {
            let mut x = delivery(&mut d, if i < 4 { Form::One } else { Form::Two }, k);
            match i % 4 {
                1 => damage(&mut d, &mut x.w, 1 << x.s.l),
                2 => damage(&mut d, &mut x.proof, 1 << x.s.l),
                _ => {}
            }
            bytes(&x)
        };
        let files = (3..=8).map(|k| (0..8).map(|i| accepted(k, i)).collect()).collect();
        Streams { d, files, known: Known::new(), wrong: 0, met: Met::default() }
    }

    /// A file of one of the first dimensions.
    fn any(&mut self, dims: u64) -> Vec<u8> {
        self.files[self.d.below(dims) as usize][self.d.below(8) as usize].clone()
    }

    /// Files of the first dimensions.
    fn some(&mut self, n: usize, dims: u64) -> Vec<u8> {
        (0..n).flat_map(|_| self.any(dims)).collect()
    }

    /// Compares what the program prints with the model's text, and the model's refusal with the place and the number that are known, if
    /// any. The number goes into the table.
    fn compare(&mut self, stream: &[u8], refused: Option<(usize, u32)>) {
        let found = entries(stream, &mut self.known);
        let number = found.last().and_then(|e| e.err()).unwrap_or(0);
        self.met.add(number);
        let out = run(Draw(self.d.next()), stream);
        let good = out.status.success() && out.stderr.is_empty() && out.stdout == report(&found).as_bytes();
        let place = if number == 0 { 0 } else { found.len() };
        let wrong = !good || refused.is_some_and(|r| r != (place, number));
        if wrong {
            println!("  differs: {} bytes, {} files, refused {place} {number}, known {refused:?}", stream.len(), found.len());
        }
        self.wrong += u64::from(wrong);
    }

    fn end(&mut self, t: &mut Tally, name: &str, expected: &[u32]) {
        t.answers(name, self.wrong, &self.met, expected);
        (self.wrong, self.met) = (0, Met::default());
    }
}

/// One byte of the paper's file, in either form, changed: where, to what, and the number.
const IN_FORM_ONE: [(usize, u8, u32); 22] = [
    (0, 0, 11), (1, 0x32, 4), (2, 7, 1), (4, 2, 1), (2, 15, 2), (6, 0, 3), (6, 15, 3), (6, 255, 3), (6, 8, 4), (6, 13, 4), (6, 14, 4),
    (8, 1, 4), (11, 3, 5), (13, 0, 11), (14, 0x32, 11), (15, 7, 12), (19, 8, 9), (34, 1, 9), (35, 0, 11), (36, 0x32, 11),
    (37, 1, 12), (40, 1, 12),
];
const IN_FORM_TWO: [(usize, u8, u32); 23] = [
    (0, 0, 11), (1, 0x45, 11), (2, 7, 1), (4, 2, 1), (2, 15, 2), (6, 0, 3), (6, 15, 3), (6, 255, 3), (6, 8, 4), (6, 13, 4), (8, 1, 4),
    (11, 3, 5), (13, 8, 4), (14, 1, 4), (15, 0, 11), (16, 0x4f, 11), (17, 7, 12), (21, 8, 9), (28, 255, 9), (29, 0, 11), (30, 0x46, 11),
    (31, 1, 12), (34, 1, 12),
];

/// The file with the byte changed stands alone and between others.
fn changed(s: &mut Streams, form: Form, edits: &[(usize, u8, u32)]) {
    let right = file::bytes_of(form, 11, &[1, 2, 4], 0, &[5; 8], &[]);
    for (at, to, number) in edits {
        let mut f = right.clone();
        f[*at] = *to;
        s.compare(&f, Some((1, *number)));
        s.compare(&[&right[..], &f, &right].concat(), Some((2, *number)));
        let (front, back) = (s.some(4, 6), s.some(2, 5));
        s.compare(&[front, f, back].concat(), Some((5, *number)));
    }
}

/// Streams of files of form 1 whose refusal is known: the place and the number, or zeros.
fn fixed(s: &mut Streams) {
    let wide = setting_of(&mut s.d, 16, 7);
    let seven = bytes(&delivery_in(&mut s.d, Form::One, wide));
    let (three, eight, nine) = (s.files[0][0].clone(), s.files[5][1].clone(), bytes(&delivery(&mut s.d, Form::One, 9)));
    let [thirteen, fourteen] = [13, 14].map(|k| head(&mut s.d, Form::One, k));
    let streams: [(&[&[u8]], usize, u32); 22] = [
        (&[], 0, 0),
        (&[b"\n"], 1, 11),
        (&[b"SE\x0b"], 1, 11),
        (&[&three], 0, 0),
        (&[&three, &seven, &eight, &three, &eight], 0, 0),
        (&[&eight, b"\n"], 2, 11),
        (&[b"S", &three], 1, 11),
        (&[&nine], 1, 6),
        (&[&three, &nine, &three], 2, 6),
        (&[&eight, &eight, &nine[..25], &three], 3, 6),
        (&[&three, &nine[..25]], 2, 6),
        (&[&three, &nine[..24]], 2, 11),
        (&[&thirteen], 1, 6),
        (&[&three, &fourteen, &three], 2, 6),
        (&[&eight, &thirteen[..33]], 2, 6),
        (&[&eight, &thirteen[..32]], 2, 11),
        (&[&three, &fourteen[..34]], 2, 11),
        (&[&three, &seven[..7]], 2, 11),
        (&[&eight, &eight[..32802]], 2, 11),
        // the last bytes are those of the next file, which is then no file
        (&[&three, &seven[..2080], &three], 3, 11),
        (&[&seven[..2000], &eight], 2, 11),
        (&[&three[..40], &eight], 1, 12),
    ];
    for (parts, place, number) in streams {
        s.compare(&parts.concat(), Some((place, number)));
    }
}

/// The same of both forms: a byte or two for a symbol, and each file in its own form.
fn fixed_forms(s: &mut Streams) {
    let mut in_form_two = |l, k, shift| {
        let x = Setting { shift, ..setting_of(&mut s.d, l, k) };
        bytes(&delivery_in(&mut s.d, Form::Two, x))
    };
    let (three, seven, eight, nine) = (in_form_two(8, 3, 9), in_form_two(16, 7, 300), in_form_two(8, 8, 255), in_form_two(9, 9, 1));
    let first = s.files[0][0].clone();
    let [thirteen, fourteen] = [13, 14].map(|k| head(&mut s.d, Form::Two, k));
    let streams: [(&[&[u8]], usize, u32); 17] = [
        (&[&three], 0, 0),
        (&[&first, &three, &eight, &first, &seven, &eight], 0, 0),
        (&[b"S2\x0b"], 1, 11),
        (&[&first, b"S2"], 2, 11),
        (&[&three, b"S", &first], 2, 11),
        (&[&nine], 1, 6),
        (&[&three, &nine, &first], 2, 6),
        (&[&eight, &eight, &nine[..27], &first], 3, 6),
        (&[&first, &nine[..27]], 2, 6),
        (&[&first, &nine[..26]], 2, 11),
        (&[&thirteen], 1, 6),
        (&[&first, &fourteen, &three], 2, 6),
        (&[&eight, &fourteen[..37]], 2, 6),
        (&[&eight, &thirteen[..34]], 2, 11),
        (&[&three, &fourteen[..36]], 2, 11),
        (&[&eight, &eight[..16420]], 2, 11),
        // the last byte is that of the next file, which is then no file
        (&[&seven[..2082], &three], 2, 11),
    ];
    for (parts, place, number) in streams {
        s.compare(&parts.concat(), Some((place, number)));
    }
}

/// Streams whose refusal is known.
fn known(t: &mut Tally, s: &mut Streams) {
    changed(s, Form::One, &IN_FORM_ONE);
    fixed(s);
    s.end(t, "streams with a known refusal", &[0, 1, 2, 3, 4, 5, 6, 9, 11, 12]);
    changed(s, Form::Two, &IN_FORM_TWO);
    fixed_forms(s);
    s.end(t, "streams of both forms with a known refusal", &[0, 1, 2, 3, 4, 5, 6, 9, 11, 12]);
}

/// Streams of about as many files as are read, with nothing, any bytes, a right file or a refused one behind them.
fn many(t: &mut Tally, s: &mut Streams) {
    let nine = setting(&mut s.d, 9);
    for n in [FILES - 1, FILES, FILES + 1, FILES + 5] {
        let too_large = file::bytes_of(Form::One, nine.m, &nine.b, 0, &[], &[]);
        for last in [vec![], vec![b'\n'], noise(&mut s.d, 60000), vec![0x53; 100000], s.any(6), too_large] {
            let stream = [s.some(n, 4), last].concat();
            s.compare(&stream, None);
        }
    }
    let eights = s.files[5].concat().repeat(FILES / 8);
    s.compare(&eights, Some((0, 0)));
    s.compare(&[&eights[..], &s.files[5][0], b"\n"].concat(), Some((0, 0)));
    s.end(t, "streams of 199 files and more", &[0, 6, 11]);
}

/// Streams above the largest length of a file, whose parts stand at all distances from it; some end with a cut file.
fn long(t: &mut Tally, s: &mut Streams) {
    for round in 0..100u64 {
        let (files, small) = (2 + s.d.below(20) as usize, s.d.below(170) as usize);
        let mut stream = s.files[5][(round % 8) as usize].clone();
        stream.extend(if round % 2 == 0 { s.some(files, 6) } else { s.some(small, 4) });
        let mut last = s.any(6);
        if round % 3 == 0 {
            cut(&mut s.d, &mut last);
        }
        stream.extend(last);
        s.compare(&stream, None);
    }
    s.end(t, "long streams", &[0, 11]);
}

/// Streams of a few files, of which some are damaged, cut, too large or no files.
fn mixed(t: &mut Tally, s: &mut Streams) {
    for _ in 0..400 {
        let mut stream = vec![];
        for _ in 0..s.d.below(9) {
            let (k, form) = (3 + s.d.below(5) as usize, any_form(&mut s.d));
            let mut f = match s.d.below(20) {
                0 => large(&mut s.d, form),
                1 => noise(&mut s.d, 30),
                2..=5 => damaged_file(&mut s.d, form, k),
                _ => s.any(5),
            };
            if s.d.below(20) == 0 && !f.is_empty() {
                cut(&mut s.d, &mut f);
            }
            stream.extend(f);
        }
        s.compare(&stream, None);
    }
    s.end(t, "mixed streams", &[0, 1, 2, 3, 4, 5, 6, 9, 11, 12]);
}

pub fn all(t: &mut Tally) {
    let mut s = Streams::new();
    known(t, &mut s);
    many(t, &mut s);
    long(t, &mut s);
    mixed(t, &mut s);
    samples(t, "stream", "report", |f| report(&entries(f, &mut s.known)));
}
