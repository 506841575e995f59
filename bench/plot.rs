//! Times as small pictures, with a logarithmic scale.
use crate::Row;

const WIDTH: f64 = 640.0;
const HEIGHT: f64 = 400.0;
const COLOURS: [&str; 3] = ["#1f5fa8", "#b3541e", "#2d7d46"];

/// One operation, at each value of the axis; its name stands at the end, moved down by the shift.
pub struct Line {
    pub name: &'static str,
    pub rows: Vec<Row>,
    pub shift: f64,
}

/// At most three lines over one axis; `axis` stands before each of its values.
pub struct Chart {
    pub title: String,
    pub axis: &'static str,
    pub lines: Vec<Line>,
}

/// The values of the axis have equal steps.
fn x(i: usize, count: usize) -> f64 {
    70.0 + i as f64 * (WIDTH - 190.0) / (count - 1) as f64
}

/// From 1 microsecond at the bottom to 10 seconds at the top.
fn y(us: f64) -> f64 {
    HEIGHT - 50.0 - us.max(1.0).log10() * (HEIGHT - 80.0) / 7.0
}

fn line(top: f64, times: &[f64], colour: &str, dash: &str) -> String {
    let path: Vec<String> = times.iter().enumerate().map(|(i, t)| format!("{:.1},{:.1}", x(i, times.len()), top + y(*t))).collect();
    format!("<polyline points=\"{}\" fill=\"none\" stroke=\"{colour}\" stroke-width=\"2\"{dash}/>\n", path.join(" "))
}

fn axes(c: &Chart, top: f64) -> String {
    let mut s = format!("<text x=\"70\" y=\"{}\">{}</text>\n", top + 18.0, c.title);
    let rows = &c.lines[0].rows;
    for (i, label) in ["1 µs", "10 µs", "100 µs", "1 ms", "10 ms", "100 ms", "1 s", "10 s"].into_iter().enumerate() {
        let at = top + y(10f64.powi(i as i32));
        s += &format!("<line x1=\"70\" y1=\"{at:.1}\" x2=\"{:.1}\" y2=\"{at:.1}\" stroke=\"#dddddd\"/>\n", WIDTH - 120.0);
        s += &format!("<text x=\"62\" y=\"{:.1}\" text-anchor=\"end\">{label}</text>\n", at + 4.0);
    }
    for (i, r) in rows.iter().enumerate() {
        let (x, y) = (x(i, rows.len()), top + HEIGHT - 25.0);
        s += &format!("<text x=\"{x:.1}\" y=\"{y:.1}\" text-anchor=\"middle\">{}{}</text>\n", c.axis, r.at);
    }
    s
}

fn chart(c: &Chart, top: f64) -> String {
    let mut s = axes(c, top);
    for (l, colour) in c.lines.iter().zip(COLOURS) {
        let proved: Vec<f64> = l.rows.iter().map(|r| r.proved).collect();
        let plain: Vec<f64> = l.rows.iter().map(|r| r.plain).collect();
        s += &line(top, &proved, colour, "");
        s += &line(top, &plain, colour, " stroke-dasharray=\"5 4\"");
        let last = top + y(proved[proved.len() - 1]) + 4.0 + l.shift;
        s += &format!("<text x=\"{:.1}\" y=\"{last:.1}\" fill=\"{colour}\">{}</text>\n", WIDTH - 110.0, l.name);
    }
    s
}

/// The charts, one below the other.
pub fn draw(charts: &[Chart]) -> String {
    let height = HEIGHT * charts.len() as f64;
    let mut s = format!(
        "<svg xmlns=\"http://www.w3.org/2000/svg\" viewBox=\"0 0 {WIDTH} {height}\" font-family=\"sans-serif\" font-size=\"12\">\n\
         <rect width=\"{WIDTH}\" height=\"{height}\" fill=\"#ffffff\"/>\n"
    );
    charts.iter().enumerate().for_each(|(i, c)| s += &chart(c, i as f64 * HEIGHT));
    s + "</svg>\n"
}
