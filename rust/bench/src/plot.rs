//! A plot of times over sizes, both by their logarithms: a straight line is a power of
//! the size, and its slope the exponent. It is one SVG file that needs nothing else.

use std::fmt::Write;

/// The times of a call, one for each size, in microseconds.
pub struct Line<'a> {
    pub name: &'a str,
    pub proved: Vec<f64>,
    pub reference: Vec<f64>,
}

const WIDTH: f64 = 720.0;
const HEIGHT: f64 = 440.0;
/// The room for the numbers and the names around the field of lines.
const LEFT: f64 = 70.0;
const RIGHT: f64 = 150.0;
const TOP: f64 = 30.0;
const BOTTOM: f64 = 60.0;
const COLOURS: [&str; 3] = ["#1b6e3c", "#1f4e9c", "#a13d1e"];

/// Where a value stands between two ends, by its logarithm.
struct Scale {
    from: f64,
    to: f64,
    start: f64,
    end: f64,
}

impl Scale {
    fn at(&self, value: f64) -> f64 {
        let part = (value / self.from).ln() / (self.to / self.from).ln();
        self.start + part * (self.end - self.start)
    }
}

/// The times of lines over sizes, proved calls as full lines, the reference's broken.
pub fn plot(sizes: &[f64], lines: &[Line]) -> String {
    let across = Scale {
        from: sizes[0],
        to: sizes[sizes.len() - 1],
        start: LEFT,
        end: WIDTH - RIGHT,
    };
    let [least, most] = decades(lines);
    let up = Scale {
        from: least,
        to: most,
        start: HEIGHT - BOTTOM,
        end: TOP,
    };
    let mut out = format!(
        "<svg xmlns=\"http://www.w3.org/2000/svg\" viewBox=\"0 0 {WIDTH} {HEIGHT}\" font-family=\"sans-serif\" font-size=\"13\">\n\
         <rect width=\"{WIDTH}\" height=\"{HEIGHT}\" fill=\"white\"/>\n"
    );
    axes(&mut out, sizes, &across, &up);
    for (line, colour) in lines.iter().zip(COLOURS) {
        drawn(&mut out, (sizes, &line.proved), (&across, &up), colour, "");
        let broken = " stroke-dasharray=\"6 4\"";
        drawn(
            &mut out,
            (sizes, &line.reference),
            (&across, &up),
            colour,
            broken,
        );
        let last = line.proved[line.proved.len() - 1].min(line.reference[line.reference.len() - 1]);
        words(
            &mut out,
            [WIDTH - RIGHT + 10.0, up.at(last) + 4.0],
            "start",
            colour,
            line.name,
        );
    }
    words(
        &mut out,
        [LEFT, TOP - 12.0],
        "start",
        "black",
        "microseconds a call; full lines: proved, broken lines: reference",
    );
    out + "</svg>\n"
}

/// The powers of ten around all times.
fn decades(lines: &[Line]) -> [f64; 2] {
    let times = lines
        .iter()
        .flat_map(|line| line.proved.iter().chain(&line.reference));
    let times: Vec<f64> = times.copied().collect();
    let least = times.iter().copied().fold(f64::MAX, f64::min);
    let most = times.iter().copied().fold(0.0, f64::max);
    [
        10f64.powf(least.log10().floor()),
        10f64.powf(most.log10().ceil()),
    ]
}

/// A line for each size and each power of ten, with its number.
fn axes(out: &mut String, sizes: &[f64], across: &Scale, up: &Scale) {
    for &size in sizes {
        let x = across.at(size);
        ruled(out, [x, TOP, x, HEIGHT - BOTTOM]);
        words(
            out,
            [x, HEIGHT - BOTTOM + 20.0],
            "middle",
            "black",
            &size.to_string(),
        );
    }
    let mut time = up.from;
    while time <= up.to * 1.001 {
        let y = up.at(time);
        ruled(out, [LEFT, y, WIDTH - RIGHT, y]);
        words(out, [LEFT - 8.0, y + 4.0], "end", "black", &shown(time));
        time *= 10.0;
    }
    let middle = (LEFT + WIDTH - RIGHT) / 2.0;
    words(
        out,
        [middle, HEIGHT - BOTTOM + 44.0],
        "middle",
        "black",
        "nodes a side",
    );
}

fn shown(time: f64) -> String {
    if time < 1.0 {
        format!("{time:.1}")
    } else {
        format!("{time:.0}")
    }
}

fn ruled(out: &mut String, [x1, y1, x2, y2]: [f64; 4]) {
    let _ = writeln!(
        out,
        "<line x1=\"{x1:.1}\" y1=\"{y1:.1}\" x2=\"{x2:.1}\" y2=\"{y2:.1}\" stroke=\"#dddddd\"/>"
    );
}

fn words(out: &mut String, [x, y]: [f64; 2], anchor: &str, colour: &str, text: &str) {
    let _ = writeln!(
        out,
        "<text x=\"{x:.1}\" y=\"{y:.1}\" text-anchor=\"{anchor}\" fill=\"{colour}\">{text}</text>"
    );
}

/// One line with a dot for each time, which tells its number where the mouse stays.
fn drawn(
    out: &mut String,
    (sizes, times): (&[f64], &[f64]),
    (across, up): (&Scale, &Scale),
    colour: &str,
    broken: &str,
) {
    let places = sizes
        .iter()
        .zip(times)
        .map(|(&size, &time)| (across.at(size), up.at(time), size, time));
    let places: Vec<(f64, f64, f64, f64)> = places.collect();
    let way: Vec<String> = places
        .iter()
        .map(|(x, y, ..)| format!("{x:.1},{y:.1}"))
        .collect();
    let _ = writeln!(
        out,
        "<polyline points=\"{}\" fill=\"none\" stroke=\"{colour}\" stroke-width=\"2\"{broken}/>",
        way.join(" ")
    );
    for (x, y, size, time) in places {
        let _ = writeln!(out, "<circle cx=\"{x:.1}\" cy=\"{y:.1}\" r=\"3\" fill=\"{colour}\"><title>{size} nodes: {time:.2} us</title></circle>");
    }
}

#[cfg(test)]
mod tests {
    use super::*;

    #[test]
    fn every_number_is_in_the_plot() {
        let line = Line {
            name: "read",
            proved: vec![1.5, 3.25],
            reference: vec![2.0, 41.0],
        };
        let svg = plot(&[4.0, 8.0], &[line]);
        for told in [
            "4 nodes: 1.50 us",
            "8 nodes: 3.25 us",
            "4 nodes: 2.00 us",
            "8 nodes: 41.00 us",
            ">read<",
            ">100<",
        ] {
            assert!(svg.contains(told), "{told}");
        }
        assert_eq!(svg.matches("<polyline").count(), 2);
        assert_eq!(svg.matches("<circle").count(), 4);
    }
}
