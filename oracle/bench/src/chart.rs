//! Charts with logarithmic axes, as one SVG picture.

/// One chart of times.
pub struct Panel {
    pub title: &'static str,
    /// What takes the time.
    pub unit: &'static str,
    pub x_name: &'static str,
    pub lines: Vec<Line>,
}

#[derive(Clone)]
pub struct Line {
    pub name: &'static str,
    /// With times in nanoseconds.
    pub points: Vec<(u64, f64)>,
    pub color: &'static str,
    /// Dashed, and told once for all lines of a panel.
    pub is_yardstick: bool,
}

pub const BLUE: &str = "#1f6fb4";
pub const ORANGE: &str = "#c8581b";
pub const RED: &str = "#a3254d";
pub const GREEN: &str = "#2a8a4a";
const GREY: &str = "#444444";

const COLUMNS: usize = 2;
const WIDTH: f64 = 440.0;
const HEIGHT: f64 = 320.0;
/// Around the area of the lines.
const LEFT: f64 = 56.0;
const RIGHT: f64 = 28.0;
const TOP: f64 = 44.0;
const BOTTOM: f64 = 44.0;

pub fn svg(panels: &[Panel]) -> String {
    let rows = panels.len().div_ceil(COLUMNS);
    let (width, height) = (WIDTH * COLUMNS as f64, HEIGHT * rows as f64);
    let mut text = format!(
        "<svg xmlns=\"http://www.w3.org/2000/svg\" viewBox=\"0 0 {width} {height}\" \
         font-family=\"sans-serif\" font-size=\"11\" fill=\"#222222\">\n\
         <rect width=\"{width}\" height=\"{height}\" fill=\"#ffffff\"/>\n"
    );
    for (place, panel) in panels.iter().enumerate() {
        let x = WIDTH * (place % COLUMNS) as f64;
        let y = HEIGHT * (place / COLUMNS) as f64;
        text += &format!(
            "<g transform=\"translate({x} {y})\">\n{}</g>\n",
            panel.svg()
        );
    }
    text + "</svg>\n"
}

/// A logarithmic axis from one power of ten to another.
struct Axis {
    low: i32,
    high: i32,
    from: f64,
    to: f64,
}

impl Axis {
    fn of(values: impl Iterator<Item = f64>, from: f64, to: f64) -> Axis {
        let (least, most) = values.fold((f64::MAX, f64::MIN), |(least, most), value| {
            (least.min(value), most.max(value))
        });
        Axis {
            low: least.log10().floor() as i32,
            high: most.log10().ceil() as i32,
            from,
            to,
        }
    }

    fn place(&self, value: f64) -> f64 {
        let share = (value.log10() - self.low as f64) / (self.high - self.low) as f64;
        self.from + share * (self.to - self.from)
    }

    /// Powers of ten and where they are.
    fn ticks(&self) -> impl Iterator<Item = (f64, f64)> + '_ {
        (self.low..=self.high).map(|power| {
            let value = 10f64.powi(power);
            (value, self.place(value))
        })
    }
}

impl Panel {
    fn svg(&self) -> String {
        let points = || self.lines.iter().flat_map(|line| &line.points);
        let (left, right) = (LEFT, WIDTH - RIGHT);
        let (top, bottom) = (TOP, HEIGHT - BOTTOM);
        let x_axis = Axis::of(points().map(|point| point.0 as f64), left, right);
        let y_axis = Axis::of(points().map(|point| point.1), bottom, top);

        let mut text = format!(
            "<text x=\"{left}\" y=\"18\" font-size=\"13\" font-weight=\"bold\">{}</text>\n\
             <text x=\"{left}\" y=\"34\">time of a {}</text>\n\
             <text x=\"{right}\" y=\"{}\" text-anchor=\"end\">{}</text>\n",
            self.title,
            self.unit,
            bottom + 32.0,
            self.x_name
        );
        for (value, x) in x_axis.ticks() {
            text += &grid_line(x, top, x, bottom);
            text += &format!(
                "<text x=\"{x:.1}\" y=\"{}\" text-anchor=\"middle\">{value}</text>\n",
                bottom + 16.0
            );
        }
        for (time, y) in y_axis.ticks() {
            text += &grid_line(left, y, right, y);
            text += &format!(
                "<text x=\"{}\" y=\"{:.1}\" text-anchor=\"end\">{}</text>\n",
                left - 6.0,
                y + 4.0,
                time_label(time)
            );
        }
        for line in &self.lines {
            text += &line.svg(&x_axis, &y_axis);
        }
        let solid = self.lines.iter().filter(|line| !line.is_yardstick);
        let names = solid.map(|line| (line.name, stroke(line.color, false)));
        let yardstick = ("yardstick", stroke(GREY, true));
        for (number, (name, stroke)) in names.chain([yardstick]).enumerate() {
            let (x, y) = (left + 10.0, top + 10.0 + 14.0 * number as f64);
            text += &format!(
                "<path d=\"M{x} {y} h24\" {stroke}/>\n<text x=\"{}\" y=\"{}\">{name}</text>\n",
                x + 30.0,
                y + 4.0
            );
        }
        text
    }
}

impl Line {
    fn svg(&self, x_axis: &Axis, y_axis: &Axis) -> String {
        let points: Vec<String> = self
            .points
            .iter()
            .map(|(x, time)| format!("{:.1},{:.1}", x_axis.place(*x as f64), y_axis.place(*time)))
            .collect();
        format!(
            "<polyline points=\"{}\" {}/>\n",
            points.join(" "),
            stroke(self.color, self.is_yardstick)
        )
    }
}

fn stroke(color: &str, is_dashed: bool) -> String {
    let dashes = if is_dashed {
        " stroke-dasharray=\"5 3\""
    } else {
        ""
    };
    format!("fill=\"none\" stroke=\"{color}\" stroke-width=\"1.8\"{dashes}")
}

fn time_label(nanoseconds: f64) -> String {
    match nanoseconds {
        1e6.. => format!("{} ms", nanoseconds / 1e6),
        1e3.. => format!("{} µs", nanoseconds / 1e3),
        _ => format!("{nanoseconds} ns"),
    }
}

fn grid_line(x1: f64, y1: f64, x2: f64, y2: f64) -> String {
    format!("<path d=\"M{x1:.1} {y1:.1} L{x2:.1} {y2:.1}\" stroke=\"#dddddd\"/>\n")
}
