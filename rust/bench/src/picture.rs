//! A table of the benchmark as a picture: time by side, both axes logarithmic, a panel for each of three kinds.

use std::io::Read;

/// The kinds that are drawn.
const PANELS: [&str; 3] = ["random 0..10^6", "tied 0..3", "squared distances"];

/// The solvers: the table's column, and how its line is drawn.
const SOLVERS: [(&str, usize, &str); 3] = [
    ("scipy", 6, "stroke=\"#888\" stroke-dasharray=\"6 4\""),
    ("crate", 3, "stroke=\"#333\" stroke-dasharray=\"2 3\""),
    ("archive", 4, "stroke=\"#06c\" stroke-width=\"3\""),
];

const WIDTH: f64 = 250.0;
const HEIGHT: f64 = 280.0;
const LEFT: f64 = 60.0;
const TOP: f64 = 40.0;

/// A point of a line: side and milliseconds.
type Point = (f64, f64);

/// The points of a kind in one of the table's columns.
fn points(table: &str, kind: &str, column: usize) -> Vec<Point> {
    let cells = table.lines().map(|line| line.split('|').map(str::trim).collect::<Vec<_>>());
    let of_kind = cells.filter(|cells| cells.len() == 13 && cells[1] == kind);
    of_kind.filter_map(|cells| Some((cells[2].parse().ok()?, cells[column].parse().ok()?))).collect()
}

fn x(panel: usize, side: f64) -> f64 {
    LEFT + panel as f64 * (WIDTH + 30.0) + (side / 64.0).log2() / 6.0 * WIDTH
}

fn y(time: f64, (low, high): (i32, i32)) -> f64 {
    TOP + HEIGHT * (1.0 - (time.log10() - f64::from(low)) / f64::from(high - low))
}

/// A panel's axes.
fn axes(panel: usize, name: &str, range: (i32, i32)) -> String {
    let (left, right, bottom) = (x(panel, 64.0), x(panel, 4096.0), TOP + HEIGHT);
    let mut svg = format!("<text x=\"{left}\" y=\"{}\" font-weight=\"bold\">{name}</text>\n", TOP - 12.0);
    for power in range.0..=range.1 {
        let (height, time) = (y(10f64.powi(power), range), 10f64.powi(power));
        svg += &format!("<path d=\"M{left} {height:.1}H{right}\" stroke=\"#ddd\"/>\n");
        if panel == 0 {
            svg += &format!(
                "<text x=\"{}\" y=\"{:.1}\" text-anchor=\"end\">{time}</text>\n",
                left - 6.0,
                height + 4.0
            );
        }
    }
    for side in [64, 256, 1024, 4096] {
        let across = x(panel, f64::from(side));
        svg += &format!("<path d=\"M{across:.1} {TOP}V{bottom}\" stroke=\"#eee\"/>\n");
        svg += &format!("<text x=\"{across:.1}\" y=\"{}\" text-anchor=\"middle\">{side}</text>\n", bottom + 16.0);
    }
    svg
}

/// One solver's line in a panel.
fn drawn(panel: usize, points: &[Point], stroke: &str, range: (i32, i32)) -> String {
    if points.is_empty() {
        return String::new();
    }
    let places: Vec<String> =
        points.iter().map(|&(side, time)| format!("{:.1} {:.1}", x(panel, side), y(time, range))).collect();
    format!("<path d=\"M{}\" fill=\"none\" {stroke}/>\n", places.join("L"))
}

/// Which line is whose.
fn legend(height: f64) -> String {
    let mut svg = String::new();
    for (at, (name, _, stroke)) in SOLVERS.into_iter().enumerate() {
        let left = x(1, 64.0) + at as f64 * 130.0;
        svg += &format!("<path d=\"M{left} {0}H{1}\" {stroke}/>\n", height - 12.0, left + 40.0);
        svg += &format!("<text x=\"{}\" y=\"{}\">{name}</text>\n", left + 48.0, height - 8.0);
    }
    svg
}

/// Reads a table and writes its picture.
pub fn draw() -> Result<(), String> {
    let mut table = String::new();
    std::io::stdin().read_to_string(&mut table).map_err(|failure| failure.to_string())?;
    let all =
        PANELS.iter().flat_map(|kind| SOLVERS.iter().flat_map(|&(_, column, _)| points(&table, kind, column)));
    let times: Vec<f64> = all.map(|(_, time)| time.log10()).collect();
    let (least, most) = times.iter().fold((f64::MAX, f64::MIN), |(a, b), &time| (a.min(time), b.max(time)));
    if times.is_empty() {
        return Err(String::from("the table has none of the lines that are drawn"));
    }
    let range = (least.floor() as i32, most.ceil() as i32);
    let (width, height) = (LEFT + 3.0 * (WIDTH + 30.0), TOP + HEIGHT + 50.0);
    println!("<svg xmlns=\"http://www.w3.org/2000/svg\" viewBox=\"0 0 {width} {height}\" font-family=\"sans-serif\" font-size=\"12\">");
    println!("<title>Milliseconds a night, by side, both axes logarithmic</title>");
    println!("<rect width=\"100%\" height=\"100%\" fill=\"#fff\"/>");
    for (panel, kind) in PANELS.into_iter().enumerate() {
        print!("{}", axes(panel, kind, range));
        for (_, column, stroke) in SOLVERS {
            print!("{}", drawn(panel, &points(&table, kind, column), stroke, range));
        }
    }
    println!("<text x=\"{LEFT}\" y=\"{}\">side; milliseconds, both axes logarithmic</text>", height - 8.0);
    print!("{}", legend(height));
    println!("</svg>");
    Ok(())
}
