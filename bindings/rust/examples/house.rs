//! The worked house: a text file of boxes is converted, checked, and asked what lies between a bench and the sun through
//! a day. Prints a table and draws the house from above.
//!
//!     cargo run --release --example house [HOUSE.txt [HOUSE.svg]]
use funnelcress::{Options, Pane, Ray, Record, Refusal, Tree, Verdict, entry_distances};
use std::error::Error;
use std::fmt::Write;

/// A box of the house, with its kind and name.
struct Part {
    pane: Pane,
    kind: String,
    name: String,
}

/// Points of the bench, in metres.
const BENCH: [[f32; 3]; 4] = [[2.0, 4.3, 0.8], [4.5, 4.3, 0.8], [7.0, 4.3, 0.8], [9.5, 4.3, 0.8]];

const HOURS: [f32; 9] = [8.0, 9.0, 10.0, 11.0, 12.0, 13.0, 14.0, 15.0, 16.0];

fn part(line: &str) -> Result<Part, String> {
    let words: Vec<&str> = line.split_whitespace().collect();
    let [numbers @ .., kind, name] = words.as_slice() else {
        return Err(format!("no box: {line}"));
    };
    let floats: Result<Vec<f32>, _> = numbers.iter().map(|w| w.parse()).collect();
    let pane =
        floats.map_err(|e| format!("{e}: {line}"))?.try_into().map_err(|_| format!("not six numbers: {line}"))?;
    Ok(Part { pane, kind: kind.to_string(), name: name.to_string() })
}

fn read(path: &str) -> Result<Vec<Part>, Box<dyn Error>> {
    let text = std::fs::read_to_string(path).map_err(|e| format!("{path}: {e}"))?;
    let lines = text.lines().filter(|l| !l.trim().is_empty() && !l.starts_with('#'));
    Ok(lines.map(part).collect::<Result<Vec<Part>, String>>()?)
}

/// Where the sun stands at 52 degrees north on the day of the equinox: x east, y north, z up.
fn sun(hour: f32) -> [f32; 3] {
    let (turn, latitude) = ((hour - 12.0) * 15f32.to_radians(), 52f32.to_radians());
    [-turn.sin(), -latitude.sin() * turn.cos(), latitude.cos() * turn.cos()]
}

/// The parts that a ray meets, nearest first, with their distances.
fn met<'a>(record: &Record, parts: &'a [Part], ray: &Ray) -> Result<Vec<(&'a Part, f32)>, Refusal> {
    let indices = record.any_hit(ray)?.positions.into_iter().map(|p| record.indices()[p as usize] as usize);
    let mut found = vec![];
    for part in indices.map(|i| &parts[i]) {
        let distance = entry_distances(&[part.pane], ray)?[0];
        if distance.is_finite() {
            found.push((part, distance));
        }
    }
    found.sort_by(|a, b| a.1.total_cmp(&b.1));
    Ok(found)
}

fn table(record: &Record, parts: &[Part]) -> Result<(), Refusal> {
    let heads = BENCH.map(|p| format!("{:<38}", format!("bench at x {:.1}", p[0]))).concat();
    println!("hour  sun  {}", heads.trim_end());
    for hour in HOURS {
        let height = sun(hour)[2].asin().to_degrees();
        let mut row = format!("{hour:>4}  {height:>2.0}°  ");
        for point in BENCH {
            let names: Vec<&str> =
                met(record, parts, &Ray::new(point, sun(hour)))?.iter().map(|(p, _)| p.name.as_str()).collect();
            let cell = if names.is_empty() { "open sky".into() } else { names.join(" ") };
            write!(row, "{cell:<38}").expect("a string");
        }
        println!("{}", row.trim_end());
    }
    Ok(())
}

/// The drawing's scale, and where the house's corner stands in it.
fn place(x: f32, y: f32) -> (f32, f32) {
    (140.0 + 40.0 * x, 380.0 - 40.0 * y)
}

fn rectangle(part: &Part) -> String {
    let p = part.pane;
    let ((x0, y1), (x1, y0)) = (place(p[0], p[1]), place(p[3], p[4]));
    let (w, h) = ((x1 - x0).max(2.0), (y1 - y0).max(2.0));
    format!("<rect class=\"{}\" x=\"{x0:.0}\" y=\"{y0:.0}\" width=\"{w:.0}\" height=\"{h:.0}\"/>\n", part.kind)
}

/// A ray from above: a line as far as it stays in the picture, with a dot where it enters each part that it meets.
fn drawn(record: &Record, parts: &[Part], ray: &Ray) -> Result<String, Refusal> {
    let at = |t: f32| place(ray.origin[0] + t * ray.direction[0], ray.origin[1] + t * ray.direction[1]);
    let ((x0, y0), (x1, y1)) = (at(0.0), at(6.0));
    let mut out = format!("<line x1=\"{x0:.1}\" y1=\"{y0:.1}\" x2=\"{x1:.1}\" y2=\"{y1:.1}\"/>\n");
    for (part, distance) in met(record, parts, ray)? {
        let (x, y) = at(distance.max(0.0));
        writeln!(out, "<circle class=\"{}\" cx=\"{x:.1}\" cy=\"{y:.1}\" r=\"3\"/>", part.kind).expect("a string");
    }
    Ok(out)
}

const STYLE: &str = "text{font:12px sans-serif}rect{stroke:#58a;stroke-width:.5}rect.wall{fill:#8bd}\
    rect.roof{fill:#bde;fill-opacity:.35}rect.gutter{fill:#999}rect.screen{fill:#e94;fill-opacity:.35}\
    line{stroke:#c80;stroke-width:1}circle.roof,circle.wall{fill:#27b}circle.screen{fill:#c40}circle.gutter{fill:#333}";

fn picture(record: &Record, parts: &[Part]) -> Result<String, Refusal> {
    let mut svg = format!(
        "<svg xmlns=\"http://www.w3.org/2000/svg\" viewBox=\"0 0 760 470\" width=\"760\">\n<style>{STYLE}</style>\n\
         <rect x=\"0\" y=\"0\" width=\"760\" height=\"470\" fill=\"#fff\" stroke=\"none\"/>\n"
    );
    for kind in ["roof", "screen", "wall", "gutter"] {
        svg += &parts.iter().filter(|p| p.kind == kind).map(rectangle).collect::<String>();
    }
    for point in BENCH {
        for hour in [8.0, 10.0, 12.0, 14.0, 16.0] {
            svg += &drawn(record, parts, &Ray::new(point, sun(hour)))?;
        }
    }
    svg += "<text x=\"140\" y=\"30\">From above, north up: rays from four places of the bench to the sun at 8, 10, 12, 14 and 16.</text>\n\
            <text x=\"140\" y=\"455\">A dot where a ray enters a pane (blue), the screen (red) or a gutter (black).</text>\n</svg>\n";
    Ok(svg)
}

fn main() -> Result<(), Box<dyn Error>> {
    let folder = concat!(env!("CARGO_MANIFEST_DIR"), "/../../examples/house");
    let mut args = std::env::args().skip(1);
    let parts = read(&args.next().unwrap_or(format!("{folder}/house.txt")))?;
    let panes: Vec<Pane> = parts.iter().map(|p| p.pane).collect();
    let record = Tree::over(&panes).convert(Options::default())?;
    match record.check()? {
        Verdict::Sound(level) => println!("{} parts, {} nodes, sound {level}", parts.len(), record.bytes().len() / 80),
        Verdict::Unsound => return Err("the record is not sound".into()),
    }
    table(&record, &parts)?;
    let out = args.next().unwrap_or(format!("{folder}/house.svg"));
    std::fs::write(&out, picture(&record, &parts)?).map_err(|e| format!("{out}: {e}"))?;
    Ok(())
}
