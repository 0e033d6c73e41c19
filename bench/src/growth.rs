//! How the time of a whole wall grows with its columns, as a picture: `bench growth` writes an SVG.
use crate::timing::{Row, measured};
use crate::walls;
use trial::random::Random;
use trial::walls::Mood;

const WIDTH: f64 = 640.0;
const HEIGHT: f64 = 360.0;
const MARGIN: f64 = 56.0;

/// Microseconds of a wall of 4 to 31 columns with records of m bytes and t unsound columns: the proved program and the reference.
fn times(m: usize, random: &Random) -> Vec<(usize, Vec<f64>)> {
    let sheets: Vec<_> = (4..=31).map(|n| (n, walls::sheets(n, m, Mood::Mixed, random))).collect();
    let rows: Vec<Row> = sheets.iter().map(|(n, sheets)| walls::row(n.to_string(), *n, sheets)).collect();
    (4..).zip(measured(rows, 30)).map(|(n, (_, best))| (n, best.into_iter().map(|time| time / 1e3).collect())).collect()
}

fn x(n: usize) -> f64 {
    MARGIN + (n - 4) as f64 / 27.0 * (WIDTH - 2.0 * MARGIN)
}

/// A round number that is not below a time.
fn top(most: f64) -> f64 {
    let power = 10f64.powf(most.log10().floor());
    [1.0, 2.0, 4.0, 6.0, 8.0, 10.0].into_iter().map(|part| part * power).find(|&top| top >= most).unwrap_or(most)
}

pub fn picture(random: &Random) {
    let curves: Vec<_> = [(1, "#888"), (32, "#000")].into_iter().map(|(m, colour)| (m, colour, times(m, random))).collect();
    let most = curves.iter().flat_map(|(.., times)| times).flat_map(|(_, sides)| sides).fold(0.0, |most: f64, &time| most.max(time));
    let top = top(most);
    let y = |time: f64| HEIGHT - MARGIN - time / top * (HEIGHT - 2.0 * MARGIN);
    println!("<svg xmlns=\"http://www.w3.org/2000/svg\" viewBox=\"0 0 {WIDTH} {HEIGHT}\" font-family=\"sans-serif\" font-size=\"12\">");
    println!("<rect width=\"{WIDTH}\" height=\"{HEIGHT}\" fill=\"#fff\"/>");
    for n in [4, 7, 10, 13, 16, 19, 22, 25, 28, 31] {
        println!("<text x=\"{:.1}\" y=\"{:.1}\" text-anchor=\"middle\">{n}</text>", x(n), HEIGHT - MARGIN + 18.0);
    }
    for part in 0..=4 {
        let time = top * f64::from(part) / 4.0;
        let (left, right, at) = (MARGIN, WIDTH - MARGIN, y(time));
        println!("<line x1=\"{left}\" y1=\"{at:.1}\" x2=\"{right}\" y2=\"{at:.1}\" stroke=\"#ddd\"/>");
        println!("<text x=\"{:.1}\" y=\"{:.1}\" text-anchor=\"end\">{time}</text>", left - 6.0, at + 4.0);
    }
    println!("<text x=\"{:.1}\" y=\"{:.1}\" text-anchor=\"middle\">columns</text>", WIDTH / 2.0, HEIGHT - 12.0);
    println!("<text x=\"{MARGIN}\" y=\"20\">microseconds for a whole wall, t of its columns unsound</text>");
    for (m, colour, times) in &curves {
        for (side, name, dashes) in [(0, "proved", ""), (1, "reference", "4 3")] {
            let points: Vec<String> = times.iter().map(|(n, sides)| format!("{:.1},{:.1}", x(*n), y(sides[side]))).collect();
            println!("<polyline points=\"{}\" fill=\"none\" stroke=\"{colour}\" stroke-width=\"1.5\" stroke-dasharray=\"{dashes}\"/>", points.join(" "));
            let (n, sides) = times.last().expect("there are walls");
            println!("<text x=\"{:.1}\" y=\"{:.1}\" text-anchor=\"end\" fill=\"{colour}\">{name}, m = {m}</text>", x(*n) - 4.0, y(sides[side]) - 5.0);
        }
    }
    println!("</svg>");
}
