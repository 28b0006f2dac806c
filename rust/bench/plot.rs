// The ratios of a run as a picture: for each thing two bars, the library's time beside the original's at the default target and at
// the native one.
use std::fmt::Write;

use crate::Row;

const LEFT: f64 = 150.0;
const TOP: f64 = 46.0;
const ROW: f64 = 20.0;
const UNIT: f64 = 160.0;
const MOST: f64 = 3.5;

// The forms beside which the library stands, with their colour and name.
const BARS: [(usize, &str, &str); 2] =
    [(0, "#2b6cb0", "original at the default target"), (2, "#d69e2e", "original at target-cpu=native")];

pub fn picture(rows: &[Row]) -> String {
    let rows: Vec<&Row> = rows.iter().filter(|row| row.beside(0).is_some()).collect();
    let (width, bottom) = (LEFT + MOST * UNIT + 50.0, TOP + rows.len() as f64 * ROW);
    let mut out = format!(
        "<svg xmlns=\"http://www.w3.org/2000/svg\" width=\"{width}\" height=\"{}\" font-family=\"sans-serif\" font-size=\"11\">\n\
         <rect width=\"100%\" height=\"100%\" fill=\"white\"/>\n\
         <text x=\"8\" y=\"16\" font-size=\"13\">Time of the proved library, as a share of the original\u{2019}s (less is quicker)</text>\n",
        bottom + 24.0
    );
    let mut draw = |line: String| writeln!(out, "{line}").expect("a string takes what is written");
    let mut x = LEFT;
    for (_, colour, name) in BARS {
        draw(format!("<rect x=\"{x}\" y=\"26\" width=\"10\" height=\"10\" fill=\"{colour}\"/>"));
        draw(format!("<text x=\"{}\" y=\"35\">beside the {name}</text>", x + 14.0));
        x += 240.0;
    }
    for step in 0..=(MOST * 2.0) as usize {
        let (at, share) = (LEFT + step as f64 * UNIT / 2.0, step as f64 / 2.0);
        let colour = if step == 2 { "#c53030" } else { "#cccccc" };
        draw(format!("<line x1=\"{at}\" y1=\"{TOP}\" x2=\"{at}\" y2=\"{bottom}\" stroke=\"{colour}\"/>"));
        draw(format!("<text x=\"{at}\" y=\"{}\" text-anchor=\"middle\">{share:.1}</text>", bottom + 14.0));
    }
    for (i, row) in rows.iter().enumerate() {
        let y = TOP + i as f64 * ROW;
        draw(format!("<text x=\"{}\" y=\"{}\" text-anchor=\"end\">{}</text>", LEFT - 6.0, y + 13.0, row.name));
        for (j, (form, colour, _)) in BARS.into_iter().enumerate() {
            let Some(share) = row.beside(form) else { continue };
            let (top, length) = (y + 3.0 + 7.0 * j as f64, share.min(MOST) * UNIT);
            draw(format!("<rect x=\"{LEFT}\" y=\"{top}\" width=\"{length:.1}\" height=\"6\" fill=\"{colour}\"/>"));
            draw(format!("<text x=\"{:.1}\" y=\"{}\" font-size=\"8\">{share:.2}</text>", LEFT + length + 3.0, top + 6.0));
        }
    }
    out + "</svg>\n"
}
