//! The benchmark's plot: for each case and mode a bar of the ratio, proved front over plain program, and a line at 1.0.

use std::fmt::Write;

/// A bar and what stands beside it.
pub struct Bar {
    pub title: String,
    pub mode: String,
    pub ratio: f64,
}

const WIDTH: f64 = 860.0;
const LEFT: f64 = 320.0;
/// For the mode, between title and bar.
const MODE: f64 = 90.0;
const TOP: f64 = 64.0;
const BAR: f64 = 20.0;
const STEP: f64 = 26.0;
/// Between two cases.
const GAP: f64 = 12.0;
const FAST: &str = "#3b7a57";
const SLOW: &str = "#b5543c";

/// The plot as an SVG picture. Bars of one title stand together.
pub fn svg(heading: &str, bars: &[Bar]) -> String {
    let most = bars.iter().map(|bar| bar.ratio).fold(1.0, f64::max) * 1.08;
    let across = |ratio: f64| LEFT + ratio / most * (WIDTH - LEFT - 70.0);
    let mut body = String::new();
    let mut y = TOP;
    for (i, bar) in bars.iter().enumerate() {
        let first = i == 0 || bars[i - 1].title != bar.title;
        if first && i > 0 {
            y += GAP;
        }
        if first {
            text(
                &mut body,
                (LEFT - MODE, y + 15.0),
                "end",
                "#222",
                &bar.title,
            );
        }
        text(&mut body, (LEFT - 8.0, y + 15.0), "end", "#666", &bar.mode);
        // Judged as it is printed.
        let colour = if (bar.ratio * 100.0).round() <= 100.0 {
            FAST
        } else {
            SLOW
        };
        let width = across(bar.ratio) - LEFT;
        put(
            &mut body,
            format_args!(
                r#"<rect x="{:.1}" y="{:.1}" width="{:.1}" height="{:.1}" fill="{}"/>"#,
                LEFT, y, width, BAR, colour
            ),
        );
        text(
            &mut body,
            (across(bar.ratio) + 6.0, y + 15.0),
            "start",
            "#222",
            &format!("{:.2}", bar.ratio),
        );
        y += STEP;
    }
    let (one, foot) = (across(1.0), y + 4.0);
    put(
        &mut body,
        format_args!(
            r##"<line x1="{0:.1}" y1="{1:.1}" x2="{0:.1}" y2="{2:.1}" stroke="#222" stroke-dasharray="4 3"/>"##,
            one,
            TOP - 10.0,
            foot
        ),
    );
    text(
        &mut body,
        (one, TOP - 16.0),
        "end",
        "#222",
        "the plain program: 1.0",
    );
    text(
        &mut body,
        (LEFT, foot + 22.0),
        "start",
        "#666",
        "shorter is better",
    );
    let height = foot + 36.0;
    let mut picture = String::new();
    put(
        &mut picture,
        format_args!(
            r#"<svg xmlns="http://www.w3.org/2000/svg" width="{0}" height="{1:.0}" viewBox="0 0 {0} {1:.0}" font-family="sans-serif" font-size="14">"#,
            WIDTH, height
        ),
    );
    put(
        &mut picture,
        format_args!(r#"<rect width="100%" height="100%" fill="white"/>"#),
    );
    text(&mut picture, (16.0, 26.0), "start", "#222", heading);
    picture + &body + "</svg>\n"
}

fn put(picture: &mut String, line: std::fmt::Arguments<'_>) {
    writeln!(picture, "{}", line).expect("a string takes any text");
}

fn text(picture: &mut String, (x, y): (f64, f64), anchor: &str, colour: &str, words: &str) {
    let words = words.replace('&', "&amp;").replace('<', "&lt;");
    put(
        picture,
        format_args!(
            r#"<text x="{:.1}" y="{:.1}" text-anchor="{}" fill="{}">{}</text>"#,
            x, y, anchor, colour, words
        ),
    );
}

#[cfg(test)]
mod tests {
    use super::{svg, Bar};

    #[test]
    fn every_bar_is_in_the_picture() {
        let bar = |title: &str, ratio| Bar {
            title: title.to_string(),
            mode: "whole".to_string(),
            ratio,
        };
        let picture = svg("heading", &[bar("a & b", 0.5), bar("c", 1.25)]);
        assert_eq!(picture.matches("<rect x=").count(), 2);
        assert!(
            picture.contains("a &amp; b")
                && picture.contains(">0.50<")
                && picture.contains(">1.25<")
        );
        assert!(picture.starts_with("<svg") && picture.ends_with("</svg>\n"));
    }
}
