//! The ratios of a benchmark as bars, in SVG.

use speed::Row;

const WIDTH: f64 = 960.0;
const ROW: f64 = 24.0;
const BAR: f64 = 14.0;
/// The bars begin here,
const LEFT: f64 = 400.0;
/// and a bar that ends here is as long as the axis.
const RIGHT: f64 = 780.0;
const TOP: f64 = 64.0;

/// A bar for each row that has a limit, with a mark there, and a line where both sides take the same time.
pub fn plot(rows: &[Row]) -> String {
    let rows: Vec<&Row> = rows.iter().filter(|row| row.limit.is_finite()).collect();
    let longest = rows.iter().map(|row| row.ratio().max(row.limit)).fold(1.0, f64::max);
    let scale = Scale { end: (longest * 5.0).ceil() / 5.0 };
    let bottom = TOP + ROW * rows.len() as f64;
    let height = bottom + 48.0;
    let mut text = format!(
        "<svg xmlns=\"http://www.w3.org/2000/svg\" viewBox=\"0 0 {WIDTH} {height}\" font-family=\"sans-serif\" \
         font-size=\"13\">\n<rect width=\"{WIDTH}\" height=\"{height}\" fill=\"white\"/>\n\
         <text x=\"16\" y=\"28\" font-size=\"17\">Time of the library, that of the Rust being 1</text>\n\
         <text x=\"16\" y=\"48\" fill=\"#666\">shorter is faster; the mark is the limit; at the right nanoseconds an element of the \
         library and of the Rust</text>\n"
    );
    for fifth in 0..=(scale.end * 5.0).round() as u32 {
        let (value, is_one) = (f64::from(fifth) / 5.0, fifth == 5);
        let (x, color) = (scale.x(value), if is_one { "#333" } else { "#ddd" });
        text += &format!(
            "<line x1=\"{x:.1}\" y1=\"{TOP}\" x2=\"{x:.1}\" y2=\"{bottom}\" stroke=\"{color}\"/>\n\
             <text x=\"{x:.1}\" y=\"{:.1}\" text-anchor=\"middle\" fill=\"#666\">{value:.1}</text>\n",
            bottom + 18.0
        );
    }
    for (place, row) in rows.iter().enumerate() {
        text += &bar(row, TOP + ROW * place as f64, &scale);
    }
    text + "</svg>\n"
}

struct Scale {
    end: f64,
}

impl Scale {
    fn x(&self, ratio: f64) -> f64 {
        LEFT + (RIGHT - LEFT) * ratio / self.end
    }
}

fn bar(row: &Row, top: f64, scale: &Scale) -> String {
    let Row { what, rust, library, limit, .. } = row;
    let (middle, bar_top) = (top + ROW / 2.0 + 4.5, top + (ROW - BAR) / 2.0);
    let (end, mark) = (scale.x(row.ratio()), scale.x(*limit));
    format!(
        "<text x=\"{:.1}\" y=\"{middle:.1}\" text-anchor=\"end\">{}</text>\n\
         <rect x=\"{LEFT}\" y=\"{bar_top:.1}\" width=\"{:.1}\" height=\"{BAR}\" fill=\"#3b76af\"/>\n\
         <line x1=\"{mark:.1}\" y1=\"{:.1}\" x2=\"{mark:.1}\" y2=\"{:.1}\" stroke=\"#c23b22\" stroke-width=\"3\"/>\n\
         <text x=\"{:.1}\" y=\"{middle:.1}\">{:.2}</text>\n\
         <text x=\"{:.1}\" y=\"{middle:.1}\" fill=\"#666\">{library:.2}, {rust:.2}</text>\n",
        LEFT - 10.0,
        escaped(what),
        end - LEFT,
        bar_top - 3.0,
        bar_top + BAR + 3.0,
        RIGHT + 10.0,
        row.ratio(),
        RIGHT + 54.0
    )
}

fn escaped(text: &str) -> String {
    text.replace('&', "&amp;").replace('<', "&lt;")
}

#[cfg(test)]
mod tests {
    use super::*;

    #[test]
    fn each_row_with_a_limit_has_a_bar_as_long_as_its_ratio() {
        let row = |what, library| Row { what, rust: 2.0, library, limit: 1.0, equal: true, work: None };
        let unlimited = Row { limit: f64::INFINITY, ..row("unlimited", 60.0) };
        let text = plot(&[row("half", 1.0), unlimited, row("a < b", 2.0)]);
        assert_eq!(text.matches("<rect x=").count(), 2);
        assert!(!text.contains("unlimited"));
        let axis = RIGHT - LEFT;
        for width in [axis / 2.0, axis] {
            assert!(text.contains(&format!("width=\"{width:.1}\"")), "{text}");
        }
        assert!(text.contains(">a &lt; b</text>") && !text.contains("a < b"));
    }
}
