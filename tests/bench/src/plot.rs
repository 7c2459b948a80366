//! The plot of the ratios, as the text of an SVG file.

use crate::measured::Measured;

/// Places and sizes are in pixels, from the upper left corner.
const WIDTH: f64 = 900.0;

/// What stands over the plants' parts: the title and the legend.
const HEAD: f64 = 84.0;

/// A plant's part is its name, its rows and the numbers of the axis.
const NAME: f64 = 26.0;
const ROW: f64 = 24.0;
const FOOT: f64 = 46.0;

/// The thickness of a bar; a row has two.
const BAR: f64 = 8.0;

/// Where the ratio 0 stands, and where the axis ends and with which ratio. A bar
/// that is longer is cut there.
const AXIS: f64 = 240.0;
const AXIS_END: f64 = 740.0;
const LAST_RATIO: f64 = 3.25;

/// Where the two columns of numbers end.
const TIMES_END: f64 = 795.0;
const COUNTS_END: f64 = 885.0;

const TIME: &str = "#3a6ea5";
const COUNT: &str = "#e0a030";
const AIM: &str = "#b00030";
const BASELINE: &str = "#000000";
const GRID: &str = "#d8d8d8";

/// Styles of words: bold, or with the place at their end or their middle.
const BOLD: &str = " font-weight=\"bold\"";
const RIGHT: &str = " text-anchor=\"end\"";
const CENTRE: &str = " text-anchor=\"middle\"";

/// Each plant with its rows. A row of another plant is left out.
pub fn plot(plants: &[&str], rows: &[Measured]) -> String {
    let mut parts = String::new();
    let mut top = HEAD;
    for plant in plants {
        let rows: Vec<&Measured> = rows.iter().filter(|row| row.label.plant == *plant).collect();
        parts += &part(plant, &rows, top);
        top += NAME + ROW * rows.len() as f64 + FOOT;
    }
    let size = format!("width=\"{WIDTH}\" height=\"{top}\" viewBox=\"0 0 {WIDTH} {top}\"");
    let font = "font-family=\"sans-serif\" font-size=\"13\"";
    let paper = bar("#ffffff", 0.0, 0.0, WIDTH, top);
    format!(
        "<svg xmlns=\"http://www.w3.org/2000/svg\" {size} {font}>\n{paper}{}{parts}</svg>\n",
        head()
    )
}

/// Where a ratio stands on the axis.
fn place(ratio: f64) -> f64 {
    AXIS + (AXIS_END - AXIS) * ratio.min(LAST_RATIO) / LAST_RATIO
}

/// The title, and what each mark means.
fn head() -> String {
    let title = "The proved code as a multiple of the baseline in Rust: less is better";
    let y = 60.0;
    let key = |x: f64, text: &str| words(x + 20.0, y, "", text);
    let swatch = |colour: &str, x: f64| bar(colour, x, y - BAR - 1.0, 14.0, BAR);
    let mark = |colour: &str, width: f64, x: f64| upright(colour, width, x, y - 14.0, y + 4.0);
    [
        words(15.0, 30.0, BOLD, title),
        swatch(TIME, 15.0) + &key(15.0, "time"),
        swatch(COUNT, 85.0) + &key(85.0, "instructions"),
        mark(BASELINE, 1.5, 214.0) + &key(205.0, "baseline, 1"),
        mark(AIM, 3.0, 334.0) + &key(325.0, "aim, where there is one"),
        swatch(TIME, 515.0) + &arrow(TIME, 529.0, y - BAR - 1.0),
        key(524.0, "cut here: the number at the right is its ratio"),
    ]
    .concat()
}

fn part(plant: &str, rows: &[&Measured], top: f64) -> String {
    let first = top + NAME;
    let bottom = first + ROW * rows.len() as f64;
    let each = |draw: fn(&Measured, f64) -> String| -> String {
        rows.iter().enumerate().map(|(i, row)| draw(row, first + ROW * i as f64)).collect()
    };
    [
        words(15.0, top + 14.0, BOLD, plant),
        words(TIMES_END, top + 14.0, RIGHT, "time"),
        words(COUNTS_END, top + 14.0, RIGHT, "instructions"),
        grid(first, bottom),
        each(row),
        // Over the bars, so that a bar that goes past them does not hide them.
        upright(BASELINE, 1.5, place(1.0), first, bottom),
        each(aim),
    ]
    .concat()
}

/// Where ratios stand, with their numbers.
fn grid(top: f64, bottom: f64) -> String {
    let mut text = String::new();
    for ratio in [0.0, 0.5, 1.0, 1.5, 2.0, 2.5, 3.0] {
        text += &upright(GRID, 1.0, place(ratio), top, bottom);
        text += &words(place(ratio), bottom + 17.0, CENTRE, &ratio.to_string());
    }
    text
}

/// Name, bars and numbers of a row.
fn row(row: &Measured, top: f64) -> String {
    let [time, count] = [row.nanoseconds, row.instructions].map(|pair| pair.ratio());
    let foot = top + 2.0 * BAR;
    [
        words(AXIS - 10.0, foot, RIGHT, &row.label.name),
        ratio_bar(TIME, time, top + ROW / 2.0 - BAR),
        ratio_bar(COUNT, count, top + ROW / 2.0),
        words(TIMES_END, foot, RIGHT, &format!("{time:.2}")),
        words(COUNTS_END, foot, RIGHT, &format!("{count:.2}")),
    ]
    .concat()
}

fn ratio_bar(colour: &str, ratio: f64, y: f64) -> String {
    let end = place(ratio);
    let cut = if ratio > LAST_RATIO { arrow(colour, end, y) } else { String::new() };
    bar(colour, AXIS, y, end - AXIS, BAR) + &cut
}

fn aim(row: &Measured, top: f64) -> String {
    let mark = |aim: f64| upright(AIM, 3.0, place(aim), top + 2.0, top + ROW - 2.0);
    row.label.aim.map(mark).unwrap_or_default()
}

fn words(x: f64, y: f64, style: &str, text: &str) -> String {
    format!("<text x=\"{x:.1}\" y=\"{y:.1}\"{style}>{text}</text>\n")
}

fn bar(colour: &str, x: f64, y: f64, width: f64, height: f64) -> String {
    format!(
        "<rect x=\"{x:.1}\" y=\"{y:.1}\" width=\"{width:.1}\" height=\"{height:.1}\" fill=\"{colour}\"/>\n"
    )
}

fn upright(colour: &str, width: f64, x: f64, top: f64, bottom: f64) -> String {
    format!(
        "<line x1=\"{x:.1}\" y1=\"{top:.1}\" x2=\"{x:.1}\" y2=\"{bottom:.1}\" stroke=\"{colour}\" stroke-width=\"{width}\"/>\n"
    )
}

/// The head of a bar that goes on.
fn arrow(colour: &str, x: f64, y: f64) -> String {
    let (tip, middle, foot) = (x + BAR, y + BAR / 2.0, y + BAR);
    format!(
        "<polygon points=\"{x:.1},{y:.1} {tip:.1},{middle:.1} {x:.1},{foot:.1}\" fill=\"{colour}\"/>\n"
    )
}

#[cfg(test)]
mod tests {
    use super::*;
    use crate::clock::Pair;
    use crate::rows::Label;

    fn measured(plant: &'static str, name: &str, ratio: f64) -> Measured {
        let pair = Pair { rattle: 10.0 * ratio, baseline: 10.0 };
        let label = Label { plant, name: name.into(), aim: Some(3.0) };
        Measured { label, nanoseconds: pair, instructions: pair }
    }

    fn some_plot() -> String {
        let rows = [("a", "first", 1.0), ("a", "second", 2.5), ("b", "third", 50.0)];
        plot(&["a", "b"], &rows.map(|(plant, name, ratio)| measured(plant, name, ratio)))
    }

    #[test]
    fn rows_are_named_with_their_ratios() {
        for words in [">first<", ">1.00<", ">second<", ">2.50<", ">third<", ">50.00<"] {
            assert!(some_plot().contains(words), "{words}");
        }
        assert!(!plot(&["b"], &[measured("a", "first", 1.0)]).contains("first"));
    }

    #[test]
    fn every_tag_is_closed() {
        let text = some_plot();
        let mut open = Vec::new();
        for tag in text.split('<').skip(1).map(|piece| piece.split_once('>').unwrap().0) {
            match tag.strip_prefix('/') {
                Some(name) => assert_eq!(open.pop(), Some(name)),
                None if tag.ends_with('/') => (),
                None => open.push(tag.split(' ').next().unwrap()),
            }
        }
        assert!(open.is_empty());
    }

    /// A bar of the ratio 1 ends at the baseline's line, a long one at the axis's
    /// end.
    #[test]
    fn bars_end_where_their_ratio_stands() {
        let one = place(1.0);
        assert!(some_plot().contains(&upright(
            BASELINE,
            1.5,
            one,
            HEAD + NAME,
            HEAD + NAME + 2.0 * ROW
        )));
        assert!(ratio_bar(TIME, 1.0, 0.0).contains(&bar(TIME, AXIS, 0.0, one - AXIS, BAR)));
        assert_eq!(place(50.0), AXIS_END);
    }
}
