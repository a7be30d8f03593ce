//! Waveforms as text and as a picture.

use std::fmt::Write;

const COLUMNS: usize = 64;
const ROWS: u32 = 16;
/// Counts of a row of text are a multiple of this.
const ROUND: u32 = 500;

/// The picture's parts, in pixels.
const LEFT: usize = 64;
const TOP: u32 = 32;
const WIDTH: usize = 512;
const HEIGHT: u32 = 288;
/// Lines of the grid each way, less one.
const LINES: u32 = 4;
/// Samples of which a point is the mean.
const MEANT: usize = 4;

/// The counts that a row of text stands for, so that the greatest sample has its place.
fn counts_of_row(samples: &[u16]) -> u32 {
    let greatest = samples.iter().copied().max().map_or(0, u32::from);
    (greatest / ROWS / ROUND + 1) * ROUND
}

/// A waveform of at least 64 samples in 64 columns and 16 rows. Each column stands for equally
/// many, from their least to their greatest.
pub fn text(samples: &[u16]) -> String {
    let counts = counts_of_row(samples);
    let column_rows = |column: &[u16]| {
        let rows = column.iter().map(|sample| u32::from(*sample) / counts);
        (rows.clone().min(), rows.max())
    };
    let columns = samples.chunks_exact(samples.len() / COLUMNS);
    let columns: Vec<_> = columns.take(COLUMNS).map(column_rows).collect();
    let mut text = String::new();
    for row in (0..ROWS).rev() {
        let is_met = |(least, greatest)| least <= Some(row) && Some(row) <= greatest;
        let signs = columns
            .iter()
            .map(|rows| if is_met(*rows) { '*' } else { ' ' });
        let line: String = signs.collect();
        text += &format!("  {:5} |{}\n", row * counts, line.trim_end());
    }
    let below = "-".repeat(COLUMNS);
    text + &format!("        +{below}\n         0{:63} samples\n", samples.len())
}

/// The lines of the grid with their numbers: samples below, counts at the left.
fn grid(counts: u32, samples: usize) -> String {
    let (bottom, right) = (TOP + HEIGHT, LEFT + WIDTH);
    let mut grid = String::new();
    for line in 0..=LINES {
        let x = LEFT + WIDTH / LINES as usize * line as usize;
        let y = bottom - HEIGHT / LINES * line;
        let sample = samples / LINES as usize * line as usize;
        let count = counts * ROWS / LINES * line;
        grid += &format!("<path d=\"M{x} {TOP}V{bottom}M{LEFT} {y}H{right}\" stroke=\"#ccc\"/>\n");
        grid += &text_at(
            x,
            bottom + 18,
            " text-anchor=\"middle\"",
            &sample.to_string(),
        );
        grid += &text_at(LEFT - 8, y + 4, " text-anchor=\"end\"", &count.to_string());
    }
    grid
}

fn text_at(x: usize, y: u32, anchor: &str, text: &str) -> String {
    format!("<text x=\"{x}\" y=\"{y}\"{anchor}>{text}</text>\n")
}

/// The points, their heights in tenths of a pixel.
fn points(counts: u32, samples: &[u16]) -> String {
    let mut points = String::from("<polyline fill=\"none\" stroke=\"#036\" points=\"");
    for (k, meant) in samples.chunks_exact(MEANT).enumerate() {
        let mean = meant.iter().copied().map(u32::from).sum::<u32>() / MEANT as u32;
        let x = LEFT + k * MEANT * WIDTH / samples.len();
        let y = 10 * (TOP + HEIGHT) - mean * (10 * HEIGHT / ROWS) / counts;
        let between = match k {
            0 => "",
            _ if k % 16 == 0 => "\n",
            _ => " ",
        };
        write!(points, "{between}{x},{}.{}", y / 10, y % 10).expect("a string");
    }
    points + "\"/>\n"
}

/// A waveform as a picture in SVG, with a point for the mean of every four samples.
pub fn svg(samples: &[u16]) -> String {
    let counts = counts_of_row(samples);
    let (width, height) = (LEFT + WIDTH + 32, TOP + HEIGHT + 48);
    let font = "font-family=\"sans-serif\" font-size=\"12\"";
    [
        &format!(
            "<svg xmlns=\"http://www.w3.org/2000/svg\" viewBox=\"0 0 {width} {height}\" {font}>\n"
        ),
        "<rect width=\"100%\" height=\"100%\" fill=\"white\"/>\n",
        &grid(counts, samples.len()),
        &text_at(LEFT, 20, "", "counts"),
        &text_at(
            LEFT + WIDTH,
            TOP + HEIGHT + 36,
            " text-anchor=\"end\"",
            "samples",
        ),
        &points(counts, samples),
        "</svg>\n",
    ]
    .concat()
}
