//! The picture as SVG: the rule, the pieces' regions, the lines, the nodes, and what the signs of the picture mean.

use crate::layout::{self, Placed, HEIGHT, MARGIN, NAME, STATE};
use crate::written::Byte;
use std::fmt::Write;

/// The fill and the border of the pieces' regions, by turns.
const SHADES: [(&str, &str); 6] = [
    ("#dbe9f8", "#7aa7d9"),
    ("#fde8d0", "#e0a860"),
    ("#dff0dc", "#86bb7e"),
    ("#eee0f5", "#b08bc8"),
    ("#fbf3c6", "#cdb748"),
    ("#f9dde1", "#d98c98"),
];

const STYLE: &str = "text { font-family: 'DejaVu Sans Mono', Menlo, Consolas, monospace; fill: #222; }
.rule { font-size: 18px; }
.label { font-size: 13px; text-anchor: middle; }
.state { font-size: 10px; text-anchor: middle; fill: #555; }
.name { font-size: 11px; }
.note { font-size: 12px; }
.edge { stroke: #555; stroke-width: 1.4; }
.link { stroke: #555; stroke-width: 1.4; stroke-dasharray: 4 4; }
.node { fill: #fff; stroke: #444; stroke-width: 1.2; }
.stand-in { fill: #fff; stroke: #444; stroke-width: 1.2; stroke-dasharray: 4 3; }
.cell { stroke: #bbb; stroke-width: 1; }";

/// Round the whole picture.
const BORDER: f64 = 24.0;
/// A letter of the rule, and one of its lines.
const RULE_LETTER: f64 = 11.0;
const RULE_LINE: f64 = 28.0;
/// The narrowest picture: the notes have room in it.
const NARROWEST: f64 = 640.0;
/// How thick a region is along an edge.
const ALONG: f64 = 24.0;
/// From one note to the next.
const NOTE: f64 = 40.0;

fn escaped(text: &str) -> String {
    text.replace('&', "&amp;").replace('<', "&lt;").replace('>', "&gt;").replace(' ', "&#160;")
}

fn shade(piece: usize) -> (&'static str, &'static str) {
    SHADES[piece % SHADES.len()]
}

/// An SVG that is being written.
struct Svg(String);

impl Svg {
    fn add(&mut self, element: std::fmt::Arguments<'_>) {
        self.0.write_fmt(element).expect("a string takes all");
        self.0.push('\n');
    }

    fn text(&mut self, class: &str, x: f64, y: f64, text: &str) {
        self.add(format_args!(r#"<text class="{class}" x="{x:.1}" y="{y:.1}">{}</text>"#, escaped(text)));
    }

    fn line(&mut self, class: &str, from: (f64, f64), to: (f64, f64)) {
        let ((x1, y1), (x2, y2)) = (from, to);
        self.add(format_args!(r#"<line class="{class}" x1="{x1:.1}" y1="{y1:.1}" x2="{x2:.1}" y2="{y2:.1}"/>"#));
    }

    /// The box of a node or a stand-in: the number of its start, its label, the number of its accepting state.
    fn node(&mut self, placed: &Placed) {
        let (left, top) = (placed.x - placed.width / 2.0, placed.y - HEIGHT / 2.0);
        let (right, bottom) = (left + placed.width, top + HEIGHT);
        let class = if placed.stand_in { "stand-in" } else { "node" };
        self.add(format_args!("<g><title>{}</title>", escaped(&placed.title)));
        self.add(format_args!(
            r#"<rect class="{class}" x="{left:.1}" y="{top:.1}" width="{:.1}" height="{HEIGHT}" rx="8"/>"#,
            placed.width
        ));
        for x in [left + STATE, right - STATE] {
            self.line("cell", (x, top + 1.0), (x, bottom - 1.0));
        }
        self.text("state", left + STATE / 2.0, placed.y + 3.5, &placed.start.to_string());
        self.text("label", placed.x, placed.y + 4.5, &placed.label);
        self.text("state", right - STATE / 2.0, placed.y + 3.5, &placed.accepting.to_string());
        self.add(format_args!("</g>"));
    }
}

/// The region of a node: from its left, upper corner, and how wide and high it is. A piece's root has room for the name.
pub fn region(placed: &Placed) -> (f64, f64, f64, f64) {
    let name = if placed.first { NAME } else { 0.0 };
    let width = layout::region_width(placed);
    (placed.x - width / 2.0, placed.y - HEIGHT / 2.0 - MARGIN - name, width, HEIGHT + 2.0 * MARGIN + name)
}

/// What it hangs below in its own piece.
fn parent_in_piece<'p>(all: &'p [Placed], placed: &Placed) -> Option<&'p Placed> {
    placed.parent.map(|parent| &all[parent]).filter(|parent| parent.piece == placed.piece)
}

/// The regions of all nodes of a piece and along the lines between them, in one colour, so many units larger on each side.
fn add_region(svg: &mut Svg, all: &[Placed], piece: usize, colour: &str, larger: f64) {
    svg.add(format_args!(r#"<g fill="{colour}" stroke="{colour}" stroke-linecap="round">"#));
    for placed in all.iter().filter(|placed| placed.piece == piece) {
        let (x, y, width, height) = region(placed);
        let (x, y, width, height) = (x - larger, y - larger, width + 2.0 * larger, height + 2.0 * larger);
        svg.add(format_args!(
            r#"<rect x="{x:.1}" y="{y:.1}" width="{width:.1}" height="{height:.1}" rx="{:.1}" stroke="none"/>"#,
            13.0 + larger
        ));
        if let Some(parent) = parent_in_piece(all, placed) {
            let thick = ALONG + 2.0 * larger;
            svg.add(format_args!(
                r#"<line x1="{:.1}" y1="{:.1}" x2="{:.1}" y2="{:.1}" stroke-width="{thick:.1}"/>"#,
                parent.x,
                parent.y + HEIGHT / 2.0,
                placed.x,
                placed.y - HEIGHT / 2.0
            ));
        }
    }
    svg.add(format_args!("</g>"));
}

/// The shaded regions of all pieces, with their borders and names.
fn add_regions(svg: &mut Svg, all: &[Placed]) {
    for root in all.iter().filter(|placed| placed.first) {
        let (fill, border) = shade(root.piece);
        add_region(svg, all, root.piece, border, 1.3);
        add_region(svg, all, root.piece, fill, 0.0);
        let (x, y, ..) = region(root);
        svg.text("name", x + 9.0, y + NAME, &layout::name(root.piece));
    }
}

/// The lines from each node to what hangs below it; to a piece below its stand-in a dashed one.
fn add_lines(svg: &mut Svg, all: &[Placed]) {
    for placed in all {
        if let Some(parent) = placed.parent.map(|parent| &all[parent]) {
            let class = if placed.first { "link" } else { "edge" };
            svg.line(class, (parent.x, parent.y + HEIGHT / 2.0), (placed.x, placed.y - HEIGHT / 2.0));
        }
    }
}

/// The rule, in lines of at most so many letters, shaded by the pieces; answers how high that is.
fn add_rule(svg: &mut Svg, rule: &[Byte], letters: usize) -> f64 {
    let (mut column, mut line) = (0, 0.0);
    for byte in rule {
        let length = byte.shown.chars().count();
        if column + length > letters {
            (column, line) = (0, line + RULE_LINE);
        }
        let x = BORDER + RULE_LETTER * column as f64;
        let y = BORDER + line;
        if let Some(piece) = byte.piece {
            let (width, (fill, _)) = (RULE_LETTER * length as f64, shade(piece));
            svg.add(format_args!(r#"<rect x="{x:.1}" y="{y:.1}" width="{width:.1}" height="24" fill="{fill}"/>"#));
        }
        svg.text("rule", x, y + 18.0, &byte.shown);
        column += length;
    }
    line + RULE_LINE
}

/// A box as it stands in the picture, for a note on it.
fn sample(label: &str, stand_in: bool, (start, accepting): (usize, usize), y: f64) -> Placed {
    let width = layout::box_width(label);
    let (label, title) = (label.to_string(), String::new());
    Placed { label, title, piece: 0, stand_in, start, accepting, x: width / 2.0, y, width, parent: None, first: false }
}

/// What the signs of the picture mean; answers how high that is.
fn add_notes(svg: &mut Svg, all: &[Placed]) -> f64 {
    let root = &all[0];
    let mut notes = vec![(
        sample(&root.label, false, (root.start, root.accepting), 0.0),
        "a node: the number of its start, what it is, the number of its accepting state",
    )];
    if let Some(stand_in) = all.iter().find(|placed| placed.stand_in) {
        let states = (stand_in.start, stand_in.accepting);
        let meaning = "a stand-in: its two states are those of the first node of that piece";
        notes.push((sample(&stand_in.label, true, states, NOTE), meaning));
    }
    let widest = notes.iter().map(|(sample, _)| sample.width).fold(0.0, f64::max);
    for (sample, meaning) in &notes {
        svg.node(sample);
        svg.text("note", widest + 14.0, sample.y + 4.0, meaning);
    }
    let shaded = NOTE * notes.len() as f64;
    let (fill, border) = shade(0);
    svg.add(format_args!(
        r#"<rect x="1" y="{:.1}" width="{:.1}" height="24" rx="10" fill="{fill}" stroke="{border}" stroke-width="1.3"/>"#,
        shaded - 12.0,
        widest - 2.0
    ));
    svg.text(
        "note",
        widest + 14.0,
        shaded + 4.0,
        "a piece: at most 15 nodes; its states, numbered from 0, are the bits of one word",
    );
    shaded + NOTE
}

/// The whole picture.
pub fn draw(rule: &[Byte], all: &[Placed]) -> String {
    let right = all.iter().map(|placed| region(placed).0 + region(placed).2).fold(0.0, f64::max);
    let left = all.iter().map(|placed| region(placed).0).fold(f64::MAX, f64::min);
    let bottom = all.iter().map(|placed| region(placed).1 + region(placed).3).fold(0.0, f64::max);
    let inner = (right - left).max(NARROWEST);
    let mut body = Svg(String::new());
    let rule_height = add_rule(&mut body, rule, (inner / RULE_LETTER) as usize);
    let tree = BORDER + rule_height + 16.0;
    let middle = BORDER - left + (inner - (right - left)) / 2.0;
    body.add(format_args!(r#"<g transform="translate({middle:.1} {tree:.1})">"#));
    add_regions(&mut body, all);
    add_lines(&mut body, all);
    all.iter().for_each(|placed| body.node(placed));
    let notes = tree + bottom + 44.0;
    body.add(format_args!("</g>\n<g transform=\"translate({BORDER} {notes:.1})\">"));
    let notes_height = add_notes(&mut body, all);
    let (width, height) = (inner + 2.0 * BORDER, notes + notes_height);
    format!(
        "<svg xmlns=\"http://www.w3.org/2000/svg\" width=\"{width:.0}\" height=\"{height:.0}\" viewBox=\"0 0 {width:.0} {height:.0}\">\n\
         <style>\n{STYLE}\n</style>\n<rect width=\"100%\" height=\"100%\" fill=\"#fff\"/>\n{}</g>\n</svg>\n",
        body.0
    )
}
