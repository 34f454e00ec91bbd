//! Draws the pictures of docs/pictures, and looks over what is drawn.
//!
//!     rustc -O --edition 2021 -o target/pictures/draw docs/pictures/draw.rs
//!     target/pictures/draw docs/pictures                        # from the repository's root
//!     target/pictures/draw --check docs/pictures/crates.svg ..  # is each one well-formed?
//!
//! crates.svg is drawn from crates.txt and goes on to the shop's server; maps.svg is drawn from
//! docs/pictures/maps.txt. The standard library is enough, and so is Rust 1.63. The same input gives the same bytes.

use std::env;
use std::fs;
use std::path::Path;
use std::process::exit;

fn main() {
    let arguments: Vec<String> = env::args().skip(1).collect();
    let done = match arguments.split_first() {
        Some((first, files)) if first == "--check" && !files.is_empty() => check_all(files),
        Some((folder, [])) => draw_all(Path::new(folder)),
        _ => Err("usage: draw FOLDER, or draw --check FILE..".to_string()),
    };
    if let Err(message) = done {
        eprintln!("draw: {message}");
        exit(1);
    }
}

fn draw_all(folder: &Path) -> Result<(), String> {
    let crates = draw_crates(&read("crates.txt")?)?;
    let maps = draw_maps(&read("docs/pictures/maps.txt")?)?;
    for (name, picture) in [("crates.svg", crates), ("maps.svg", maps)] {
        well_formed(&picture).map_err(|why| format!("{name}: {why}"))?;
        let path = folder.join(name);
        fs::write(&path, picture).map_err(|error| format!("{}: {error}", path.display()))?;
    }
    Ok(())
}

fn check_all(files: &[String]) -> Result<(), String> {
    for file in files {
        well_formed(&read(file)?).map_err(|why| format!("{file}: {why}"))?;
    }
    Ok(())
}

fn read(path: &str) -> Result<String, String> {
    fs::read_to_string(path).map_err(|error| format!("{path}: {error}"))
}

// ---- text and shapes

const INK: &str = "#1b1f24";
const FAINT: &str = "#57606a";
const ALARM: &str = "#b3261e";
const LINE: &str = "#8c959f";

struct Shade {
    fill: &'static str,
    edge: &'static str,
}

const PLAIN: Shade = Shade { fill: "#f0f2f4", edge: "#8c959f" };
const BLUE: Shade = Shade { fill: "#dcebfb", edge: "#4a7fb5" };
const AMBER: Shade = Shade { fill: "#fdeecb", edge: "#c08a2b" };
const GREEN: Shade = Shade { fill: "#dff3e1", edge: "#4f9a58" };

/// Widths of the characters from space to `~` in the widest sans-serif font in common use (DejaVu Sans), in
/// thousandths of the font's size. Where they fit, those of other fonts fit.
const WIDTHS: [i64; 95] = [
    318, 401, 460, 838, 636, 950, 780, 275, 390, 390, 500, 838, 318, 361, 318, 337, 636, 636, 636, 636, 636, 636, 636,
    636, 636, 636, 337, 337, 838, 838, 838, 531, 1000, 684, 686, 698, 770, 632, 575, 775, 752, 295, 295, 656, 557, 863,
    748, 787, 603, 787, 695, 635, 611, 732, 684, 989, 685, 611, 685, 390, 337, 390, 838, 500, 500, 613, 635, 550, 635,
    615, 352, 635, 634, 278, 278, 579, 278, 974, 634, 612, 635, 635, 411, 521, 392, 634, 592, 818, 592, 592, 525, 636,
    337, 636, 838,
];

/// The room that a text needs, in pixels, rounded up; bold letters are a sixth wider.
fn room(text: &str, size: i64, bold: bool) -> i64 {
    let thousandths: i64 =
        text.bytes().map(|b| WIDTHS.get((b as usize).wrapping_sub(32)).copied().unwrap_or(1000)).sum();
    let width = thousandths * size / 1000 + 1;
    if bold {
        width * 7 / 6
    } else {
        width
    }
}

/// The text in lines that are no wider than `width`; `|` ends a line, and a star or the number of a refusal
/// stays on the line of the word before it.
fn wrapped(text: &str, size: i64, width: i64) -> Result<Vec<String>, String> {
    let mut lines: Vec<String> = Vec::new();
    for part in text.split('|') {
        let mut line = String::new();
        for word in units(part) {
            if room(&word, size, false) > width {
                return Err(format!("'{word}' is wider than its box"));
            }
            if !line.is_empty() && room(&format!("{line} {word}"), size, false) > width {
                lines.push(std::mem::take(&mut line));
            }
            if !line.is_empty() {
                line.push(' ');
            }
            line.push_str(&word);
        }
        lines.push(line);
    }
    Ok(lines)
}

/// The words of a text, with what may not be parted from them.
fn units(text: &str) -> Vec<String> {
    let mut units: Vec<String> = Vec::new();
    for word in text.split_whitespace() {
        match units.last_mut() {
            Some(last) if word.starts_with('*') || last.ends_with("refused") => {
                last.push(' ');
                last.push_str(word);
            }
            _ => units.push(word.to_string()),
        }
    }
    units
}

fn escaped(text: &str) -> String {
    text.replace('&', "&amp;").replace('<', "&lt;").replace('>', "&gt;").replace('"', "&quot;")
}

/// A picture in the making: white, with one font.
struct Svg {
    body: String,
}

impl Svg {
    fn new() -> Svg {
        Svg { body: String::new() }
    }

    fn add(&mut self, element: String) {
        self.body.push_str("  ");
        self.body.push_str(&element);
        self.body.push('\n');
    }

    fn area(&mut self, x: i64, y: i64, w: i64, h: i64, round: i64, shade: &Shade) {
        self.add(format!(
            r#"<rect x="{x}" y="{y}" width="{w}" height="{h}" rx="{round}" fill="{}" stroke="{}"/>"#,
            shade.fill, shade.edge
        ));
    }

    /// One line of text; `anchor` is start, middle or end. A refusal in it is marked.
    fn text(&mut self, x: i64, y: i64, anchor: &str, size: i64, bold: bool, ink: &str, text: &str) {
        let weight = if bold { r#" font-weight="bold""# } else { "" };
        let mut marked = String::new();
        let mut rest = text;
        while let Some(at) = rest.find("refused ") {
            let end = at + 8 + rest[at + 8..].bytes().take_while(u8::is_ascii_digit).count();
            marked.push_str(&escaped(&rest[..at]));
            marked.push_str(&format!(r#"<tspan fill="{ALARM}">{}</tspan>"#, escaped(&rest[at..end])));
            rest = &rest[end..];
        }
        marked.push_str(&escaped(rest));
        self.add(format!(
            r#"<text x="{x}" y="{y}" text-anchor="{anchor}" font-size="{size}"{weight} fill="{ink}">{marked}</text>"#
        ));
    }

    fn finish(self, width: i64, height: i64, title: &str) -> String {
        let title = escaped(title);
        format!(
            "<svg xmlns=\"http://www.w3.org/2000/svg\" width=\"{width}\" height=\"{height}\" \
             viewBox=\"0 0 {width} {height}\" font-family=\"sans-serif\" role=\"img\">\n  \
             <title>{title}</title>\n  \
             <rect x=\"0\" y=\"0\" width=\"{width}\" height=\"{height}\" fill=\"#ffffff\"/>\n{}</svg>\n",
            self.body
        )
    }
}

// ---- the crates

#[derive(PartialEq, Clone, Copy)]
enum Kind {
    Library,
    Program,
    /// Definitions and proofs, and no function.
    Theorems,
    /// What stands on the exported library outside the proofs.
    Caller,
}

struct Crate {
    name: String,
    kind: Kind,
    /// Crates of this repository that it stands on, by their place in the file.
    on: Vec<usize>,
    /// What is said under its name: the libraries of the toolchain that it stands on, or its folder.
    under: String,
}

/// The way from the exported library to the shop: name, what is said under it, what it stands on.
const CALLERS: [(&str, &str, &[&str]); 4] = [
    ("libbiekkarul.a", "kept in lib/", &["exports_c"]),
    ("biekkarul.h", "for C, in include/", &["libbiekkarul.a"]),
    ("wrapper", "for Rust, in rust/", &["libbiekkarul.a"]),
    ("the shop's server", "in Rust, or in C", &["wrapper", "biekkarul.h"]),
];

fn add_callers(crates: &mut Vec<Crate>) -> Result<(), String> {
    for (name, under, below) in CALLERS {
        let mut on = Vec::new();
        for word in below {
            on.push(crates.iter().position(|c| c.name == *word).ok_or(format!("there is no {word} to stand on"))?);
        }
        crates.push(Crate { name: name.to_string(), kind: Kind::Caller, on, under: under.to_string() });
    }
    Ok(())
}

fn kind_of(name: &str) -> Result<Kind, String> {
    let folder = Path::new("crates").join(name).join("src");
    if folder.join("main.rt").is_file() {
        return Ok(Kind::Program);
    }
    let path = folder.join("lib.rt");
    let source = fs::read_to_string(&path).map_err(|error| format!("{}: {error}", path.display()))?;
    let is_code = |line: &str| !line.trim().is_empty() && !line.trim_start().starts_with("//") && !line.starts_with("#![");
    Ok(if source.lines().any(is_code) { Kind::Library } else { Kind::Theorems })
}

fn crates_of(text: &str) -> Result<Vec<Crate>, String> {
    let mut crates: Vec<Crate> = Vec::new();
    for line in text.lines().map(str::trim).filter(|line| !line.is_empty() && !line.starts_with('#')) {
        let (name, rest) = line.split_once(':').ok_or(format!("crates.txt has a line without a colon: {line}"))?;
        let (mut on, mut outside) = (Vec::new(), Vec::new());
        for word in rest.split_whitespace() {
            match crates.iter().position(|c| c.name == word) {
                Some(at) => on.push(at),
                None if Path::new("crates").join(word).is_dir() => {
                    return Err(format!("crates.txt: {name} stands on {word}, which comes later"))
                }
                None => outside.push(word),
            }
        }
        // a word after the name says what is made of the crate
        let name = name.split_whitespace().next().unwrap_or_default().to_string();
        if crates.iter().any(|c| c.name == name) {
            return Err(format!("crates.txt has {name} twice"));
        }
        let under = if outside.is_empty() { String::new() } else { format!("with {}", outside.join(", ")) };
        crates.push(Crate { kind: kind_of(&name)?, name, on, under });
    }
    Ok(crates)
}

/// Of what each crate stands on, the direct neighbours: what no other of them stands on in turn.
fn neighbours(crates: &[Crate]) -> Vec<Vec<usize>> {
    let mut below: Vec<Vec<bool>> = Vec::new();
    for c in crates {
        let reaches = |at: usize| c.on.iter().any(|&d| d == at || below[d][at]);
        below.push((0..crates.len()).map(reaches).collect());
    }
    let direct = |c: &Crate| c.on.iter().copied().filter(|&d| !c.on.iter().any(|&e| below[e][d])).collect();
    crates.iter().map(direct).collect()
}

/// A place in a layer: a crate, or a point where an arrow passes through the layer.
struct Node {
    of: Option<usize>,
    layer: usize,
    width: i64,
    down: Vec<usize>,
    up: Vec<usize>,
    x: f64,
}

const BOX: i64 = 36;
const PITCH: i64 = 84;
const GAP: i64 = 26;

fn box_width(c: &Crate) -> i64 {
    (room(&c.name, 15, true) + 28).max(room(&c.under, 11, false) + 20).max(84)
}

/// The crates by layers, each one above all that it stands on, with the arrows from layer to layer.
fn nodes_of(crates: &[Crate], direct: &[Vec<usize>]) -> Vec<Node> {
    let mut layers: Vec<usize> = Vec::new();
    for c in crates {
        layers.push(c.on.iter().map(|&d| layers[d] + 1).max().unwrap_or(0));
    }
    let node = |of, layer, width| Node { of, layer, width, down: Vec::new(), up: Vec::new(), x: 0.0 };
    let mut nodes: Vec<Node> =
        crates.iter().zip(&layers).enumerate().map(|(i, (c, &l))| node(Some(i), l, box_width(c))).collect();
    for (from, targets) in direct.iter().enumerate() {
        for &to in targets {
            let mut upper = from;
            for layer in (layers[to] + 1..layers[from]).rev() {
                nodes.push(node(None, layer, 12));
                let point = nodes.len() - 1;
                join(&mut nodes, upper, point);
                upper = point;
            }
            join(&mut nodes, upper, to);
        }
    }
    nodes
}

fn join(nodes: &mut [Node], upper: usize, lower: usize) {
    nodes[upper].down.push(lower);
    nodes[lower].up.push(upper);
}

/// The nodes of each layer from left to right, so that few arrows cross.
fn ordered(nodes: &[Node]) -> Vec<Vec<usize>> {
    let top = nodes.iter().map(|n| n.layer).max().unwrap_or(0);
    let mut rows: Vec<Vec<usize>> =
        (0..=top).map(|l| (0..nodes.len()).filter(|&i| nodes[i].layer == l).collect()).collect();
    let mut best = rows.clone();
    for round in 0..24 {
        let upward = round % 2 == 0;
        let order: Vec<usize> = if upward { (1..=top).collect() } else { (0..top).rev().collect() };
        for l in order {
            let beside = if upward { rows[l - 1].clone() } else { rows[l + 1].clone() };
            let key = |i: usize| {
                let others = if upward { &nodes[i].down } else { &nodes[i].up };
                let places: Vec<usize> = others.iter().filter_map(|o| beside.iter().position(|b| b == o)).collect();
                let own = rows[l].iter().position(|&r| r == i).unwrap_or(0);
                if places.is_empty() {
                    own * 1000
                } else {
                    places.iter().sum::<usize>() * 1000 / places.len()
                }
            };
            let mut row: Vec<(usize, usize)> = rows[l].iter().map(|&i| (key(i), i)).collect();
            row.sort_by_key(|&(k, _)| k);
            rows[l] = row.into_iter().map(|(_, i)| i).collect();
        }
        if crossings(nodes, &rows) < crossings(nodes, &best) {
            best = rows.clone();
        }
    }
    best
}

fn crossings(nodes: &[Node], rows: &[Vec<usize>]) -> usize {
    let mut count = 0;
    for pair in rows.windows(2) {
        let place = |i: usize| pair[0].iter().position(|&r| r == i).unwrap_or(0);
        let arrows: Vec<(usize, usize)> =
            pair[1].iter().enumerate().flat_map(|(u, &i)| nodes[i].down.iter().map(move |&d| (u, place(d)))).collect();
        for (n, a) in arrows.iter().enumerate() {
            count += arrows[n + 1..].iter().filter(|b| (a.0 < b.0 && a.1 > b.1) || (a.0 > b.0 && a.1 < b.1)).count();
        }
    }
    count
}

/// Moves each node towards the middle of its neighbours, layer by layer, with room between the boxes.
fn placed(nodes: &mut [Node], rows: &[Vec<usize>]) {
    for row in rows {
        let mut x = 0;
        for &i in row {
            nodes[i].x = (x + nodes[i].width / 2) as f64;
            x += nodes[i].width + GAP;
        }
    }
    for round in 0..200 {
        let order: Vec<usize> =
            if round % 2 == 0 { (0..rows.len()).collect() } else { (0..rows.len()).rev().collect() };
        for l in order {
            settle(nodes, &rows[l]);
        }
    }
    let left = nodes.iter().map(|n| n.x - n.width as f64 / 2.0).fold(f64::MAX, f64::min);
    for n in nodes {
        n.x = (n.x - left).round();
    }
}

/// One layer: the places nearest to what each node wishes that keep the order and the room (least squares).
fn settle(nodes: &mut [Node], row: &[usize]) {
    let mut offset = 0.0;
    let mut blocks: Vec<(f64, f64, usize)> = Vec::new(); // sum of wishes, weight, count
    let mut offsets = Vec::new();
    for (n, &i) in row.iter().enumerate() {
        if n > 0 {
            offset += ((nodes[row[n - 1]].width + nodes[i].width) / 2 + GAP) as f64;
        }
        offsets.push(offset);
        let (mut sum, mut weight) = (nodes[i].x * 0.01, 0.01);
        for &o in nodes[i].down.iter().chain(&nodes[i].up) {
            let pull = if nodes[i].of.is_none() && nodes[o].of.is_none() { 8.0 } else { 1.0 };
            sum += nodes[o].x * pull;
            weight += pull;
        }
        blocks.push((sum - offset * weight, weight, 1));
        while blocks.len() > 1 {
            let (b, a) = (blocks[blocks.len() - 1], blocks[blocks.len() - 2]);
            if a.0 / a.1 <= b.0 / b.1 {
                break;
            }
            blocks.truncate(blocks.len() - 2);
            blocks.push((a.0 + b.0, a.1 + b.1, a.2 + b.2));
        }
    }
    let mut n = 0;
    for (sum, weight, count) in blocks {
        for _ in 0..count {
            nodes[row[n]].x = sum / weight + offsets[n];
            n += 1;
        }
    }
}

const EDGE: i64 = 30;
const TOP: i64 = 76;

fn draw_crates(text: &str) -> Result<String, String> {
    let mut crates = crates_of(text)?;
    add_callers(&mut crates)?;
    let direct = neighbours(&crates);
    let mut nodes = nodes_of(&crates, &direct);
    let rows = ordered(&nodes);
    placed(&mut nodes, &rows);
    let right = nodes.iter().map(|n| n.x as i64 + n.width / 2).max().unwrap_or(0);
    let width = (right + 2 * EDGE).max(760);
    let shift = (width - right) / 2;
    let y = |layer: usize| TOP + (rows.len() - 1 - layer) as i64 * PITCH;
    let mut svg = Svg::new();
    svg.text(width / 2, 32, "middle", 18, true, INK, "The crates, each above what it stands on");
    svg.text(
        width / 2,
        52,
        "middle",
        12,
        false,
        FAINT,
        "An arrow leads to a direct neighbour. What lies further down on its way may be used too.",
    );
    for upper in 0..crates.len() {
        for (n, path) in arrows(&nodes, upper).into_iter().enumerate() {
            draw_arrow(&mut svg, &nodes, upper, n, &path, shift, &y);
        }
    }
    for (c, node) in crates.iter().zip(&nodes) {
        draw_box(&mut svg, c, node, shift, y(node.layer));
    }
    let height = crates_legend(&mut svg, width, y(0) + BOX + 34)?;
    Ok(svg.finish(width, height, "The crates of the repository, drawn from crates.txt, and who calls them"))
}

/// For each arrow down from a node, from left to right, the points that it passes and the node where it ends.
fn arrows(nodes: &[Node], upper: usize) -> Vec<Vec<usize>> {
    let mut paths: Vec<Vec<usize>> = Vec::new();
    for &first in &nodes[upper].down {
        let mut path = vec![first];
        while let Some(&last) = path.last().filter(|&&last| nodes[last].of.is_none()) {
            path.push(nodes[last].down[0]);
        }
        paths.push(path);
    }
    paths.sort_by_key(|path| nodes[path[0]].x as i64);
    paths
}

/// Where the arrow number `n` of `count` meets a side of a box.
fn port(node: &Node, n: usize, count: usize) -> i64 {
    let step = (node.width - 24) / count.max(1) as i64;
    node.x as i64 + step * (2 * n as i64 + 1 - count as i64) / 2
}

fn draw_arrow(
    svg: &mut Svg,
    nodes: &[Node],
    upper: usize,
    n: usize,
    path: &[usize],
    shift: i64,
    y: &dyn Fn(usize) -> i64,
) {
    let x = port(&nodes[upper], n, nodes[upper].down.len()) + shift;
    let mut at = (x, y(nodes[upper].layer) + BOX);
    let mut line = format!("M {} {}", at.0, at.1);
    let mut before = upper;
    for &i in path {
        let node = &nodes[i];
        let ends = node.of.is_some();
        let mut arriving = node.up.clone();
        arriving.sort_by_key(|&u| nodes[u].x as i64);
        let place = arriving.iter().position(|&u| u == before).unwrap_or(0);
        let x = shift + if ends { port(node, place, arriving.len()) } else { node.x as i64 };
        let end = (x, y(node.layer) - if ends { 7 } else { 0 });
        let middle = (at.1 + end.1) / 2;
        line.push_str(&format!(" C {} {middle} {} {middle} {} {}", at.0, end.0, end.0, end.1));
        at = end;
        if !ends {
            at.1 += BOX;
            line.push_str(&format!(" L {} {}", at.0, at.1));
        }
        before = i;
    }
    svg.add(format!(r#"<path d="{line}" fill="none" stroke="{LINE}" stroke-width="1.4"/>"#));
    let (x, y) = at;
    svg.add(format!(r#"<path d="M {} {y} L {} {y} L {x} {} Z" fill="{LINE}"/>"#, x - 4, x + 4, y + 7));
}

fn shade_of(kind: Kind) -> &'static Shade {
    match kind {
        Kind::Library => &BLUE,
        Kind::Program => &AMBER,
        Kind::Theorems => &GREEN,
        Kind::Caller => &PLAIN,
    }
}

fn draw_box(svg: &mut Svg, c: &Crate, node: &Node, shift: i64, y: i64) {
    let x = node.x as i64 + shift;
    svg.area(x - node.width / 2, y, node.width, BOX, 6, shade_of(c.kind));
    if c.under.is_empty() {
        svg.text(x, y + 23, "middle", 15, true, INK, &c.name);
    } else {
        svg.text(x, y + 17, "middle", 15, true, INK, &c.name);
        svg.text(x, y + 30, "middle", 11, false, FAINT, &c.under);
    }
}

/// What the shades mean, below the crates; gives the height of the picture.
fn crates_legend(svg: &mut Svg, width: i64, top: i64) -> Result<i64, String> {
    let entries = [
        (&BLUE, "a library"),
        (&AMBER, "a program, over the toolchain's libraries"),
        (&GREEN, "laws and proofs, no code"),
        (&PLAIN, "callers, not in Rattle"),
    ];
    let total: i64 = entries.iter().map(|(_, text)| 24 + room(text, 12, false) + 26).sum::<i64>() - 26;
    if total > width - 20 {
        return Err(format!("what is said of the shades needs {total} of {width}"));
    }
    let mut x = (width - total) / 2;
    for (shade, text) in entries {
        svg.area(x, top, 16, 16, 3, shade);
        svg.text(x + 24, top + 13, "start", 12, false, INK, text);
        x += 24 + room(text, 12, false) + 26;
    }
    Ok(top + 16 + 26)
}

// ---- the address maps

struct Window {
    from: u32,
    to: u32,
    /// The first of the columns that it fills, and how many: read house, read board, write house, write board.
    column: usize,
    columns: usize,
    text: String,
}

struct Map {
    name: String,
    notes: Vec<String>,
    windows: Vec<Window>,
}

fn maps_of(text: &str) -> Result<Vec<Map>, String> {
    let mut maps: Vec<Map> = Vec::new();
    for (n, line) in text.lines().enumerate() {
        let wrong = |why: &str| format!("maps.txt, line {}: {why}", n + 1);
        let line = line.trim();
        if line.is_empty() || line.starts_with('#') {
            continue;
        }
        let (word, rest) = line.split_once(' ').ok_or_else(|| wrong("one word only"))?;
        let rest = rest.trim().to_string();
        match (word, maps.last_mut()) {
            ("=", _) => maps.push(Map { name: rest, notes: Vec::new(), windows: Vec::new() }),
            ("note", Some(map)) => map.notes.push(rest),
            ("read", Some(map)) => map.windows.push(window(0, &rest).map_err(|why| wrong(&why))?),
            ("write", Some(map)) => map.windows.push(window(2, &rest).map_err(|why| wrong(&why))?),
            _ => return Err(wrong("no such word, or no board before it")),
        }
    }
    for map in &maps {
        covered(map)?;
    }
    Ok(maps)
}

fn window(first: usize, rest: &str) -> Result<Window, String> {
    let mut words = rest.splitn(3, char::is_whitespace);
    let (range, who) = (words.next().unwrap_or(""), words.next().unwrap_or(""));
    let text = words.next().unwrap_or("").trim().to_string();
    let number = |hex: &str| u32::from_str_radix(hex, 16).ok().filter(|_| hex.len() == 4);
    let (from, to) = match range.split_once('-').map(|(a, b)| (number(a), number(b))) {
        Some((Some(from), Some(to))) if from <= to => (from, to),
        _ => return Err(format!("'{range}' is no window")),
    };
    let (column, columns) = match who {
        "both" => (first, 2),
        "house" => (first, 1),
        "board" => (first + 1, 1),
        _ => return Err(format!("'{who}' is none of house, board and both")),
    };
    if text.is_empty() {
        return Err("nothing is said of the window".to_string());
    }
    Ok(Window { from, to, column, columns, text })
}

/// Every address stands in just one window of each column.
fn covered(map: &Map) -> Result<(), String> {
    for column in 0..4 {
        let mut own: Vec<&Window> =
            map.windows.iter().filter(|w| w.column <= column && column < w.column + w.columns).collect();
        own.sort_by_key(|w| w.from);
        let mut next = 0;
        for w in own {
            if w.from != next {
                return Err(format!("maps.txt, {}: a gap or an overlap at {:04X}", map.name, w.from.min(next)));
            }
            next = w.to + 1;
        }
        if next != 0x10000 {
            return Err(format!("maps.txt, {}: nothing is said of {next:04X}", map.name));
        }
    }
    Ok(())
}

const LABEL: i64 = 96;
const COLUMN: i64 = 222;
const SIZE: i64 = 12;
const LEAD: i64 = 15;
const PAD: i64 = 6;
const MARGIN: i64 = 24;

fn column_x(column: usize) -> i64 {
    MARGIN + LABEL + column as i64 * COLUMN + if column < 2 { 0 } else { 8 }
}

/// Where the rows of a map start: at every window's start, and at the starts that all maps have.
fn starts_of(map: &Map) -> Vec<u32> {
    let mut starts: Vec<u32> = map.windows.iter().map(|w| w.from).chain([0x0000, 0x2000, 0x6000, 0x8000]).collect();
    starts.sort_unstable();
    starts.dedup();
    starts
}

fn rows_of(w: &Window, starts: &[u32]) -> Vec<usize> {
    (0..starts.len()).filter(|&i| w.from <= starts[i] && starts[i] <= w.to).collect()
}

/// What stands under the addresses of a row: whose they are, where they are not the processor's.
fn label_of(start: u32) -> Option<&'static str> {
    if start < 0x2000 {
        Some("picture unit")
    } else {
        None
    }
}

/// How high each row is, so that every text has its room.
fn heights_of(map: &Map, starts: &[u32]) -> Result<Vec<i64>, String> {
    let mut heights: Vec<i64> = starts.iter().map(|&start| label_of(start).map_or(1, |_| 2) * LEAD + 2 * PAD).collect();
    for rows_spanned in 1..=starts.len() {
        for w in &map.windows {
            let rows = rows_of(w, starts);
            if rows.len() != rows_spanned {
                continue;
            }
            let needed = lines_of(w)?.len() as i64 * LEAD + 2 * PAD;
            let there: i64 = rows.iter().map(|&r| heights[r]).sum();
            let missing = (needed - there).max(0);
            let share = (missing + rows.len() as i64 - 1) / rows.len() as i64;
            rows.iter().for_each(|&r| heights[r] += share);
        }
    }
    Ok(heights)
}

fn lines_of(w: &Window) -> Result<Vec<String>, String> {
    wrapped(&w.text, SIZE, COLUMN * w.columns as i64 - 2 * PAD - 4)
}

fn draw_maps(text: &str) -> Result<String, String> {
    let maps = maps_of(text)?;
    let width = column_x(3) + COLUMN + MARGIN;
    let mut svg = Svg::new();
    svg.text(width / 2, 32, "middle", 18, true, INK, "The five address maps, house beside board");
    let mut y = maps_legend(&mut svg, 46, width)?;
    for map in &maps {
        y = draw_map(&mut svg, map, y + 30)?;
    }
    Ok(svg.finish(
        width,
        y + MARGIN,
        "What a read shows and what a write does on the five boards, in house mode and in board mode",
    ))
}

fn maps_legend(svg: &mut Svg, top: i64, width: i64) -> Result<i64, String> {
    let entries = [
        (&PLAIN, "The same in both modes, but for the bank rule and the notice rule below."),
        (&AMBER, "House mode, as the original Rust answers, with a refusal where it panics."),
        (&BLUE, "Board mode, as the real board answers."),
    ];
    let mut y = top;
    for (shade, text) in entries {
        svg.area(MARGIN, y, 16, 16, 3, shade);
        svg.text(MARGIN + 24, y + 13, "start", SIZE, false, INK, text);
        y += 22;
    }
    let rules = [
        "Bank rule, for a number marked *. House: as it is; a read of a bank that ends past the data is refused 11. Board: modulo the count of such banks.",
        "Notice rule. A write that sets the mirroring answers a notice where it differs: house, from the header's; board, from the current one.",
        "CHR is CHR RAM where the header's CHR count is 0, else CHR ROM. A PRG block has 16 KB.",
        "0000-1FFF are addresses of the picture unit (PPU), 2000-FFFF of the processor. Banks are counted from bank 0; a byte is written as two digits, 00.",
        "After a load every register holds 0 but for those that are named under a board; the screens stand as the header asks, and both RAMs hold 00.",
    ];
    for rule in rules {
        for line in wrapped(rule, SIZE, width - 2 * MARGIN)? {
            svg.text(MARGIN, y + 13, "start", SIZE, false, FAINT, &line);
            y += 18;
        }
    }
    Ok(y)
}

fn draw_map(svg: &mut Svg, map: &Map, top: i64) -> Result<i64, String> {
    svg.text(MARGIN, top + 4, "start", 16, true, INK, &map.name);
    let mut y = top + 12;
    for note in &map.notes {
        for line in wrapped(note, SIZE, LABEL + 4 * COLUMN)? {
            svg.text(MARGIN, y + 12, "start", SIZE, false, FAINT, &line);
            y += 17;
        }
    }
    for (first, what) in [(0, "a read shows"), (2, "a write does")] {
        for (column, mode) in [(first, "house"), (first + 1, "board")] {
            let x = column_x(column) + COLUMN / 2;
            svg.text(x, y + 16, "middle", SIZE, true, FAINT, &format!("{what}, {mode}"));
        }
    }
    y += 24;
    let starts = starts_of(map);
    let heights = heights_of(map, &starts)?;
    let tops: Vec<i64> = (0..=starts.len()).map(|i| y + heights[..i].iter().sum::<i64>()).collect();
    for (i, start) in starts.iter().enumerate() {
        let end = starts.get(i + 1).map_or(0xFFFF, |next| next - 1);
        let middle = (tops[i] + tops[i + 1]) / 2 + 4;
        let label = label_of(*start);
        let up = label.map_or(0, |_| LEAD / 2);
        svg.text(MARGIN, middle - up, "start", SIZE, false, INK, &format!("{start:04X}-{end:04X}"));
        if let Some(label) = label {
            svg.text(MARGIN, middle + LEAD - up, "start", SIZE, false, FAINT, label);
        }
    }
    for w in &map.windows {
        let rows = rows_of(w, &starts);
        draw_window(svg, w, tops[rows[0]], tops[rows[rows.len() - 1] + 1])?;
    }
    Ok(tops[starts.len()])
}

fn draw_window(svg: &mut Svg, w: &Window, top: i64, bottom: i64) -> Result<(), String> {
    let shade = match (w.columns, w.column % 2) {
        (2, _) => &PLAIN,
        (_, 0) => &AMBER,
        _ => &BLUE,
    };
    let (x, width) = (column_x(w.column), COLUMN * w.columns as i64);
    svg.area(x + 1, top + 1, width - 2, bottom - top - 2, 3, shade);
    let lines = lines_of(w)?;
    let mut y = (top + bottom - lines.len() as i64 * LEAD) / 2 + 12;
    for line in &lines {
        svg.text(x + width / 2, y, "middle", SIZE, false, INK, line);
        y += LEAD;
    }
    Ok(())
}

// ---- well-formed?

/// One root, `svg`, whose tags are balanced, whose attributes are quoted and named once, and whose text has
/// no bare `<` or `&`; nothing is taken from elsewhere.
fn well_formed(text: &str) -> Result<(), String> {
    let mut open: Vec<&str> = Vec::new();
    let mut rest = text;
    let mut roots = 0;
    while let Some(at) = rest.find('<') {
        plain(&rest[..at], open.is_empty())?;
        let end = rest[at..].find('>').ok_or("a tag is not closed")? + at;
        let tag = &rest[at + 1..end];
        rest = &rest[end + 1..];
        if let Some(name) = tag.strip_prefix('/') {
            match open.pop() {
                Some(last) if last == name => continue,
                last => return Err(format!("</{name}> closes {last:?}")),
            }
        }
        let (tag, empty) = tag.strip_suffix('/').map_or((tag, false), |tag| (tag, true));
        let name = tag.split_whitespace().next().unwrap_or("");
        attributes(name, tag[name.len()..].trim())?;
        roots += usize::from(open.is_empty());
        if open.is_empty() && name != "svg" {
            return Err(format!("the root is <{name}>"));
        }
        if !empty {
            open.push(name);
        }
    }
    plain(rest, true)?;
    match (open.last(), roots) {
        (Some(name), _) => Err(format!("<{name}> is not closed")),
        (None, 1) => Ok(()),
        (None, n) => Err(format!("{n} roots")),
    }
}

fn plain(text: &str, outside: bool) -> Result<(), String> {
    if text.contains('>') || (outside && !text.trim().is_empty()) {
        return Err(format!("text where none may stand: '{}'", text.trim()));
    }
    for after in text.split('&').skip(1) {
        if !["amp;", "lt;", "gt;", "quot;"].iter().any(|name| after.starts_with(name)) {
            return Err(format!("a bare & before '{after}'"));
        }
    }
    Ok(())
}

fn attributes(tag: &str, text: &str) -> Result<(), String> {
    if tag.is_empty() || !tag.bytes().all(|b| b.is_ascii_alphanumeric()) {
        return Err(format!("'<{tag}' is no tag"));
    }
    let mut names: Vec<&str> = Vec::new();
    let mut rest = text;
    while !rest.is_empty() {
        let (name, after) = rest.split_once("=\"").ok_or(format!("<{tag}>: '{rest}' is no attribute"))?;
        let (value, after) = after.split_once('"').ok_or(format!("<{tag}>: {name} is not closed"))?;
        if names.contains(&name) || name.is_empty() || !name.bytes().all(|b| b.is_ascii_alphabetic() || b == b'-') {
            return Err(format!("<{tag}>: '{name}' is no name, or stands twice"));
        }
        if name.contains("href") || value.contains("url(") {
            return Err(format!("<{tag}>: {name} takes something from elsewhere"));
        }
        plain(value, false)?;
        names.push(name);
        rest = after.trim_start();
    }
    Ok(())
}
