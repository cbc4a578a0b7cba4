//! docs/DIFFERENCES.md, held to its calls: each call in words, and what the Rust and Netlib's reference BLAS give.

use crate::answer::answer;
use crate::call::Routine::*;
use crate::call::{Call, Factor, Flag, Kind, View};
use crate::differences::calls;

const PAGE: &str = concat!(env!("CARGO_MANIFEST_DIR"), "/../docs/DIFFERENCES.md");

/// A judge of the calls: its place among an item's results, and what it gives.
pub struct Judge {
    place: usize,
    pub run: fn(Call) -> String,
}

pub const RUST: Judge = Judge { place: 0, run: rust };

#[cfg(netlib)]
pub const NETLIB: Judge = Judge { place: 1, run: netlib };

/// A call as the page has it: its name, the call in words, and what the Rust and Netlib's give.
struct Item<'a> {
    name: &'a str,
    input: &'a str,
    given: [&'a str; 2],
}

/// The page's text.
pub fn text() -> String {
    std::fs::read_to_string(PAGE).expect("docs/DIFFERENCES.md is there")
}

/// Where the page does not have the call, does not say what the judge gives, or has an item that no call makes or that
/// is not in the form of one.
pub fn wrong(page: &str, judge: &Judge) -> Vec<String> {
    let (mut items, mut wrong) = (vec![], vec![]);
    let texts = texts(page);
    for text in &texts {
        match item(text) {
            Some(item) => items.push(item),
            None => wrong.push(format!("not in the form of an item: {text}")),
        }
    }
    for (name, call) in calls() {
        let (input, given) = (input(&call), (judge.run)(call));
        match items.iter().position(|item| item.name == name).map(|k| items.remove(k)) {
            Some(item) if item.input == input && item.given[judge.place] == given => {}
            _ => wrong.push(format!("{name} is {input}, which gives {given}")),
        }
    }
    wrong.extend(items.iter().map(|item| format!("no further call is named {}", item.name)));
    wrong
}

/// The calls' list items, those that begin with a backquote or have an item under them: one line for the call and one
/// for each item under it.
fn texts(page: &str) -> Vec<String> {
    let unwrapped = |text: &str| {
        let mut lines = text.lines();
        let first = lines.next().unwrap_or_default().to_string();
        lines.take_while(|line| line.starts_with("  ")).fold(first, |text, line| match line.strip_prefix("  - ") {
            Some(under) => text + "\n" + under,
            None => text + " " + line.trim_start(),
        })
    };
    let texts = page.split("\n- ").skip(1).map(unwrapped);
    texts.filter(|text| text.starts_with('`') || text.contains('\n')).collect()
}

/// The item of the form "`name`: input" with "Rust: given; Netlib: given" under it.
fn item(text: &str) -> Option<Item<'_>> {
    let (head, under) = text.split_once('\n')?;
    let (name, input) = head.strip_prefix('`')?.split_once("`: ")?;
    let (rust, netlib) = under.strip_prefix("Rust: ")?.split_once("; Netlib: ")?;
    (!netlib.contains(['\n', ';'])).then_some(Item { name, input, given: [rust, netlib] })
}

/// The call in words: flags, then the arguments in their order.
pub fn input(call: &Call) -> String {
    let routine = call.routine;
    let words = |(flag, &value): (&Flag, &u8)| match flag {
        Flag::Side => ["Left", "Right"][usize::from(value)],
        Flag::UpLo => ["Upper", "Lower"][usize::from(value)],
        Flag::Trans => ["NoTrans", "Trans", "ConjTrans"][usize::from(value)],
        Flag::Diag => ["NonUnit", "Unit"][usize::from(value)],
    };
    let kind = (call.kind == Kind::Complex).then_some("complex");
    let flags = routine.flags().iter().zip(&call.flags).map(words);
    let head: Vec<&str> = kind.into_iter().chain([routine.name()]).chain(flags).collect();
    let names = match routine {
        Gemv | Hemv => "Axy",
        Her => "xA",
        Her2 => "xyA",
        Trmv | Trsv => "Ax",
        Syrk | Herk => "AC",
        Trmm | Trsm => "AB",
        _ => "ABC",
    };
    let mut views = names.chars().enumerate().map(|(k, name)| format!("{name} {}", shown(call, k))).collect::<Vec<_>>();
    let target = views.pop();
    let scalar = |name, factor, cells: &[u64; 2]| {
        let width = if factor == Factor::Element { call.kind.width() } else { 1 };
        (factor != Factor::Nothing).then(|| format!("{name} {}", element(call.kind, &cells[..width])))
    };
    let alpha = scalar("alpha", routine.alpha(), &call.alpha);
    let beta = scalar("beta", routine.beta(), &call.beta);
    let arguments = [head.join(" ")].into_iter().chain(alpha).chain(views).chain(beta).chain(target);
    arguments.collect::<Vec<_>>().join(", ")
}

/// The k-th view by rows; one that is not laid by columns, with its slab.
fn shown(call: &Call, k: usize) -> String {
    let (View { start, rows, cols, row_stride, col_stride }, kind) = (call.views[k], call.kind);
    let cells: Vec<String> = call.slabs[k].chunks(kind.width()).map(|cells| element(kind, cells)).collect();
    let list = |elements: &[String]| format!("[{}]", elements.join(","));
    if (start, row_stride, col_stride) != (0, 1, rows.max(1) as i64) {
        let slab = list(&cells);
        return format!("{rows} by {cols} with start {start} and strides {row_stride} and {col_stride} on {slab}");
    }
    let by_rows: Vec<String> = call.views[k].places().iter().map(|&place| cells[place as usize].clone()).collect();
    if by_rows.is_empty() {
        format!("{rows} by {cols}")
    } else if by_rows.len() > 9 {
        format!("{rows} by {cols} all {}", by_rows[0])
    } else if call.routine.is_vector(k) || rows * cols == 1 {
        list(&by_rows)
    } else {
        list(&by_rows.chunks(cols as usize).map(list).collect::<Vec<_>>())
    }
}

fn rust(mut call: Call) -> String {
    match answer(&mut call) {
        0 => target(&call),
        given => format!("refusal {given}, {}", target(&call)),
    }
}

#[cfg(netlib)]
fn netlib(mut call: Call) -> String {
    match crate::netlib::answer(&mut call) {
        Some(0) => target(&call),
        given => format!("illegal argument {}", given.unwrap()),
    }
}

/// The target by rows.
fn target(call: &Call) -> String {
    let (width, view) = (call.kind.width(), call.views.last().unwrap());
    let cells = |place: i128| &call.target()[place as usize * width..][..width];
    let elements: Vec<String> = view.places().into_iter().map(|place| element(call.kind, cells(place))).collect();
    if elements.is_empty() { "nothing".to_string() } else { elements.join(" ") }
}

/// A number in the shortest form that gives it back, a complex one in brackets.
fn element(kind: Kind, cells: &[u64]) -> String {
    let part = |&cell| format!("{:?}", kind.number(cell)).replace(".0e", "e").trim_end_matches(".0").to_string();
    match cells {
        [real] => part(real),
        _ => format!("({})", cells.iter().map(part).collect::<Vec<_>>().join(",")),
    }
}
