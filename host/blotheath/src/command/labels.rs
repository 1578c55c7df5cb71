//! Words for records: what the step that names a record makes of it.

use super::MOST_SHOWN;
use super::text;
use blotheath::{Pattern, Role, Step, Tree, opcode_name};

/// The bytes of a symbol that a label shows.
const MOST_OF_SYMBOL: usize = 24;

/// The words for each record.
pub fn labels(pattern: &Pattern, tree: &Tree) -> Vec<String> {
    let records = pattern.counts().records;
    let mut labels = vec![String::new(); records as usize];
    if let Some(first) = labels.first_mut() {
        *first = "main".to_owned();
    }
    let mut left = MOST_SHOWN as usize;
    for number in 0..records {
        let Ok(steps) = pattern.steps(number) else {
            continue;
        };
        let mut before: Option<Step> = None;
        for step in steps.flatten().take(left) {
            left -= 1;
            label(pattern, tree, number, before, step, &mut labels);
            before = Some(step);
        }
    }
    labels
}

/// Takes from a step, and the one before it, what they say of a child.
fn label(
    pattern: &Pattern,
    tree: &Tree,
    number: u32,
    before: Option<Step>,
    step: Step,
    labels: &mut [String],
) {
    let name = opcode_name(step.opcode).unwrap_or_default();
    let symbol = |step: Step| {
        let index = step.first_of(Role::Symbol);
        match index.map(|index| pattern.symbol(number, index)) {
            Some(Ok(symbol)) => text::plain(symbol.bytes, MOST_OF_SYMBOL),
            _ => String::new(),
        }
    };
    let (maker, words) = match name {
        "BLOCK" => (step, "block".to_owned()),
        "LAMBDA" => (step, "lambda".to_owned()),
        "METHOD" => (step, "method".to_owned()),
        "EXEC" => (step, body(before, symbol)),
        "DEF" => match before {
            Some(before) if opcode_name(before.opcode) == Some("METHOD") => {
                (before, format!("method {}", symbol(step)))
            }
            _ => return,
        },
        "TDEF" | "SDEF" => (step, format!("method {}", symbol(step))),
        _ => return,
    };
    let child = tree.entered(number, &maker);
    if let Some(label) = child.and_then(|child| labels.get_mut(child as usize)) {
        *label = words;
    }
}

/// What EXEC runs, by the step before it.
fn body(before: Option<Step>, symbol: impl Fn(Step) -> String) -> String {
    let Some(before) = before else {
        return "body".to_owned();
    };
    match opcode_name(before.opcode) {
        Some("CLASS") => format!("class {}", symbol(before)),
        Some("MODULE") => format!("module {}", symbol(before)),
        Some("SCLASS") => "singleton class".to_owned(),
        _ => "body".to_owned(),
    }
}
