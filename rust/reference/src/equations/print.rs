//! Equations as antt prints them: `specs/NAME.antt` has a record for each group, with a
//! field for each equation; `proofs/NAME.antt` has its value, each field by `refl`.

use std::collections::BTreeSet;

use super::forms::{fields, hex, one_reply, operation, record_form, replies, state};
use super::{ran, started, stepped, Call, Equation, Group, Module};
use crate::record::{last_moved, Note, Record};
use crate::refusal::Refusal;
use crate::run::{Answer, Operation};
use crate::walk::{admit, Counts};

/// The command that prints the files anew.
pub const COMMAND: &str =
    "cargo run --release --manifest-path rust/Cargo.toml -p reference --example equations write";

/// Lines are broken where they would be longer.
const WIDTH: usize = 150;
/// Names that one `use` line brings.
const NAMES: usize = 8;

/// Every file of the modules: its path from the repository's root, and its text.
pub fn files(modules: &[Module]) -> Vec<(String, String)> {
    let path = |part: &str, name: &str| format!("crates/equations/{part}/{name}.antt");
    let mut files = vec![
        (path("specs", "Lib"), declared(modules, &["Forms"])),
        (path("proofs", "Lib"), declared(modules, &[])),
    ];
    for module in modules {
        files.push((path("specs", module.name), statements(module)));
        files.push((path("proofs", module.name), proofs(module)));
    }
    files
}

fn declared(modules: &[Module], others: &[&str]) -> String {
    let names = others.iter().copied().chain(modules.iter().map(|m| m.name));
    names.map(|name| format!("pub mod {name}\n")).collect()
}

/// The file of the statements.
fn statements(module: &Module) -> String {
    let records: Vec<String> = module.groups.iter().map(record_type).collect();
    let body = records.join("\n");
    format!(
        "-- {}\n-- Printed with the separate build's answers: {COMMAND}\n{}\n{body}",
        module.about,
        uses(&body)
    )
}

/// What statements name, by the module that has it.
const KNOWN: [(&str, &[&str]); 8] = [
    (
        "Rattle.std.specs.Prelude",
        &[
            "ℕ",
            "◌+◌",
            "◌≡◌",
            "true",
            "false",
            "List",
            "[]",
            "◌∷◌",
            "◌++◌",
        ],
    ),
    (
        "Rattle.listfile.specs.Fields",
        &["fields_from", "fields", "faulty"],
    ),
    ("Rattle.walk.specs.Admission", &["admit_of"]),
    ("Rattle.reply.specs.Effect", &["state_of"]),
    ("Rattle.reply.specs.declared.records.Record", &["Record"]),
    (
        "Rattle.calls.specs.Calls",
        &[
            "Called",
            "start_of",
            "step_of",
            "RunThrough",
            "run_of",
            "last_moved",
            "no_part",
        ],
    ),
    (
        "Rattle.worst_count.specs.Cases",
        &["first_field", "jump", "literal", "halt"],
    ),
    (
        "Rattle.equations.specs.Forms",
        &[
            "hex",
            "camac_4",
            "camac_8",
            "Q",
            "X",
            "ERR",
            "DERR",
            "TPE",
            "LPE",
            "answer",
            "kind",
            "waiting",
            "ended",
            "note",
            "admitted",
            "refused",
            "halt_at",
            "refused_at",
            "operation",
            "wants",
            "wants_none",
            "refused_with",
            "ran",
            "part",
        ],
    ),
];

/// A name of an equation or a group as it is printed: `tag-2F` is `tag_2f`.
pub fn printed_name(name: &str) -> String {
    name.replace('-', "_").to_lowercase()
}

/// Whether statements name something so, which no equation may be called.
pub fn is_known(name: &str) -> bool {
    let name = printed_name(name);
    KNOWN
        .iter()
        .any(|(_, names)| names.contains(&name.as_str()))
}

/// The `use` lines of what a text names.
fn uses(body: &str) -> String {
    let lines = body.lines().filter(|line| !line.starts_with("--"));
    let words: BTreeSet<&str> = lines.flat_map(|line| line.split([' ', '(', ')'])).collect();
    let is_named = |name: &&&str| words.contains(name.trim_matches('◌'));
    let mut lines = String::new();
    for (module, names) in KNOWN {
        let named: Vec<&str> = names.iter().filter(is_named).copied().collect();
        if !named.is_empty() {
            lines += &format!("use {module}.{{{}}}\n", named.join(", "));
        }
    }
    lines
}

/// A group's record, behind the calls that several of its equations share.
fn record_type(group: &Group) -> String {
    let mut shared = Shared::of(group);
    let fields: Vec<String> = group
        .equations
        .iter()
        .map(|equation| field(&equation.name, &shared.sides(&equation.call)))
        .collect();
    let (calls, fields) = (shared.definitions.concat(), fields.concat());
    let (name, about) = (type_name(&group.name), &group.about);
    format!("-- {about}\n{calls}pub record {name} : Type 0 where\n{fields}")
}

/// A call without one argument, and that argument.
struct Part {
    /// Name and type of the argument, for the definition of the call.
    parameter: (&'static str, &'static str),
    answer: &'static str,
    call: Vec<String>,
    argument: String,
}

/// A step without its reply, and without its record; a run without its row.
fn parts(call: &Call) -> Vec<Part> {
    let (mut without_last, _) = sides(call);
    let last = without_last.pop().unwrap_or_default();
    match call {
        Call::Step {
            record,
            incoming,
            outgoing,
            ..
        } => {
            let list = without_last[0].clone();
            let state = format!("(state_of r {} {})", hex(incoming), hex(outgoing));
            let by_record = Part {
                parameter: (" r", "Record"),
                answer: "Called",
                call: vec![list, state, last.clone()],
                argument: record_form(record),
            };
            let by_reply = Part {
                parameter: ("", "List ℕ"),
                answer: "Called",
                call: without_last,
                argument: last,
            };
            vec![by_reply, by_record]
        }
        Call::Run { .. } => vec![Part {
            parameter: ("", "List ℕ"),
            answer: "RunThrough",
            call: without_last,
            argument: last,
        }],
        _ => Vec::new(),
    }
}

/// The calls of a group that differ in one argument alone, each with a name.
struct Shared<'a> {
    group: &'a Group,
    /// The calls of all equations, without an argument.
    calls: Vec<Vec<String>>,
    named: Vec<Vec<String>>,
    definitions: Vec<String>,
}

impl Shared<'_> {
    fn of(group: &Group) -> Shared<'_> {
        let parts = group.equations.iter().flat_map(|e| parts(&e.call));
        Shared {
            group,
            calls: parts.map(|part| part.call).collect(),
            named: Vec::new(),
            definitions: Vec::new(),
        }
    }

    fn is_shared(&self, part: &Part) -> bool {
        self.calls.iter().filter(|call| **call == part.call).count() > 1
    }

    /// Both sides of an equation, with the name of a call that others share.
    fn sides(&mut self, call: &Call) -> (Vec<String>, String) {
        let (whole, answer) = sides(call);
        let Some(part) = parts(call).into_iter().find(|part| self.is_shared(part)) else {
            return (whole, answer);
        };
        let known = self.named.iter().position(|call| *call == part.call);
        let number = known.unwrap_or(self.named.len());
        let name = format!("{}_{number}", printed_name(&self.group.name));
        if known.is_none() {
            self.definitions.push(definition(&name, &part));
            self.named.push(part.call);
        }
        (vec![name, part.argument], answer)
    }
}

/// The definition of a call that equations share.
fn definition(name: &str, part: &Part) -> String {
    let (parameter, its_type) = part.parameter;
    let line = format!("{name}{parameter} = {}", part.call.join(" "));
    let line = match line.chars().count() <= WIDTH {
        true => line,
        false => format!("{name}{parameter} =\n    {}", part.call.join("\n    ")),
    };
    let answer = part.answer;
    format!("abbrev pub {name} : {its_type} → {answer}\n{line}\n\n")
}

/// `one-word` as `OneWord`.
fn type_name(name: &str) -> String {
    let capital = |word: &str| word[..1].to_uppercase() + &word[1..];
    name.split('-').map(capital).collect()
}

/// One equation, on as few lines as it takes.
fn field(name: &str, (call, answer): &(Vec<String>, String)) -> String {
    let name = printed_name(name);
    let whole = call.join(" ");
    let fits = |line: &str| line.chars().count() <= WIDTH;
    let line = format!("  pub {name} : {whole} ≡ {answer}\n");
    if fits(&line) {
        return line;
    }
    let line = format!("  pub {name} : {whole}");
    let left = if fits(&line) {
        line
    } else if fits(&format!("      {whole}")) {
        format!("  pub {name} :\n      {whole}")
    } else {
        format!("  pub {name} :\n      {}", call.join("\n      "))
    };
    format!("{left}\n      ≡ {answer}\n")
}

/// The file of the proofs.
fn proofs(module: &Module) -> String {
    let types: Vec<String> = module.groups.iter().map(|g| type_name(&g.name)).collect();
    let specs = format!("Rattle.equations.specs.{}", module.name);
    let uses = types
        .chunks(NAMES)
        .map(|names| format!("use {specs}.{{{}}}\n", names.join(", ")));
    let values: Vec<String> = module.groups.iter().map(value).collect();
    format!(
        "-- The equations of specs/{} hold: both sides of each compute to the same.\n\
         -- Printed: {COMMAND}\n\
         use mathlib.Core.Path.{{refl}}\nuse Rattle.worst_count.proofs.Cases.{{opened}}\n{}\n{}",
        module.name,
        uses.collect::<String>(),
        values.join("\n")
    )
}

fn value(group: &Group) -> String {
    let name = printed_name(&group.name);
    let line = |equation: &Equation| format!("  {} = refl;\n", printed_name(&equation.name));
    let fields: String = group.equations.iter().map(line).collect();
    format!(
        "pub {name} : {}\nunfolding opened\n{name} = record {{\n{fields}}}\n",
        type_name(&group.name)
    )
}

/// The call, in parts where a line may be broken, and the separate build's answer.
fn sides(call: &Call) -> (Vec<String>, String) {
    match call {
        Call::Admission {
            list,
            incoming_len,
            outgoing_len,
        } => {
            let call = format!("admit_of {} {incoming_len} {outgoing_len}", fields(list));
            let answer = admit(list, *incoming_len, *outgoing_len);
            (vec![call], admission(answer))
        }
        Call::Fields { before, fields } => fields_read(*before, fields),
        Call::Start {
            list,
            incoming,
            outgoing,
        } => start_sides(list, (incoming, outgoing)),
        Call::Step {
            list,
            record,
            incoming,
            outgoing,
            reply,
        } => step_sides(list, record, (incoming, outgoing), reply),
        Call::Run {
            list,
            incoming,
            outgoing,
            row,
        } => run_sides(list, (incoming, outgoing), row),
        Call::LastWord {
            note,
            incoming,
            outgoing,
        } => last_word(note, incoming, outgoing),
    }
}

fn start_sides(list: &[u8], buffers: (&[u8], &[u8])) -> (Vec<String>, String) {
    let call = vec![
        format!("start_of {}", fields(list)),
        format!("{} {}", hex(buffers.0), hex(buffers.1)),
    ];
    let (answer, after) = started(list, buffers.0, buffers.1);
    (call, called(&answer, (&after, buffers.1)))
}

fn step_sides(
    list: &[u8],
    record: &Record,
    buffers: (&[u8], &[u8]),
    reply: &[u8],
) -> (Vec<String>, String) {
    let call = vec![
        format!("step_of {}", fields(list)),
        state(record, buffers),
        one_reply(reply),
    ];
    let (answer, after) = stepped(list, record, buffers, reply);
    (call, called(&answer, (&after, buffers.1)))
}

fn admission(answer: Result<Counts, Refusal>) -> String {
    match answer {
        Ok(Counts { w, b, o }) => format!("admitted {w} {b} {o}"),
        Err(Refusal { number, place }) => format!("refused {number} {place}"),
    }
}

/// The fields with halts before them, as admission reads the whole list.
fn fields_read(before: usize, part: &[u8]) -> (Vec<String>, String) {
    let length = part.len();
    let call = format!("fields_from {length} {} 0 {before}", fields(part));
    let (list, place) = super::admissions::behind_halts(before, part);
    let answer = match admit(&list, 0, 0) {
        Err(refusal) => format!("refused_at {} {}", refusal.number, refusal.place - place),
        Ok(_) => {
            let places = (0..length).step_by(3);
            let halts: String = places.map(|place| format!("halt_at {place} ∷ ")).collect();
            format!("fields ({halts}[])")
        }
    };
    (vec![call], answer)
}

fn run_sides(list: &[u8], buffers: (&[u8], &[u8]), row: &[u8]) -> (Vec<String>, String) {
    let call = vec![
        format!("run_of {}", fields(list)),
        format!("{} {}", hex(buffers.0), hex(buffers.1)),
        replies(row),
    ];
    let (answer, after) = ran(list, buffers, row);
    let (number, place) = numbers(answer.refusal);
    let state = state(&answer.record, (&after, buffers.1));
    (
        call,
        format!("ran {number} {place} {} {state}", answer.taken),
    )
}

fn last_word(note: &Note, incoming: &[u8], outgoing: &[u8]) -> (Vec<String>, String) {
    let Note {
        buffer,
        offset,
        length,
    } = note;
    let call = format!(
        "last_moved (note {buffer} {offset} {length}) {} {}",
        hex(incoming),
        hex(outgoing)
    );
    let (carrier, part) = last_moved(incoming, outgoing, note);
    if part.is_empty() {
        return (vec![call], "no_part".to_string());
    }
    let whole = if carrier == 0 { incoming } else { outgoing };
    let offset = part.as_ptr() as usize - whole.as_ptr() as usize;
    (vec![call], format!("part {carrier} {offset} {}", hex(part)))
}

fn called(answer: &Answer, buffers: (&[u8], &[u8])) -> String {
    let state = state(&answer.record, buffers);
    match answer.refusal {
        Some(Refusal { number, place }) => format!("refused_with {number} {place} {state}"),
        None if answer.wanted == Operation::default() => format!("wants_none {state}"),
        None => format!("wants {} {state}", operation(&answer.wanted)),
    }
}

fn numbers(refusal: Option<Refusal>) -> (u8, usize) {
    refusal.map_or((0, 0), |refusal| (refusal.number, refusal.place))
}
