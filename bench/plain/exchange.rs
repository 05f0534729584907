// What crates/exchange does, in plain Rust: reads a table on standard input and lists its scripts, or says why it is refused. The sentence
// for people is here for the refusals that the tables of the comparison meet, and for no others.

mod compiler;
mod reader;

use compiler::{Form, Node, Refusal, TermId};
use reader::{Fault, Table};
use std::io::{self, BufWriter, Read, Write};

// A text of so many bytes is too long, whatever stands behind them.
const ENOUGH: u64 = 32769;

// A term as a table writes it.
fn notation(table: &Table, term: TermId) -> String {
    match table.protocol.terms().node(term) {
        Node::Name(_, _) => String::from_utf8_lossy(table.word(term)).into_owned(),
        Node::Built(Form::Entry, keys, party) => format!("{}[{}]", notation(table, keys), notation(table, party)),
        Node::Mate(key) => format!("{}'", notation(table, key)),
        // only a name or a mate is ever missing
        Node::Built(_, _, _) => unreachable!(),
    }
}

// What is wrong with a line that begins at a place.
fn explain(text: &[u8], table: &Table, refusal: &Refusal, place: usize) -> String {
    match refusal {
        Refusal::Unmakeable(missing) => {
            let missing = notation(table, *missing);
            let sender = text[place..].split(|byte| *byte == b' ').filter(|word| !word.is_empty()).nth(1);
            let sender = String::from_utf8_lossy(sender.unwrap_or_default());
            format!(
                "{sender} cannot make this message, because {sender} does not have {missing}: give it with 'own {sender} {missing}' before the first step, or have it sent to {sender} before."
            )
        }
        Refusal::NoRoom => String::from(
            "this line needs a 513th term, and there is room for 512 names and messages with all their parts: write shorter messages, or split the table into two.",
        ),
        Refusal::ScriptFull(agent) => {
            let name = String::from_utf8_lossy(table.word(table.protocol.name_of(*agent)));
            format!("{name} would have to work through more than 512 instructions: write shorter messages, or split the table into two.")
        }
        _ => String::from("this line is refused."),
    }
}

fn tell(text: &[u8], table: &Table, fault: &Fault) -> io::Result<()> {
    let place = fault.place();
    print!("refused {} {place}", fault.number());
    let before = &text[..place];
    let line = before.iter().filter(|byte| **byte == b'\n').count() + 1;
    let column = before.iter().rev().take_while(|byte| **byte != b'\n').count() + 1;
    match fault {
        Fault::Protocol(refusal, _) => {
            println!(" {}", refusal.number());
            writeln!(io::stderr(), "line {line}, column {column}: {}", explain(text, table, refusal, place))
        }
        _ => {
            println!();
            writeln!(io::stderr(), "line {line}, column {column}: this cannot stand here.")
        }
    }
}

fn list(table: &Table) -> io::Result<()> {
    let mut out = BufWriter::new(io::stdout().lock());
    for (agent, script) in table.protocol.scripts().iter().enumerate() {
        for (number, op) in script.instructions().enumerate() {
            writeln!(out, "{agent} {number} {op}")?;
        }
    }
    out.flush()
}

fn main() -> io::Result<()> {
    let mut text = Vec::new();
    io::stdin().lock().take(ENOUGH).read_to_end(&mut text)?;
    let mut table = Table::blank();
    match table.read(&text) {
        Ok(()) => list(&table),
        Err(fault) => tell(&text, &table, &fault),
    }
}
