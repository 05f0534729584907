// The tables of crates/largest by the plain compiler, with the same printing.

// the forms and listings that these tables do not have are for exchange.rs
#[allow(dead_code)]
mod compiler;

use compiler::{Form, Kind, Protocol, Refusal};

fn two_parties(p: &mut Protocol) -> Result<(), Refusal> {
    p.name(Kind::Party)?;
    let s = p.name(Kind::Party)?;
    p.know(1, s)
}

fn nested_pairs(p: &mut Protocol) -> Result<usize, Refusal> {
    let mut last = p.name(Kind::Number)?;
    for _ in 0..500 {
        last = p.build(Form::Pair, last, last)?;
    }
    Ok(last)
}

fn nested_knowledge(p: &mut Protocol) -> Result<(), Refusal> {
    two_parties(p)?;
    let nested = nested_pairs(p)?;
    p.know(1, nested)
}

fn nested_message(p: &mut Protocol) -> Result<(), Refusal> {
    two_parties(p)?;
    let nested = nested_pairs(p)?;
    p.step(1, 2, nested)
}

fn sealed_number(p: &mut Protocol) -> Result<(usize, usize), Refusal> {
    let number = p.name(Kind::Number)?;
    let key = p.name(Kind::Public)?;
    let sealed = p.build(Form::Sealed, number, key)?;
    Ok((sealed, p.mate(key)?))
}

fn late_keys(p: &mut Protocol) -> Result<(), Refusal> {
    two_parties(p)?;
    let (mut seals, mut mates) = sealed_number(p)?;
    for _ in 1..80 {
        let (sealed, mate) = sealed_number(p)?;
        seals = p.build(Form::Pair, sealed, seals)?;
        mates = p.build(Form::Pair, mate, mates)?;
    }
    p.step(1, 2, seals)?;
    p.step(1, 2, mates)
}

fn full_table(p: &mut Protocol) -> Result<(), Refusal> {
    for _ in 0..7 {
        p.name(Kind::Party)?;
    }
    for party in 1..8 {
        for name in 0..7 {
            p.know(party, name)?;
        }
    }
    for step in 0..64 {
        let number = p.name(Kind::Number)?;
        let key = p.name(Kind::Shared)?;
        let sealed = p.build(Form::Sealed, number, key)?;
        let message = p.build(Form::Pair, sealed, key)?;
        p.step(1 + step % 7, 1 + (step + 1) % 7, message)?;
    }
    while p.terms().len() < 512 {
        p.name(Kind::Number)?;
    }
    Ok(())
}

fn main() {
    let tables: [(&str, fn(&mut Protocol) -> Result<(), Refusal>); 4] = [
        ("500 nested pairs as initial knowledge", nested_knowledge),
        ("500 nested pairs as a message", nested_message),
        ("80 sealed numbers, then all their keys", late_keys),
        ("seven parties, 64 steps", full_table),
    ];
    for (title, table) in tables {
        let mut protocol = Protocol::blank();
        let made = table(&mut protocol);
        println!("{title}: {} terms, {} steps", protocol.terms().len(), protocol.steps());
        if let Err(refusal) = made {
            println!("  refused {} {}", refusal.number(), refusal.value());
        }
        for (agent, script) in protocol.scripts().iter().enumerate() {
            println!("  agent {agent}: {} instructions", script.len());
        }
    }
}
