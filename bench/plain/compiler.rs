// The compiler once more: the same terms, rules and refusals as in crates/, in plain Rust with nothing proved, for comparison of times.

use std::collections::HashMap;
use std::fmt;

const MOST_TERMS: usize = 512;
const MOST_INSTRUCTIONS: usize = 512;
const MOST_STEPS: usize = 64;
const MOST_AGENTS: usize = 8;

pub type TermId = usize;
pub type Slot = usize;
pub type Agent = usize;

#[derive(Clone, Copy, PartialEq, Eq, Hash)]
pub enum Kind {
    Party,
    Number,
    Shared,
    Public,
    Table,
    Function,
}

#[derive(Clone, Copy, PartialEq, Eq, Hash)]
pub enum Form {
    Pair,
    Sealed,
    Digest,
    Entry,
}

#[derive(Clone, Copy, PartialEq, Eq, Hash)]
pub enum Node {
    Name(Kind, usize),
    Built(Form, TermId, TermId),
    Mate(TermId),
}

#[derive(Debug, PartialEq)]
pub enum Refusal {
    WrongKind,
    NoRoom,
    EighthParty,
    TooLate,
    NoTwoParties,
    LastStep,
    NoAddress,
    Unmakeable(TermId),
    ScriptFull(Agent),
}

impl Refusal {
    pub fn number(&self) -> usize {
        match self {
            Refusal::WrongKind => 2,
            Refusal::NoRoom => 3,
            Refusal::EighthParty => 4,
            Refusal::TooLate => 5,
            Refusal::NoTwoParties => 6,
            Refusal::LastStep => 7,
            Refusal::NoAddress => 8,
            Refusal::Unmakeable(_) => 9,
            Refusal::ScriptFull(_) => 10,
        }
    }

    pub fn value(&self) -> usize {
        match self {
            Refusal::Unmakeable(value) | Refusal::ScriptFull(value) => *value,
            _ => 0,
        }
    }
}

// The terms by number, and the numbers by term.
#[derive(Default)]
pub struct Terms {
    nodes: Vec<Node>,
    numbers: HashMap<Node, TermId>,
}

impl Terms {
    pub fn len(&self) -> usize {
        self.nodes.len()
    }

    pub fn node(&self, id: TermId) -> Node {
        self.nodes[id]
    }

    fn insert(&mut self, node: Node) -> Result<TermId, Refusal> {
        if let Some(id) = self.numbers.get(&node) {
            return Ok(*id);
        }
        let id = self.nodes.len();
        if id >= MOST_TERMS {
            return Err(Refusal::NoRoom);
        }
        self.nodes.push(node);
        self.numbers.insert(node, id);
        Ok(id)
    }

    fn is_key(&self, id: TermId) -> bool {
        matches!(self.nodes[id], Node::Name(Kind::Shared | Kind::Public, _) | Node::Built(Form::Entry, _, _) | Node::Mate(_))
    }

    fn is_named(&self, kind: Kind, id: TermId) -> bool {
        matches!(self.nodes[id], Node::Name(own, _) if own == kind)
    }

    fn build(&mut self, form: Form, a: TermId, b: TermId) -> Result<TermId, Refusal> {
        let fits = match form {
            Form::Pair => true,
            Form::Sealed => self.is_key(b),
            Form::Digest => self.is_named(Kind::Function, a),
            Form::Entry => self.is_named(Kind::Table, a) && self.is_named(Kind::Party, b),
        };
        if !fits {
            return Err(Refusal::WrongKind);
        }
        self.insert(Node::Built(form, a, b))
    }

    fn mate(&mut self, key: TermId) -> Result<TermId, Refusal> {
        match self.nodes[key] {
            Node::Name(Kind::Shared, _) => Ok(key),
            Node::Mate(inner) => Ok(inner),
            Node::Name(Kind::Public, _) | Node::Built(Form::Entry, _, _) => self.insert(Node::Mate(key)),
            _ => Err(Refusal::WrongKind),
        }
    }

    fn opener(&self, key: TermId) -> Option<TermId> {
        match self.nodes[key] {
            Node::Name(Kind::Shared, _) => Some(key),
            Node::Mate(inner) => Some(inner),
            _ => self.numbers.get(&Node::Mate(key)).copied(),
        }
    }

    // The mate of a public key.
    fn mate_of_public(&self, name: TermId) -> Option<TermId> {
        if self.is_named(Kind::Public, name) { self.opener(name) } else { None }
    }

    // Which terms can be composed from the held ones: one pass, since parts have lower numbers.
    fn composable(&self, held: Vec<bool>) -> Vec<bool> {
        let mut judged = held;
        for (id, node) in self.nodes.iter().enumerate() {
            if let Node::Built(_, a, b) = *node {
                judged[id] |= judged[a] && judged[b];
            }
        }
        judged
    }

    fn missing(&self, held: Vec<bool>, term: TermId) -> Option<TermId> {
        let judged = self.composable(held);
        if judged[term] {
            return None;
        }
        let mut lacking = term;
        while let Node::Built(_, a, b) = self.nodes[lacking] {
            lacking = if judged[a] { b } else { a };
        }
        Some(lacking)
    }

    // Marks what stands within the marked terms too.
    fn mark_within(&self, marks: &mut [bool]) {
        for (id, node) in self.nodes.iter().enumerate().rev() {
            if marks[id] {
                match *node {
                    Node::Name(_, _) => {}
                    Node::Built(_, a, b) => {
                        marks[a] = true;
                        marks[b] = true;
                    }
                    Node::Mate(key) => marks[key] = true,
                }
            }
        }
    }

    // Which terms stand within one.
    fn within(&self, term: TermId) -> Vec<bool> {
        let mut marks = vec![false; self.nodes.len()];
        marks[term] = true;
        self.mark_within(&mut marks);
        marks
    }
}

#[derive(Clone, Copy)]
pub enum Instruction {
    Given(TermId),
    Fresh(TermId),
    From(TermId),
    To(TermId),
    Recv(TermId),
    Mate(Slot),
    Left(Slot),
    Right(Slot),
    Join(Slot, Slot),
    Seal(Slot, Slot),
    Digest(Slot, Slot),
    Entry(Slot, Slot),
    Open(Slot, Slot),
    Same(Slot, Slot),
    Send(Slot, Slot),
}

impl fmt::Display for Instruction {
    fn fmt(&self, f: &mut fmt::Formatter) -> fmt::Result {
        match self {
            Instruction::Given(term) => write!(f, "GIVEN {term}"),
            Instruction::Fresh(term) => write!(f, "FRESH {term}"),
            Instruction::From(term) => write!(f, "FROM {term}"),
            Instruction::To(term) => write!(f, "TO {term}"),
            Instruction::Recv(term) => write!(f, "RECV {term}"),
            Instruction::Mate(slot) => write!(f, "MATE {slot}"),
            Instruction::Left(slot) => write!(f, "LEFT {slot}"),
            Instruction::Right(slot) => write!(f, "RIGHT {slot}"),
            Instruction::Join(first, second) => write!(f, "JOIN {first} {second}"),
            Instruction::Seal(first, second) => write!(f, "SEAL {first} {second}"),
            Instruction::Digest(first, second) => write!(f, "DIGEST {first} {second}"),
            Instruction::Entry(first, second) => write!(f, "ENTRY {first} {second}"),
            Instruction::Open(first, second) => write!(f, "OPEN {first} {second}"),
            Instruction::Same(first, second) => write!(f, "SAME {first} {second}"),
            Instruction::Send(first, second) => write!(f, "SEND {first} {second}"),
        }
    }
}

#[derive(Clone, Copy)]
struct Line {
    op: Instruction,
    holds: Option<TermId>,
}

struct Full;

// The lines in order, and for each term the slot that holds it.
#[derive(Clone, Default)]
pub struct Script {
    lines: Vec<Line>,
    slots: Vec<Option<Slot>>,
}

impl Script {
    pub fn len(&self) -> usize {
        self.lines.len()
    }

    pub fn instructions(&self) -> impl Iterator<Item = Instruction> + '_ {
        self.lines.iter().map(|line| line.op)
    }

    fn slot_of(&self, term: TermId) -> Option<Slot> {
        self.slots.get(term).copied().flatten()
    }

    fn held(&self, terms: &Terms) -> Vec<bool> {
        let mut held: Vec<bool> = self.slots.iter().map(|slot| slot.is_some()).collect();
        held.resize(terms.len(), false);
        held
    }

    fn missing(&self, terms: &Terms, term: TermId) -> Option<TermId> {
        terms.missing(self.held(terms), term)
    }

    fn push(&mut self, op: Instruction, holds: Option<TermId>) -> Result<Slot, Full> {
        let slot = self.lines.len();
        if slot >= MOST_INSTRUCTIONS {
            return Err(Full);
        }
        self.lines.push(Line { op, holds });
        if let Some(term) = holds {
            if term >= self.slots.len() {
                self.slots.resize(term + 1, None);
            }
            self.slots[term] = Some(slot);
        }
        Ok(slot)
    }

    // Writes a term that can be composed.
    fn put(&mut self, terms: &Terms, term: TermId) -> Result<Slot, Full> {
        if let Some(slot) = self.slot_of(term) {
            return Ok(slot);
        }
        let Node::Built(form, a, b) = terms.node(term) else {
            unreachable!();
        };
        let first = self.put(terms, a)?;
        let second = self.put(terms, b)?;
        let op = match form {
            Form::Pair => Instruction::Join(first, second),
            Form::Sealed => Instruction::Seal(first, second),
            Form::Digest => Instruction::Digest(first, second),
            Form::Entry => Instruction::Entry(first, second),
        };
        self.push(op, Some(term))
    }

    // Takes one part at the lowest slot where there is one to take.
    fn take(&mut self, terms: &Terms) -> Result<bool, Full> {
        let judged = terms.composable(self.held(terms));
        for slot in 0..self.lines.len() {
            let Some(term) = self.lines[slot].holds else { continue };
            match terms.node(term) {
                Node::Built(Form::Pair, a, _) if !judged[a] => {
                    self.push(Instruction::Left(slot), Some(a))?;
                    return Ok(true);
                }
                Node::Built(Form::Pair, _, b) if !judged[b] => {
                    self.push(Instruction::Right(slot), Some(b))?;
                    return Ok(true);
                }
                Node::Built(Form::Sealed, content, key) if !judged[content] => {
                    if let Some(opener) = terms.opener(key).filter(|opener| judged[*opener]) {
                        let with = self.put(terms, opener)?;
                        self.push(Instruction::Open(slot, with), Some(content))?;
                        return Ok(true);
                    }
                }
                _ => {}
            }
        }
        Ok(false)
    }

    fn saturate(&mut self, terms: &Terms) -> Result<(), Full> {
        while self.take(terms)? {}
        Ok(())
    }

    fn walk(&mut self, terms: &Terms, op: Instruction, term: TermId) -> Result<(), Full> {
        if self.missing(terms, term).is_none() {
            let slot = self.push(op, None)?;
            let made = self.put(terms, term)?;
            self.push(Instruction::Same(slot, made), None)?;
            return Ok(());
        }
        let slot = self.push(op, Some(term))?;
        match terms.node(term) {
            Node::Built(Form::Pair, a, b) => {
                self.walk(terms, Instruction::Left(slot), a)?;
                self.walk(terms, Instruction::Right(slot), b)
            }
            Node::Built(Form::Sealed, content, key) => {
                let opener = terms.opener(key);
                let Some(opener) = opener.filter(|opener| self.missing(terms, *opener).is_none()) else {
                    return Ok(());
                };
                let with = self.put(terms, opener)?;
                self.walk(terms, Instruction::Open(slot, with), content)
            }
            _ => Ok(()),
        }
    }

    fn hold(&mut self, terms: &Terms, op: Instruction, term: TermId) -> Result<(), Full> {
        if self.missing(terms, term).is_some() {
            self.push(op, Some(term))?;
        }
        Ok(())
    }
}

pub struct Protocol {
    terms: Terms,
    scripts: Vec<Script>,
    parties: Vec<TermId>,
    // the terms that stand within initial knowledge or a step's message
    used: Vec<bool>,
    steps: usize,
}

impl Protocol {
    pub fn blank() -> Protocol {
        Protocol {
            terms: Terms::default(),
            scripts: vec![Script::default()],
            parties: Vec::new(),
            used: Vec::new(),
            steps: 0,
        }
    }

    pub fn terms(&self) -> &Terms {
        &self.terms
    }

    pub fn scripts(&self) -> &[Script] {
        &self.scripts
    }

    pub fn steps(&self) -> usize {
        self.steps
    }

    pub fn name_of(&self, agent: Agent) -> TermId {
        self.parties[agent - 1]
    }

    pub fn name(&mut self, kind: Kind) -> Result<TermId, Refusal> {
        let id = self.terms.len();
        if id + if kind == Kind::Public { 2 } else { 1 } > MOST_TERMS {
            return Err(Refusal::NoRoom);
        }
        if kind == Kind::Party && self.scripts.len() >= MOST_AGENTS {
            return Err(Refusal::EighthParty);
        }
        self.terms.insert(Node::Name(kind, id))?;
        match kind {
            Kind::Public => {
                self.terms.insert(Node::Mate(id))?;
            }
            Kind::Party => {
                let mut script = Script::default();
                let _ = script.push(Instruction::Given(id), Some(id));
                self.scripts.push(script);
                self.parties.push(id);
            }
            _ => {}
        }
        Ok(id)
    }

    pub fn build(&mut self, form: Form, a: TermId, b: TermId) -> Result<TermId, Refusal> {
        self.terms.build(form, a, b)
    }

    pub fn mate(&mut self, key: TermId) -> Result<TermId, Refusal> {
        self.terms.mate(key)
    }

    fn use_names(&mut self, term: TermId) {
        self.used.resize(self.terms.len(), false);
        self.used[term] = true;
        self.terms.mark_within(&mut self.used);
    }

    pub fn know(&mut self, agent: Agent, term: TermId) -> Result<(), Refusal> {
        if self.steps > 0 {
            return Err(Refusal::TooLate);
        }
        if self.scripts[agent].missing(&self.terms, term).is_some() {
            let mut script = self.scripts[agent].clone();
            let done = script.push(Instruction::Given(term), Some(term)).and_then(|_| script.saturate(&self.terms));
            done.map_err(|_| Refusal::ScriptFull(agent))?;
            self.scripts[agent] = script;
        }
        self.use_names(term);
        Ok(())
    }

    fn is_used(&self, id: TermId) -> bool {
        self.used.get(id).copied().unwrap_or(false)
    }

    fn fresh(&self, message: TermId) -> Vec<TermId> {
        let can = |id: TermId| matches!(self.terms.node(id), Node::Name(Kind::Number | Kind::Shared | Kind::Public, _));
        let sent = self.terms.within(message);
        (0..sent.len()).filter(|id| sent[*id] && can(*id) && !self.is_used(*id)).collect()
    }

    fn sent(&self, sender: Agent, message: TermId, address: Slot) -> Result<Script, Refusal> {
        let fresh = self.fresh(message);
        let mut held = self.scripts[sender].held(&self.terms);
        for name in &fresh {
            held[*name] = true;
            if let Some(mate) = self.terms.mate_of_public(*name) {
                held[mate] = true;
            }
        }
        if let Some(missing) = self.terms.missing(held, message) {
            return Err(Refusal::Unmakeable(missing));
        }
        let mut script = self.scripts[sender].clone();
        let mut write = || -> Result<(), Full> {
            for name in &fresh {
                let slot = script.push(Instruction::Fresh(*name), Some(*name))?;
                if let Some(mate) = self.terms.mate_of_public(*name) {
                    script.push(Instruction::Mate(slot), Some(mate))?;
                }
            }
            let slot = script.put(&self.terms, message)?;
            script.push(Instruction::Send(slot, address), None)?;
            Ok(())
        };
        write().map_err(|_| Refusal::ScriptFull(sender))?;
        Ok(script)
    }

    pub fn step(&mut self, sender: Agent, receiver: Agent, message: TermId) -> Result<(), Refusal> {
        if sender == receiver {
            return Err(Refusal::NoTwoParties);
        }
        if self.steps >= MOST_STEPS {
            return Err(Refusal::LastStep);
        }
        let (from, to) = (self.name_of(sender), self.name_of(receiver));
        let address = self.scripts[sender].slot_of(to).ok_or(Refusal::NoAddress)?;
        let sent = self.sent(sender, message, address)?;
        let terms = &self.terms;
        let mut received = self.scripts[receiver].clone();
        let mut receive = || -> Result<(), Full> {
            received.walk(terms, Instruction::From(from), from)?;
            received.walk(terms, Instruction::Recv(message), message)?;
            received.saturate(terms)
        };
        receive().map_err(|_| Refusal::ScriptFull(receiver))?;
        let mut heard = self.scripts[0].clone();
        let mut overhear = || -> Result<(), Full> {
            heard.hold(terms, Instruction::From(from), from)?;
            heard.hold(terms, Instruction::To(to), to)?;
            heard.hold(terms, Instruction::Recv(message), message)?;
            heard.saturate(terms)
        };
        overhear().map_err(|_| Refusal::ScriptFull(0))?;
        self.scripts[sender] = sent;
        self.scripts[receiver] = received;
        self.scripts[0] = heard;
        self.steps += 1;
        self.use_names(message);
        Ok(())
    }
}
