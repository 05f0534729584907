// Tables as text, read in plain Rust: each line is parsed into a statement, whose calls are then made.

use crate::compiler::{Agent, Form, Kind, Protocol, Refusal, TermId};
use std::collections::{HashMap, HashSet};

const LONGEST: usize = 32768;
const MOST_BRACKETS: usize = 64;
const LONGEST_NAME: usize = 16;

// Why a text is refused, and the place of the byte that it names.
pub enum Fault {
    TooLong,
    Outside(usize),
    Undeclared(usize),
    DeclaredTwice(usize),
    TooDeep(usize),
    Protocol(Refusal, usize),
}

impl Fault {
    pub fn number(&self) -> usize {
        match self {
            Fault::TooLong => 15,
            Fault::Outside(_) => 16,
            Fault::Undeclared(_) => 17,
            Fault::DeclaredTwice(_) => 18,
            Fault::TooDeep(_) => 19,
            Fault::Protocol(_, _) => 20,
        }
    }

    pub fn place(&self) -> usize {
        match *self {
            Fault::TooLong => LONGEST,
            Fault::Outside(place)
            | Fault::Undeclared(place)
            | Fault::DeclaredTwice(place)
            | Fault::TooDeep(place)
            | Fault::Protocol(_, place) => place,
        }
    }
}

#[derive(Clone, Copy)]
enum Token<'a> {
    Word(&'a [u8]),
    // a bracket or a tick
    Mark(u8),
    LineEnd,
    Stray,
}

// A key: a name, or the entry of a party in a table, with ticks.
struct Key {
    name: TermId,
    party: Option<TermId>,
    ticks: usize,
}

enum Expression {
    Key(Key),
    Tuple(Vec<Expression>),
    Sealed(Box<Expression>, Key),
    Digest(TermId, Box<Expression>),
}

enum Statement<'a> {
    Blank,
    Declares(Kind, Vec<&'a [u8]>),
    Owns(Agent, Expression),
    Sends(Agent, Agent, Expression),
}

// What a name stands for; the agent is that of a party.
#[derive(Clone, Copy)]
struct Named {
    kind: Kind,
    term: TermId,
    agent: Agent,
}

type Names<'a> = HashMap<&'a [u8], Named>;

fn kind_of(word: &[u8]) -> Option<Kind> {
    match word {
        b"party" => Some(Kind::Party),
        b"number" => Some(Kind::Number),
        b"shared" => Some(Kind::Shared),
        b"public" => Some(Kind::Public),
        b"table" => Some(Kind::Table),
        b"function" => Some(Kind::Function),
        _ => None,
    }
}

fn is_name(word: &[u8]) -> bool {
    let is_keyword = matches!(word, b"own" | b"line") || kind_of(word).is_some();
    word.len() <= LONGEST_NAME && word[0].is_ascii_alphabetic() && !is_keyword
}

// Reads the tokens of one line, one ahead.
struct Parser<'a, 'n> {
    text: &'a [u8],
    names: &'n Names<'a>,
    // the token that comes next, its place, and the place behind it
    token: Token<'a>,
    place: usize,
    end: usize,
    open: usize,
}

impl<'a, 'n> Parser<'a, 'n> {
    fn new(text: &'a [u8], from: usize, names: &'n Names<'a>) -> Parser<'a, 'n> {
        let mut parser = Parser {
            text,
            names,
            token: Token::LineEnd,
            place: from,
            end: from,
            open: 0,
        };
        parser.advance();
        parser
    }

    fn advance(&mut self) {
        let rest = &self.text[self.end..];
        let spaces = rest.iter().take_while(|byte| **byte == b' ').count();
        self.place = self.end + spaces;
        let rest = &rest[spaces..];
        let (token, len) = match rest.first() {
            None => (Token::LineEnd, 0),
            Some(b'\n') => (Token::LineEnd, 1),
            Some(b'(' | b')' | b'{' | b'}' | b'[' | b']' | b'<' | b'>' | b'\'') => (Token::Mark(rest[0]), 1),
            Some(byte) if byte.is_ascii_alphanumeric() => {
                let len = rest.iter().take_while(|byte| byte.is_ascii_alphanumeric()).count();
                (Token::Word(&rest[..len]), len)
            }
            Some(_) => (Token::Stray, 1),
        };
        self.token = token;
        self.end = self.place + len;
    }

    fn outside<T>(&self) -> Result<T, Fault> {
        Err(Fault::Outside(self.place))
    }

    fn is_mark(&self, mark: u8) -> bool {
        matches!(self.token, Token::Mark(other) if other == mark)
    }

    // The name that comes next, and its place.
    fn name(&mut self) -> Result<(&'a [u8], usize), Fault> {
        match self.token {
            Token::Word(word) if is_name(word) => {
                let place = self.place;
                self.advance();
                Ok((word, place))
            }
            _ => self.outside(),
        }
    }

    fn declared(&mut self) -> Result<TermId, Fault> {
        let (word, place) = self.name()?;
        let named = self.names.get(word).ok_or(Fault::Undeclared(place))?;
        Ok(named.term)
    }

    fn agent(&mut self) -> Result<Agent, Fault> {
        let (word, place) = self.name()?;
        match self.names.get(word) {
            Some(named) if named.kind == Kind::Party => Ok(named.agent),
            _ => Err(Fault::Undeclared(place)),
        }
    }

    // A bracket that opens and was seen to come next.
    fn opens(&mut self) -> Result<(), Fault> {
        if self.open == MOST_BRACKETS {
            return Err(Fault::TooDeep(self.place));
        }
        self.open += 1;
        self.advance();
        Ok(())
    }

    fn closes(&mut self, mark: u8) -> Result<(), Fault> {
        if !self.is_mark(mark) {
            return self.outside();
        }
        self.open -= 1;
        self.advance();
        Ok(())
    }

    fn line_end(&self) -> Result<(), Fault> {
        match self.token {
            Token::LineEnd => Ok(()),
            _ => self.outside(),
        }
    }

    // A key whose name was read.
    fn key(&mut self, name: TermId) -> Result<Key, Fault> {
        let mut key = Key { name, party: None, ticks: 0 };
        if self.is_mark(b'[') {
            self.opens()?;
            key.party = Some(self.declared()?);
            self.closes(b']')?;
        }
        while self.is_mark(b'\'') {
            key.ticks += 1;
            self.advance();
        }
        Ok(key)
    }

    fn tuple(&mut self) -> Result<Expression, Fault> {
        self.opens()?;
        let mut parts = vec![self.term()?, self.term()?];
        while !self.is_mark(b')') {
            parts.push(self.term()?);
        }
        self.closes(b')')?;
        Ok(Expression::Tuple(parts))
    }

    fn sealed(&mut self) -> Result<Expression, Fault> {
        self.opens()?;
        let content = self.term()?;
        self.closes(b'}')?;
        let name = self.declared()?;
        Ok(Expression::Sealed(Box::new(content), self.key(name)?))
    }

    fn named(&mut self) -> Result<Expression, Fault> {
        let name = self.declared()?;
        if !self.is_mark(b'<') {
            return Ok(Expression::Key(self.key(name)?));
        }
        self.opens()?;
        let content = self.term()?;
        self.closes(b'>')?;
        Ok(Expression::Digest(name, Box::new(content)))
    }

    fn term(&mut self) -> Result<Expression, Fault> {
        match self.token {
            Token::Word(_) => self.named(),
            Token::Mark(b'(') => self.tuple(),
            Token::Mark(b'{') => self.sealed(),
            _ => self.outside(),
        }
    }

    fn declaration(&mut self, kind: Kind) -> Result<Statement<'a>, Fault> {
        let mut words = Vec::new();
        let mut seen = HashSet::new();
        loop {
            let (word, place) = self.name()?;
            if self.names.contains_key(word) || !seen.insert(word) {
                return Err(Fault::DeclaredTwice(place));
            }
            words.push(word);
            if let Token::LineEnd = self.token {
                return Ok(Statement::Declares(kind, words));
            }
        }
    }

    fn statement(&mut self) -> Result<Statement<'a>, Fault> {
        let word = match self.token {
            Token::LineEnd => return Ok(Statement::Blank),
            Token::Word(word) => word,
            _ => return self.outside(),
        };
        if let Some(kind) = kind_of(word) {
            self.advance();
            return self.declaration(kind);
        }
        let statement = match word {
            b"own" => {
                self.advance();
                Statement::Owns(self.agent()?, self.term()?)
            }
            b"line" => {
                self.advance();
                Statement::Sends(self.agent()?, self.agent()?, self.term()?)
            }
            _ => return self.outside(),
        };
        self.line_end()?;
        Ok(statement)
    }
}

fn make_key(protocol: &mut Protocol, key: &Key) -> Result<TermId, Refusal> {
    let mut made = match key.party {
        Some(party) => protocol.build(Form::Entry, key.name, party)?,
        None => key.name,
    };
    for _ in 0..key.ticks {
        made = protocol.mate(made)?;
    }
    Ok(made)
}

fn make(protocol: &mut Protocol, expression: &Expression) -> Result<TermId, Refusal> {
    match expression {
        Expression::Key(key) => make_key(protocol, key),
        Expression::Tuple(parts) => {
            let parts = parts.iter().map(|part| make(protocol, part)).collect::<Result<Vec<_>, _>>()?;
            let mut parts = parts.into_iter().rev();
            let last = parts.next().unwrap();
            parts.try_fold(last, |rest, part| protocol.build(Form::Pair, part, rest))
        }
        Expression::Sealed(content, key) => {
            let content = make(protocol, content)?;
            let key = make_key(protocol, key)?;
            protocol.build(Form::Sealed, content, key)
        }
        Expression::Digest(function, content) => {
            let content = make(protocol, content)?;
            protocol.build(Form::Digest, *function, content)
        }
    }
}

fn perform<'a>(protocol: &mut Protocol, names: &mut Names<'a>, statement: Statement<'a>) -> Result<(), Refusal> {
    match statement {
        Statement::Blank => Ok(()),
        Statement::Declares(kind, words) => {
            for word in words {
                let term = protocol.name(kind)?;
                let agent = protocol.scripts().len() - 1;
                names.insert(word, Named { kind, term, agent });
            }
            Ok(())
        }
        Statement::Owns(agent, term) => {
            let term = make(protocol, &term)?;
            protocol.know(agent, term)
        }
        Statement::Sends(sender, receiver, message) => {
            let message = make(protocol, &message)?;
            protocol.step(sender, receiver, message)
        }
    }
}

// What came of a text: the protocol, or as far as it came.
pub struct Table<'a> {
    pub protocol: Protocol,
    names: Names<'a>,
}

impl<'a> Table<'a> {
    pub fn blank() -> Table<'a> {
        Table {
            protocol: Protocol::blank(),
            names: HashMap::new(),
        }
    }

    pub fn read(&mut self, text: &'a [u8]) -> Result<(), Fault> {
        if text.len() > LONGEST {
            return Err(Fault::TooLong);
        }
        let mut place = 0;
        while place < text.len() {
            let mut parser = Parser::new(text, place, &self.names);
            let statement = parser.statement()?;
            let end = parser.end;
            perform(&mut self.protocol, &mut self.names, statement).map_err(|refusal| Fault::Protocol(refusal, place))?;
            place = end;
        }
        Ok(())
    }

    // The word that was declared for a term.
    pub fn word(&self, term: TermId) -> &'a [u8] {
        let found = self.names.iter().find(|(_, named)| named.term == term);
        found.map_or(b"?", |(word, _)| *word)
    }
}
