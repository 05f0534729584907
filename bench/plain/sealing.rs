// What crates/sealing does, in plain Rust: the same bytes, sealed or, where it is called with `copy`, copied, as often in each round as there
// are bytes on standard input.

use std::env;
use std::io::{self, Read};

const ROUNDS: usize = 1000;

#[derive(Clone, Copy)]
struct Handle(usize);

#[derive(Clone, Copy)]
struct Span {
    start: usize,
    end: usize,
}

struct Provider {
    bytes: Vec<u8>,
    spans: Vec<Span>,
}

impl Provider {
    fn blank() -> Provider {
        Provider {
            bytes: Vec::with_capacity(32768),
            spans: Vec::with_capacity(4096),
        }
    }

    fn issue(&mut self, start: usize) -> Handle {
        self.spans.push(Span { start, end: self.bytes.len() });
        Handle(self.spans.len() - 1)
    }

    fn value(&self, handle: Handle) -> &[u8] {
        let span = self.spans[handle.0];
        &self.bytes[span.start..span.end]
    }

    fn push_copy(&mut self, handle: Handle) {
        let span = self.spans[handle.0];
        self.bytes.extend_from_within(span.start..span.end);
    }

    fn put(&mut self, value: &[u8]) -> Handle {
        let start = self.bytes.len();
        self.bytes.extend_from_slice(value);
        self.issue(start)
    }

    fn atom(&mut self, kind: u8, id: u16) -> Handle {
        let [high, low] = id.to_be_bytes();
        self.put(&[kind, high, low])
    }

    fn digest(&mut self, function: Handle, operand: Handle) -> Handle {
        let both = self.value(function).iter().chain(self.value(operand));
        let sum = both.fold(0, |sum: u8, byte| sum.wrapping_add(*byte));
        self.put(&[sum])
    }

    fn join(&mut self, left: Handle, right: Handle) -> Handle {
        let start = self.bytes.len();
        let len = self.value(left).len() as u16;
        self.bytes.extend(len.to_be_bytes());
        self.push_copy(left);
        self.push_copy(right);
        self.issue(start)
    }

    // Each byte with one of the key's body added to it, under a shared or a public key.
    fn seal(&mut self, content: Handle, key: Handle) -> Handle {
        let body = &self.value(key)[1..];
        let sealed: Vec<u8> = self.value(content).iter().zip(body.iter().cycle()).map(|(x, by)| x.wrapping_add(*by)).collect();
        self.put(&sealed)
    }

    fn copy(&mut self, content: Handle) -> Handle {
        let start = self.bytes.len();
        self.push_copy(content);
        self.issue(start)
    }
}

fn doubled(provider: &mut Provider, value: Handle, times: usize) -> Handle {
    (0..times).fold(value, |last, _| provider.join(last, last))
}

// A value of 5,000 bytes.
fn content(provider: &mut Provider) -> Handle {
    let number = provider.atom(1, 1);
    let function = provider.atom(5, 2);
    let digest = provider.digest(function, number);
    let first = doubled(provider, digest, 2);
    [1, 6, 1].into_iter().fold(first, |value, doublings| {
        let more = provider.join(value, number);
        doubled(provider, more, doublings)
    })
}

fn play(times: usize, copies: bool, out: &mut [u8]) -> usize {
    let mut provider = Provider::blank();
    let mut last = content(&mut provider);
    let key = provider.atom(2, 263);
    for _ in 0..times {
        last = if copies { provider.copy(last) } else { provider.seal(last, key) };
    }
    let value = provider.value(last);
    out[..value.len()].copy_from_slice(value);
    value.len()
}

fn main() -> io::Result<()> {
    let copies = env::args().any(|word| word == "copy");
    let mut input = Vec::new();
    io::stdin().lock().take(4).read_to_end(&mut input)?;
    let mut out = [0; 5000];
    let mut len = 0;
    for _ in 0..ROUNDS {
        len = play(input.len(), copies, &mut out);
    }
    let sum = out.iter().fold(0, |sum: u8, byte| sum.wrapping_add(*byte));
    println!("{len} bytes, sum {sum}");
    Ok(())
}
