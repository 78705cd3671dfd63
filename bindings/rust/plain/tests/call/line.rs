//! The words of a line read as arguments, and the line that is printed for a call.

use std::fmt::{UpperHex, Write};
use std::slice::Split;

/// Why a line cannot be read.
pub type Reason = String;

/// The words of a line after the call's name. Every blank ends a word, so that two blanks have an
/// empty word between them.
pub struct Words<'a> {
    words: Split<'a, u8, fn(&u8) -> bool>,
    /// How many arguments have been looked at.
    count: usize,
}

impl<'a> Words<'a> {
    /// The call's name, and the words after it.
    pub fn of(line: &'a [u8]) -> (&'a [u8], Self) {
        let blank: fn(&u8) -> bool = |&byte| byte == b' ';
        let mut words = line.split(blank);
        let name = words.next().unwrap_or_default();
        (name, Words { words, count: 0 })
    }

    /// Reads the words as all of a call's arguments.
    pub fn arguments<A: Arguments>(mut self) -> Result<A, Reason> {
        let arguments = A::read(&mut self)?;
        match self.words.next() {
            None => Ok(arguments),
            Some(_) => Err("too many arguments".into()),
        }
    }

    fn argument<A: Argument>(&mut self) -> Result<A, Reason> {
        self.count += 1;
        let word = self.words.next().ok_or("missing");
        word.and_then(A::read)
            .map_err(|reason| format!("argument {}: {reason}", self.count))
    }
}

/// All arguments of a call, in the header's order: a tuple.
pub trait Arguments: Sized {
    fn read(words: &mut Words<'_>) -> Result<Self, Reason>;
}

macro_rules! arguments {
    ($($name:ident)+) => {
        impl<$($name: Argument),+> Arguments for ($($name,)+) {
            fn read(words: &mut Words<'_>) -> Result<Self, Reason> {
                Ok(($(words.argument::<$name>()?,)+))
            }
        }
    };
}

arguments!(A);
arguments!(A B);
arguments!(A B C);
arguments!(A B C D);
arguments!(A B C D E F);
arguments!(A B C D E F G H);

/// One argument: a number or a list.
pub trait Argument: Sized {
    fn read(word: &[u8]) -> Result<Self, &'static str>;
}

impl Argument for u8 {
    fn read(word: &[u8]) -> Result<Self, &'static str> {
        number(word)
    }
}

impl Argument for u16 {
    fn read(word: &[u8]) -> Result<Self, &'static str> {
        number(word)
    }
}

/// A length that stands alone: no list is longer than what two bytes hold.
impl Argument for usize {
    fn read(word: &[u8]) -> Result<Self, &'static str> {
        number::<u16>(word).map(usize::from)
    }
}

fn number<T: TryFrom<usize>>(word: &[u8]) -> Result<T, &'static str> {
    let value = decimal(word).ok_or("not a number")?;
    T::try_from(value).map_err(|_| "number too large")
}

/// One to five decimal digits.
fn decimal(digits: &[u8]) -> Option<usize> {
    if digits.len() > 5 || !digits.iter().all(u8::is_ascii_digit) {
        return None;
    }
    std::str::from_utf8(digits).ok()?.parse().ok()
}

/// An element of a list.
pub trait Element: Copy + UpperHex + TryFrom<u32> {
    /// How many hex digits it is written in.
    const DIGITS: usize;
    /// How many a list has at most.
    const MOST: usize;
}

impl Element for u8 {
    const DIGITS: usize = 2;
    const MOST: usize = 8192;
}

/// A ticket.
impl Element for u16 {
    const DIGITS: usize = 4;
    const MOST: usize = 2048;
}

/// A length.
impl Element for usize {
    const DIGITS: usize = 8;
    const MOST: usize = 1024;
}

impl<T: Element> Argument for Vec<T> {
    fn read(word: &[u8]) -> Result<Self, &'static str> {
        let parts = parts::<T>(word).ok_or("not a list")?;
        let lengths = parts.iter().map(|part| part.elements.len() * part.times);
        if lengths.sum::<usize>() > T::MOST {
            return Err("list too long");
        }
        let repeated = |part: Part<T>| part.elements.repeat(part.times);
        Ok(parts.into_iter().flat_map(repeated).collect())
    }
}

/// A part of a list, and how many times it stands there.
struct Part<T> {
    elements: Vec<T>,
    times: usize,
}

/// The parts of a list; none where the word is no list.
fn parts<T: Element>(word: &[u8]) -> Option<Vec<Part<T>>> {
    if word == b"-" {
        return Some(Vec::new());
    }
    word.split(|&byte| byte == b',').map(part).collect()
}

fn part<T: Element>(text: &[u8]) -> Option<Part<T>> {
    let (digits, times) = match text.iter().position(|&byte| byte == b'*') {
        Some(star) => (&text[..star], decimal(&text[star + 1..])?),
        None => (text, 1),
    };
    if digits.is_empty() || !digits.len().is_multiple_of(T::DIGITS) {
        return None;
    }
    let elements = digits.chunks(T::DIGITS).map(element).collect::<Option<_>>();
    elements.map(|elements| Part { elements, times })
}

fn element<T: Element>(digits: &[u8]) -> Option<T> {
    let mut value = 0;
    for &digit in digits {
        value = value << 4 | char::from(digit).to_digit(16)?;
    }
    T::try_from(value).ok()
}

/// What is printed for a call: its answer, then the lists that it may write.
pub struct Printed(String);

impl Printed {
    /// The answer in so many hex digits.
    pub fn answer(answer: u64, digits: usize) -> Self {
        Printed(format!("{answer:0digits$X}"))
    }

    /// A position, which is no answer with a refusal number: `at` and the decimal number.
    pub fn position(at: usize) -> Self {
        Printed(format!("at {at}"))
    }

    /// One more list.
    pub fn list<T: Element>(mut self, list: &[T]) -> Self {
        self.0.push_str(if list.is_empty() { " -" } else { " " });
        for element in list {
            write!(self.0, "{element:0width$X}", width = T::DIGITS).expect("a string takes it");
        }
        self
    }

    pub fn into_bytes(self) -> Vec<u8> {
        self.0.into_bytes()
    }
}
