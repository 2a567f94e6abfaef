//! Texts: the words by longest runs, the operators by a table of levels. What is begun waits on a stack; no function
//! calls itself.

use super::model::{binary, Limits, Model, Type};
use super::Refusal;

/// Writes the nodes of a text, of either type, to the beginning of both slices; gives how many.
pub fn write_nodes(
    file: &[u8],
    text: &[u8],
    kinds: &mut [u8],
    parameters: &mut [i32],
) -> Result<usize, Refusal> {
    let model = Model::parse(file)?;
    if text.len() > Limits::TEXT {
        return Err(Refusal::TooLongOrDeep);
    }
    if kinds.len().min(parameters.len()) < Limits::TEXT_NODES {
        return Err(Refusal::ShortMarks);
    }
    let mut reader = Reader::new(&model, text)?;
    let whole = reader.read()?;
    if reader.has_unknown {
        return Err(Refusal::NoSuchVariable);
    }
    if reader.has_misfit {
        return Err(Refusal::TypesDoNotFit);
    }
    if reader.part(whole).depth > Limits::DEPTH {
        return Err(Refusal::TooLongOrDeep);
    }
    Ok(reader.write(whole, kinds, parameters))
}

#[derive(Clone, Copy, PartialEq, Eq)]
enum Word {
    Number(i32),
    Boolean(bool),
    Variable(usize),
    Operator(Operator),
    /// `div` or `mod`, by its kind.
    Call(u8),
    Open,
    Comma,
    Close,
    If,
    Then,
    Else,
    /// After the last word.
    End,
}

#[derive(Clone, Copy, PartialEq, Eq)]
enum Operator {
    Or,
    And,
    Not,
    Equal,
    Unequal,
    Less,
    LessOrEqual,
    Greater,
    GreaterOrEqual,
    Plus,
    Minus,
    Times,
}

/// How tightly an expression binds, the loosest first.
#[derive(Clone, Copy, PartialEq, Eq, PartialOrd, Ord)]
enum Level {
    Conditional,
    Disjunction,
    Conjunction,
    Negation,
    Relation,
    Sign,
    Sum,
    Product,
    Call,
}

use Level::*;

/// An infix operator: the level of what it gives, and the loosest that may stand at its left and at its right.
struct Infix {
    level: Level,
    left: Level,
    right: Level,
}

impl Operator {
    fn infix(self) -> Option<Infix> {
        let (level, left, right) = match self {
            Operator::Or => (Disjunction, Disjunction, Conjunction),
            Operator::And => (Conjunction, Conjunction, Negation),
            Operator::Not => return None,
            Operator::Plus | Operator::Minus => (Sum, Sum, Product),
            Operator::Times => (Product, Product, Call),
            _ => (Relation, Sign, Sign),
        };
        Some(Infix { level, left, right })
    }

    /// The level of what a prefix operator gives, which is also the loosest that may follow it.
    fn prefix(self) -> Option<Level> {
        match self {
            Operator::Not => Some(Negation),
            Operator::Plus | Operator::Minus => Some(Sign),
            _ => None,
        }
    }
}

/// The next word of a text, and the text after it.
fn next_word(text: &[u8]) -> Result<(Word, &[u8]), Refusal> {
    let spaces = text.iter().take_while(|&&byte| byte == b' ').count();
    let text = &text[spaces..];
    let length = match text {
        [] => return Ok((Word::End, text)),
        [b'=' | b'!' | b'<' | b'>', b'=', ..] => 2,
        _ => {
            let run = text.iter().take_while(|byte| byte.is_ascii_alphanumeric());
            run.count().max(1)
        }
    };
    let (word, rest) = text.split_at(length);
    Ok((meaning(word).ok_or(Refusal::NotInGrammar)?, rest))
}

fn meaning(word: &[u8]) -> Option<Word> {
    Some(match word {
        b"true" => Word::Boolean(true),
        b"false" => Word::Boolean(false),
        b"div" => Word::Call(44),
        b"mod" => Word::Call(45),
        b"if" => Word::If,
        b"then" => Word::Then,
        b"else" => Word::Else,
        b"(" => Word::Open,
        b"," => Word::Comma,
        b")" => Word::Close,
        b"or" => Word::Operator(Operator::Or),
        b"and" => Word::Operator(Operator::And),
        b"not" => Word::Operator(Operator::Not),
        b"==" => Word::Operator(Operator::Equal),
        b"!=" => Word::Operator(Operator::Unequal),
        b"<" => Word::Operator(Operator::Less),
        b"<=" => Word::Operator(Operator::LessOrEqual),
        b">" => Word::Operator(Operator::Greater),
        b">=" => Word::Operator(Operator::GreaterOrEqual),
        b"+" => Word::Operator(Operator::Plus),
        b"-" => Word::Operator(Operator::Minus),
        b"*" => Word::Operator(Operator::Times),
        [b'v', digits @ ..] => Word::Variable(natural(digits)?),
        digits => Word::Number(natural(digits)?.try_into().ok()?),
    })
}

/// Digits without leading zeros. A number too large for the result becomes the largest, which is no variable either.
fn natural(digits: &[u8]) -> Option<usize> {
    match digits {
        [] | [b'0', _, ..] => None,
        _ => digits.iter().try_fold(0_usize, |number, digit| {
            let digit = digit.is_ascii_digit().then(|| digit - b'0')?;
            Some(number.saturating_mul(10).saturating_add(digit.into()))
        }),
    }
}

/// A node with the places of its operands, which stand before it.
struct Part {
    kind: u8,
    parameter: i32,
    operands: [Option<Place>; 3],
    /// What its kind yields, also where its operands do not fit.
    sort: Type,
    depth: usize,
}

type Place = usize;

/// What is begun and waits for the expression that is read next.
#[derive(Clone, Copy)]
enum Begun {
    Parenthesis,
    FirstArgument(u8),
    SecondArgument(u8, Place),
    Condition,
    Chosen(Place),
    Other(Place, Place),
    Prefix(Operator, Level),
    /// The level of what it gives, and the loosest that may stand at its right.
    Infix(Operator, Level, Level, Place),
}

impl Begun {
    /// The loosest expression that it takes.
    fn loosest(self) -> Level {
        match self {
            Begun::Prefix(_, level) | Begun::Infix(_, _, level, _) => level,
            _ => Conditional,
        }
    }
}

struct Reader<'a> {
    model: &'a Model,
    /// The word that is due, and the text after it.
    word: Word,
    rest: &'a [u8],
    begun: Vec<Begun>,
    parts: Vec<Part>,
    /// A variable is S + F or above.
    has_unknown: bool,
    /// A type does not fit.
    has_misfit: bool,
}

impl<'a> Reader<'a> {
    fn new(model: &'a Model, text: &'a [u8]) -> Result<Self, Refusal> {
        let (word, rest) = next_word(text)?;
        Ok(Reader {
            model,
            word,
            rest,
            begun: Vec::with_capacity(text.len()),
            parts: Vec::with_capacity(2 * text.len()),
            has_unknown: false,
            has_misfit: false,
        })
    }

    fn part(&self, place: Place) -> &Part {
        &self.parts[place]
    }

    /// Takes the word that is due.
    fn take(&mut self) -> Result<Word, Refusal> {
        let (next, rest) = next_word(self.rest)?;
        self.rest = rest;
        Ok(std::mem::replace(&mut self.word, next))
    }

    fn expect(&mut self, word: Word) -> Result<(), Refusal> {
        if self.take()? == word {
            Ok(())
        } else {
            Err(Refusal::NotInGrammar)
        }
    }

    /// The whole text.
    fn read(&mut self) -> Result<Place, Refusal> {
        loop {
            let mut read = self.leaf()?;
            let mut level = Call;
            // What was begun last takes the expression, unless an operator that binds tighter takes it before.
            while !self.begin_infix(read, level)? {
                (read, level) = match self.begun.pop() {
                    None => return self.expect(Word::End).map(|()| read),
                    Some(Begun::Parenthesis) => {
                        self.expect(Word::Close)?;
                        (read, Call)
                    }
                    Some(Begun::FirstArgument(kind)) => {
                        self.expect(Word::Comma)?;
                        self.begun.push(Begun::SecondArgument(kind, read));
                        break;
                    }
                    Some(Begun::SecondArgument(kind, first)) => {
                        self.expect(Word::Close)?;
                        (self.binary(kind, first, read), Call)
                    }
                    Some(Begun::Condition) => {
                        self.expect(Word::Then)?;
                        self.begun.push(Begun::Chosen(read));
                        break;
                    }
                    Some(Begun::Chosen(condition)) => {
                        self.expect(Word::Else)?;
                        self.begun.push(Begun::Other(condition, read));
                        break;
                    }
                    Some(Begun::Other(condition, chosen)) => {
                        (self.conditional(condition, chosen, read), Conditional)
                    }
                    Some(Begun::Prefix(operator, level)) => (self.prefix(operator, read), level),
                    Some(Begun::Infix(operator, level, _, left)) => {
                        (self.infix(operator, left, read), level)
                    }
                };
            }
        }
    }

    /// The next number, Boolean or variable; all that is opened before it is begun.
    fn leaf(&mut self) -> Result<Place, Refusal> {
        loop {
            let loosest = self.begun.last().map_or(Conditional, |last| last.loosest());
            let begun = match self.take()? {
                Word::Number(number) => return Ok(self.add(32, number, [], Type::Number)),
                Word::Boolean(value) => return Ok(self.add(33, value.into(), [], Type::Boolean)),
                Word::Variable(variable) => return Ok(self.variable(variable)),
                Word::Open => Begun::Parenthesis,
                Word::Call(kind) => {
                    self.expect(Word::Open)?;
                    Begun::FirstArgument(kind)
                }
                Word::If if loosest == Conditional => Begun::Condition,
                Word::Operator(operator) => match operator.prefix() {
                    Some(level) if level >= loosest => Begun::Prefix(operator, level),
                    _ => return Err(Refusal::NotInGrammar),
                },
                _ => return Err(Refusal::NotInGrammar),
            };
            self.begun.push(begun);
        }
    }

    /// Begins the operator that is due, with this expression at its left; gives whether it could.
    fn begin_infix(&mut self, read: Place, level: Level) -> Result<bool, Refusal> {
        let Word::Operator(operator) = self.word else {
            return Ok(false);
        };
        let loosest = self.begun.last().map_or(Conditional, |last| last.loosest());
        match operator.infix() {
            Some(infix) if infix.level >= loosest && level >= infix.left => {
                self.take()?;
                let begun = Begun::Infix(operator, infix.level, infix.right, read);
                self.begun.push(begun);
                Ok(true)
            }
            _ => Ok(false),
        }
    }

    fn add<const N: usize>(
        &mut self,
        kind: u8,
        parameter: i32,
        operands: [Place; N],
        sort: Type,
    ) -> Place {
        let depths = operands.iter().map(|&operand| self.part(operand).depth);
        let depth = 1 + depths.max().unwrap_or(0);
        let mut found = [None; 3];
        for (cell, operand) in found.iter_mut().zip(operands) {
            *cell = Some(operand);
        }
        self.parts.push(Part {
            kind,
            parameter,
            operands: found,
            sort,
            depth,
        });
        self.parts.len() - 1
    }

    fn want(&mut self, place: Place, sort: Type) {
        self.has_misfit |= self.part(place).sort != sort;
    }

    fn variable(&mut self, variable: usize) -> Place {
        match self.model.variables.get(variable) {
            Some(found) => self.add(34, variable as i32, [], found.sort),
            None => {
                self.has_unknown = true;
                self.add(34, 0, [], Type::Number)
            }
        }
    }

    fn binary(&mut self, kind: u8, left: Place, right: Place) -> Place {
        let (_, operands, result) = binary(kind).expect("the kind of a binary operator");
        self.want(left, operands);
        self.want(right, operands);
        self.add(kind, 0, [left, right], result)
    }

    fn conditional(&mut self, condition: Place, chosen: Place, other: Place) -> Place {
        let sort = self.part(chosen).sort;
        self.want(condition, Type::Boolean);
        self.want(other, sort);
        self.add(46, 0, [condition, chosen, other], sort)
    }

    /// A plus sign gives no node, a minus sign 0 minus its operand.
    fn prefix(&mut self, operator: Operator, operand: Place) -> Place {
        match operator {
            Operator::Not => self.negation(operand),
            Operator::Minus => {
                let zero = self.add(32, 0, [], Type::Number);
                self.binary(42, zero, operand)
            }
            _ => {
                self.want(operand, Type::Number);
                operand
            }
        }
    }

    fn negation(&mut self, operand: Place) -> Place {
        self.want(operand, Type::Boolean);
        self.add(35, 0, [operand], Type::Boolean)
    }

    fn infix(&mut self, operator: Operator, left: Place, right: Place) -> Place {
        let (kind, left, right) = match operator {
            Operator::Or => (37, left, right),
            Operator::And => (36, left, right),
            Operator::Equal | Operator::Unequal => match self.part(left).sort {
                Type::Number => (38, left, right),
                Type::Boolean => (47, left, right),
            },
            Operator::Less => (39, left, right),
            Operator::LessOrEqual => (40, left, right),
            Operator::Greater => (39, right, left),
            Operator::GreaterOrEqual => (40, right, left),
            Operator::Plus => (41, left, right),
            Operator::Minus => (42, left, right),
            Operator::Times => (43, left, right),
            Operator::Not => unreachable!("not stands before its operand"),
        };
        let joined = self.binary(kind, left, right);
        match operator {
            Operator::Unequal => self.negation(joined),
            _ => joined,
        }
    }

    /// Writes a part and all below it in prefix order.
    fn write(&mut self, whole: Place, kinds: &mut [u8], parameters: &mut [i32]) -> usize {
        let mut due = vec![whole];
        let mut count = 0;
        while let Some(place) = due.pop() {
            let part = self.part(place);
            (kinds[count], parameters[count]) = (part.kind, part.parameter);
            due.extend(part.operands.iter().rev().flatten());
            count += 1;
        }
        count
    }
}
