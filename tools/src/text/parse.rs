//! A text to the contract that it is. The sizes of document 01 are tested here, each at its line: what is given back has an image.

use super::tokens::{Token, Tokens};
use super::values::{begins_as_number, hex, location, number};
use super::{words, BadText};
use crate::tree::*;

/// The greatest number in a string's length field.
const LONGEST_STRING: usize = 65_535;

/// What was parsed, or the first error.
type Parsed<T> = Result<T, BadText>;

/// The contract that a text is, or the first error in it.
pub fn parse(text: &str) -> Parsed<Contract> {
    let mut parser = Parser { tokens: Tokens::new(text), statements: 0, nodes: 0, bytes: size::HEAD };
    let mode = parser.mode()?;
    let mut statements = vec![];
    while !parser.tokens.peek().is_end() {
        statements.push(parser.statement(1)?);
    }
    Ok(Contract { mode, statements })
}

/// The tokens to come, and how many statements, expression nodes and bytes the image has so far.
struct Parser<'a> {
    tokens: Tokens<'a>,
    statements: usize,
    nodes: usize,
    bytes: usize,
}

impl<'a> Parser<'a> {
    /// The first two words.
    fn mode(&mut self) -> Parsed<u8> {
        self.expect("mode")?;
        let token = self.tokens.take();
        match token.text {
            "0" => Ok(0),
            "1" => Ok(1),
            _ => Err(token.expected("0 or 1 behind \"mode\"")),
        }
    }

    /// A token that has to stand here.
    fn expect(&mut self, text: &str) -> Parsed<Token<'a>> {
        let token = self.tokens.take();
        if token.text != text {
            return Err(token.expected(&format!("{text:?}")));
        }
        Ok(token)
    }

    /// Counts bytes of the image.
    fn add_bytes(&mut self, token: &Token, bytes: usize) -> Parsed<()> {
        self.bytes += bytes;
        refuse_if(token, self.bytes > most::BYTES, || format!("the image would be longer than {} bytes", most::BYTES))
    }

    /// Counts a statement that begins at a token, of so many bytes without what is in it.
    fn add_statement(&mut self, token: &Token, level: usize, bytes: usize) -> Parsed<()> {
        let deepest = most::STATEMENT_LEVEL;
        refuse_if(token, level > deepest, || format!("a statement at level {level}, the deepest is {deepest}"))?;
        refuse_if(token, self.statements == most::STATEMENTS, || format!("more than {} statements", most::STATEMENTS))?;
        self.statements += 1;
        self.add_bytes(token, bytes)
    }

    /// Counts an expression node that begins at a token, of so many bytes without its operands.
    fn add_node(&mut self, token: &Token, level: usize, bytes: usize) -> Parsed<()> {
        let deepest = most::EXPRESSION_LEVEL;
        refuse_if(token, level > deepest, || format!("an expression at level {level}, the deepest is {deepest}"))?;
        refuse_if(token, self.nodes == most::NODES, || format!("more than {} expression nodes", most::NODES))?;
        self.nodes += 1;
        self.add_bytes(token, bytes)
    }

    /// The location behind an item's own word, number or op; without one it is all zeros.
    fn location(&mut self) -> Parsed<Location> {
        self.tokens.take_location().map_or(Ok(Location::default()), |token| location(&token))
    }

    /// A statement at its level.
    fn statement(&mut self, level: usize) -> Parsed<Stmt> {
        let token = self.tokens.take();
        let bytes = statement_size(token.text).ok_or_else(|| token.expected("a statement"))?;
        self.add_statement(&token, level, bytes)?;
        let location = self.location()?;
        let kind = match (token.text, words::locktime(token.text)) {
            (_, Some(op)) => StmtKind::Locktime { op, operand: number(&self.tokens.take())? },
            ("if", _) => self.branches(level)?,
            ("verify", _) => StmtKind::Verify(self.expression(1)?),
            _ => StmtKind::Return(self.expression(1)?),
        };
        Ok(Stmt { location, kind })
    }

    /// What follows an if.
    fn branches(&mut self, level: usize) -> Parsed<StmtKind> {
        let condition = self.expression(1)?;
        let then = self.block(level + 1)?;
        let otherwise = if self.tokens.peek().text == "else" { Some(self.otherwise(level)?) } else { None };
        Ok(StmtKind::If { condition, then, otherwise })
    }

    /// The else block, whose count is a field of the if.
    fn otherwise(&mut self, level: usize) -> Parsed<Vec<Stmt>> {
        let token = self.expect("else")?;
        self.add_bytes(&token, size::ELSE)?;
        self.block(level + 1)
    }

    /// A block with its braces; the level is that of the statements in it.
    fn block(&mut self, level: usize) -> Parsed<Vec<Stmt>> {
        let opening = self.expect("{")?;
        let mut statements = vec![];
        while self.tokens.peek().text != "}" {
            let token = self.tokens.peek();
            if token.is_end() {
                return Err(token.expected(&format!("a statement or the \"}}\" of the block that opens in line {}", opening.line)));
            }
            statements.push(self.statement(level)?);
        }
        self.expect("}")?;
        Ok(statements)
    }

    /// An expression at its level.
    fn expression(&mut self, level: usize) -> Parsed<Expr> {
        let token = self.tokens.take();
        match (token.text, words::one(token.text)) {
            (_, Some(op)) => self.one(&token, op, level),
            ("(", _) => self.two(&token, level),
            ("bytes", _) => self.bytes(&token, level),
            _ => self.leaf(&token, level),
        }
    }

    /// An item with one operand, behind its word.
    fn one(&mut self, word: &Token, op: One, level: usize) -> Parsed<Expr> {
        self.add_node(word, level, op.size())?;
        let location = self.location()?;
        self.expect("(")?;
        let operand = self.expression(level + 1)?;
        self.expect(")")?;
        Ok(Expr::one(op, operand).at(location))
    }

    /// An item with two operands, behind its opening parenthesis.
    fn two(&mut self, opening: &Token, level: usize) -> Parsed<Expr> {
        self.add_node(opening, level, size::OPERATION)?;
        let left = self.expression(level + 1)?;
        let word = self.tokens.take();
        let op = words::two(word.text).ok_or_else(|| word.expected("an operation between two operands"))?;
        let location = self.location()?;
        let right = self.expression(level + 1)?;
        self.expect(")")?;
        Ok(Expr::two(op, left, right).at(location))
    }

    /// A string, behind its word.
    fn bytes(&mut self, word: &Token, level: usize) -> Parsed<Expr> {
        self.expect("(")?;
        let digits = if self.tokens.peek().text == ")" { None } else { Some(self.tokens.take()) };
        let bytes = digits.map_or(Ok(vec![]), |token| hex(&token))?;
        self.expect(")")?;
        refuse_if(word, bytes.len() > LONGEST_STRING, || format!("a string of {} bytes, the longest has {LONGEST_STRING}", bytes.len()))?;
        let node = Node::Bytes(bytes);
        self.add_node(word, level, node.size())?;
        Ok(Expr::new(node).at(self.location()?))
    }

    /// An item that is one word.
    fn leaf(&mut self, token: &Token, level: usize) -> Parsed<Expr> {
        let node = leaf(token)?;
        self.add_node(token, level, node.size())?;
        Ok(Expr::new(node).at(self.location()?))
    }
}

/// An error at a token if a test holds.
fn refuse_if(token: &Token, test: bool, message: impl Fn() -> String) -> Parsed<()> {
    if test {
        return Err(token.bad(message()));
    }
    Ok(())
}

/// How many bytes the statement of a word has without what is in it, an else not counted; none if the word begins no statement.
fn statement_size(word: &str) -> Option<usize> {
    match word {
        "if" => Some(size::IF),
        "verify" | "return" => Some(size::ITEM),
        _ => words::locktime(word).map(|_| size::LOCKTIME),
    }
}

/// The node that one word is.
fn leaf(token: &Token) -> Parsed<Node> {
    match token.text {
        "variable" => Ok(Node::Variable),
        "checksig" => Ok(Node::Checksig),
        "true" => Ok(Node::Boolean(true)),
        "false" => Ok(Node::Boolean(false)),
        word if begins_as_number(word) => Ok(Node::Number(number(token)?)),
        _ => Err(token.expected("an expression")),
    }
}
