//! The Rust's tokenizer on standard input: UTF-8 check, iteration, five numbers stored for each token. With an argument they are printed, as
//! bench_run.c prints its own. `tok.rs` beside the built copy is LALRPOP's module, which is not kept in this repository.
#![allow(dead_code)]

mod tok;

use std::io::Read;
use tok::Tok::{self, *};

const SIZE: usize = 1 << 20;

static mut TEXT: [u8; SIZE] = [0; SIZE];
static mut RECORDS: [[u64; 5]; SIZE] = [[0; 5]; SIZE];

/// The number of a kind, in the order of `Tok`, and its payload.
fn number<'a>(t: &Tok<'a>) -> (u64, Option<&'a str>) {
    match *t {
        Enum => (0, None),
        Extern => (1, None),
        Grammar => (2, None),
        Match => (3, None),
        Else => (4, None),
        If => (5, None),
        Mut => (6, None),
        Pub => (7, None),
        In => (8, None),
        Type => (9, None),
        Where => (10, None),
        For => (11, None),
        Dyn => (12, None),
        Use(s) => (13, Some(s)),
        Escape(s) => (14, Some(s)),
        Id(s) => (15, Some(s)),
        MacroId(s) => (16, Some(s)),
        Lifetime(s) => (17, Some(s)),
        StringLiteral(s) => (18, Some(s)),
        CharLiteral(s) => (19, Some(s)),
        RegexLiteral(s) => (20, Some(s)),
        Ampersand => (21, None),
        BangEquals => (22, None),
        BangTilde => (23, None),
        Colon => (24, None),
        ColonColon => (25, None),
        Comma => (26, None),
        DotDot => (27, None),
        Equals => (28, None),
        EqualsEquals => (29, None),
        EqualsGreaterThanCode(s) => (30, Some(s)),
        EqualsGreaterThanQuestionCode(s) => (31, Some(s)),
        EqualsGreaterThanLookahead => (32, None),
        EqualsGreaterThanLookbehind => (33, None),
        Hash => (34, None),
        GreaterThan => (35, None),
        LeftBrace => (36, None),
        LeftBracket => (37, None),
        LeftParen => (38, None),
        LessThan => (39, None),
        Lookahead => (40, None),
        Lookbehind => (41, None),
        MinusGreaterThan => (42, None),
        Plus => (43, None),
        Question => (44, None),
        RightBrace => (45, None),
        RightBracket => (46, None),
        RightParen => (47, None),
        Semi => (48, None),
        Star => (49, None),
        TildeTilde => (50, None),
        Underscore => (51, None),
        Bang => (52, None),
        ShebangAttribute(s) => (53, Some(s)),
        _ => (255, None),
    }
}

/// Reads a text; the error's number and place, 0 at the end, and how many records were stored.
#[inline(never)]
fn run(bytes: &[u8], records: &mut [[u64; 5]]) -> (u64, u64, usize) {
    let text = match std::str::from_utf8(bytes) {
        Ok(text) => text,
        Err(e) => return (11, e.valid_up_to() as u64, 0),
    };
    let mut n = 0;
    for item in tok::Tokenizer::new(text, 0) {
        match item {
            Ok((start, t, end)) => {
                let (kind, payload) = number(&t);
                let (from, to) = match payload {
                    None => (start, start),
                    Some(p) => {
                        let from = p.as_ptr() as usize - text.as_ptr() as usize;
                        (from, from + p.len())
                    }
                };
                records[n] = [kind, start as u64, end as u64, from as u64, to as u64];
                n += 1;
            }
            Err(e) => return (e.code as u64 + 1, e.location as u64, n),
        }
    }
    (0, 0, n)
}

fn main() {
    let (text, records) = unsafe { (&mut *std::ptr::addr_of_mut!(TEXT), &mut *std::ptr::addr_of_mut!(RECORDS)) };
    let mut length = 0;
    let mut input = std::io::stdin().lock();
    while length < SIZE {
        match input.read(&mut text[length..]) {
            Ok(n) if n > 0 => length += n,
            _ => break,
        }
    }
    let (code, place, n) = run(&text[..length], records);
    if std::env::args().len() > 1 {
        for r in &records[..n] {
            println!("{} {} {} {} {}", r[0], r[1], r[2], r[3], r[4]);
        }
        println!("{} {} {}", code, place, n);
    }
}
