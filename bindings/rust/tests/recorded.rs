//! The answers of LALRPOP's own tokenizer that the repository holds (crates/replay/stdin; the layout stands at the top of crates/replay/src/main.rt),
//! against every way in which this crate reads a text or expands a string.
use std::path::Path;
use std::str::from_utf8;
use teykonasir::tok::{Tok, Tokenizer};
use teykonasir::{expand, expand_into, read, read_to_vec, resume, run, run_to_vec, Code, DeepRecord, Kind, Ran, Reading, Record, Refusal, State};

struct Reader<'a>(&'a [u8]);

impl<'a> Reader<'a> {
    fn bytes(&mut self, n: usize) -> &'a [u8] {
        let (first, rest) = self.0.split_at(n);
        self.0 = rest;
        first
    }

    fn little(&mut self, n: usize) -> u64 {
        self.bytes(n).iter().rev().fold(0, |sum, b| sum << 8 | *b as u64)
    }

    /// A number: its digits to the base 128, the highest first, with 128 added to all but the last.
    fn number(&mut self) -> u64 {
        let mut sum = 0;
        loop {
            let digit = self.little(1);
            sum = sum << 7 | (digit & 127);
            if digit < 128 {
                return sum;
            }
        }
    }

    /// A case: its bytes and its numbers.
    fn case(&mut self) -> (&'a [u8], Reader<'a>) {
        let (bytes, numbers) = (self.little(2) as usize, self.little(2) as usize);
        (self.bytes(bytes), Reader(self.bytes(numbers)))
    }
}

fn refusal(code: u64, place: u64) -> Result<(), Refusal> {
    Code::of(code).map_or(Ok(()), |code| Err(Refusal { code, place }))
}

struct Text<'a> {
    text: &'a [u8],
    shift: u64,
    cursor: u64,
    ran: Ran,
    records: Vec<Record>,
}

fn text_of<'a>(text: &'a [u8], body: &mut Reader) -> Text<'a> {
    let shift = body.number();
    let stored = body.number() as usize;
    let (code, place, advances, cursor) = (body.number(), body.number(), body.number(), body.number());
    let mut record = || {
        let kind = Kind::of(body.number()).unwrap();
        let (start, end) = (body.number(), body.number());
        Record::new(kind, start..end, body.number()..body.number())
    };
    let records = (0..stored).map(|_| record()).collect();
    Text { text, shift, cursor, ran: Ran { stored, how: refusal(code, place), advances }, records }
}

/// What is answered, with the code that LALRPOP has for it: the recorded answers are LALRPOP's own.
fn mapped(ran: Ran) -> Ran {
    Ran { how: ran.how.map_err(|r| Refusal { code: r.code.rust_code(), ..r }), ..ran }
}

/// Into a lent slice, one record longer than is wanted: that one stays.
fn by_slice(case: &Text) {
    let other = Record::new(Kind::Bang, 1..2, 3..4);
    let mut records = vec![other; case.records.len() + 1];
    assert_eq!(mapped(run(case.text, case.shift, u64::MAX, &mut records)), case.ran);
    assert_eq!(records.pop(), Some(other));
    assert_eq!(records, case.records);
}

fn by_vec(case: &Text) {
    let mut records = vec![];
    assert_eq!(mapped(run_to_vec(case.text, case.shift, u64::MAX, &mut records)), case.ran);
    assert_eq!(records, case.records);
}

/// With depths, into a slice that has room for one more, and into a list: the records are the same.
fn by_depths(case: &Text) {
    let (mut slice, mut list) = (vec![DeepRecord::default(); case.records.len() + 1], vec![]);
    let deep = read(case.text, Reading::Old, case.shift, u64::MAX, &mut slice);
    assert_eq!((mapped(deep.ran), deep.last_depth.is_some()), (case.ran, case.ran.how.is_ok()));
    assert_eq!(slice.pop(), Some(DeepRecord::default()));
    assert!(slice.iter().map(|r| &r.record).eq(&case.records));
    assert_eq!(read_to_vec(case.text, Reading::Old, case.shift, u64::MAX, &mut list), deep);
    assert_eq!(list, slice);
}

/// In pieces, with room for none to three records and a limit that grows; the last answer is repeated.
fn by_pieces(case: &Text) {
    let (mut state, mut records, mut room, mut limit) = (State::default(), Vec::<Record>::new(), 0, 0);
    loop {
        let mut piece = [Record::default(); 3];
        let ran = mapped(resume(case.text, case.shift, limit, &mut state, &mut piece[..room]));
        records.extend(&piece[..ran.stored]);
        match ran.how.map_err(|r| r.code) {
            Err(Code::NoRoom) => room = room % 3 + 1,
            Err(Code::WorkLimit) => limit = 2 * limit + 1,
            _ => {
                assert_eq!((ran.how, ran.advances), (case.ran.how, case.ran.advances));
                assert_eq!(mapped(resume(case.text, case.shift, 0, &mut state, &mut piece)), Ran { stored: 0, ..case.ran });
                break;
            }
        }
    }
    assert_eq!(records, case.records);
    assert_eq!(state.cursor, case.cursor);
}

fn payload<'a>(tok: &Tok<'a>) -> Option<&'a str> {
    match tok {
        Tok::Use(s)
        | Tok::Escape(s)
        | Tok::Id(s)
        | Tok::MacroId(s)
        | Tok::Lifetime(s)
        | Tok::StringLiteral(s)
        | Tok::CharLiteral(s)
        | Tok::RegexLiteral(s)
        | Tok::EqualsGreaterThanCode(s)
        | Tok::EqualsGreaterThanQuestionCode(s)
        | Tok::ShebangAttribute(s) => Some(s),
        _ => None,
    }
}

/// By LALRPOP's shape: the names are compared as they are printed.
fn by_iterator(case: &Text, text: &str) {
    let mut tokens = Tokenizer::new(text, case.shift as usize);
    for record in &case.records {
        let (start, tok, end) = tokens.next().unwrap().unwrap();
        assert_eq!((start as u64, end as u64), (record.start, record.end));
        assert_eq!(format!("{:?}", tok).split('(').next(), Some(record.kind().name()));
        let (from, to) = payload(&tok).map_or((record.start, record.start), |part| {
            let from = case.shift + (part.as_ptr() as usize - text.as_ptr() as usize) as u64;
            (from, from + part.len() as u64)
        });
        assert_eq!((from, to), (record.payload_start, record.payload_end));
    }
    let last = tokens.next().map(|item| item.unwrap_err());
    let named = last.map(|e| (format!("{:?}", e.code), e.location as u64));
    assert_eq!(named, case.ran.how.err().map(|r| (r.code.name().to_string(), r.place)));
    assert_eq!(tokens.next(), None);
}

fn expansion(text: &[u8], body: &mut Reader) {
    let (idx0, place, room) = (body.number(), body.number() as usize, body.number() as usize);
    let (code, at, stands) = (body.number(), body.number(), body.number());
    let (start, end, written) = (body.number(), body.number(), body.number());
    let expanded: Vec<u8> = (start..end).map(|_| body.number() as u8).collect();
    let expanded = expanded.as_slice();
    assert_eq!(written, if stands == 2 { end - start } else { 0 });
    let mut buffer = vec![b'.'; room];
    let answer = expand_into(text, idx0, &mut buffer, place).map(<[u8]>::to_vec);
    assert_eq!(answer, refusal(code, at).map(|()| expanded.to_vec()));
    if stands == 2 {
        assert_eq!(buffer.drain(place..place + expanded.len()).as_slice(), expanded);
    }
    assert!(buffer.iter().all(|b| *b == b'.'));
    if let Ok(text) = from_utf8(text) {
        let answer = expand(text, idx0);
        assert_eq!(matches!(answer, Ok(std::borrow::Cow::Borrowed(_))), stands == 1);
        assert_eq!(answer.map(|s| s.as_bytes().to_vec()), refusal(code, at).map(|()| expanded.to_vec()));
    }
}

#[test]
fn as_recorded() {
    let path = Path::new(env!("CARGO_MANIFEST_DIR")).join("../../crates/replay/stdin");
    let file = std::fs::read(&path).unwrap_or_else(|e| panic!("{}: {}", path.display(), e));
    let mut file = Reader(&file);
    let (mark, mut counts) = file.case();
    assert_eq!(mark, b"replay 2");
    let (texts, expansions) = (counts.number(), counts.number());
    assert!(texts > 10000 && expansions > 10000);
    for n in 0..texts + expansions {
        let (bytes, mut body) = file.case();
        if n < texts {
            let case = text_of(bytes, &mut body);
            by_slice(&case);
            by_vec(&case);
            by_depths(&case);
            by_pieces(&case);
            if let Ok(text) = from_utf8(case.text) {
                by_iterator(&case, text);
            }
        } else {
            expansion(bytes, &mut body);
        }
        assert!(body.0.is_empty());
    }
    // what is left are the planted cases, whose answers are wrong on purpose
    assert!(!file.0.is_empty());
}
