//! Replaying recorded answers: what the library must answer, with no Rust crate at hand.
//!
//! A file is a row of sequences. A line `ASKED = ANSWER` records what the Rust answers; where that is a listed
//! difference, `ASKED = ANSWER ! RIGHT` says what the library must answer instead.
use crate::port::{Make, MakeIds, Port, PortIds};
use crate::tally::Tally;
use crate::words::{parse_answer, parse_asked, parse_id_answer, Answer, Asked, IdAnswer};

/// One line of a file: what is asked, the Rust's answer, and the library's.
pub struct Line<'a> {
    pub asked: Asked,
    pub rust: &'a str,
    pub right: &'a str,
}

pub fn parse(line: &str) -> Result<Line<'_>, String> {
    let (asked, answers) = line.split_once(" = ").ok_or(format!("no answer: {line}"))?;
    let (rust, right) = answers.split_once(" ! ").unwrap_or((answers, answers));
    Ok(Line { asked: parse_asked(asked)?, rust, right })
}

/// The library against the right answers of a file; after a refusal its memory must be as before.
pub fn replay<P: Port, Q: PortIds>(make: Make<P>, make_ids: MakeIds<Q>, text: &str, limit: usize) -> Tally {
    let mut tally = Tally::default();
    let mut name = "";
    let mut port: Option<P> = None;
    let mut ids: Option<Q> = None;
    for (number, text) in text.lines().enumerate() {
        if text.is_empty() || text.starts_with('#') {
            continue;
        }
        if let Some(sequence) = text.strip_prefix("sequence ") {
            (name, port, ids) = (sequence, None, None);
            tally.count("sequences", 1);
            continue;
        }
        let mut run = || -> Result<bool, String> {
            let line = parse(text)?;
            tally.count("listed differences", (line.rust != line.right) as u64);
            Ok(match line.asked {
                Asked::New { base, size } => {
                    let made = make(base, size, limit);
                    let right = parse_answer(line.right)?;
                    let same = made.as_ref().map_or_else(|r| Answer::Refused(*r), |_| Answer::Done) == right;
                    port = made.ok();
                    same
                }
                Asked::On(op) => {
                    let port = port.as_mut().ok_or("no pool")?;
                    let before = port.clone();
                    let (got, right) = (port.run(&op), parse_answer(line.right)?);
                    got == right && (!matches!(right, Answer::Refused(_)) || *port == before)
                }
                Asked::NewIds { lowest, highest } => {
                    let made = make_ids(lowest, highest);
                    let right = parse_answer(line.right)?;
                    let same = made.as_ref().map_or_else(|r| Answer::Refused(*r), |_| Answer::Done) == right;
                    ids = made.ok();
                    same
                }
                Asked::OnIds(op) => {
                    let ids = ids.as_mut().ok_or("no ids")?;
                    let before = ids.clone();
                    let (got, right) = (ids.run(op), parse_id_answer(line.right)?);
                    got == right && (!matches!(right, IdAnswer::Refused(_)) || *ids == before)
                }
            })
        };
        match run() {
            Ok(holds) => tally.check(holds, || format!("sequence {name}, line {}: {text}", number + 1)),
            Err(why) => tally.check(false, || format!("sequence {name}, line {}: {why}", number + 1)),
        }
    }
    tally
}
