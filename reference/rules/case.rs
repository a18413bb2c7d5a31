//! Cases as text: reading and writing them.

use crate::hosts::{list, site, HostText};
use crate::place::Place;
use crate::resolver::{Resolved, Resolver, Table};
use crate::session::{Call, Lent, Limits};
use crate::text::{to_hex, Line, ParseError};
use crate::value::Value;

/// One case: what a session is opened with, and the calls made on it.
#[derive(Debug, Clone, PartialEq, Eq)]
pub struct Case {
    pub name: String,
    pub image: Vec<u8>,
    pub site: Vec<u8>,
    pub limits: Limits,
    pub host: HostText,
    pub resolver: Resolver,
    pub calls: Vec<Call>,
}

impl Case {
    pub fn new(name: &str) -> Self {
        Self {
            name: name.to_string(),
            image: Vec::new(),
            site: Vec::new(),
            limits: Limits {
                operations: 100,
                variables: 10,
                modules: 0,
            },
            host: HostText::Site(Vec::new()),
            resolver: Resolver::default(),
            calls: Vec::new(),
        }
    }

    /// The lines before the calls.
    pub fn head_lines(&self) -> Vec<String> {
        let Limits {
            operations,
            variables,
            modules,
        } = self.limits;
        let mut lines = vec![
            format!("case {}", self.name),
            format!("image {}", to_hex(&self.image)),
            format!("site {}", to_hex(&self.site)),
            format!("limits {operations} {variables} {modules}"),
        ];
        lines.extend(self.host.lines());
        push_table(&mut lines, &self.resolver.first);
        if let Some(second) = &self.resolver.second {
            push_table(&mut lines, second);
        }
        lines
    }
}

fn push_table(lines: &mut Vec<String>, table: &Table) {
    lines.push("table".to_string());
    for (path, answer) in table {
        lines.push(format!("path {path} {answer}"));
    }
}

pub fn call_line(call: &Call) -> String {
    match call {
        Call::Lend(lent) => format!("lend {} {} {}", lent.variables, lent.imports, lent.working),
        Call::Put(place, value) => format!("put {} {} {value}", place.offset, place.length),
        Call::Read(place) => format!("read {} {}", place.offset, place.length),
        Call::Rewind(count) => format!("rewind {count}"),
        Call::Run { exit_is_value } => format!("run {}", u8::from(*exit_is_value)),
    }
}

/// A case with the answers that were recorded for it, in order.
#[derive(Debug, Clone, PartialEq, Eq)]
pub struct RecordedCase {
    pub case: Case,
    pub answers: Vec<String>,
}

/// Read all cases of a text. Lines that begin with `=` are answers; empty lines and lines that
/// begin with `#` are skipped.
pub fn parse_cases(text: &str) -> Result<Vec<RecordedCase>, ParseError> {
    let mut cases = Vec::new();
    let mut open: Option<Reader> = None;
    for (index, content) in text.lines().enumerate() {
        let number = index + 1;
        let mut line = Line::new(number, content);
        let Some(word) = line.next_word() else {
            continue;
        };
        if word.starts_with('#') {
            continue;
        }
        match (word, open.as_mut()) {
            ("case", None) => open = Some(Reader::new(line.word()?)),
            ("end", Some(_)) => cases.extend(open.take().map(|reader| reader.recorded)),
            ("=", Some(reader)) => reader.recorded.answers.push(rest_of(content)),
            (_, Some(reader)) => reader.read(word, &mut line)?,
            _ => return Err(line.error("a case begins with `case` and ends with `end`")),
        }
    }
    match open {
        None => Ok(cases),
        Some(_) => Err(ParseError {
            line: text.lines().count(),
            message: "the last case has no `end`".to_string(),
        }),
    }
}

/// An answer without its mark, its words separated by single spaces.
fn rest_of(content: &str) -> String {
    let words: Vec<&str> = content.split_whitespace().skip(1).collect();
    words.join(" ")
}

/// A case that is being read.
struct Reader {
    recorded: RecordedCase,
    tables: usize,
}

impl Reader {
    fn new(name: &str) -> Self {
        Self {
            recorded: RecordedCase {
                case: Case::new(name),
                answers: Vec::new(),
            },
            tables: 0,
        }
    }

    fn read(&mut self, word: &str, line: &mut Line) -> Result<(), ParseError> {
        let case = &mut self.recorded.case;
        match word {
            "image" => case.image = line.bytes()?,
            "site" => case.site = line.bytes()?,
            "limits" => {
                case.limits = Limits {
                    operations: line.number()?,
                    variables: line.number()?,
                    modules: line.number()?,
                }
            }
            "host" => case.host = parse_host(line)?,
            "table" => self.start_table(line)?,
            "path" => self.read_path(line)?,
            "lend" | "put" | "read" | "rewind" | "run" => {
                case.calls.push(parse_call(word, line)?);
            }
            _ => read_host_line(&mut case.host, word, line)?,
        }
        line.end()
    }

    fn start_table(&mut self, line: &Line) -> Result<(), ParseError> {
        self.tables += 1;
        match self.tables {
            1 => Ok(()),
            2 => {
                self.recorded.case.resolver.second = Some(Table::new());
                Ok(())
            }
            _ => Err(line.error("more than two tables")),
        }
    }

    fn read_path(&mut self, line: &mut Line) -> Result<(), ParseError> {
        let path = line.number()?;
        let answer = match line.word()? {
            "module" => Resolved::Module(line.number()?),
            "none" => Resolved::NotFound,
            "fault" => Resolved::Fault(crate::host::Fault::parse(line)?),
            other => return Err(line.error(&format!("no answer of a resolver: {other}"))),
        };
        let resolver = &mut self.recorded.case.resolver;
        let table = resolver.second.as_mut().unwrap_or(&mut resolver.first);
        table.push((path, answer));
        Ok(())
    }
}

fn parse_host(line: &mut Line) -> Result<HostText, ParseError> {
    match line.word()? {
        "site" => Ok(HostText::Site(Vec::new())),
        "list" => Ok(HostText::List(Vec::new())),
        "script" => Ok(HostText::Script(Default::default())),
        other => Err(line.error(&format!("no such host: {other}"))),
    }
}

fn read_host_line(host: &mut HostText, word: &str, line: &mut Line) -> Result<(), ParseError> {
    let known = match (host, word) {
        (HostText::Site(table), "code") => {
            table.push(site::parse_expression(line)?);
            true
        }
        (HostText::List(entries), "entry") => {
            entries.push(list::parse_entry(line)?);
            true
        }
        (HostText::Script(script), _) => script.parse_line(word, line)?,
        _ => false,
    };
    if known {
        Ok(())
    } else {
        Err(line.error(&format!("no such line: {word}")))
    }
}

fn parse_call(word: &str, line: &mut Line) -> Result<Call, ParseError> {
    Ok(match word {
        "lend" => Call::Lend(Lent {
            variables: line.number()?,
            imports: line.number()?,
            working: line.number()?,
        }),
        "put" => {
            let place = Place::site(line.number()?, line.number()?);
            Call::Put(place, Value::parse(line)?)
        }
        "read" => Call::Read(Place::site(line.number()?, line.number()?)),
        "rewind" => Call::Rewind(line.number()?),
        _ => Call::Run {
            exit_is_value: line.flag()?,
        },
    })
}
