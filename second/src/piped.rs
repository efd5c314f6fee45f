//! A program that answers over pipes: answer.c, where the proved library cannot be linked. The form of requests and answers stands there.
//!
//! Requests are written without waiting for answers. A thread reads the answers and holds each to our own.

use crate::compare::{agree, disagreement, Agreed};
use crate::judge::{Counts, Outcome};
use crate::product::{Answer, Call, RawValue, Told};
use crate::records::Refusal;
use crate::sums::Sums;
use std::io::{self, BufReader, BufWriter, Read, Write};
use std::process::{Child, ChildStdin, Command, Stdio};
use std::sync::mpsc::{channel, Receiver, Sender};
use std::sync::Arc;
use std::thread::{spawn, JoinHandle};

const GREETING: [u8; 8] = *b"answers\n";
const ROOM: usize = 1 << 16;

/// What is told of a program that ended.
pub const NO_ANSWER: &str = "no answer, it has ended";

/// A call that was requested, and our own answer.
struct Question {
    file: Arc<[u8]>,
    call: Call,
    ours: Answer,
}

pub struct Pipe {
    child: Child,
    file: Arc<[u8]>,
    // These three are there until the end.
    requests: Option<BufWriter<ChildStdin>>,
    questions: Option<Sender<Question>>,
    compared: Option<JoinHandle<Agreed>>,
}

impl Pipe {
    /// Starts the answering program. It has to greet.
    pub fn start(program: &mut Command) -> io::Result<Pipe> {
        let mut child = program.stdin(Stdio::piped()).stdout(Stdio::piped()).spawn()?;
        let requests = child.stdin.take().expect("standard input is a pipe");
        let mut answers = child.stdout.take().expect("standard output is a pipe");
        if take(&mut answers).ok() != Some(GREETING) {
            return Err(io::Error::other("no greeting came"));
        }
        let (questions, asked) = channel();
        let compared = spawn(move || compare_all(&asked, &mut BufReader::with_capacity(ROOM, answers)));
        Ok(Pipe {
            child,
            file: Arc::new([]),
            requests: Some(BufWriter::with_capacity(ROOM, requests)),
            questions: Some(questions),
            compared: Some(compared),
        })
    }

    /// Hands over the file that the next calls are about.
    pub fn file(&mut self, file: &[u8]) {
        self.file = file.into();
        let mut head = vec![b'F'];
        put_length(&mut head, file.len());
        self.write(&head);
        self.write(file);
    }

    /// Requests a call. If an earlier answer differed, that is told here.
    pub fn ask(&mut self, call: Call, ours: Answer) -> Agreed {
        let mut request = Vec::new();
        put_call(&mut request, &call);
        let question = Question { file: self.file.clone(), call, ours };
        let taken = self.questions.as_ref().is_some_and(|questions| questions.send(question).is_ok());
        if taken && self.write(&request) {
            Ok(())
        } else {
            self.end()
        }
    }

    /// Where a request cannot be written, no answer comes, and the thread tells that.
    fn write(&mut self, bytes: &[u8]) -> bool {
        self.requests.as_mut().is_some_and(|requests| requests.write_all(bytes).is_ok())
    }

    /// Waits for all answers. Nothing can be asked afterwards.
    pub fn end(&mut self) -> Agreed {
        self.requests = None;
        self.questions = None;
        let compared = self.compared.take().expect("the end comes once");
        let agreed = compared.join().expect("the comparing thread returns");
        let _ = self.child.wait();
        agreed
    }
}

/// Reads the answer to each question and compares it.
fn compare_all(questions: &Receiver<Question>, answers: &mut impl Read) -> Agreed {
    for Question { file, call, ours } in questions {
        let Ok(theirs) = take_answer(answers, &call) else {
            let our = format!("{:?}", ours.told);
            return Err(disagreement(&file, &call, &ours, ", or a call soon after it", our, NO_ANSWER.into()));
        };
        agree(&file, &call, &ours, &theirs)?;
    }
    Ok(())
}

// Requests.

fn put_length(request: &mut Vec<u8>, length: usize) {
    request.extend((length as u64).to_le_bytes());
}

/// A lent buffer: how many elements are lent, how many there are, the elements.
fn put_lent<const N: usize>(request: &mut Vec<u8>, lent: usize, elements: impl ExactSizeIterator<Item = [u8; N]>) {
    put_length(request, lent);
    put_length(request, elements.len());
    elements.for_each(|element| request.extend(element));
}

fn put_call(request: &mut Vec<u8>, call: &Call) {
    let buffers = call.buffers();
    let table = buffers.table.iter().map(|word| word.to_le_bytes());
    let measures = buffers.measures.iter().map(|long| long.to_le_bytes());
    let sums = buffers.sums.iter().map(|long| long.to_le_bytes());
    match call {
        Call::Need => request.push(b'N'),
        Call::Judge { words, areas } => {
            request.push(b'J');
            put_lent(request, *words, table);
            put_lent(request, *areas, measures);
        }
        Call::Sums { words, layer } => {
            request.push(b'S');
            request.extend(layer.to_le_bytes());
            put_lent(request, *words, table);
        }
        Call::AllSums { words, room } => {
            request.push(b'A');
            put_lent(request, *words, table);
            put_lent(request, *room, sums);
        }
        Call::Due { record } => {
            request.push(b'D');
            request.extend(record.to_le_bytes());
        }
        Call::Position { mesh, x, y } => {
            request.push(b'P');
            [mesh, x, y].iter().for_each(|number| request.extend(number.to_le_bytes()));
        }
        Call::Read { kind, bytes } => {
            request.push(b'R');
            request.extend(kind.to_le_bytes());
            put_length(request, bytes.len());
            request.extend(bytes);
        }
        Call::Write { value, length } => {
            request.push(b'W');
            request.extend(value.kind.to_le_bytes());
            value.numbers.iter().for_each(|number| request.extend(number.to_le_bytes()));
            request.extend(value.name);
            value.marks.iter().for_each(|mark| request.extend(mark.to_le_bytes()));
            request.extend(value.letters.to_le_bytes());
            put_lent(request, *length, buffers.bytes.iter().map(|byte| [*byte]));
        }
    }
}

// Answers.

fn take<const N: usize>(answers: &mut impl Read) -> io::Result<[u8; N]> {
    let mut bytes = [0; N];
    answers.read_exact(&mut bytes)?;
    Ok(bytes)
}

fn word(answers: &mut impl Read) -> io::Result<u32> {
    take(answers).map(u32::from_le_bytes)
}

fn long(answers: &mut impl Read) -> io::Result<u64> {
    take(answers).map(u64::from_le_bytes)
}

fn take_answer(answers: &mut impl Read, call: &Call) -> io::Result<Answer> {
    let told = take_told(answers, call)?;
    let mut buffers = call.buffers();
    for place in &mut buffers.table {
        *place = word(answers)?;
    }
    for place in buffers.measures.iter_mut().chain(&mut buffers.sums) {
        *place = long(answers)? as i64;
    }
    answers.read_exact(&mut buffers.bytes)?;
    Ok(Answer { told, buffers })
}

fn take_told(answers: &mut impl Read, call: &Call) -> io::Result<Told> {
    Ok(match call {
        Call::Need => Told::Need(long(answers)?),
        Call::Judge { .. } | Call::AllSums { .. } => Told::Outcome(Outcome {
            refusal: refusal(answers)?,
            counts: Counts {
                meshes: word(answers)?,
                layers: word(answers)?,
                nodes: word(answers)?,
                lines: word(answers)?,
                areas: word(answers)?,
                records: word(answers)?,
            },
            need: long(answers)?,
        }),
        Call::Sums { .. } => {
            let refusal = refusal(answers)?;
            Told::Sums(refusal, Sums { areas: long(answers)? as i64, outside: long(answers)? as i64 })
        }
        Call::Due { .. } => Told::Due(word(answers)?),
        Call::Position { .. } => Told::Place(word(answers)?, long(answers)?, long(answers)?),
        Call::Read { .. } => {
            let refusal = refusal(answers)?;
            let mut value =
                RawValue { kind: word(answers)?, numbers: [0; 16], name: [0; 40], marks: [0; 2], letters: 0 };
            for number in &mut value.numbers {
                *number = word(answers)? as i32;
            }
            answers.read_exact(&mut value.name)?;
            for mark in &mut value.marks {
                *mark = word(answers)?;
            }
            value.letters = word(answers)?;
            Told::Reading(refusal, value)
        }
        Call::Write { .. } => Told::Number(word(answers)?),
    })
}

fn refusal(answers: &mut impl Read) -> io::Result<Refusal> {
    Ok(Refusal { number: word(answers)?, record: word(answers)?, column: word(answers)? })
}
