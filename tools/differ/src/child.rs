//! A converter in a process of its own. Requests and answers are byte strings over pipes; a request that takes too much memory or time ends the
//! process, which the next request replaces.
use std::io::{self, Read, Write};
use std::process::{Command, Stdio};

const SECONDS: u32 = 10;

extern "C" {
    fn alarm(seconds: u32) -> u32;
    fn setrlimit(resource: i32, limit: *const [u64; 2]) -> i32;
}

const RLIMIT_CORE: i32 = 4;
const RLIMIT_AS: i32 = 9;

pub struct Child {
    side: &'static str,
    process: Option<std::process::Child>,
}

impl Child {
    /// The process of a side: this program with the side's name as argument.
    pub fn new(side: &'static str) -> Child {
        Child { side, process: None }
    }

    /// The answer; none where the process ended over the request.
    pub fn ask(&mut self, request: &[u8]) -> Option<Vec<u8>> {
        let side = self.side;
        let process = self.process.get_or_insert_with(|| spawn(side));
        let sent = send(process.stdin.as_mut().unwrap(), request);
        let answer = sent.and_then(|()| receive(process.stdout.as_mut().unwrap()));
        if answer.is_err() {
            self.process.take().unwrap().wait().unwrap();
        }
        answer.ok()
    }
}

fn spawn(side: &str) -> std::process::Child {
    let program = std::env::current_exe().unwrap();
    let mut command = Command::new(program);
    command.arg(side).stdin(Stdio::piped()).stdout(Stdio::piped()).stderr(Stdio::null());
    command.spawn().unwrap()
}

/// Answers requests from standard input until it ends, each within the time limit.
pub fn serve(memory: u64, mut answer: impl FnMut(&[u8]) -> Vec<u8>) -> io::Result<()> {
    std::panic::set_hook(Box::new(|_| {}));
    // Safety: both calls only read the two words.
    unsafe {
        setrlimit(RLIMIT_CORE, &[0, 0]);
        setrlimit(RLIMIT_AS, &[memory, memory]);
    }
    let (mut from, mut to) = (io::stdin().lock(), io::stdout().lock());
    while let Ok(request) = receive(&mut from) {
        unsafe { alarm(SECONDS) };
        let answer = answer(&request);
        unsafe { alarm(0) };
        send(&mut to, &answer)?;
    }
    Ok(())
}

fn send(to: &mut impl Write, message: &[u8]) -> io::Result<()> {
    to.write_all(&(message.len() as u64).to_le_bytes())?;
    to.write_all(message)?;
    to.flush()
}

fn receive(from: &mut impl Read) -> io::Result<Vec<u8>> {
    let mut n = [0; 8];
    from.read_exact(&mut n)?;
    let mut message = vec![0; u64::from_le_bytes(n) as usize];
    from.read_exact(&mut message)?;
    Ok(message)
}

/// A message's parts: words, and byte strings after their length.
#[derive(Default)]
pub struct Pack(pub Vec<u8>);

impl Pack {
    pub fn word(&mut self, x: u64) {
        self.0.extend_from_slice(&x.to_le_bytes());
    }

    pub fn words(&mut self, all: &[u64]) {
        all.iter().for_each(|x| self.word(*x));
    }

    pub fn bytes(&mut self, b: &[u8]) {
        self.word(b.len() as u64);
        self.0.extend_from_slice(b);
    }
}

pub struct Unpack<'a>(pub &'a [u8]);

impl<'a> Unpack<'a> {
    pub fn word(&mut self) -> u64 {
        u64::from_le_bytes(self.take(8).try_into().unwrap())
    }

    pub fn words<const N: usize>(&mut self) -> [u64; N] {
        std::array::from_fn(|_| self.word())
    }

    pub fn bytes(&mut self) -> &'a [u8] {
        let n = self.word() as usize;
        self.take(n)
    }

    fn take(&mut self, n: usize) -> &'a [u8] {
        let (taken, rest) = self.0.split_at(n);
        self.0 = rest;
        taken
    }
}
