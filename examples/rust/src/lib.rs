//! Your own broker on the simulated kernel, which the program `seccomp-broker step POLICY SCRIPT` runs (docs/YOUR_BROKER.md).
//!
//! ```no_run
//! # fn main() -> std::io::Result<()> {
//! use seccomp_step::{Kernel, Response};
//!
//! let mut kernel = Kernel::open("policy.json", "script.txt")?;
//! kernel.run("0")?;
//! let notif = kernel.seat(0).recv()?;
//! kernel.seat(0).send(&Response { id: notif.id, error: -1, ..Response::default() })?;
//! # Ok(())
//! # }
//! ```
//!
//! A call that the kernel refuses gives an [`io::Error`] with the error of its manual page, as `raw_os_error` tells it; [`errno`] has the numbers.
//! [`io::ErrorKind::WouldBlock`] says that the real call would wait: nothing has happened; let tasks step, and ask again. Besides those that a call
//! names, each call may give `ECHRNG` (there are 16 seats), `ESHUTDOWN` (the listener is closed), `EMSGSIZE` (the texts of the call are too long), `EPIPE`
//! (the program has ended) and `EPROTO` (its answer can't be understood). [`Kernel::answer`] is what the program said.
//!
//! Where the variable `SECCOMP_BROKER_KERNEL` names a Unix socket, [`Kernel::open`] connects there and starts no program: another one holds the kernel and
//! steps the tasks, as `explore-broker` does. Then a call that would wait waits. Where `SECCOMP_BROKER_SESSION` names a file, requests and answers
//! are written there, for `reference-judge`.
use std::env;
use std::ffi::{OsStr, OsString};
use std::fmt::Write as _;
use std::fs::File;
use std::io::{self, BufRead, BufReader, Read, Write};
use std::os::unix::net::UnixStream;
use std::os::unix::process::ExitStatusExt;
use std::process::{Child, Command, ExitStatus, Stdio};

/// The errors that calls give, on Linux on x86-64.
pub mod errno {
    pub const EPERM: i32 = 1;
    pub const ENOENT: i32 = 2;
    pub const ESRCH: i32 = 3;
    pub const EINTR: i32 = 4;
    pub const E2BIG: i32 = 7;
    pub const EBADF: i32 = 9;
    pub const ECHILD: i32 = 10;
    pub const EAGAIN: i32 = 11;
    pub const EACCES: i32 = 13;
    pub const EFAULT: i32 = 14;
    pub const EBUSY: i32 = 16;
    pub const EEXIST: i32 = 17;
    pub const ENODEV: i32 = 19;
    pub const ENOTDIR: i32 = 20;
    pub const EINVAL: i32 = 22;
    pub const EMFILE: i32 = 24;
    pub const EFBIG: i32 = 27;
    pub const EPIPE: i32 = 32;
    pub const ERANGE: i32 = 34;
    pub const ENAMETOOLONG: i32 = 36;
    pub const ENOSYS: i32 = 38;
    pub const ELOOP: i32 = 40;
    pub const ENOMSG: i32 = 42;
    pub const ECHRNG: i32 = 44;
    pub const ENODATA: i32 = 61;
    pub const EPROTO: i32 = 71;
    pub const EMSGSIZE: i32 = 90;
    pub const ESHUTDOWN: i32 = 108;
    pub const EALREADY: i32 = 114;
    pub const EINPROGRESS: i32 = 115;
    pub const EDQUOT: i32 = 122;
}
use errno::*;

/// `SECCOMP_USER_NOTIF_FLAG_CONTINUE`: the kernel runs the call, without the broker's rights.
pub const CONTINUE: u32 = 1;
/// `SECCOMP_ADDFD_FLAG_SETFD`: the descriptor gets the number that is asked for.
pub const ADDFD_SETFD: u32 = 1;
/// `SECCOMP_ADDFD_FLAG_SEND`: its number is the call's answer.
pub const ADDFD_SEND: u32 = 2;
/// The caller's working directory, in the place of a directory's descriptor.
pub const AT_FDCWD: i32 = -100;
/// How many bytes are read at once.
pub const MOST_READ: usize = 4096;

const ERRORS: [(&str, i32); 23] = [
    ("EPERM", EPERM),
    ("ENOENT", ENOENT),
    ("ESRCH", ESRCH),
    ("EINTR", EINTR),
    ("E2BIG", E2BIG),
    ("EBADF", EBADF),
    ("ECHILD", ECHILD),
    ("EAGAIN", EAGAIN),
    ("EACCES", EACCES),
    ("EFAULT", EFAULT),
    ("EBUSY", EBUSY),
    ("EEXIST", EEXIST),
    ("ENODEV", ENODEV),
    ("ENOTDIR", ENOTDIR),
    ("EINVAL", EINVAL),
    ("EMFILE", EMFILE),
    ("ERANGE", ERANGE),
    ("ENAMETOOLONG", ENAMETOOLONG),
    ("ENOSYS", ENOSYS),
    ("ELOOP", ELOOP),
    ("ENODATA", ENODATA),
    ("EINPROGRESS", EINPROGRESS),
    ("EDQUOT", EDQUOT),
];

const REFUSALS: [(&str, i32); 8] = [
    ("no task", ESRCH),
    ("worker", ECHRNG),
    ("no memory is open", EBADF),
    ("request is put", EALREADY),
    ("no request", ENOMSG),
    ("closed", ESHUTDOWN),
    ("long line", EMSGSIZE),
    ("full", EFBIG),
];

/// A notification (`struct seccomp_notif`).
#[derive(Clone, Copy, Debug, Default, PartialEq, Eq)]
pub struct Notif {
    pub id: u64,
    pub pid: u32,
    pub flags: u32,
    pub nr: i32,
    pub arch: u32,
    pub ip: u64,
    pub args: [u64; 6],
}

/// The answer to one (`struct seccomp_notif_resp`). `error` is 0 or a negated error number.
#[derive(Clone, Copy, Debug, Default)]
pub struct Response {
    pub id: u64,
    pub val: i64,
    pub error: i32,
    pub flags: u32,
}

/// A request for a descriptor (`struct seccomp_notif_addfd`).
#[derive(Clone, Copy, Debug, Default)]
pub struct Addfd {
    pub id: u64,
    pub flags: u32,
    pub srcfd: u32,
    pub newfd: u32,
    pub newfd_flags: u32,
}

/// The operands of mount(2), the program that makes the mount, if that isn't empty, and if ids are shifted.
#[derive(Clone, Copy, Debug, Default)]
pub struct Mount<'a> {
    pub source: &'a [u8],
    pub target: &'a [u8],
    pub fstype: &'a [u8],
    pub flags: u64,
    pub data: &'a [u8],
    pub via: &'a [u8],
    pub shift: bool,
}

/// How a task is, by the words of `/proc/PID/status`.
#[derive(Clone, Copy, Debug, PartialEq, Eq)]
pub enum TaskState {
    Running,
    Sleeping,
    /// It waits in a call that was received, and only a fatal signal ends that.
    DiskSleep,
    Zombie,
}

/// A task as a look sees it: its name, the PID of its parent while that lives, else 0, and how it is.
#[derive(Clone, Debug, PartialEq, Eq)]
pub struct Task {
    pub name: String,
    pub ppid: u32,
    pub state: TaskState,
}

/// The kind of a node (inode(7)), with the numbers of a device or the target of a link.
#[derive(Clone, Debug, PartialEq, Eq)]
pub enum Kind {
    Directory,
    Regular,
    Link(Vec<u8>),
    Fifo,
    Socket,
    Character(u32, u32),
    Block(u32, u32),
}

/// A node of the container's tree. No other node gets its ordinal.
#[derive(Clone, Debug, PartialEq, Eq)]
pub struct Node {
    pub ordinal: u32,
    pub kind: Kind,
}

/// What an open descriptor leads to.
#[derive(Clone, Debug, PartialEq, Eq)]
pub enum Object {
    Console,
    /// A file of the broker's, by its number there.
    File(u32),
    Node(Node),
}

/// Which calls of poll(2) the listener is ready for: a call waits to be received (`POLLIN`), one was received and waits for its answer (`POLLOUT`).
#[derive(Clone, Copy, Debug, PartialEq, Eq)]
pub struct Readiness {
    pub input: bool,
    pub output: bool,
}

/// The bytes of a text as reports write it.
fn unquoted(text: &str) -> Option<Vec<u8>> {
    let mut rest = text.strip_prefix('"')?.strip_suffix('"')?.bytes();
    let mut found = Vec::new();
    while let Some(byte) = rest.next() {
        let escaped = if byte == b'\\' { rest.next()? } else { byte };
        if byte == b'\\' && escaped == b'x' {
            let digits = [rest.next()?, rest.next()?];
            found.push(u8::from_str_radix(std::str::from_utf8(&digits).ok()?, 16).ok()?);
        } else {
            found.push(escaped);
        }
    }
    Some(found)
}

fn kind_of(word: &str, rest: &str) -> Option<Kind> {
    let device = || rest.split_once(':').and_then(|(major, minor)| Some((major.parse().ok()?, minor.parse().ok()?)));
    Some(match word {
        "dir" => Kind::Directory,
        "reg" => Kind::Regular,
        "link" => Kind::Link(unquoted(rest)?),
        "fifo" => Kind::Fifo,
        "sock" => Kind::Socket,
        "chr" => device().map(|(major, minor)| Kind::Character(major, minor))?,
        "blk" => device().map(|(major, minor)| Kind::Block(major, minor))?,
        _ => return None,
    })
}

/// The node that follows `look node ` in an answer.
fn node_of(told: &str) -> Option<Node> {
    let (ordinal, kind) = told.split_once(' ')?;
    let (word, rest) = kind.split_once(' ').unwrap_or((kind, ""));
    Some(Node { ordinal: ordinal.parse().ok()?, kind: kind_of(word, rest)? })
}

fn task_of(told: &str) -> Option<Task> {
    let words: Vec<&str> = told.split(' ').collect();
    let &["look", "task", name, "ppid", ppid, "state", state] = words.as_slice() else {
        return None;
    };
    let state = match state {
        "running" => TaskState::Running,
        "sleeping" => TaskState::Sleeping,
        "disk-sleep" => TaskState::DiskSleep,
        "zombie" => TaskState::Zombie,
        _ => return None,
    };
    Some(Task { name: name.to_owned(), ppid: ppid.parse().ok()?, state })
}

fn object_of(told: &str) -> Option<Object> {
    match told.strip_prefix("look ")?.split_once(' ') {
        None if told == "look console" => Some(Object::Console),
        Some(("file", number)) => Some(Object::File(number.parse().ok()?)),
        Some(("node", node)) => Some(Object::Node(node_of(node)?)),
        _ => None,
    }
}

fn failed<T>(errno: i32) -> io::Result<T> {
    Err(io::Error::from_raw_os_error(errno))
}

/// The number of an error by its name, as `ENOENT` or `E999`.
fn error_named(word: &str) -> Option<i32> {
    let named = ERRORS.iter().find(|(name, _)| *name == word);
    named.map(|(_, number)| *number).or_else(|| word.strip_prefix('E')?.parse().ok())
}

fn last_word(answer: &str) -> &str {
    answer.rsplit(' ').next().unwrap_or(answer)
}

/// A text as scripts write it.
fn quoted(text: &[u8]) -> Vec<u8> {
    let mut found = vec![b'"'];
    for &byte in text {
        match byte {
            b'"' | b'\\' => found.extend([b'\\', byte]),
            0..=0x1f => found.extend(format!("\\x{byte:02x}").bytes()),
            _ => found.push(byte),
        }
    }
    found.push(b'"');
    found
}

fn hex(bytes: &[u8]) -> String {
    bytes.iter().fold(String::new(), |mut found, byte| {
        let _ = write!(found, "{byte:02x}");
        found
    })
}

fn from_hex(digits: &str) -> Option<Vec<u8>> {
    if digits == "-" {
        return Some(Vec::new());
    }
    if digits.len() % 2 != 0 || !digits.is_ascii() {
        return None;
    }
    (0..digits.len() / 2).map(|at| u8::from_str_radix(&digits[2 * at..2 * at + 2], 16).ok()).collect()
}

/// A variable of the environment, if it is set and isn't empty.
fn variable(name: &str) -> Option<OsString> {
    env::var_os(name).filter(|value| !value.is_empty())
}

/// A simulated kernel with a container, and the program that runs it; none if a socket leads to it.
pub struct Kernel {
    program: Option<Child>,
    input: Option<Box<dyn Write>>,
    output: BufReader<Box<dyn Read>>,
    session: Option<File>,
    answer: String,
}

impl Kernel {
    /// Starts the program that `SECCOMP_BROKER` names, or else `seccomp-broker`. `EINVAL`: it refuses the policy or the script, and has said why on
    /// standard error. With `SECCOMP_BROKER_KERNEL` both may be empty.
    pub fn open(policy: impl AsRef<OsStr>, script: impl AsRef<OsStr>) -> io::Result<Kernel> {
        if let Some(path) = variable("SECCOMP_BROKER_KERNEL") {
            let connection = UnixStream::connect(path)?;
            return Kernel::opened(None, Box::new(connection.try_clone()?), Box::new(connection));
        }
        Kernel::open_program(variable("SECCOMP_BROKER").unwrap_or_else(|| "seccomp-broker".into()), policy, script)
    }

    /// The same with a program that is named here.
    pub fn open_program(program: impl AsRef<OsStr>, policy: impl AsRef<OsStr>, script: impl AsRef<OsStr>) -> io::Result<Kernel> {
        let mut command = Command::new(program);
        command.arg("step").arg(policy).arg(script).stdin(Stdio::piped()).stdout(Stdio::piped());
        let mut program = command.spawn()?;
        let (Some(input), Some(output)) = (program.stdin.take(), program.stdout.take()) else {
            return failed(EPIPE);
        };
        Kernel::opened(Some(program), Box::new(input), Box::new(output))
    }

    /// A kernel that has answered.
    fn opened(program: Option<Child>, input: Box<dyn Write>, output: Box<dyn Read>) -> io::Result<Kernel> {
        let session = variable("SECCOMP_BROKER_SESSION").map(File::create).transpose()?;
        let mut kernel = Kernel { program, input: Some(input), output: BufReader::new(output), session, answer: String::new() };
        // The first answer shows that policy and script were taken.
        match kernel.able() {
            Ok(_) => Ok(kernel),
            Err(error) if error.raw_os_error() == Some(EPIPE) => failed(EINVAL),
            Err(error) => Err(error),
        }
    }

    /// Closes the program's input, which closes the listener, and waits for it. A kernel that is dropped does the same.
    pub fn close(mut self) -> io::Result<ExitStatus> {
        self.end()
    }

    fn end(&mut self) -> io::Result<ExitStatus> {
        self.input = None;
        let Some(program) = self.program.as_mut() else {
            return Ok(ExitStatus::from_raw(0));
        };
        // What is left of an answer is read, so that the program's write doesn't fail.
        io::copy(&mut self.output, &mut io::sink())?;
        program.wait()
    }

    /// The program's answer to the newest request: the journal's line of the event, `skip`, or why it was refused.
    pub fn answer(&self) -> &str {
        &self.answer
    }

    /// Sends a request, and reads its answer.
    fn ask(&mut self, request: &[u8]) -> io::Result<&str> {
        let Some(input) = self.input.as_mut() else {
            return failed(ESHUTDOWN);
        };
        input.write_all(request)?;
        input.write_all(b"\n")?;
        input.flush()?;
        let mut line = Vec::new();
        self.output.read_until(b'\n', &mut line)?;
        if line.pop() != Some(b'\n') {
            return failed(EPIPE);
        }
        self.answer = String::from_utf8_lossy(&line).into_owned();
        if let Some(session) = self.session.as_mut() {
            session.write_all(&[b"> ", request, b"\n< ", &line[..], b"\n"].concat())?;
        }
        match self.answer.split_once(' ').unwrap_or((&self.answer, "")) {
            ("skip", _) => failed(EAGAIN),
            ("error", name) => failed(error_named(name).unwrap_or(EPROTO)),
            ("refused", reason) => failed(REFUSALS.iter().find(|(text, _)| *text == reason).map_or(EPROTO, |(_, number)| *number)),
            _ => Ok(&self.answer),
        }
    }

    /// The last word of the answer to a request, unless that is an error.
    fn result(&mut self, request: &[u8]) -> io::Result<&str> {
        let word = last_word(self.ask(request)?);
        error_named(word).map_or(Ok(word), failed)
    }

    /// The names of the tasks that can step, and whether a receive wouldn't wait: a notification is there, or the call
    /// that there was is gone.
    pub fn able(&mut self) -> io::Result<(Vec<String>, bool)> {
        let mut words: Vec<String> = self.ask(b"able")?.split(' ').map(str::to_owned).collect();
        if words.remove(0) != "able" {
            return failed(EPROTO);
        }
        let notified = words.last().is_some_and(|word| word == "recv");
        words.truncate(words.len() - usize::from(notified));
        Ok((words, notified))
    }

    /// Lets a task make its next step, and gives the journal's line of it. `EAGAIN`: it has none to make. `ESRCH`: no such task was made.
    pub fn step(&mut self, task: &str) -> io::Result<String> {
        if task.is_empty() || !task.bytes().all(|byte| byte.is_ascii_digit() || byte == b'.') {
            return failed(ESRCH);
        }
        match self.ask(format!("t {task}").as_bytes()).map(str::to_owned) {
            Err(_) if self.answer.starts_with("refused line") => failed(ESRCH),
            step => step,
        }
    }

    /// Lets a task step until it waits or has ended.
    pub fn run(&mut self, task: &str) -> io::Result<()> {
        loop {
            match self.step(task) {
                Err(error) if error.kind() == io::ErrorKind::WouldBlock => return Ok(()),
                step => step?,
            };
        }
    }

    /// The report so far, as `seccomp-broker play` prints it.
    pub fn report(&mut self) -> io::Result<String> {
        String::from_utf8(self.text("report", "report ")?).or_else(|_| failed(EPROTO))
    }

    /// The script of what has happened so far, as the bytes of a file: the lines of the script before its schedule, and a schedule with each step of a task and
    /// each request of a worker. `seccomp-broker play` plays it, and prints the text of [`Kernel::report`] after [`Kernel::close_listener`]. `EFBIG`: it would
    /// have more steps or bytes than a script may have.
    pub fn script(&mut self) -> io::Result<Vec<u8>> {
        self.text("script", "script ")
    }

    /// What a judge finds of the broker, by what has happened so far: `mediated events=N calls=N effects=N answers=N`, or of the first event that breaks a clause
    /// `broken PLACE CLASS CLAUSE`.
    pub fn judge(&mut self) -> io::Result<String> {
        self.judged("judge")
    }

    /// The same of a broker that does nothing more by itself: a call that it has received and that waits isn't answered, which is found at the newest event while
    /// the listener is open.
    pub fn judge_idle(&mut self) -> io::Result<String> {
        self.judged("judge idle")
    }

    /// The line that a request for a judgement asks for.
    fn judged(&mut self, request: &str) -> io::Result<String> {
        let line = String::from_utf8(self.text(request, "judge ")?).or_else(|_| failed(EPROTO))?;
        Ok(line.trim_end().to_owned())
    }

    /// The bytes of a text that a request asks for, whose length follows its word and a blank.
    fn text(&mut self, request: &str, word: &str) -> io::Result<Vec<u8>> {
        let Some(length) = self.ask(request.as_bytes())?.strip_prefix(word).and_then(|count| count.parse().ok()) else {
            return failed(EPROTO);
        };
        let mut text = vec![0; length];
        self.output.read_exact(&mut text)?;
        Ok(text)
    }

    /// What a look sees, by the answer to it. A look is no event: nothing happens by it.
    fn look<T>(&mut self, request: &[u8], seen: impl Fn(&str) -> Option<T>) -> io::Result<T> {
        let told = self.ask(request)?;
        match told.strip_prefix("look error ") {
            Some(name) => failed(error_named(name).unwrap_or(EPROTO)),
            None => seen(told).map_or_else(|| failed(EPROTO), Ok),
        }
    }

    /// The task that holds a PID, if one does.
    pub fn look_pid(&mut self, pid: u32) -> io::Result<Option<Task>> {
        self.look(format!("look pid {pid}").as_bytes(), |told| if told == "look none" { Some(None) } else { task_of(told).map(Some) })
    }

    /// What a descriptor of the task that holds a PID leads to: `None` if it isn't open, nobody holds the PID, or the task has ended.
    pub fn look_fd(&mut self, pid: u32, number: u32) -> io::Result<Option<Object>> {
        self.look(format!("look fd {pid} {number}").as_bytes(), |told| if told == "look none" { Some(None) } else { object_of(told).map(Some) })
    }

    /// Where a path leads that the task which holds a PID would walk; a link at its end is followed, or is itself the node. `ESRCH`, `EBADF`, `ENOENT`,
    /// `ENOTDIR`, `ELOOP`, `ENAMETOOLONG`.
    pub fn look_path(&mut self, pid: u32, dirfd: i32, path: &[u8], follows: bool) -> io::Result<Node> {
        let how: &[u8] = if follows { b"follow" } else { b"nofollow" };
        let request = [format!("look path {pid} {dirfd} ").as_bytes(), &quoted(path), b" ", how].concat();
        self.look(&request, |told| node_of(told.strip_prefix("look node ")?))
    }

    /// What poll(2) of the listener gives.
    pub fn look_listener(&mut self) -> io::Result<Readiness> {
        self.look(b"look listener", |told| {
            let (input, output) = told.strip_prefix("look in=")?.split_once(" out=")?;
            Some(Readiness { input: input == "1", output: output == "1" })
        })
    }

    /// Closes the listener, as the end of the broker does. Behind it only a report, a script, a judgement and the close of the kernel do something.
    pub fn close_listener(&mut self) -> io::Result<()> {
        self.ask(b"close").map(drop)
    }

    /// The seat with a number from 0 to 15.
    pub fn seat(&mut self, worker: u32) -> Seat<'_> {
        Seat { kernel: self, worker }
    }
}

impl Drop for Kernel {
    fn drop(&mut self) {
        // (a kernel that was closed has been waited for, and is so again at once)
        let _ = self.end();
    }
}

/// A place for one notification, from [`Seat::recv`] to [`Seat::let_go`], with the memory and the directory that are opened for it. A seat is
/// asked for again at each call; what it holds is the kernel's.
pub struct Seat<'k> {
    kernel: &'k mut Kernel,
    worker: u32,
}

impl Seat<'_> {
    fn request(&self, words: &[&[u8]]) -> Vec<u8> {
        let mut request = format!("w {}", self.worker).into_bytes();
        for word in words {
            request.push(b' ');
            request.extend_from_slice(word);
        }
        request
    }

    fn result(&mut self, words: &[&[u8]]) -> io::Result<&str> {
        let request = self.request(words);
        self.kernel.result(&request)
    }

    fn act(&mut self, words: &[&[u8]]) -> io::Result<()> {
        self.result(words).map(drop)
    }

    // ---- the listener (seccomp_unotify(2))

    /// `SECCOMP_IOCTL_NOTIF_RECV`: the oldest notification. `EAGAIN`: none is there. `ENOENT`: its call has gone.
    pub fn recv(&mut self) -> io::Result<Notif> {
        self.result(&[b"recv"])?;
        read_notif(&self.kernel.answer).map_or_else(|| failed(EPROTO), Ok)
    }

    /// `SECCOMP_IOCTL_NOTIF_ID_VALID`: whether the call still waits for an answer. `ENOENT`: it doesn't.
    pub fn id_valid(&mut self, id: u64) -> io::Result<()> {
        self.act(&[b"check", id.to_string().as_bytes()])
    }

    /// `SECCOMP_IOCTL_NOTIF_SEND`: `EINVAL`, `ENOENT`, `EINPROGRESS`.
    pub fn send(&mut self, response: &Response) -> io::Result<()> {
        let Response { id, val, error, flags } = *response;
        let fields = [&id.to_le_bytes()[..], &val.to_le_bytes(), &error.to_le_bytes(), &flags.to_le_bytes()];
        self.act(&[b"send-raw", hex(&fields.concat()).as_bytes()])
    }

    /// `SECCOMP_IOCTL_NOTIF_ADDFD`, its first half: a step of the caller installs the descriptor. `EINVAL`, `EBADF`, `ENOENT`, `EINPROGRESS`,
    /// `EBUSY`, and `EALREADY` if the last result wasn't taken.
    pub fn addfd(&mut self, asked: &Addfd) -> io::Result<()> {
        let Addfd { id, flags, srcfd, newfd, newfd_flags } = *asked;
        let fields = [&id.to_le_bytes()[..], &flags.to_le_bytes(), &srcfd.to_le_bytes(), &newfd.to_le_bytes(), &newfd_flags.to_le_bytes()];
        self.act(&[b"addfd-raw", hex(&fields.concat()).as_bytes()])
    }

    /// The number that it got: `EAGAIN` if it isn't installed yet, `EBADF`, `EMFILE`, `ENOENT`, `ENOMSG`.
    pub fn addfd_result(&mut self) -> io::Result<u32> {
        self.result(&[b"addfd-result"])?.parse().or_else(|_| failed(EPROTO))
    }

    /// Lets go of the notification, and closes what was opened for it.
    pub fn let_go(&mut self) -> io::Result<()> {
        let request = self.request(&[b"let-go"]);
        self.kernel.ask(&request).map(drop)
    }

    // ---- the caller's memory (proc(5))

    /// Opens the memory of the task that has this PID by now, instead of one that is open: `ESRCH`.
    pub fn open_mem(&mut self, pid: u32) -> io::Result<()> {
        self.act(&[b"open-mem", pid.to_string().as_bytes()])
    }

    /// At most [`MOST_READ`] bytes of the memory that is open, and as many as are mapped. `EFAULT`: none is.
    pub fn pread(&mut self, count: usize, address: u64) -> io::Result<Vec<u8>> {
        let word = self.result(&[b"read", address.to_string().as_bytes(), count.min(MOST_READ).to_string().as_bytes()])?;
        word.strip_prefix("bytes=").and_then(from_hex).map_or_else(|| failed(EPROTO), Ok)
    }

    /// Writes a `struct sysinfo`: `EFAULT` if not all of its place is mapped, `EBADF` if no memory is open.
    pub fn write_sysinfo(&mut self, address: u64, info: &[u8; 112]) -> io::Result<()> {
        self.act(&[b"plant", address.to_string().as_bytes(), hex(info).as_bytes()])
    }

    // ---- what the broker does with its rights

    /// Opens the directory from which relative paths go: `ESRCH`, `EBADF`.
    pub fn open_dir(&mut self, pid: u32, dirfd: i32) -> io::Result<()> {
        self.act(&[b"open-base", pid.to_string().as_bytes(), dirfd.to_string().as_bytes()])
    }

    /// mknodat(2). `dirfd` is the caller's number, for the report's sake: the directory is that of [`Seat::open_dir`].
    pub fn mknodat(&mut self, dirfd: i32, path: &[u8], mode: u32, device: u64) -> io::Result<()> {
        let maker = if dirfd == AT_FDCWD { "mknod".to_owned() } else { format!("mknodat {dirfd}") };
        self.act(&[b"act", maker.as_bytes(), &quoted(path), mode.to_string().as_bytes(), device.to_string().as_bytes()])
    }

    /// mount(2).
    pub fn mount(&mut self, mount: &Mount) -> io::Result<()> {
        let texts = [quoted(mount.source), quoted(mount.target), quoted(mount.fstype), quoted(mount.data), quoted(mount.via)];
        let [source, target, fstype, data, via] = texts.each_ref().map(Vec::as_slice);
        let flags = mount.flags.to_string();
        let mut words: Vec<&[u8]> = vec![b"act", b"mount", source, target, fstype, flags.as_bytes(), data];
        if !mount.via.is_empty() {
            words.extend([&b"via"[..], via]);
        }
        if mount.shift {
            words.push(b"shift");
        }
        self.act(&words)
    }

    /// setxattr(2).
    pub fn setxattr(&mut self, path: &[u8], name: &[u8], value: &[u8], flags: u32) -> io::Result<()> {
        self.act(&[b"act", b"setxattr", &quoted(path), &quoted(name), &quoted(value), flags.to_string().as_bytes()])
    }
}

/// The notification that an answer tells of.
fn read_notif(answer: &str) -> Option<Notif> {
    let field = |name: &str| answer.split(' ').find_map(|word| word.strip_prefix(name)?.strip_prefix('='));
    let args: Vec<u64> = field("args")?.split(',').map(str::parse).collect::<Result<_, _>>().ok()?;
    Some(Notif {
        id: field("id")?.parse().ok()?,
        pid: field("pid")?.parse().ok()?,
        flags: field("flags")?.parse().ok()?,
        nr: field("nr")?.parse().ok()?,
        arch: field("arch")?.parse().ok()?,
        ip: field("ip")?.parse().ok()?,
        args: args.try_into().ok()?,
    })
}
