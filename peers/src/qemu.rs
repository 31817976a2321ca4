//! QEMU's GICv3 as a peer. QEMU runs without a guest and without starting its
//! core. Accesses and lines go through qtest on standard input and output, the
//! reset and the question where the GIC is through QMP on a socket.

use std::{
    env, fs,
    io::{self, BufRead, BufReader, Write},
    os::unix::net::{UnixListener, UnixStream},
    path::PathBuf,
    process::{self, Child, ChildStdin, ChildStdout, Command, Stdio},
    thread,
    time::Duration,
};

use oracle::calls::{Call, Op};

use crate::peer::Peer;

const PROGRAM: &str = "qemu-system-aarch64";
/// Where the machine `virt` has its Distributor.
const BASE: u64 = 0x0800_0000;

pub struct Qemu {
    child: Child,
    requests: ChildStdin,
    replies: BufReader<ChildStdout>,
    monitor: BufReader<UnixStream>,
    /// The GIC's name among QEMU's objects.
    gic: String,
}

impl Qemu {
    pub fn start() -> io::Result<Self> {
        let socket = Socket::new()?;
        let mut child = Command::new(PROGRAM)
            .args(["-M", "virt,gic-version=3", "-accel", "tcg", "-S"])
            .args(["-nodefaults", "-display", "none"])
            .args(["-qtest", "stdio", "-qtest-log", "/dev/null", "-qmp"])
            .arg(format!("unix:{}", socket.path.display()))
            .stdin(Stdio::piped())
            .stdout(Stdio::piped())
            .stderr(Stdio::null())
            .spawn()?;
        let requests = child.stdin.take().unwrap();
        let replies = BufReader::new(child.stdout.take().unwrap());
        let monitor = socket.accept(&mut child)?;
        let mut qemu = Self {
            child,
            requests,
            replies,
            monitor: BufReader::new(monitor),
            gic: String::new(),
        };
        qemu.monitor(r#"{"execute":"qmp_capabilities"}"#, r#""return""#);
        qemu.gic = qemu.find_gic();
        Ok(qemu)
    }

    /// The version, as in `7.2.22`.
    pub fn version() -> io::Result<String> {
        let output = Command::new(PROGRAM).arg("--version").output()?;
        let text = String::from_utf8_lossy(&output.stdout);
        let words = text
            .split_whitespace()
            .skip_while(|&word| word != "version");
        Ok(words.skip(1).take(1).collect())
    }

    /// Sends a request and reads up to the line that has `awaited`.
    fn monitor(&mut self, request: &str, awaited: &str) -> String {
        writeln!(self.monitor.get_mut(), "{request}").expect("QEMU listens");
        loop {
            let line = next_line(&mut self.monitor);
            if line.contains(awaited) {
                return line;
            }
        }
    }

    fn find_gic(&mut self) -> String {
        let parent = "/machine/unattached";
        let ask = format!(r#"{{"execute":"qom-list","arguments":{{"path":"{parent}"}}}}"#);
        let children = self.monitor(&ask, r#""return""#);
        let gic = children
            .split('{')
            .find(|child| child.contains(r#""child<arm-gicv3>""#))
            .expect("the machine has a GIC");
        let (_, name) = gic.split_once(r#""name": ""#).expect("it has a name");
        let (name, _) = name.split_once('"').expect("a name ends");
        format!("{parent}/{name}")
    }

    fn request(&self, call: &Call) -> String {
        let [a, b, c, _] = call.args;
        match call.op {
            Op::Read => format!("read{} {:#x}\n", letter(b), BASE + a),
            Op::Write => {
                let value = c & u64::MAX >> (64 - 8 * b);
                format!("write{} {:#x} {value:#x}\n", letter(b), BASE + a)
            }
            Op::SetLevel => {
                let number = a - 32;
                format!("set_irq_in {} unnamed-gpio-in {number} {b}\n", self.gic)
            }
            op => panic!("a peer has no {op:?}"),
        }
    }
}

impl Peer for Qemu {
    fn reset(&mut self) {
        self.monitor(r#"{"execute":"system_reset"}"#, r#""RESET""#);
    }

    fn run(&mut self, calls: &[Call]) -> Vec<u64> {
        let mut values = Vec::new();
        // Few enough at a time that neither side waits for the other to read.
        for some in calls.chunks(500) {
            let requests: String = some.iter().map(|call| self.request(call)).collect();
            let sent = self.requests.write_all(requests.as_bytes());
            sent.and_then(|()| self.requests.flush())
                .expect("QEMU listens");
            for call in some {
                let reply = next_line(&mut self.replies);
                let rest = reply.trim_end().strip_prefix("OK");
                let rest = rest.unwrap_or_else(|| panic!("QEMU answers {reply:?} to {call:?}"));
                if let Some(digits) = rest.strip_prefix(" 0x") {
                    values.push(u64::from_str_radix(digits, 16).expect("a value"));
                }
            }
        }
        values
    }
}

impl Drop for Qemu {
    fn drop(&mut self) {
        let _ = self.child.kill();
        let _ = self.child.wait();
    }
}

/// A socket in a folder of its own, which goes when QEMU has come.
struct Socket {
    folder: PathBuf,
    path: PathBuf,
    listener: UnixListener,
}

impl Socket {
    fn new() -> io::Result<Self> {
        let folder = env::temp_dir().join(format!("peers-{}", process::id()));
        fs::create_dir(&folder)?;
        let path = folder.join("qmp");
        let listener = UnixListener::bind(&path)?;
        listener.set_nonblocking(true)?;
        Ok(Self {
            folder,
            path,
            listener,
        })
    }

    /// Waits for QEMU to come, or to end.
    fn accept(&self, child: &mut Child) -> io::Result<UnixStream> {
        loop {
            match self.listener.accept() {
                Ok((stream, _)) => {
                    stream.set_nonblocking(false)?;
                    return Ok(stream);
                }
                Err(error) if error.kind() != io::ErrorKind::WouldBlock => return Err(error),
                Err(_) => {}
            }
            if let Some(status) = child.try_wait()? {
                return Err(io::Error::other(format!("QEMU ended: {status}")));
            }
            thread::sleep(Duration::from_millis(2));
        }
    }
}

impl Drop for Socket {
    fn drop(&mut self) {
        let _ = fs::remove_dir_all(&self.folder);
    }
}

fn next_line(from: &mut impl BufRead) -> String {
    let mut line = String::new();
    let read = from.read_line(&mut line).expect("QEMU answers");
    assert!(read > 0, "QEMU has ended");
    line
}

fn letter(width: u64) -> char {
    match width {
        1 => 'b',
        2 => 'w',
        4 => 'l',
        8 => 'q',
        _ => panic!("no width has {width} bytes"),
    }
}
