//! A controller, a keyboard and a mouse as QEMU has them, with no guest system: the ports are reached by QEMU's test socket, keys and mouse
//! by its monitor.

use std::io::{self, BufRead, BufReader, Write};
use std::os::unix::net::UnixStream;
use std::path::{Path, PathBuf};
use std::process::{Child, Command, Stdio};
use std::sync::atomic::{AtomicU32, Ordering};
use std::time::{Duration, Instant};
use vurdellow::drive::Ports;
use vurdellow::Port;

pub const PROGRAM: &str = "qemu-system-x86_64";

/// A machine, just switched on. It ends with this value.
pub struct Qemu {
    machine: Child,
    test: BufReader<UnixStream>,
    monitor: BufReader<UnixStream>,
    _folder: Folder,
}

/// A folder for sockets, which is removed with this value.
struct Folder(PathBuf);

impl Folder {
    fn new() -> io::Result<Folder> {
        static MADE: AtomicU32 = AtomicU32::new(0);
        let name = format!("vurdellow-{}-{}", std::process::id(), MADE.fetch_add(1, Ordering::Relaxed));
        let path = std::env::temp_dir().join(name);
        std::fs::create_dir(&path)?;
        Ok(Folder(path))
    }
}

impl Drop for Folder {
    fn drop(&mut self) {
        let _ = std::fs::remove_dir_all(&self.0);
    }
}

/// What QEMU says of its version.
pub fn version() -> io::Result<String> {
    let said = Command::new(PROGRAM).arg("--version").output()?.stdout;
    Ok(String::from_utf8_lossy(&said).lines().next().unwrap_or_default().to_string())
}

impl Qemu {
    pub fn start() -> io::Result<Qemu> {
        let folder = Folder::new()?;
        let at = |name: &str| folder.0.join(name);
        // The processor is kept from the controller: cli, hlt, and back to the hlt.
        let mut rom = vec![0xF4; 65_536];
        rom[0xFFF0..0xFFF4].copy_from_slice(&[0xFA, 0xF4, 0xEB, 0xFD]);
        std::fs::write(at("rom"), rom)?;
        let socket = |name: &str| format!("unix:{},server=on,wait=off", at(name).display());
        let mut machine = Command::new(PROGRAM)
            .args(["-machine", "pc", "-accel", "tcg", "-display", "none", "-nodefaults", "-m", "16"])
            .arg("-bios")
            .arg(at("rom"))
            .args(["-qtest", &socket("test"), "-qtest-log", "/dev/null"])
            .args(["-qmp", &socket("monitor")])
            .stdin(Stdio::null())
            .spawn()?;
        let sockets = connect(&at("test"), &mut machine).and_then(|t| Ok((t, connect(&at("monitor"), &mut machine)?)));
        let (test, monitor) = sockets.inspect_err(|_| {
            let _ = machine.kill();
            let _ = machine.wait();
        })?;
        let mut qemu = Qemu { machine, test, monitor, _folder: folder };
        line(&mut qemu.monitor);
        qemu.ask(r#"{"execute":"qmp_capabilities"}"#);
        Ok(qemu)
    }

    fn ask(&mut self, request: &str) {
        send(&mut self.monitor, request);
        loop {
            let answer = line(&mut self.monitor);
            assert!(!answer.contains("\"error\""), "QEMU refuses {request}: {answer}");
            if answer.contains("\"return\"") {
                return;
            }
        }
    }

    /// Moves keys and the mouse, all at once: `k.a.d` presses A and `k.a.u` releases it, by QEMU's names; `b.left.d` is a button or a turn of
    /// the wheel, `r.x.-5` a movement. They are joined by `+`.
    pub fn inject(&mut self, moves: &str) {
        let events: Vec<String> = moves.split('+').map(event).collect();
        self.ask(&format!(r#"{{"execute":"input-send-event","arguments":{{"events":[{}]}}}}"#, events.join(",")));
    }

    fn test(&mut self, request: &str) -> String {
        send(&mut self.test, request);
        let answer = line(&mut self.test);
        answer.strip_prefix("OK").unwrap_or_else(|| panic!("QEMU answers {request} by {answer}")).trim().to_string()
    }
}

fn event(one: &str) -> String {
    let parts: Vec<&str> = one.split('.').collect();
    let &[kind, name, how] = parts.as_slice() else { panic!("'{one}' moves nothing") };
    let down = how == "d";
    let (kind, data) = match kind {
        "k" => ("key", format!(r#""down":{down},"key":{{"type":"qcode","data":"{name}"}}"#)),
        "b" => ("btn", format!(r#""down":{down},"button":"{name}""#)),
        "r" => ("rel", format!(r#""axis":"{name}","value":{how}"#)),
        _ => panic!("'{one}' moves nothing"),
    };
    format!(r#"{{"type":"{kind}","data":{{{data}}}}}"#)
}

/// Connects to a socket of QEMU, which makes it in its own time.
fn connect(path: &Path, machine: &mut Child) -> io::Result<BufReader<UnixStream>> {
    let begin = Instant::now();
    loop {
        match UnixStream::connect(path) {
            Ok(stream) => {
                stream.set_read_timeout(Some(Duration::from_secs(20)))?;
                return Ok(BufReader::new(stream));
            }
            Err(error) if begin.elapsed() > Duration::from_secs(20) => return Err(error),
            Err(_) => {}
        }
        if let Some(status) = machine.try_wait()? {
            return Err(io::Error::other(format!("QEMU ended at once: {status}")));
        }
        std::thread::sleep(Duration::from_millis(10));
    }
}

fn send(stream: &mut BufReader<UnixStream>, request: &str) {
    stream.get_mut().write_all(format!("{request}\n").as_bytes()).expect("QEMU listens");
}

fn line(stream: &mut BufReader<UnixStream>) -> String {
    let mut line = String::new();
    let length = stream.read_line(&mut line).expect("QEMU answers");
    assert!(length > 0, "QEMU has ended");
    line.trim().to_string()
}

impl Ports for Qemu {
    fn read(&mut self, port: Port) -> u8 {
        let said = self.test(&format!("inb {:#x}", port.number()));
        u8::from_str_radix(said.trim_start_matches("0x"), 16).expect("a byte")
    }

    fn write(&mut self, port: Port, value: u8) {
        self.test(&format!("outb {:#x} {value:#x}", port.number()));
    }
}

impl Drop for Qemu {
    fn drop(&mut self) {
        let _ = self.machine.kill();
        let _ = self.machine.wait();
    }
}
