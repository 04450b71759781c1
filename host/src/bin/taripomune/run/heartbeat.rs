//! That a run which watches its folder goes on, for people and for a supervisor.

use super::report::Counts;
use crate::output::Output;
use std::env;
use std::os::linux::net::SocketAddrExt;
use std::os::unix::ffi::OsStrExt;
use std::os::unix::net::{SocketAddr, UnixDatagram};
use std::time::{Duration, Instant};

pub struct Heartbeat {
    output: Output,
    supervisor: Option<Supervisor>,
    every: Duration,
    last: Instant,
}

impl Heartbeat {
    pub fn start(output: Output, every: Duration) -> Heartbeat {
        let supervisor = Supervisor::find();
        supervisor.iter().for_each(|supervisor| supervisor.notify("READY=1"));
        let every = watchdog().map_or(every, |watchdog| every.min(watchdog / 2));
        Heartbeat { output, supervisor, every, last: Instant::now() }
    }

    /// Tells that the run goes on, if it is time.
    pub fn beat(&mut self, counts: impl FnOnce() -> Counts) {
        if self.last.elapsed() >= self.every {
            self.last = Instant::now();
            let counts = counts();
            self.output.tell(&format!("watching: {counts}"));
            self.output.object(&counts.object(self.output.event("heartbeat")));
            self.supervisor.iter().for_each(|supervisor| supervisor.notify("WATCHDOG=1"));
        }
    }
}

impl Drop for Heartbeat {
    fn drop(&mut self) {
        self.supervisor.iter().for_each(|supervisor| supervisor.notify("STOPPING=1"));
    }
}

/// How often systemd wants to hear of this process, if it does.
fn watchdog() -> Option<Duration> {
    let number = |name| env::var(name).ok()?.parse::<u64>().ok();
    let is_meant = number("WATCHDOG_PID").is_none_or(|process| process == u64::from(std::process::id()));
    number("WATCHDOG_USEC").filter(|microseconds| is_meant && *microseconds > 0).map(Duration::from_micros)
}

/// The socket of systemd's sd_notify(3).
struct Supervisor {
    socket: UnixDatagram,
    address: SocketAddr,
}

impl Supervisor {
    fn find() -> Option<Supervisor> {
        let path = env::var_os("NOTIFY_SOCKET")?;
        let address = match path.as_bytes() {
            [b'@', name @ ..] => SocketAddr::from_abstract_name(name),
            _ => SocketAddr::from_pathname(&path),
        };
        let socket = UnixDatagram::unbound().ok()?;
        // A supervisor that doesn't listen mustn't hold up the run.
        socket.set_nonblocking(true).ok()?;
        Some(Supervisor { socket, address: address.ok()? })
    }

    /// That nobody hears it is no failure.
    fn notify(&self, message: &str) {
        let _ = self.socket.send_to_addr(message.as_bytes(), &self.address);
    }
}
