//! A broker that leaves each call to the kernel.
use seccomp_step::{errno, Kernel, Response, CONTINUE};
use std::io;

fn serve(kernel: &mut Kernel) -> io::Result<()> {
    let notif = kernel.seat(0).recv()?;
    kernel.seat(0).send(&Response { id: notif.id, flags: CONTINUE, ..Response::default() })
}

fn main() -> io::Result<()> {
    let mut words = std::env::args().skip(1);
    let mut kernel = Kernel::open(words.next().unwrap_or_default(), words.next().unwrap_or_default())?;
    loop {
        match serve(&mut kernel) {
            Err(error) if matches!(error.raw_os_error(), Some(errno::EAGAIN | errno::ESHUTDOWN)) => return Ok(()),
            // (a receive of a call that has gone finds none, and neither does an answer that comes too late)
            Err(error) if error.raw_os_error() != Some(errno::ENOENT) => return Err(error),
            _ => kernel.seat(0).let_go()?,
        }
    }
}
