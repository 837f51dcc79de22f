//! Each call, and what a broker comes to whose caller dies. `SECCOMP_BROKER` names the program, if it isn't `seccomp-broker` on the PATH.
use seccomp_step::{errno::*, Addfd, Kernel, Kind, Mount, Node, Object, Readiness, Response, Task, TaskState, ADDFD_SEND, AT_FDCWD, MOST_READ};
use std::io;

const POLICY: &str = "../own-broker/policy.json";
const SCRIPT: &str = "../own-broker/script.txt";
const CALLS: &str = "../own-broker/calls.txt";
const FIFO: u32 = 0o010666;

fn opened(script: &str) -> Kernel {
    Kernel::open(POLICY, script).expect("the program can't be started")
}

/// A kernel whose container waits in its first call.
fn asked() -> Kernel {
    let mut kernel = opened(CALLS);
    kernel.run("0").unwrap();
    kernel
}

#[track_caller]
fn fails<T: std::fmt::Debug>(result: io::Result<T>, errno: i32) {
    assert_eq!(result.unwrap_err().raw_os_error(), Some(errno));
}

#[test]
fn files_are_refused() {
    fails(Kernel::open("no-such-policy", CALLS).map(drop), EINVAL);
    fails(Kernel::open_program("./no-such-program", POLICY, CALLS).map(drop), ENOENT);
}

#[test]
fn before_a_call() {
    let mut kernel = opened(CALLS);
    assert_eq!(kernel.able().unwrap(), (vec!["0".to_owned()], false));
    assert_eq!(kernel.seat(0).recv().unwrap_err().kind(), io::ErrorKind::WouldBlock);
    for name in ["0.1", "", "first", "0\nable", "0..1"] {
        fails(kernel.step(name), ESRCH);
    }
    fails(kernel.seat(0).open_mem(99), ESRCH);
    fails(kernel.seat(0).open_dir(1, 77), EBADF);
    fails(kernel.seat(0).pread(4, 0x10000), EFAULT);
    fails(kernel.seat(0).write_sysinfo(0x10000, &[0; 112]), EBADF);
    fails(kernel.seat(0).addfd_result(), ENOMSG);
    fails(kernel.seat(16).let_go(), ECHRNG);
}

#[test]
fn answers() {
    let mut kernel = asked();
    fails(kernel.seat(3).send(&Response { id: 1, ..Response::default() }), EINPROGRESS);
    let notif = kernel.seat(3).recv().unwrap();
    assert_eq!((notif.id, notif.pid, notif.nr, notif.arch, notif.args[1]), (1, 1, 257, 0xc000003e, 0x10000));
    kernel.seat(3).id_valid(1).unwrap();
    fails(kernel.seat(3).send(&Response { id: 1, flags: 2, ..Response::default() }), EINVAL);
    fails(kernel.seat(3).send(&Response { id: 1, error: 1, ..Response::default() }), EINVAL);
    kernel.seat(3).send(&Response { id: 1, error: -EDQUOT, ..Response::default() }).unwrap();
    fails(kernel.seat(3).id_valid(1), ENOENT);
    assert_eq!(kernel.step("0").unwrap(), "8 t0 resume EDQUOT");
    fails(kernel.seat(3).send(&Response { id: 1, ..Response::default() }), ENOENT);
}

#[test]
fn descriptors() {
    let mut kernel = asked();
    let id = kernel.seat(0).recv().unwrap().id;
    fails(kernel.seat(0).addfd(&Addfd { id, srcfd: 5, newfd: 7, ..Addfd::default() }), EINVAL);
    fails(kernel.seat(0).addfd(&Addfd { id, srcfd: 6, ..Addfd::default() }), EBADF);
    kernel.seat(0).addfd(&Addfd { id, srcfd: 5, ..Addfd::default() }).unwrap();
    fails(kernel.seat(0).addfd(&Addfd { id, srcfd: 5, ..Addfd::default() }), EALREADY);
    fails(kernel.seat(1).addfd(&Addfd { id, srcfd: 5, flags: ADDFD_SEND, ..Addfd::default() }), EBUSY);
    fails(kernel.seat(0).addfd_result(), EAGAIN);
    kernel.step("0").unwrap();
    assert_eq!(kernel.seat(0).addfd_result().unwrap(), 3);
}

#[test]
fn looks() {
    let mut kernel = asked();
    assert_eq!(kernel.look_pid(1).unwrap(), Some(Task { name: "0".to_owned(), ppid: 0, state: TaskState::Sleeping }));
    assert_eq!(kernel.look_pid(2).unwrap(), None);
    assert_eq!(kernel.look_listener().unwrap(), Readiness { input: true, output: false });
    let id = kernel.seat(0).recv().unwrap().id;
    assert_eq!(kernel.look_listener().unwrap(), Readiness { input: false, output: true });
    kernel.seat(0).addfd(&Addfd { id, srcfd: 5, ..Addfd::default() }).unwrap();
    assert_eq!(kernel.look_pid(1).unwrap().unwrap().state, TaskState::Running);
    kernel.step("0").unwrap();
    assert_eq!(kernel.look_fd(1, 0).unwrap(), Some(Object::Console));
    assert_eq!(kernel.look_fd(1, 3).unwrap(), Some(Object::File(5)));
    assert_eq!(kernel.look_fd(1, 4).unwrap(), None);
    assert_eq!(kernel.look_path(1, AT_FDCWD, b"/", true).unwrap(), Node { ordinal: 0, kind: Kind::Directory });
    kernel.seat(0).mknodat(AT_FDCWD, b"/look \"", 0o020666, 259).unwrap();
    assert_eq!(kernel.look_path(1, AT_FDCWD, b"look \"", false).unwrap().kind, Kind::Character(1, 3));
    fails(kernel.look_path(1, 4, b"look", true), EBADF);
    fails(kernel.look_path(2, AT_FDCWD, b"/", true), ESRCH);
    fails(kernel.look_path(1, AT_FDCWD, b"", true), ENOENT);
}

#[test]
fn memory() {
    let mut kernel = asked();
    kernel.seat(0).open_mem(1).unwrap();
    kernel.seat(0).open_mem(1).unwrap();
    assert_eq!(kernel.seat(0).pread(8, 0x10000).unwrap(), b"/log\0\0\0\0");
    assert_eq!(kernel.seat(0).pread(2 * MOST_READ, 0x10000).unwrap().len(), MOST_READ);
    assert_eq!(kernel.seat(0).pread(64, 0x1fff0).unwrap().len(), 16);
    assert_eq!(kernel.seat(0).pread(0, 0x10000).unwrap(), b"");
    let info: [u8; 112] = std::array::from_fn(|at| at as u8);
    kernel.seat(0).write_sysinfo(0x1f000, &info).unwrap();
    assert_eq!(kernel.seat(0).pread(112, 0x1f000).unwrap(), info);
    fails(kernel.seat(0).write_sysinfo(0x1ffff, &info), EFAULT);
}

#[test]
fn effects() {
    let mut kernel = opened(CALLS);
    kernel.seat(0).mknodat(AT_FDCWD, b"/dev/a \"b\\\n", 0o020666, 259).unwrap();
    assert_eq!(kernel.answer(), r#"1 w0 act mknod "/dev/a \"b\\\x0a" chr 1:3 ok"#);
    fails(kernel.seat(0).mknodat(AT_FDCWD, b"/log", FIFO, 0), EEXIST);
    fails(kernel.seat(0).mknodat(4, b"x", FIFO, 0), EBADF);
    let mount = Mount { source: b"/dev/sda1", target: b"/mnt", fstype: b"ext4", flags: 1, data: b"x", via: b"fuse2fs", shift: true };
    kernel.seat(0).mount(&mount).unwrap();
    assert_eq!(kernel.answer(), r#"4 w0 act mount "/dev/sda1" "/mnt" "ext4" flags=1 data="x" via=fuse2fs shift=1 ok"#);
    kernel.seat(0).setxattr(b"/log", b"user.a", &[0, 0xff], 0).unwrap();
    assert_eq!(kernel.answer(), r#"5 w0 act setxattr "/log" "user.a" 00ff flags=0 ok"#);
    fails(kernel.seat(0).setxattr(b"/log", b"user.b", b"", 2), ENODATA);
    fails(kernel.seat(0).setxattr(b"/log", b"user.b", &[0; 40_000], 0), EMSGSIZE);
}

/// What is found of the broker, by what has happened so far.
#[test]
fn judge() {
    let mut kernel = asked();
    kernel.seat(3).recv().unwrap();
    assert_eq!(kernel.judge().unwrap(), "mediated events=4 calls=1 effects=0 answers=0");
    assert_eq!(kernel.judge_idle().unwrap(), "broken 3 answer unanswered");
    kernel.seat(3).mknodat(AT_FDCWD, b"/dev/a", FIFO, 0).unwrap();
    assert_eq!(kernel.judge().unwrap(), "broken 4 harm other-request");
    kernel.close_listener().unwrap();
    assert_eq!(kernel.judge_idle().unwrap(), "broken 4 harm other-request");
}

/// The script of a session has its steps and its requests.
#[test]
fn script() {
    let mut kernel = asked();
    let notif = kernel.seat(3).recv().unwrap();
    kernel.seat(3).mknodat(AT_FDCWD, b"/dev/a \"b", FIFO, 0).unwrap();
    kernel.seat(3).send(&Response { id: notif.id, error: -EPERM, ..Response::default() }).unwrap();
    let script = kernel.script().unwrap();
    let schedule = b"\nend\nschedule\nt 0\nt 0\nw 3 recv\nw 3 act mknod \"/dev/a \\\"b\" 4534 0\nw 3 send 1 0 -1 0\nend\n";
    assert!(script.ends_with(schedule), "{}", String::from_utf8_lossy(&script));
    kernel.close_listener().unwrap();
    assert_eq!(kernel.script().unwrap(), script);
}

/// Behind the lines of a script that is as long as one may be no schedule fits.
#[test]
fn script_that_is_too_long() {
    const PROGRAM: &str = "\nprog main\nend\n";
    let path = std::env::temp_dir().join(format!("seccomp-step-{}.txt", std::process::id()));
    std::fs::write(&path, "#".repeat(8_388_608 - PROGRAM.len()) + PROGRAM).unwrap();
    let mut kernel = opened(path.to_str().unwrap());
    std::fs::remove_file(&path).unwrap();
    fails(kernel.script(), EFBIG);
}

#[test]
fn ends() {
    let mut kernel = opened(CALLS);
    kernel.close_listener().unwrap();
    fails(kernel.step("0"), ESHUTDOWN);
    assert!(kernel.report().unwrap().starts_with("journal 2\n"));
    assert!(kernel.close().unwrap().success());
}

/// The caller is killed after its notification was received, and the next task gets its PID: the id tells, and the memory is the other one's.
#[test]
fn caller_dies() {
    let mut kernel = opened(SCRIPT);
    kernel.step("0").unwrap();
    kernel.run("0.1").unwrap();
    let notif = kernel.seat(0).recv().unwrap();
    for (task, wanted) in [("0", "kill 301 9 ok"), ("0.1", "deliver 9 end"), ("0", "wait 0.1"), ("0", "spawn 0.2 pid=301"), ("0.2", "poke")] {
        assert!(kernel.step(task).unwrap().contains(wanted));
    }
    kernel.seat(0).open_mem(notif.pid).unwrap();
    assert_eq!(kernel.seat(0).pread(10, notif.args[0]).unwrap(), b"/dev/zero\0");
    fails(kernel.seat(0).id_valid(notif.id), ENOENT);
    kernel.seat(0).let_go().unwrap();
    assert!(kernel.report().unwrap().contains(" verdict=gone answer=- reply=none\n"));
}
