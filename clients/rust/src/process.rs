//! Which process this is: the child of a fork has a copy of each connection, and uses none.
use std::os::raw::c_int;
use std::sync::atomic::{AtomicBool, AtomicU32, Ordering};
use std::sync::OnceLock;

type Handler = Option<extern "C" fn()>;

extern "C" {
    fn pthread_atfork(prepare: Handler, parent: Handler, child: Handler) -> c_int;
}

/// How many forks lie between this process and the one that began to count.
static FORKS: AtomicU32 = AtomicU32::new(0);
static COUNTS: AtomicBool = AtomicBool::new(false);

extern "C" fn count() {
    FORKS.fetch_add(1, Ordering::SeqCst);
}

/// What no two processes have in common of which one was forked from the other. The number of a
/// process may come again.
#[derive(Clone, Copy, Debug, PartialEq, Eq)]
pub(crate) struct Process {
    number: u32,
    forks: u32,
}

impl Process {
    pub(crate) fn this() -> Process {
        if !COUNTS.swap(true, Ordering::SeqCst) {
            // Safety: the handler does nothing but count. Where there is no memory for it, the
            // number of the process tells all but one that came again.
            let _ = unsafe { pthread_atfork(None, None, Some(count)) };
        }
        Process { number: std::process::id(), forks: FORKS.load(Ordering::SeqCst) }
    }

    /// Whether it is the one that asks.
    pub(crate) fn is_this(self) -> bool {
        self == Process::this()
    }
}

/// What each process has of its own. A child of a fork begins with another one, and touches nothing
/// of its parent's, of which a thread that is not there may have the lock.
pub(crate) struct OfProcess<S> {
    process: Process,
    own: S,
    of_child: OnceLock<Box<OfProcess<S>>>,
}

impl<S> OfProcess<S> {
    pub(crate) fn new(own: S) -> Self {
        OfProcess { process: Process::this(), own, of_child: OnceLock::new() }
    }

    /// That of this process, which begins like this.
    pub(crate) fn get(&self, begin: impl Fn() -> S) -> &S {
        let mut found = self;
        while !found.process.is_this() {
            found = found.of_child.get_or_init(|| Box::new(OfProcess::new(begin())));
        }
        &found.own
    }
}
