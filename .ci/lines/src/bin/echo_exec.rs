//! An echo server on a small executor over mio: one thread, a task for each connection, and a deadline for each read and write that waits.
//!
//!     echo_exec PORT CONNECTIONS IDLE [short]
//!
//! It serves whoever dials 127.0.0.1 at PORT until CONNECTIONS connections have ended. A connection that waits for IDLE milliseconds is
//! closed. A call is made while its socket is taken to be ready, and waits once it would block; with the word `short`, a read that does not
//! fill the buffer is taken to have emptied the socket, which saves a call of the system for each message.
//!
//! The executor: tasks are boxed futures by place; a waker is the place of its task, and puts it into a queue of those that are to be
//! polled. The reactor keeps for each socket which ways are ready, and who waits. Deadlines are in an ordered set.

use mio::event::Source;
use mio::net::{TcpListener, TcpStream};
use mio::{Events, Interest, Poll, Registry, Token};
use std::cell::RefCell;
use std::collections::{BTreeSet, VecDeque};
use std::future::Future;
use std::io::{self, ErrorKind, Read, Write};
use std::pin::Pin;
use std::task::{Context, RawWaker, RawWakerVTable, Waker};
use std::time::{Duration, Instant};

const READ: usize = 0;
const WRITE: usize = 1;

/// What is known of a socket: whether it is ready, each way, and the task that waits.
#[derive(Default, Clone)]
struct Known {
    ready: [bool; 2],
    waits: [Option<Waker>; 2],
}

struct Reactor {
    registry: Registry,
    known: Vec<Known>,
    free: Vec<usize>,
    /// When a socket's wait ends.
    deadlines: BTreeSet<(u64, usize, usize)>,
    start: Instant,
    now: u64,
}

thread_local! {
    static QUEUE: RefCell<VecDeque<usize>> = const { RefCell::new(VecDeque::new()) };
    static QUEUED: RefCell<Vec<bool>> = const { RefCell::new(Vec::new()) };
    static SPAWNED: RefCell<Vec<Pin<Box<dyn Future<Output = ()>>>>> = const { RefCell::new(Vec::new()) };
    static REACTOR: RefCell<Option<Reactor>> = const { RefCell::new(None) };
}

fn reactor<T>(work: impl FnOnce(&mut Reactor) -> T) -> T {
    REACTOR.with(|it| work(it.borrow_mut().as_mut().unwrap()))
}

fn schedule(place: usize) {
    let is_new = QUEUED.with(|it| !std::mem::replace(&mut it.borrow_mut()[place], true));
    if is_new {
        QUEUE.with(|it| it.borrow_mut().push_back(place));
    }
}

const WAKES: RawWakerVTable = RawWakerVTable::new(
    |place| RawWaker::new(place, &WAKES),
    |place| schedule(place as usize),
    |place| schedule(place as usize),
    |_| {},
);

fn waker(place: usize) -> Waker {
    // The table's calls take the pointer as a number alone.
    unsafe { Waker::from_raw(RawWaker::new(place as *const (), &WAKES)) }
}

/// A registered socket.
struct Io<S: Source> {
    source: S,
    place: usize,
}

impl<S: Source> Io<S> {
    fn new(mut source: S) -> io::Result<Io<S>> {
        reactor(|it| {
            let place = it.free.pop().unwrap_or(it.known.len());
            if place == it.known.len() {
                it.known.push(Known::default());
            }
            it.known[place] = Known::default();
            it.registry.register(&mut source, Token(place), Interest::READABLE | Interest::WRITABLE)?;
            Ok(Io { source, place })
        })
    }
}

impl<S: Source> Drop for Io<S> {
    fn drop(&mut self) {
        reactor(|it| {
            let _ = it.registry.deregister(&mut self.source);
            it.known[self.place] = Known::default();
            it.free.push(self.place);
        });
    }
}

/// A call on a socket that waits, as long as it would block and no longer than until its deadline.
struct Call<'a, S: Source, F> {
    io: &'a mut Io<S>,
    way: usize,
    idle: Option<u64>,
    deadline: Option<u64>,
    call: F,
}

impl<S: Source, T, F: FnMut(&mut S) -> io::Result<T>> Future for Call<'_, S, F> {
    type Output = io::Result<T>;

    fn poll(self: Pin<&mut Self>, context: &mut Context<'_>) -> std::task::Poll<io::Result<T>> {
        // Nothing in it is pinned.
        let this = unsafe { self.get_unchecked_mut() };
        let (place, way) = (this.io.place, this.way);
        while reactor(|it| it.known[place].ready[way]) {
            match (this.call)(&mut this.io.source) {
                Err(error) if error.kind() == ErrorKind::WouldBlock => reactor(|it| it.known[place].ready[way] = false),
                Err(error) if error.kind() == ErrorKind::Interrupted => {}
                done => return std::task::Poll::Ready(done),
            }
        }
        reactor(|it| {
            if this.deadline.is_some_and(|at| at <= it.now) {
                return std::task::Poll::Ready(Err(ErrorKind::TimedOut.into()));
            }
            if let (None, Some(idle)) = (this.deadline, this.idle) {
                let at = it.now + idle;
                this.deadline = Some(at);
                it.deadlines.insert((at, place, way));
            }
            it.known[place].waits[way] = Some(context.waker().clone());
            std::task::Poll::Pending
        })
    }
}

impl<S: Source, F> Drop for Call<'_, S, F> {
    fn drop(&mut self) {
        if let Some(at) = self.deadline {
            reactor(|it| it.deadlines.remove(&(at, self.io.place, self.way)));
        }
    }
}

fn call<S: Source, T, F: FnMut(&mut S) -> io::Result<T>>(io: &mut Io<S>, way: usize, idle: Option<u64>, call: F) -> Call<'_, S, F> {
    Call { io, way, idle, deadline: None, call }
}

/// What comes on a connection goes back on it.
async fn echo(mut io: Io<TcpStream>, idle: u64, is_short: bool) -> io::Result<()> {
    let mut buffer = vec![0; 4096];
    loop {
        let count = call(&mut io, READ, Some(idle), |stream| stream.read(&mut buffer)).await?;
        if count == 0 {
            return Ok(());
        }
        if is_short && count < buffer.len() {
            reactor(|it| it.known[io.place].ready[READ] = false);
        }
        let mut sent = 0;
        while sent < count {
            sent += call(&mut io, WRITE, Some(idle), |stream| stream.write(&buffer[sent..count])).await?;
        }
    }
}

thread_local! {
    static ENDED: RefCell<u64> = const { RefCell::new(0) };
}

async fn accept(mut listener: Io<TcpListener>, idle: u64, is_short: bool) {
    loop {
        let Ok((stream, _)) = call(&mut listener, READ, None, |listener| listener.accept()).await else {
            continue;
        };
        let Ok(io) = Io::new(stream) else {
            continue;
        };
        let task = Box::pin(async move {
            let _ = echo(io, idle, is_short).await;
            ENDED.with(|it| *it.borrow_mut() += 1);
        });
        SPAWNED.with(|it| it.borrow_mut().push(task));
    }
}

/// The tasks by place.
#[derive(Default)]
struct Tasks {
    tasks: Vec<Option<Pin<Box<dyn Future<Output = ()>>>>>,
    free: Vec<usize>,
}

impl Tasks {
    fn take_spawned(&mut self) {
        while let Some(task) = SPAWNED.with(|it| it.borrow_mut().pop()) {
            let place = self.free.pop().unwrap_or(self.tasks.len());
            if place == self.tasks.len() {
                self.tasks.push(None);
                QUEUED.with(|it| it.borrow_mut().push(false));
            }
            self.tasks[place] = Some(task);
            schedule(place);
        }
    }

    // Polls those that are ready now; what they wake is polled in the next round.
    fn poll(&mut self) {
        for _ in 0..QUEUE.with(|it| it.borrow().len()) {
            let Some(place) = QUEUE.with(|it| it.borrow_mut().pop_front()) else {
                break;
            };
            QUEUED.with(|it| it.borrow_mut()[place] = false);
            let Some(task) = self.tasks[place].as_mut() else {
                continue;
            };
            let waker = waker(place);
            if task.as_mut().poll(&mut Context::from_waker(&waker)).is_ready() {
                self.tasks[place] = None;
                self.free.push(place);
            }
        }
        self.take_spawned();
    }
}

// Wakes whoever waits on a socket for a way.
fn wake(it: &mut Reactor, place: usize, way: usize) {
    if let Some(waker) = it.known[place].waits[way].take() {
        waker.wake();
    }
}

// What the deadlines that have come and the sockets that are ready wake.
fn turn(poll: &mut Poll, events: &mut Events) -> io::Result<()> {
    let is_idle = QUEUE.with(|it| it.borrow().is_empty());
    let limit = if is_idle {
        reactor(|it| it.deadlines.first().map(|first| Duration::from_millis(first.0.saturating_sub(it.now))))
    } else {
        Some(Duration::ZERO)
    };
    match poll.poll(events, limit) {
        Err(error) if error.kind() == ErrorKind::Interrupted => return Ok(()),
        polled => polled?,
    }
    reactor(|it| {
        it.now = it.start.elapsed().as_millis() as u64;
        for event in events.iter() {
            let place = event.token().0;
            if event.is_readable() || event.is_read_closed() || event.is_error() {
                it.known[place].ready[READ] = true;
                wake(it, place, READ);
            }
            if event.is_writable() || event.is_write_closed() || event.is_error() {
                it.known[place].ready[WRITE] = true;
                wake(it, place, WRITE);
            }
        }
        while let Some(&(at, place, way)) = it.deadlines.first() {
            if at > it.now {
                break;
            }
            it.deadlines.pop_first();
            wake(it, place, way);
        }
    });
    Ok(())
}

fn main() -> io::Result<()> {
    let words: Vec<String> = std::env::args().skip(1).collect();
    let [port, connections, idle, options @ ..] = words.as_slice() else {
        eprintln!("usage: echo_exec PORT CONNECTIONS IDLE [short]");
        std::process::exit(2);
    };
    let (port, connections, idle): (u16, u64, u64) = (port.parse().unwrap(), connections.parse().unwrap(), idle.parse().unwrap());
    let is_short = options.iter().any(|option| option == "short");
    let mut poll = Poll::new()?;
    let registry = poll.registry().try_clone()?;
    let reactor = Reactor { registry, known: Vec::new(), free: Vec::new(), deadlines: BTreeSet::new(), start: Instant::now(), now: 0 };
    REACTOR.with(|it| *it.borrow_mut() = Some(reactor));
    let listener = Io::new(TcpListener::bind(([127, 0, 0, 1], port).into())?)?;
    SPAWNED.with(|it| it.borrow_mut().push(Box::pin(accept(listener, idle, is_short))));
    let mut tasks = Tasks::default();
    tasks.take_spawned();
    let mut events = Events::with_capacity(1024);
    tasks.poll();
    while ENDED.with(|it| *it.borrow()) < connections {
        turn(&mut poll, &mut events)?;
        tasks.poll();
    }
    // What is left is dropped while the reactor is there.
    drop(tasks);
    Ok(())
}
