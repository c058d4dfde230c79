//! Calls that are awaited in a runtime of tokio.
mod script;
mod ttlv;

use metsuwan::{AsyncClient, AsyncPool, Client, ClientBuilder, Error, Pool, Result};
use script::{Does, Script, Sent};
use std::future::Future;
use std::panic::AssertUnwindSafe;
use std::pin::pin;
use std::sync::atomic::{AtomicUsize, Ordering::SeqCst};
use std::sync::mpsc::{channel, Receiver, Sender};
use std::sync::{Arc, Mutex};
use std::task::{Context, Poll, Wake, Waker};
use std::time::Duration;
use tokio::runtime::{Builder, Runtime};
use tokio::task::{spawn, spawn_blocking, yield_now};
use ttlv::{bytes, identifier, response};

const SIGN: u32 = 0x21;

fn runtime() -> Runtime {
    Builder::new_current_thread().build().unwrap()
}

/// Answers to `sign`, of the keys `0`, `1` and so on, each of which is of its key alone.
fn answers(count: usize) -> Vec<Does> {
    let answer = |key: usize| {
        let key = key.to_string();
        let signature = bytes(0x4200C3, key.as_bytes());
        Does::Answer(response(SIGN, &[identifier(&key), signature]))
    };
    (0..count).map(answer).collect()
}

/// What a call of `sign` makes, and what it gives: the key.
fn sign<T>(key: usize) -> impl FnOnce(&Client<T>) -> Result<usize> + Send + 'static
where
    T: std::io::Read + std::io::Write,
{
    move |client| {
        let signed = client.sign(&key.to_string(), b"x")?;
        Ok(String::from_utf8(signed.signature_data).unwrap().parse().unwrap())
    }
}

fn client(does: &[Does]) -> (AsyncClient<Script>, Sent) {
    let sent = Sent::default();
    (AsyncClient::new(ClientBuilder::new(Script::new(does, &sent)).build()), sent)
}

/// A client each call of which tells that it has begun, and then waits until it may go on.
fn held(does: &[Does]) -> (AsyncClient<Script>, Sent, Receiver<()>, Sender<()>) {
    let (sent, (begun, begins), (go, goes)) = (Sent::default(), channel(), channel());
    let goes = Mutex::new(goes);
    let builder = ClientBuilder::new(Script::new(does, &sent)).with_before_call(move |_| {
        begun.send(()).unwrap();
        goes.lock().unwrap().recv().unwrap();
        Ok(())
    });
    (AsyncClient::new(builder.build()), sent, begins, go)
}

struct Nobody;

impl Wake for Nobody {
    fn wake(self: Arc<Self>) {}
}

fn poll<F: Future>(future: std::pin::Pin<&mut F>) -> Poll<F::Output> {
    future.poll(&mut Context::from_waker(&Waker::from(Arc::new(Nobody))))
}

#[test]
fn calls_are_awaited() {
    let (client, sent) = client(&answers(20));
    runtime().block_on(async {
        // They may be of other tasks, and take their turns as they come.
        let calls: Vec<_> = (0..20).map(|key| spawn(client.call(sign(key)))).collect();
        for (key, call) in calls.into_iter().enumerate() {
            assert_eq!(call.await.unwrap(), Ok(key));
        }
        let error = client.clone().call(sign(20)).await.unwrap_err();
        assert!(matches!(error, Error::ResponseReadError(_)));
        let error = client.call(|client| client.query()).await.unwrap_err();
        assert!(matches!(error, Error::RequestWriteError(_)));
    });
    assert_eq!(sent.count(), 21);
}

#[test]
fn several_calls_are_made_with_none_between() {
    let (client, _) = client(&answers(4));
    let pair = |key: usize| {
        move |client: &Client<Script>| Ok((sign(key)(client)?, sign(key + 1)(client)?))
    };
    runtime().block_on(async {
        let (first, second) = (spawn(client.call(pair(0))), spawn(client.call(pair(2))));
        assert_eq!(first.await.unwrap(), Ok((0, 1)));
        assert_eq!(second.await.unwrap(), Ok((2, 3)));
    });
}

#[test]
fn it_is_opened_in_a_thread() {
    runtime().block_on(async {
        let here = std::thread::current().id();
        let client = AsyncClient::open(move || {
            assert!(std::thread::current().id() != here);
            Ok(ClientBuilder::new(Script::new(&answers(1), &Sent::default())).build())
        });
        assert_eq!(client.await.unwrap().call(sign(0)).await, Ok(0));
        let none = AsyncClient::open(|| -> Result<Client<Script>> {
            let none = ClientBuilder::new(Script::new(&[], &Sent::default())).build();
            none.query().map(|_| none)
        });
        assert!(matches!(none.await, Err(Error::ResponseReadError(_))));
    });
}

#[test]
fn calls_that_wait_take_no_thread() {
    let (client, sent, begins, go) = held(&answers(9));
    let runtime = Builder::new_current_thread().max_blocking_threads(2).build().unwrap();
    runtime.block_on(async move {
        let calls: Vec<_> = (0..9).map(|key| spawn(client.call(sign(key)))).collect();
        yield_now().await;
        begins.recv().unwrap();
        // There is a thread left.
        let (sender, receiver) = channel();
        spawn_blocking(move || sender.send(()));
        receiver.recv_timeout(Duration::from_secs(20)).unwrap();
        for _ in 0..9 {
            go.send(()).unwrap();
        }
        for (key, call) in calls.into_iter().enumerate() {
            assert_eq!(call.await.unwrap(), Ok(key));
        }
    });
    assert_eq!(sent.count(), 9);
}

#[test]
fn a_call_whose_future_is_dropped_goes_on_to_its_end() {
    let (client, sent, begins, go) = held(&answers(2));
    runtime().block_on(async {
        let dropped = spawn(client.call(sign(0)));
        yield_now().await;
        begins.recv().unwrap();
        dropped.abort();
        assert!(dropped.await.unwrap_err().is_cancelled());
        let next = spawn(client.call(sign(1)));
        yield_now().await;
        assert_eq!(sent.count(), 0);
        go.send(()).unwrap();
        go.send(()).unwrap();
        // It has its own answer.
        assert_eq!(next.await.unwrap(), Ok(1));
        assert_eq!(sent.count(), 2);
    });
}

#[test]
fn of_a_future_that_is_dropped_before_its_turn_nothing_is_sent() {
    let (client, sent, begins, go) = held(&answers(2));
    runtime().block_on(async {
        drop(client.call(sign(5)));
        let first = spawn(client.call(sign(0)));
        yield_now().await;
        begins.recv().unwrap();
        let waits = spawn(client.call(sign(6)));
        yield_now().await;
        waits.abort();
        assert!(waits.await.unwrap_err().is_cancelled());
        go.send(()).unwrap();
        go.send(()).unwrap();
        assert_eq!(first.await.unwrap(), Ok(0));
        assert_eq!(client.call(sign(1)).await, Ok(1));
        assert_eq!(sent.count(), 2);
    });
}

#[test]
fn a_runtime_that_ends_waits_for_a_call() {
    let (client, sent, begins, go) = held(&answers(2));
    let runtime = runtime();
    runtime.block_on(async {
        spawn(client.call(sign(0)));
        yield_now().await;
    });
    begins.recv().unwrap();
    go.send(()).unwrap();
    drop(runtime);
    assert_eq!(sent.count(), 1);
    // The connection is in step in another runtime.
    go.send(()).unwrap();
    assert_eq!(self::runtime().block_on(client.call(sign(1))), Ok(1));
}

#[test]
fn in_a_runtime_that_has_ended_nothing_is_sent() {
    let (client, sent) = client(&answers(1));
    let ended = runtime();
    let handle = ended.handle().clone();
    drop(ended);
    let within = handle.enter();
    let Poll::Ready(made) = poll(pin!(client.call(sign(0)))) else { panic!("it waits") };
    drop(within);
    let error = made.unwrap_err();
    let wanted = "ConfigurationError: the runtime has ended; nothing was sent";
    assert!(error.to_string() == wanted && !error.is_lost(), "{error}");
    assert_eq!(runtime().block_on(client.call(sign(0))), Ok(0));
    assert_eq!(sent.count(), 1);
}

#[test]
fn a_panic_is_that_of_the_task_which_awaits() {
    let (client, _) = client(&answers(1));
    let runtime = runtime();
    let panics = || runtime.block_on(client.call(|_| -> Result<()> { panic!("as wanted") }));
    let panic = std::panic::catch_unwind(AssertUnwindSafe(panics)).unwrap_err();
    assert_eq!(panic.downcast_ref(), Some(&"as wanted"));
    // It was within no call: the client goes on.
    assert_eq!(runtime.block_on(client.call(sign(0))), Ok(0));
}

/// A pool of so many whose clients sign by key 0 and then 1, and how many were opened.
fn pool(size: usize) -> (AsyncPool<Script>, Arc<AtomicUsize>) {
    let opened = Arc::new(AtomicUsize::new(0));
    let count = Arc::clone(&opened);
    let open = move || {
        count.fetch_add(1, SeqCst);
        let does: Vec<_> = answers(2).into_iter().cycle().take(100).collect();
        Ok(ClientBuilder::new(Script::new(&does, &Sent::default())).build())
    };
    (AsyncPool::new(Pool::new(size, open).unwrap()), opened)
}

#[test]
fn tasks_share_a_pool() {
    let (pool, opened) = pool(2);
    let (used, most) = <(Arc<AtomicUsize>, Arc<AtomicUsize>)>::default();
    runtime().block_on(async {
        let calls = (0..30).map(|_| {
            let (used, most) = (Arc::clone(&used), Arc::clone(&most));
            spawn(pool.call(move |client| {
                most.fetch_max(used.fetch_add(1, SeqCst) + 1, SeqCst);
                let signed = (sign(0)(client)?, sign(1)(client)?);
                used.fetch_sub(1, SeqCst);
                Ok(signed)
            }))
        });
        for call in calls.collect::<Vec<_>>() {
            assert_eq!(call.await.unwrap(), Ok((0, 1)));
        }
    });
    assert!(most.load(SeqCst) <= 2 && opened.load(SeqCst) <= 2);
    assert!(format!("{pool:?}").contains("size: 2"));
}

#[test]
fn a_pool_is_closed() {
    let (pool, _) = pool(1);
    let is_closed = |error: Error| error.to_string() == "ConfigurationError: the pool is closed";
    let ((begun, begins), (go, goes)) = (channel(), channel());
    runtime().block_on(async {
        let call = spawn(pool.call(move |client| {
            begun.send(()).unwrap();
            goes.recv().unwrap();
            sign(0)(client)
        }));
        let waits = spawn(pool.clone().call(sign(1)));
        yield_now().await;
        begins.recv().unwrap();
        pool.close();
        // It is told at once, and that which is made ends well.
        assert!(is_closed(waits.await.unwrap().unwrap_err()));
        go.send(()).unwrap();
        assert_eq!(call.await.unwrap(), Ok(0));
        assert!(is_closed(pool.call(sign(1)).await.unwrap_err()));
    });
    assert!(format!("{pool:?}").contains("free: 0, used: 0"));
}

#[test]
fn a_pool_may_have_any_size() {
    let (pool, _) = pool(usize::MAX);
    assert_eq!(runtime().block_on(pool.call(sign(0))), Ok(0));
}

#[test]
fn a_panic_gives_back_its_place() {
    let (pool, opened) = pool(1);
    runtime().block_on(async {
        let call = spawn(pool.call(|_| -> Result<()> { panic!("as wanted") }));
        assert!(call.await.unwrap_err().is_panic());
        assert_eq!(pool.call(sign(0)).await, Ok(0));
    });
    assert_eq!(opened.load(SeqCst), 1);
}
