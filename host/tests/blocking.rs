//! The host with one lock: who sleeps is woken.

use std::sync::{Arc, mpsc};
use std::thread;
use std::time::Duration;

use eidrovang::blocking::Host;
use eidrovang::{Errno, Handle, Item, Shutdown};

fn connected(host: &Host) -> (Handle, Handle, Handle) {
    let listener = host.socket().unwrap();
    host.bind(listener, b"/a").unwrap();
    host.listen(listener, 1).unwrap();
    let client = host.socket().unwrap();
    host.connect(client, b"/a").unwrap();
    let server = host.accept(listener).unwrap();
    (listener, client, server)
}

/// Runs `f` in a thread, lets it fall asleep, then runs `then`; what `f` answered.
fn asleep<T: Send + 'static>(host: &Arc<Host>, f: impl FnOnce(&Host) -> T + Send + 'static, then: impl FnOnce()) -> T {
    let (its, (send, answered)) = (host.clone(), mpsc::channel());
    thread::spawn(move || send.send(f(&its)));
    assert!(answered.recv_timeout(Duration::from_millis(30)).is_err(), "it sleeps");
    assert_eq!(host.asleep_beside_work(), Vec::<String>::new());
    then();
    answered.recv_timeout(Duration::from_secs(10)).unwrap_or_else(|_| panic!("nobody wakes it:\n{}", host.print()))
}

#[test]
fn a_read_waits_for_a_write() {
    let host = Arc::new(Host::new(4, 8).unwrap());
    let (_, client, server) = connected(&host);
    let got = asleep(
        &host,
        move |h| {
            let (mut buf, mut items) = ([0; 4], [Item(0)]);
            let got = h.recvmsg(server, &mut buf, &mut items).unwrap();
            (buf[..got.bytes].to_vec(), items[0])
        },
        || assert_eq!(host.sendmsg(client, b"hi", &[Item(3)]), Ok(2)),
    );
    assert_eq!(got, (b"hi".to_vec(), Item(3)));
}

#[test]
fn a_write_waits_for_room() {
    let host = Arc::new(Host::new(4, 8).unwrap());
    let (_, client, server) = connected(&host);
    host.write(client, &[1; 8]).unwrap();
    let wrote = asleep(&host, move |h| h.write(client, &[2; 3]), || assert_eq!(host.read(server, &mut [0; 2]), Ok(2)));
    assert_eq!(wrote, Ok(2));
    let wrote = asleep(&host, move |h| h.write(client, &[2; 3]), || host.close(server).unwrap());
    assert_eq!(wrote, Err(Errno::Pipe));
}

#[test]
fn an_accept_waits_for_a_connect() {
    let host = Arc::new(Host::new(6, 8).unwrap());
    let (listener, ..) = connected(&host);
    let other = host.socket().unwrap();
    let server = asleep(&host, move |h| h.accept(listener), || host.connect(other, b"/a").unwrap()).unwrap();
    assert!(host.handles().contains(&server));
}

#[test]
fn a_connect_waits_for_the_queue() {
    let host = Arc::new(Host::new(8, 8).unwrap());
    let (listener, ..) = connected(&host);
    let [first, second] = [(); 2].map(|()| host.socket().unwrap());
    host.connect(first, b"/a").unwrap();
    asleep(&host, move |h| h.connect(second, b"/a"), || assert!(host.accept(listener).is_ok())).unwrap();
    let third = host.socket().unwrap();
    let refused = asleep(&host, move |h| h.connect(third, b"/a"), || host.close(listener).unwrap());
    assert_eq!(refused, Err(Errno::ConnRefused));
}

#[test]
fn a_shutdown_ends_a_read() {
    let host = Arc::new(Host::new(4, 8).unwrap());
    let (_, client, server) = connected(&host);
    let end = asleep(&host, move |h| h.read(server, &mut [0; 2]), || host.shutdown(client, Shutdown::Write).unwrap());
    assert_eq!(end, Ok(0));
}

#[test]
fn who_sleeps_on_a_closed_handle_is_told() {
    let host = Arc::new(Host::new(5, 8).unwrap());
    let (listener, client, server) = connected(&host);
    let told = asleep(&host, move |h| h.read(server, &mut [0; 2]), || host.close(server).unwrap());
    assert_eq!(told, Err(Errno::BadHandle));
    assert_eq!(asleep(&host, move |h| h.accept(listener), || host.close(listener).unwrap()), Err(Errno::BadHandle));
    host.sendmsg(client, b"x", &[]).unwrap_err();
    assert_eq!(host.take_releases(), []);
}

#[test]
fn a_connect_on_a_closed_handle_is_told() {
    let host = Arc::new(Host::new(3, 8).unwrap());
    let listener = host.socket().unwrap();
    host.bind(listener, b"/a").unwrap();
    host.listen(listener, 0).unwrap();
    let client = host.socket().unwrap();
    let told = asleep(&host, move |h| h.connect(client, b"/a"), || host.close(client).unwrap());
    assert_eq!(told, Err(Errno::BadHandle));
}

#[test]
fn a_connect_on_a_socket_that_another_thread_takes_is_told() {
    let host = Arc::new(Host::new(6, 8).unwrap());
    for (name, backlog) in [(b"/a", 0), (b"/b", 1)] {
        let listener = host.socket().unwrap();
        host.bind(listener, name).unwrap();
        host.listen(listener, backlog).unwrap();
    }
    let client = host.socket().unwrap();
    let told = asleep(&host, move |h| h.connect(client, b"/a"), || host.connect(client, b"/b").unwrap());
    assert_eq!(told, Err(Errno::IsConnected));
    let client = host.socket().unwrap();
    let told = asleep(&host, move |h| h.connect(client, b"/a"), || host.bind(client, b"/c").unwrap());
    assert_eq!(told, Err(Errno::Invalid));
}
