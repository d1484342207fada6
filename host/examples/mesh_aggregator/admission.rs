//! Accepted connections before their hello. They have a limit of their own, so that strangers keep no peer out.

use std::collections::VecDeque;
use std::io;
use std::net::{Shutdown, SocketAddr, TcpStream};
use std::sync::{Arc, Mutex, MutexGuard, PoisonError};

pub struct Admission {
    /// How many may wait for their hello.
    most: u64,
    waiting: Mutex<Waiting>,
}

#[derive(Default)]
struct Waiting {
    /// How many connections there were.
    count: u64,
    /// The oldest first, each with its number.
    connections: VecDeque<(u64, TcpStream, SocketAddr)>,
}

/// A connection's place among those that wait. It is free again when this is dropped.
pub struct Place {
    admission: Arc<Admission>,
    number: u64,
}

impl Admission {
    pub fn new(most: u64) -> Arc<Admission> {
        let waiting = Mutex::default();
        Arc::new(Admission { most, waiting })
    }

    fn waiting(&self) -> MutexGuard<'_, Waiting> {
        self.waiting.lock().unwrap_or_else(PoisonError::into_inner)
    }

    /// A place for a new connection. Where all are taken, the oldest connection of those that wait is closed, whose address is given.
    pub fn admit(
        self: &Arc<Admission>,
        stream: &TcpStream,
        from: SocketAddr,
    ) -> io::Result<(Place, Option<SocketAddr>)> {
        let stream = stream.try_clone()?;
        let mut waiting = self.waiting();
        let is_full = waiting.connections.len() as u64 >= self.most;
        let oldest = is_full.then(|| waiting.connections.pop_front()).flatten();
        let closed = oldest.map(|(_, stream, from)| {
            let _ = stream.shutdown(Shutdown::Both); // it may be closed already
            from
        });
        waiting.count += 1;
        let number = waiting.count;
        waiting.connections.push_back((number, stream, from));
        let admission = Arc::clone(self);
        Ok((Place { admission, number }, closed))
    }
}

impl Place {
    /// The hello came: the connection doesn't wait any more, and no newer one closes it. False where one has.
    pub fn leave(&self) -> bool {
        let connections = &mut self.admission.waiting().connections;
        let before = connections.len();
        connections.retain(|(number, ..)| *number != self.number);
        connections.len() < before
    }
}

impl Drop for Place {
    fn drop(&mut self) {
        self.leave();
    }
}

#[cfg(test)]
mod tests {
    use super::*;
    use std::io::{ErrorKind, Read};
    use std::net::TcpListener;

    /// A connection that waits.
    struct Stranger {
        place: Place,
        /// Whether one was closed for it.
        closed: bool,
        far: TcpStream,
        _near: TcpStream,
    }

    fn connect(admission: &Arc<Admission>) -> Stranger {
        let listener = TcpListener::bind("127.0.0.1:0").unwrap();
        let far = TcpStream::connect(listener.local_addr().unwrap()).unwrap();
        far.set_nonblocking(true).unwrap();
        let (near, from) = listener.accept().unwrap();
        let (place, closed) = admission.admit(&near, from).unwrap();
        Stranger {
            place,
            closed: closed.is_some(),
            far,
            _near: near,
        }
    }

    impl Stranger {
        fn is_open(&mut self) -> bool {
            let read = self.far.read(&mut [0]);
            read.is_err_and(|e| e.kind() == ErrorKind::WouldBlock)
        }
    }

    #[test]
    fn a_new_one_takes_the_place_of_the_oldest() {
        let admission = Admission::new(2);
        let mut all: Vec<_> = (0..4).map(|_| connect(&admission)).collect();
        let closed: Vec<_> = all.iter().map(|one| one.closed).collect();
        assert_eq!(closed, [false, false, true, true]);
        let open: Vec<_> = all.iter_mut().map(Stranger::is_open).collect();
        assert_eq!(open, [false, false, true, true]);
        let left: Vec<_> = all.iter().map(|one| one.place.leave()).collect();
        assert_eq!(left, [false, false, true, true]);
    }

    #[test]
    fn one_past_its_hello_is_not_counted() {
        let admission = Admission::new(1);
        let mut peer = connect(&admission);
        assert!(peer.place.leave());
        assert!(!connect(&admission).closed);
        let (_first, second) = (connect(&admission), connect(&admission));
        assert!(second.closed && peer.is_open());
    }

    #[test]
    fn an_ended_one_gives_its_place_back() {
        let admission = Admission::new(1);
        for _ in 0..3 {
            assert!(!connect(&admission).closed);
        }
    }
}
