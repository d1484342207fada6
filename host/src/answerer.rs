//! A hello judged for several accepted peers.

use crate::answer::{Answer, Refusal};
use crate::session::{Session, Step, READING_ROOM};
use crate::store::Store;

/// Our name and those of all peers that may call us, for a host with several peers on one listener.
///
/// A session accepts one peer. [`Answerer::judge`] finds in a hello whom it is from, and offers it once, to a session for that peer. The
/// session judges all of it, the name too. No store is needed, so a host holds no lock meanwhile.
///
/// ```
/// use peers::{Answer, Answerer, READING_ROOM};
///
/// let answerer = Answerer::new(b"east", ["north", "west"])?;
/// let came = b"HAProxyS 2.1\neast\nwest 7 0\n\0\x04"; // all that came so far
/// let mut room = [0; READING_ROOM];
/// let judged = answerer.judge(came, &mut room);
/// if judged.step.answer != Answer::More { // else wait for more bytes, and judge all of them anew
///     assert_eq!(judged.step.reply, b"200\n"); // goes to the peer, also where the hello is refused
///     assert_eq!(judged.peer, Some(1));
///     assert_eq!(came[judged.step.taken..], [0, 4]); // is read next, by judged.session
/// }
/// # Ok::<(), peers::Refusal>(())
/// ```
#[derive(Clone, Debug, PartialEq, Eq)]
pub struct Answerer {
    local: Vec<u8>,
    accepted: Vec<Vec<u8>>,
}

/// What a hello came to.
#[derive(Clone, Debug, PartialEq, Eq)]
pub struct Judged<'a> {
    /// Past its handshake, or closed by a refusal. Where more bytes are wanted it isn't used: all of them are judged anew.
    pub session: Session,
    /// Whose hello it is, by the place among the accepted names; nothing where it is refused or more bytes are wanted.
    pub peer: Option<usize>,
    /// The reading call's answer, its reply, and how many bytes the hello has.
    pub step: Step<'a>,
}

impl Answerer {
    /// Takes our name and the accepted peers', each 1 to 32 bytes from 33 to 126.
    ///
    /// # Errors
    ///
    /// [`Refusal::Name`], also where no peer is accepted.
    pub fn new<N: AsRef<[u8]>>(
        local: &[u8],
        accepted: impl IntoIterator<Item = N>,
    ) -> Result<Answerer, Refusal> {
        let accepted = accepted.into_iter().map(|name| {
            let name = name.as_ref();
            Session::answerer(local, name).map(|_| name.to_vec())
        });
        let accepted = accepted.collect::<Result<Vec<_>, _>>()?;
        if accepted.is_empty() {
            return Err(Refusal::Name);
        }
        Ok(Answerer {
            local: local.to_vec(),
            accepted,
        })
    }

    /// Judges all bytes that came from a caller so far. The answer is [`Answer::More`], [`Answer::Hello`], or a refusal that closed the
    /// session: [`Refusal::Sender`] where the sender isn't accepted.
    pub fn judge<'a>(&self, came: &[u8], room: &'a mut [u8; READING_ROOM]) -> Judged<'a> {
        let sender = sender(came);
        let peer = self.accepted.iter().position(|name| name == sender);
        // whom no name is found for, any session refuses
        let remote = &self.accepted[peer.unwrap_or(0)];
        let mut session =
            Session::answerer(&self.local, remote).expect("it was opened with these names before");
        let step = session.read(&mut Store::boxed(), came, room);
        let accepted = matches!(step.answer, Answer::Hello { .. });
        Judged {
            session,
            peer: peer.filter(|_| accepted),
            step,
        }
    }
}

/// The sender's name: what stands in the third line before a space. It may be cut short where more bytes are wanted.
fn sender(hello: &[u8]) -> &[u8] {
    let third = hello.splitn(3, |&byte| byte == b'\n').nth(2);
    let mut words = third.unwrap_or(&[]).split(|&byte| byte == b' ');
    words.next().unwrap_or(&[])
}
