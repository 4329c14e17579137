//! Messages whose octets come in pieces.

use crate::ffi::{self, Fault};
use crate::{Error, Held, Rules, Type, Value, look};

/// What a session answers to a piece that it took.
pub enum Fed {
    /// The octets so far begin with the encoding of `value`, which ends after the first `used` octets of this piece.
    Done {
        /// The value.
        value: Value,
        /// How many octets of the piece belong to it.
        used: usize,
    },
    /// The octets so far are no whole encoding, and one may still follow.
    More,
}

/// A message whose octets come in pieces. It outlives its type.
///
/// What it answers depends on all octets that it took, and not on how they were cut. It goes on where the last piece
/// ended.
///
/// ```
/// use tulvorn::{Error, Fed, Module, Rules};
///
/// let module = Module::read(
///     "M DEFINITIONS AUTOMATIC TAGS ::= BEGIN
///     Msg ::= SEQUENCE { id INTEGER (0..7), note IA5String } END",
/// )?;
/// let mut session = module.ty("Msg")?.open(Rules::Oer)?;
/// assert!(matches!(session.feed(&[5, 2, b'h'])?, Fed::More));
/// let Fed::Done { value, used } = session.feed(&[b'i', 6, 0])? else { panic!() };
/// assert_eq!((value.at("note").as_text().as_deref(), used), (Some("hi"), 1));
/// session.finish()?;
/// # Ok::<(), Error>(())
/// ```
pub struct Session {
    held: Held,
    rules: Rules,
}

impl Type {
    /// A session for a value of the type, which has taken no octet.
    ///
    /// # Errors
    /// `Memory`.
    pub fn open(&self, rules: Rules) -> Result<Session, Error> {
        let mut held = Held::nothing();
        // SAFETY: the two handles are two objects'.
        let code = unsafe { ffi::tulvorn_open(self.0.get(), rules as u32, held.fill()) };
        look(code, Fault { code, why: 0, at: 0 }, rules)?;
        Ok(Session { held, rules })
    }
}

impl Session {
    /// Takes the next piece.
    ///
    /// # Errors
    /// `Refused` where no encoding begins so: `at` is the first unit of the message, over all its pieces, after which
    /// none can follow. `TooLong`, `Memory`. A session that answered `Refused` or `TooLong` answers the same to each
    /// further piece, and one that answered `Done` or `Memory` answers `Spent`.
    pub fn feed(&mut self, piece: &[u8]) -> Result<Fed, Error> {
        let (mut value, mut used, mut fault) = (Held::nothing(), 0, Fault::default());
        // SAFETY: the pointer and the length are those of one slice, and the two handles are two objects'.
        let code = unsafe {
            ffi::tulvorn_feed(
                self.held.fill(),
                piece.as_ptr(),
                piece.len(),
                value.fill(),
                &raw mut used,
                &raw mut fault,
            )
        };
        if code == 19 {
            return Ok(Fed::More);
        }
        look(code, fault, self.rules)?;
        Ok(Fed::Done { value: Value::of(value), used })
    }

    /// Ends the session. Takes no memory.
    ///
    /// `Ok` says that the octets that it took are a whole encoding, and not that a value was given, which `Done` of
    /// `feed` alone says: after `Memory` of `feed` no value comes any more, and this is `Ok` where the octets taken are
    /// a whole encoding; so it is of a session that took no octet, where the encoding of a value has none, as that of
    /// NULL in OER.
    ///
    /// # Errors
    /// `Truncated` where the octets that it took are no whole encoding: `taken` is how many units were taken while one
    /// could still follow, also of a session that answered `Refused` or `TooLong`.
    pub fn finish(mut self) -> Result<(), Error> {
        let mut fault = Fault::default();
        // SAFETY: the handle is this object's.
        let code = unsafe { ffi::tulvorn_finish(self.held.fill(), &raw mut fault) };
        look(code, fault, self.rules)
    }
}
