//! An end of the link, over the accesses that a driver makes.
use core::ptr;

use crate::error::{Error, done};

/// The accesses of a driver. Words have 32 bits and are counted from the region's base. Each call
/// is one access, made before the next one. Sequentially consistent accesses are always enough;
/// then [`Region::fence`] does nothing.
pub trait Region {
    /// Loads a word of the other's section, or the other's State.
    fn read(&mut self, word: u32, order: Order) -> u32;
    /// Stores a word of the own section.
    fn write(&mut self, word: u32, value: u32, order: Order);
    /// Makes a full fence.
    fn fence(&mut self);
    /// Writes the State register, and reads it back: the write may be posted.
    fn set_state(&mut self, state: u32);
    /// Writes `peer << 16 | vector` to the Doorbell register, after all stores before.
    fn ring(&mut self, peer: u32, vector: u32);
}

/// The order of an access relative to those before and after it (docs/ORDERS.md).
#[derive(Clone, Copy, Debug, PartialEq, Eq)]
pub enum Order {
    /// The access may move before or after its neighbours.
    Relaxed,
    /// A load before all accesses that follow it.
    Acquire,
    /// A store after all accesses before it.
    Release,
}

/// What [`walk`] finds in a configuration space. Sizes are in bytes. Without PCI, set `common`,
/// `out` and `table`, and `protocol` to [`Found::PROTOCOL`].
#[repr(C)]
#[derive(Clone, Copy, Debug, Default, PartialEq, Eq)]
pub struct Found {
    /// The common section.
    pub common: u64,
    /// Each output section.
    pub out: u64,
    /// Where the region is in guest-physical memory, if `has_base` is 1.
    pub base: u64,
    /// The State Table.
    pub table: u32,
    /// Sub-Class and Interface.
    pub protocol: u32,
    /// 1 if Privileged Control sets one-shot mode.
    pub one_shot: u32,
    /// 0: the region is at Base Address Register 2.
    pub has_base: u32,
    /// The vectors of MSI-X; 0: INTx.
    pub vectors: u32,
    /// The Base Address Register of the vectors.
    pub vectors_bar: u32,
    /// Their offset there.
    pub vectors_offset: u32,
    /// The Base Address Register of the pending bits.
    pub pending_bar: u32,
    /// Their offset there.
    pub pending_offset: u32,
}

impl Found {
    /// The protocol of the link.
    pub const PROTOCOL: u32 = 1;
}

/// What an end is made of.
#[derive(Clone, Copy, Debug)]
pub struct Setup {
    /// What [`walk`] found.
    pub found: Found,
    /// The Maximum Peers register.
    pub peers: u32,
    /// The ID register: 0 or 1.
    pub me: u32,
    /// The MTU, the same at both ends: 256 to 65,535.
    pub mtu: u32,
    /// The vector by which the other is rung: 1 if it has two or more, else 0.
    pub vector: u32,
    /// The version of the link, the same at both ends: 1 to 3.
    pub version: u32,
}

/// The state of an end, as in the State Table.
#[derive(Clone, Copy, Debug, PartialEq, Eq)]
pub enum State {
    /// No session.
    Reset,
    /// The end waits for the other.
    Init,
    /// Its section is clear: a session begins.
    Ready,
    /// Frames are exchanged.
    Run,
}

/// What became of a frame that was offered.
#[derive(Clone, Copy, Debug, PartialEq, Eq)]
#[must_use]
pub enum Outcome {
    /// The frame is published.
    Accepted,
    /// It doesn't fit: offer it again after the other had time to poll.
    Full,
    /// The end isn't in RUN.
    Down,
    /// A value of the other was refused meanwhile.
    Refused,
}

/// A field of the other's section.
#[derive(Clone, Copy, Debug, PartialEq, Eq)]
pub enum Field {
    /// The available index.
    AvailIndex,
    /// An available entry.
    AvailEntry,
    /// A descriptor's address.
    DescAddress,
    /// A descriptor's length.
    DescLength,
    /// A descriptor's flags.
    DescFlags,
    /// The used index.
    UsedIndex,
    /// The id of a used element.
    UsedId,
}

/// A value out of range. The end stays in RESET until [`Link::reset`].
#[derive(Clone, Copy, Debug, PartialEq, Eq)]
pub struct Refusal {
    /// The field.
    pub field: Field,
    /// The value as it was read.
    pub value: u64,
}

/// The counts of an end since it was made, each modulo 2^64.
#[repr(C)]
#[derive(Clone, Copy, Debug, Default, PartialEq, Eq)]
pub struct Counts {
    /// Sessions that the end opened.
    pub sessions: u64,
    /// Frames that it published.
    pub accepted: u64,
    /// Offers that found no room.
    pub full: u64,
    /// Offers and polls outside RUN.
    pub down: u64,
    /// Frames that it delivered.
    pub delivered: u64,
    /// Values that it refused.
    pub refused: u64,
}

mod sys {
    use super::{Counts, Found};

    #[repr(C)]
    pub struct End(pub *mut core::ffi::c_void);

    #[repr(C)]
    #[derive(Clone, Copy, Default)]
    pub struct Access {
        pub kind: u32,
        pub word: u32,
        pub value: u32,
        pub count: u32,
        pub order: u32,
        pub fence_before: u32,
        pub fence_after: u32,
    }

    #[repr(C)]
    #[derive(Clone, Copy, Default)]
    pub struct Note {
        pub kind: u32,
        pub field: u32,
        pub value: u64,
    }

    #[repr(C)]
    #[derive(Default)]
    pub struct Notes {
        pub count: u32,
        pub note: [Note; 2],
    }

    #[repr(C)]
    #[derive(Clone, Copy, Default)]
    pub struct Burst {
        pub word: u32,
        pub count: u32,
    }

    #[repr(C)]
    #[derive(Default)]
    pub struct Publication {
        pub bursts: [Burst; 3],
        pub index: u32,
        pub accepted: u32,
    }

    #[repr(C)]
    #[derive(Default)]
    pub struct Return {
        pub length: u32,
        pub element: u32,
        pub id: u32,
        pub index: u32,
        pub returned: u32,
    }

    #[repr(C)]
    #[derive(Default)]
    pub struct View {
        pub refused_value: u64,
        pub delivered: u64,
        pub refused_field: u32,
        pub state: u32,
        pub busy: u32,
        pub outcome: u32,
        pub longest: u32,
    }

    unsafe extern "C" {
        pub fn ivshm_walk(space: &[u8; 256], found: &mut Found) -> u32;
        pub fn ivshm_end_new_version(
            end: &mut End,
            found: &Found,
            peers: u32,
            me: u32,
            mtu: u32,
            vector: u32,
            version: u32,
        ) -> u32;
        pub fn ivshm_end_free(end: &mut End) -> u32;
        pub fn ivshm_end_begin(end: &mut End, call: u32) -> u32;
        pub fn ivshm_end_offer(end: &mut End, frame: *const u8, length: usize) -> u32;
        pub fn ivshm_end_next(end: &mut End, access: &mut Access) -> u32;
        pub fn ivshm_end_step(
            end: &mut End,
            value: u32,
            notes: &mut Notes,
            next: &mut Access,
        ) -> u32;
        pub fn ivshm_end_publish(
            end: &mut End,
            made: &mut Publication,
            room: *mut u8,
            size: usize,
            next: &mut Access,
        ) -> u32;
        pub fn ivshm_end_took_frame(
            end: &mut End,
            words: *const u8,
            size: usize,
            made: &mut Return,
            next: &mut Access,
        ) -> u32;
        pub fn ivshm_end_view(end: &mut End, view: &mut View) -> u32;
        pub fn ivshm_end_counts(end: &mut End, counts: &mut Counts) -> u32;
        pub fn ivshm_end_reset(end: &mut End) -> u32;
    }
}

const TICK: u32 = 0;
const POLL: u32 = 1;
const STOP: u32 = 2;

/// Finds the device in the 256 bytes of a configuration space, which need not be trusted. The
/// registers are at Base Address Register 0. The error is one of [`Error::OtherDevice`] to
/// [`Error::NoVendor`].
pub fn walk(space: &[u8; 256]) -> Result<Found, Error> {
    let mut found = Found::default();
    // SAFETY: both are references.
    done(unsafe { sys::ivshm_walk(space, &mut found) })?;
    Ok(found)
}

/// An end of the link. A driver ticks at vector 0 and every 10 ms, polls at the other vector and on
/// the timer too, since interrupts may be lost, and sends.
pub struct Link<'a, R: Region> {
    end: sys::End,
    region: R,
    room: &'a mut [u32],
    /// Whether a poll stopped at its budget.
    is_polling: bool,
}

// SAFETY: the handle's blocks belong to it alone, and the library has no data of its own.
unsafe impl<R: Region + Send> Send for Link<'_, R> {}

/// The step that a call is at.
enum Step {
    /// The access is next.
    Next(sys::Access),
    /// The call is over.
    Over,
}

impl<'a, R: Region> Link<'a, R> {
    /// Makes the end and writes State 0. `room` takes each frame that is delivered: as many words
    /// as the longest one, 65,553 bytes or the output section. [`Error::OtherDevice`] if the
    /// protocol is another one; otherwise the errors of `ivshm_end_new_version`.
    pub fn open(setup: &Setup, region: R, room: &'a mut [u32]) -> Result<Self, Error> {
        if setup.found.protocol != Found::PROTOCOL {
            return Err(Error::OtherDevice);
        }
        let mut link = Link {
            end: sys::End(ptr::null_mut()),
            region,
            room,
            is_polling: false,
        };
        let Setup {
            peers,
            me,
            mtu,
            vector,
            version,
            ..
        } = *setup;
        // SAFETY: the handle is empty, and both are references.
        done(unsafe {
            sys::ivshm_end_new_version(&mut link.end, &setup.found, peers, me, mtu, vector, version)
        })?;
        link.finish(&[], u32::MAX, |_| ())?;
        Ok(link)
    }

    /// Reads the other's State, and makes the move of the handshake.
    pub fn tick(&mut self) -> Result<(), Error> {
        self.begin(TICK)
    }

    /// Leaves the session: State 0.
    pub fn stop(&mut self) -> Result<(), Error> {
        self.begin(STOP)
    }

    /// Delivers at most `budget` frames, and returns their number. If it is less, the poll is over;
    /// otherwise the next poll continues it, and every other call is [`Error::CallOpen`] until
    /// then. [`Error::ShortRoom`] if a frame doesn't fit into the room: then it is left unread.
    pub fn poll(&mut self, budget: u32, deliver: impl FnMut(&[u8])) -> Result<u32, Error> {
        if budget == 0 {
            return Ok(0);
        }
        if !self.is_polling {
            // SAFETY: the handle is this end's.
            done(unsafe { sys::ivshm_end_begin(&mut self.end, POLL) })?;
        }
        self.is_polling = true;
        let (delivered, is_over) = self.finish(&[], budget, deliver)?;
        self.is_polling = !is_over;
        Ok(delivered)
    }

    /// Offers a frame. [`Error::ShortFrame`] and [`Error::LongFrame`] if its length is out of
    /// range.
    pub fn send(&mut self, frame: &[u8]) -> Result<Outcome, Error> {
        // SAFETY: the frame is a slice.
        done(unsafe { sys::ivshm_end_offer(&mut self.end, frame.as_ptr(), frame.len()) })?;
        self.finish(frame, u32::MAX, |_| ())?;
        Ok(match self.view().outcome {
            2 => Outcome::Accepted,
            3 => Outcome::Full,
            5 => Outcome::Down,
            _ => Outcome::Refused,
        })
    }

    /// Begins anew after a reset of the own device, or after a refusal. An open poll is cut.
    pub fn reset(&mut self) -> Result<(), Error> {
        // SAFETY: the handle is this end's.
        done(unsafe { sys::ivshm_end_reset(&mut self.end) })?;
        self.is_polling = false;
        self.finish(&[], u32::MAX, |_| ()).map(|_| ())
    }

    /// The state that the end wrote last.
    pub fn state(&mut self) -> State {
        match self.view().state {
            0 => State::Reset,
            1 => State::Init,
            2 => State::Ready,
            _ => State::Run,
        }
    }

    /// The value that was refused since the last reset.
    pub fn refusal(&mut self) -> Option<Refusal> {
        let view = self.view();
        let field = match view.refused_field {
            1 => Field::AvailIndex,
            2 => Field::AvailEntry,
            3 => Field::DescAddress,
            4 => Field::DescLength,
            5 => Field::DescFlags,
            6 => Field::UsedIndex,
            7 => Field::UsedId,
            _ => return None,
        };
        Some(Refusal {
            field,
            value: view.refused_value,
        })
    }

    /// The counts of the end.
    pub fn counts(&mut self) -> Counts {
        let mut counts = Counts::default();
        // SAFETY: both are references.
        unsafe { sys::ivshm_end_counts(&mut self.end, &mut counts) };
        counts
    }

    /// The accesses of the driver.
    pub fn region(&mut self) -> &mut R {
        &mut self.region
    }

    fn view(&mut self) -> sys::View {
        let mut view = sys::View::default();
        // SAFETY: both are references.
        unsafe { sys::ivshm_end_view(&mut self.end, &mut view) };
        view
    }

    fn begin(&mut self, call: u32) -> Result<(), Error> {
        // SAFETY: the handle is this end's.
        done(unsafe { sys::ivshm_end_begin(&mut self.end, call) })?;
        self.finish(&[], u32::MAX, |_| ()).map(|_| ())
    }

    /// Makes the steps of the open call, until it is over or has delivered `budget` frames. Returns
    /// the number of these, and whether the call is over.
    fn finish(
        &mut self,
        offered: &[u8],
        budget: u32,
        mut deliver: impl FnMut(&[u8]),
    ) -> Result<(u32, bool), Error> {
        let (mut access, mut delivered) = (sys::Access::default(), 0);
        // SAFETY: both are references.
        if unsafe { sys::ivshm_end_next(&mut self.end, &mut access) } != 0 {
            return Ok((0, true));
        }
        loop {
            let step = if access.kind == 1 && access.count > 0 {
                if delivered == budget {
                    return Ok((delivered, false));
                }
                let (length, step) = self.take_frame(&access)?;
                delivered += 1;
                deliver(&bytes_of(self.room)[..length]);
                step
            } else if access.kind == 2 && access.count > 0 && !offered.is_empty() {
                self.publish(offered)?
            } else {
                self.make(&access)
            };
            match step {
                Step::Next(next) => access = next,
                Step::Over => return Ok((delivered, true)),
            }
        }
    }

    /// Makes one access.
    fn make(&mut self, access: &sys::Access) -> Step {
        let order = match access.order {
            1 => Order::Acquire,
            2 => Order::Release,
            _ => Order::Relaxed,
        };
        if access.fence_before != 0 {
            self.region.fence();
        }
        let mut value = 0;
        match access.kind {
            1 => value = self.region.read(access.word, order),
            2 => self.region.write(access.word, access.value, order),
            3 => self.region.set_state(access.value),
            4 => self.region.ring(access.word, access.value),
            _ => (),
        }
        if access.fence_after != 0 {
            self.region.fence();
        }
        let (mut notes, mut next) = (sys::Notes::default(), sys::Access::default());
        // SAFETY: all are references.
        let status = unsafe { sys::ivshm_end_step(&mut self.end, value, &mut notes, &mut next) };
        if status == 0 {
            Step::Next(next)
        } else {
            Step::Over
        }
    }

    /// Rings if that is the access after a frame: the library has completed it then.
    fn ring_after(&mut self, next: sys::Access) -> Step {
        if next.kind != 4 {
            return Step::Next(next);
        }
        self.region.ring(next.word, next.value);
        Step::Over
    }

    /// Makes the writes that publish the frame, the index last.
    fn publish(&mut self, frame: &[u8]) -> Result<Step, Error> {
        let (mut made, mut tail, mut next) =
            (sys::Publication::default(), [0; 20], sys::Access::default());
        // SAFETY: the room is an array, and the others are references.
        done(unsafe {
            sys::ivshm_end_publish(
                &mut self.end,
                &mut made,
                tail.as_mut_ptr(),
                tail.len(),
                &mut next,
            )
        })?;
        let written = frame.len().div_ceil(4) - made.bursts[0].count as usize;
        let words = made
            .bursts
            .iter()
            .flat_map(|burst| burst.word..burst.word + burst.count);
        for (word, bytes) in words.zip(frame.chunks(4).skip(written).chain(tail.chunks(4))) {
            self.region.write(word, word_of(bytes), Order::Relaxed);
        }
        self.region.write(made.index, made.accepted, Order::Release);
        Ok(self.ring_after(next))
    }

    /// Reads all words of a frame into the room and returns the frame. Returns its length.
    fn take_frame(&mut self, first: &sys::Access) -> Result<(usize, Step), Error> {
        let room = self
            .room
            .get_mut(..first.count as usize)
            .ok_or(Error::ShortRoom)?;
        for (word, at) in (first.word..).zip(room.iter_mut()) {
            *at = self.region.read(word, Order::Relaxed).to_le();
        }
        let (size, words) = (4 * room.len(), room.as_ptr().cast());
        let (mut made, mut next) = (sys::Return::default(), sys::Access::default());
        // SAFETY: the words are those of the room, and the others are references.
        done(unsafe {
            sys::ivshm_end_took_frame(&mut self.end, words, size, &mut made, &mut next)
        })?;
        self.region.write(made.element, made.id, Order::Relaxed);
        self.region.write(made.element + 1, 1, Order::Relaxed);
        self.region.write(made.index, made.returned, Order::Release);
        Ok((made.length as usize, self.ring_after(next)))
    }
}

impl<R: Region> Drop for Link<'_, R> {
    /// Frees the end. Stop it first: the other sees no State 0 otherwise.
    fn drop(&mut self) {
        // SAFETY: the handle is this end's, or empty.
        unsafe { sys::ivshm_end_free(&mut self.end) };
    }
}

/// The word of these bytes, the lowest first, with 0 for missing bytes.
fn word_of(bytes: &[u8]) -> u32 {
    bytes
        .iter()
        .rev()
        .fold(0, |word, byte| word << 8 | u32::from(*byte))
}

/// The bytes of these words.
fn bytes_of(words: &[u32]) -> &[u8] {
    // SAFETY: each word is four bytes.
    unsafe { core::slice::from_raw_parts(words.as_ptr().cast(), size_of_val(words)) }
}
