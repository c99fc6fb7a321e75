//! Two ends of a link over the words of this process, each in a thread of its own.
use std::sync::Arc;
use std::sync::atomic::{AtomicU32, Ordering::SeqCst};
use std::thread;

use ivshm::{Error, Field, Found, Link, Order, Outcome, Region, Setup, State};

const TABLE: u32 = 4096;
const OUT: u32 = 16_384;
const ROOM: usize = OUT as usize / 4;

/// The region, as each of two peers maps it.
#[derive(Clone)]
struct Shared {
    words: Arc<[AtomicU32]>,
    me: u32,
}

impl Shared {
    fn pair() -> [Shared; 2] {
        let words: Arc<[AtomicU32]> = (0..(TABLE + 2 * OUT) / 4)
            .map(|_| AtomicU32::new(0))
            .collect();
        [0, 1].map(|me| Shared {
            words: words.clone(),
            me,
        })
    }

    /// The first word of a peer's section.
    fn section(peer: u32) -> u32 {
        (TABLE + peer * OUT) / 4
    }
}

impl Region for Shared {
    fn read(&mut self, word: u32, _: Order) -> u32 {
        assert!(
            word == 1 - self.me
                || word >= Self::section(1 - self.me) && word < Self::section(2 - self.me)
        );
        self.words[word as usize].load(SeqCst)
    }
    fn write(&mut self, word: u32, value: u32, _: Order) {
        assert!(word >= Self::section(self.me) && word < Self::section(self.me + 1));
        self.words[word as usize].store(value, SeqCst);
    }
    fn fence(&mut self) {}
    fn set_state(&mut self, state: u32) {
        self.words[self.me as usize].store(state, SeqCst);
    }
    fn ring(&mut self, peer: u32, vector: u32) {
        assert_eq!((peer, vector), (1 - self.me, 1));
    }
}

fn setup(me: u32, version: u32) -> Setup {
    let found = Found {
        table: TABLE,
        out: OUT.into(),
        protocol: Found::PROTOCOL,
        ..Found::default()
    };
    Setup {
        found,
        peers: 2,
        me,
        mtu: 256,
        vector: 1,
        version,
    }
}

fn frame(number: u32) -> Vec<u8> {
    (0..14 + number % 261)
        .map(|at| (31 * number + 7 * at) as u8)
        .collect()
}

#[test]
fn frames_cross_in_each_version() {
    const FRAMES: u32 = 1_000;
    for version in 1..=3 {
        let ends = Shared::pair().map(|region| {
            thread::spawn(move || {
                let me = region.me;
                let mut room = [0; ROOM];
                let mut link =
                    Link::open(&setup(me, version), region, &mut room).expect("sizes of a region");
                let (mut sent, mut taken) = (0, 0);
                while sent < FRAMES || taken < FRAMES || link.counts().delivered < FRAMES.into() {
                    link.tick().expect("no poll is open");
                    while sent < FRAMES && link.send(&frame(sent)) == Ok(Outcome::Accepted) {
                        sent += 1;
                    }
                    while link.poll(16, |found| {
                        assert_eq!(found, frame(taken));
                        taken += 1;
                    }) == Ok(16)
                    {}
                    thread::yield_now();
                }
                assert_eq!(link.refusal(), None);
                (sent, taken)
            })
        });
        for end in ends {
            assert_eq!(end.join().expect("an end panicked"), (FRAMES, FRAMES));
        }
    }
}

#[test]
fn lengths_peers_and_protocols_have_their_errors() {
    let [region, _] = Shared::pair();
    let mut room = [0; ROOM];
    let opened = |setup: Setup, region: &Shared, room: &mut [u32]| {
        Link::open(&setup, region.clone(), room).err()
    };
    assert_eq!(
        opened(
            Setup {
                me: 2,
                ..setup(0, 1)
            },
            &region,
            &mut room
        ),
        Some(Error::BadPeer)
    );
    assert_eq!(
        opened(
            Setup {
                mtu: 255,
                ..setup(0, 1)
            },
            &region,
            &mut room
        ),
        Some(Error::BadMtu)
    );
    assert_eq!(
        opened(setup(0, 4), &region, &mut room),
        Some(Error::BadVersion)
    );
    let other = Found {
        protocol: 2,
        ..setup(0, 1).found
    };
    assert_eq!(
        opened(
            Setup {
                found: other,
                ..setup(0, 1)
            },
            &region,
            &mut room
        ),
        Some(Error::OtherDevice)
    );
    let mut link = Link::open(&setup(0, 1), region, &mut room).expect("sizes of a region");
    assert_eq!(link.send(&[0; 13]), Err(Error::ShortFrame));
    assert_eq!(link.send(&[0; 275]), Err(Error::LongFrame));
    assert_eq!(link.send(&[0; 14]), Ok(Outcome::Down));
    assert_eq!(link.state(), State::Reset);
    assert_eq!(
        Error::ShortFrame.to_string(),
        "the frame is shorter than 14 bytes"
    );
}

#[test]
fn a_hostile_index_is_refused() {
    let [region, _] = Shared::pair();
    let words = region.words.clone();
    let mut room = [0; ROOM];
    let mut link = Link::open(&setup(0, 1), region, &mut room).expect("sizes of a region");
    for state in [1, 2, 2] {
        link.tick().expect("no poll is open");
        words[1].store(state, SeqCst);
    }
    link.tick().expect("no poll is open");
    assert_eq!(link.state(), State::Run);
    // the available index of a queue of 64 descriptors
    words[Shared::section(1) as usize + 256].store(65 << 16, SeqCst);
    assert_eq!(link.poll(8, |_| panic!("no frame is due")), Ok(0));
    assert_eq!(
        link.refusal().map(|it| (it.field, it.value)),
        Some((Field::AvailIndex, 65))
    );
    assert_eq!(link.state(), State::Reset);
    link.reset().expect("a reset");
    assert_eq!(link.refusal(), None);
}
