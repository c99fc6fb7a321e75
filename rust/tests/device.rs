//! The devices, as a monitor calls them.
use ivshm::{Delivery, Devices, Error, Message, Window, World, walk};

const WORLD: World = World {
    common: 0,
    out: 16_384,
    base: 1 << 32,
    peers: 2,
    table: 4096,
    vectors: 2,
};
const CONTROL: u32 = 0x08;
const DOORBELL: u32 = 0x0c;
const STATE: u32 = 0x10;

fn register(devices: &mut Devices, peer: u32, offset: u32, value: u32) -> ivshm::Effect {
    devices
        .write(peer, Window::Registers, offset, &value.to_le_bytes())
        .expect("a register")
}

/// Devices whose peer 0 takes interrupts, with a message for each of its vectors.
fn listening() -> Devices {
    let mut devices = Devices::new(&WORLD).expect("a world");
    let write = |devices: &mut Devices, window, offset, data: &[u8]| {
        let effect = devices.write(0, window, offset, data).expect("an access");
        assert_eq!((effect.state(), effect.deliveries()), (None, &[][..]));
    };
    write(&mut devices, Window::Config, 4, &[6, 0]);
    let mut space = [0; 256];
    for (at, bytes) in (0..).step_by(4).zip(space.chunks_mut(4)) {
        devices
            .read(0, Window::Config, at, bytes)
            .expect("an aligned read");
    }
    assert_eq!(
        walk(&space).map(|found| (found.out, found.base, found.vectors)),
        Ok((16_384, 1 << 32, 2))
    );
    let capability = (0x40..0xff)
        .step_by(4)
        .find(|at| space[*at] == 0x11)
        .expect("MSI-X");
    write(
        &mut devices,
        Window::Config,
        capability as u32 + 2,
        &[0, 0x80],
    );
    for vector in 0..2 {
        write(
            &mut devices,
            Window::Msix,
            16 * vector,
            &0xfee0_0000_u64.to_le_bytes(),
        );
        write(
            &mut devices,
            Window::Msix,
            16 * vector + 8,
            &(0x40 + vector).to_le_bytes(),
        );
        write(&mut devices, Window::Msix, 16 * vector + 12, &[0; 4]);
    }
    write(
        &mut devices,
        Window::Registers,
        CONTROL,
        &1_u32.to_le_bytes(),
    );
    devices
}

#[test]
fn a_state_and_a_doorbell_interrupt_the_other() {
    let mut devices = listening();
    let effect = register(&mut devices, 1, STATE, 3);
    assert_eq!(
        (effect.state(), effect.deliveries()),
        (Some(3), &[Delivery { peer: 0, vector: 0 }][..])
    );
    let effect = register(&mut devices, 1, DOORBELL, 1);
    assert_eq!(
        (effect.state(), effect.deliveries()),
        (None, &[Delivery { peer: 0, vector: 1 }][..])
    );
    assert_eq!(
        devices.message(0, 1),
        Ok(Message {
            address: 0xfee0_0000,
            data: 0x41
        })
    );
    assert_eq!(devices.message(0, 2), Err(Error::BadVector));
    let effect = devices.disconnect(1).expect("a peer");
    assert_eq!(
        (effect.state(), effect.deliveries()),
        (Some(0), &[Delivery { peer: 0, vector: 0 }][..])
    );
    assert_eq!(devices.connect(1), Ok(()));
    assert_eq!(devices.reset(2).err(), Some(Error::BadPeer));
}

#[test]
fn sizes_and_widths_have_their_errors() {
    assert_eq!(
        Devices::new(&World { peers: 9, ..WORLD }).err(),
        Some(Error::BadPeers)
    );
    assert_eq!(
        Devices::new(&World { out: 4097, ..WORLD }).err(),
        Some(Error::BadOut)
    );
    assert_eq!(
        Devices::new(&World { base: 1, ..WORLD }).err(),
        Some(Error::BadBase)
    );
    let mut devices = Devices::new(&WORLD).expect("a world");
    assert_eq!(
        devices.read(0, Window::Config, 0, &mut [0; 3]),
        Err(Error::BadAccess)
    );
    let mut identity = [0; 4];
    assert_eq!(devices.read(1, Window::Config, 0, &mut identity), Ok(()));
    assert_eq!(identity, 0x4106_110a_u32.to_le_bytes());
}
