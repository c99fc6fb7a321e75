//! The devices of a world, for a virtual machine monitor.
use core::ptr;

use crate::error::{Error, done};

/// A world of 2 to 8 peers. Sizes are in bytes.
#[repr(C)]
#[derive(Clone, Copy, Debug, Default, PartialEq, Eq)]
pub struct World {
    /// The common section, which may be 0.
    pub common: u64,
    /// Each output section.
    pub out: u64,
    /// The guest-physical address of the region, or 0: in the window of Base Address Register 2.
    pub base: u64,
    /// The number of peers.
    pub peers: u32,
    /// The State Table.
    pub table: u32,
    /// The MSI-X vectors of each peer; 0: INTx.
    pub vectors: u32,
}

/// A window of a peer's device.
#[repr(u32)]
#[derive(Clone, Copy, Debug, PartialEq, Eq)]
pub enum Window {
    /// The configuration space.
    Config = 0,
    /// The register page, Base Address Register 0.
    Registers = 1,
    /// The MSI-X region, Base Address Register 1.
    Msix = 2,
}

/// An interrupt that reaches a peer.
#[repr(C)]
#[derive(Clone, Copy, Debug, Default, PartialEq, Eq)]
pub struct Delivery {
    /// The peer.
    pub peer: u32,
    /// The vector, 0 with INTx.
    pub vector: u32,
}

/// What the monitor has to do after a call, before the guest's access completes: store the State,
/// then inject the deliveries.
#[repr(C)]
#[derive(Clone, Copy, Debug, Default, PartialEq, Eq)]
#[must_use]
pub struct Effect {
    writes_state: u32,
    state: u32,
    count: u32,
    deliveries: [Delivery; 8],
}

impl Effect {
    /// The value that the calling peer's word of the State Table becomes.
    pub fn state(&self) -> Option<u32> {
        (self.writes_state != 0).then_some(self.state)
    }

    /// The deliveries, by ascending peer.
    pub fn deliveries(&self) -> &[Delivery] {
        &self.deliveries[..(self.count as usize).min(8)]
    }
}

/// The message of an MSI-X vector.
#[repr(C)]
#[derive(Clone, Copy, Debug, Default, PartialEq, Eq)]
pub struct Message {
    /// The address that is written to.
    pub address: u64,
    /// The data.
    pub data: u32,
}

#[repr(C)]
struct Handle(*mut core::ffi::c_void);

#[repr(C)]
struct Access {
    value: u64,
    window: u32,
    offset: u32,
    width: u32,
}

unsafe extern "C" {
    fn ivshm_device_new_at(device: &mut Handle, world: &World) -> u32;
    fn ivshm_device_free(device: &mut Handle) -> u32;
    fn ivshm_device_mmio_read(device: &mut Handle, peer: u32, access: &mut Access) -> u32;
    fn ivshm_device_mmio_write(
        device: &mut Handle,
        peer: u32,
        access: &Access,
        effect: &mut Effect,
    ) -> u32;
    fn ivshm_device_reset(device: &mut Handle, peer: u32, effect: &mut Effect) -> u32;
    fn ivshm_device_disconnect(device: &mut Handle, peer: u32, effect: &mut Effect) -> u32;
    fn ivshm_device_connect(device: &mut Handle, peer: u32) -> u32;
    fn ivshm_device_message(
        device: &mut Handle,
        peer: u32,
        vector: u32,
        message: &mut Message,
    ) -> u32;
}

/// The devices of a world. One monitor has all of them, or one process for each guest has its own
/// (docs/DEVICE_C.md).
pub struct Devices(Handle);

// SAFETY: the handle's blocks belong to it alone, and the library has no data of its own.
unsafe impl Send for Devices {}

// SAFETY of the calls below: each pointer is a reference, and `&mut self` gives the handle to one
// call at a time.
impl Devices {
    /// Makes the devices. All peers are connected and at reset, and all words of the State Table
    /// are 0. The errors are those of `ivshm_device_new_at`.
    pub fn new(world: &World) -> Result<Devices, Error> {
        let mut devices = Devices(Handle(ptr::null_mut()));
        done(unsafe { ivshm_device_new_at(&mut devices.0, world) })?;
        Ok(devices)
    }

    /// Reads `data.len()` bytes of a window, 1, 2, 4 or 8, as a bus passes them on. An access that
    /// the device doesn't have reads 0. [`Error::BadPeer`], [`Error::BadAccess`].
    pub fn read(
        &mut self,
        peer: u32,
        window: Window,
        offset: u32,
        data: &mut [u8],
    ) -> Result<(), Error> {
        let mut access = Access {
            value: 0,
            window: window as u32,
            offset,
            width: data.len().try_into().unwrap_or(0),
        };
        done(unsafe { ivshm_device_mmio_read(&mut self.0, peer, &mut access) })?;
        data.copy_from_slice(&access.value.to_le_bytes()[..data.len()]);
        Ok(())
    }

    /// Writes `data.len()` bytes of a window, 1, 2, 4 or 8. An access that the device doesn't have
    /// is ignored. [`Error::BadPeer`], [`Error::BadAccess`].
    pub fn write(
        &mut self,
        peer: u32,
        window: Window,
        offset: u32,
        data: &[u8],
    ) -> Result<Effect, Error> {
        let value = data
            .iter()
            .rev()
            .fold(0, |value, byte| value << 8 | u64::from(*byte));
        let access = Access {
            value,
            window: window as u32,
            offset,
            width: data.len().try_into().unwrap_or(0),
        };
        self.effect(|device, effect| unsafe {
            ivshm_device_mmio_write(device, peer, &access, effect)
        })
    }

    /// Resets a peer: the guest was reset. [`Error::BadPeer`].
    pub fn reset(&mut self, peer: u32) -> Result<Effect, Error> {
        self.effect(|device, effect| unsafe { ivshm_device_reset(device, peer, effect) })
    }

    /// Resets a peer, to which nothing is delivered until [`Devices::connect`]. [`Error::BadPeer`].
    pub fn disconnect(&mut self, peer: u32) -> Result<Effect, Error> {
        self.effect(|device, effect| unsafe { ivshm_device_disconnect(device, peer, effect) })
    }

    /// Connects a peer again, at reset. [`Error::BadPeer`].
    pub fn connect(&mut self, peer: u32) -> Result<(), Error> {
        done(unsafe { ivshm_device_connect(&mut self.0, peer) })
    }

    /// The message of a vector of a peer, masked or not. [`Error::BadPeer`], [`Error::BadVector`].
    pub fn message(&mut self, peer: u32, vector: u32) -> Result<Message, Error> {
        let mut message = Message::default();
        done(unsafe { ivshm_device_message(&mut self.0, peer, vector, &mut message) })?;
        Ok(message)
    }

    fn effect(
        &mut self,
        call: impl FnOnce(&mut Handle, &mut Effect) -> u32,
    ) -> Result<Effect, Error> {
        let mut effect = Effect::default();
        done(call(&mut self.0, &mut effect))?;
        Ok(effect)
    }
}

impl Drop for Devices {
    fn drop(&mut self) {
        unsafe { ivshm_device_free(&mut self.0) };
    }
}
