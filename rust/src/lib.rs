//! An end of a virtual Ethernet link over an Inter-VM Shared Memory device, version 2, and the
//! device itself, by the two proved C libraries of this repository.
//!
//! - [`Link`] is an end: a driver implements [`Region`], the accesses to the mapped region and to
//!   the registers, and calls [`Link::tick`], [`Link::poll`] and [`Link::send`].
//! - [`Devices`] are the devices of a world, for a virtual machine monitor: it passes the accesses
//!   of its guests on, and carries out the [`Effect`] that comes back.
//!
//! What is proved is what `c/ivshm_c.h` and `c/ivshm_device.h` say, of the libraries. This crate
//! isn't proved. It is small, keeps those duties of the headers that types can keep, and its tests
//! try the others.
#![no_std]
#![warn(missing_docs)]

#[cfg(any(feature = "alloc", test))]
extern crate alloc;

#[cfg(feature = "device")]
mod device;
mod error;
#[cfg(feature = "alloc")]
mod heap;
#[cfg(feature = "link")]
mod link;

#[cfg(feature = "device")]
pub use device::{Delivery, Devices, Effect, Message, Window, World};
pub use error::Error;
#[cfg(feature = "link")]
pub use link::{Counts, Field, Found, Link, Order, Outcome, Refusal, Region, Setup, State, walk};
