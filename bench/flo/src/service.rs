//! What the packets of a flow have to be.

use crate::sync::SyncHeader;

pub trait Service {
    /// Admits a packet, or refuses it with a number.
    fn admit(&self, packet: &[u8]) -> Result<(), u8>;
}

/// Admits every packet.
#[derive(Clone, Copy, Debug, Default)]
pub struct Plain;

impl Service for Plain {
    #[inline]
    fn admit(&self, _: &[u8]) -> Result<(), u8> {
        Ok(())
    }
}

/// Admits a lawful sync header with a payload behind it.
#[derive(Clone, Copy, Debug, Default)]
pub struct Sync;

impl Service for Sync {
    #[inline]
    fn admit(&self, packet: &[u8]) -> Result<(), u8> {
        SyncHeader::read(packet).map(|_| ())
    }
}
