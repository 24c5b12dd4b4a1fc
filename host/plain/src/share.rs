//! The share packets: export, import and release of a token.

use crate::bytes::{u32_at, u64_at, Field};
use crate::errors::Error;
use crate::resources::{Resource, Resources};
use crate::tokens::Tokens;

/// An export or import packet.
#[derive(Clone, Copy, Debug)]
pub(crate) struct Share {
    handle: u32,
    token: u64,
}

impl Share {
    /// The named fields of export and import.
    pub(crate) const FIELDS: &'static [Field] = &[(8, 4), (16, 8)];

    pub(crate) fn read(packet: &[u8]) -> Share {
        Share {
            handle: u32_at(packet, 8),
            token: u64_at(packet, 16),
        }
    }

    /// Binds the token to the resource that has this handle among its names.
    pub(crate) fn export(
        &self,
        resources: &mut Resources,
        tokens: &mut Tokens,
    ) -> Result<(), Error> {
        let resource = resources.find_mut(self.handle).ok_or(Error::Handle)?;
        if !resource.shape.is_one_image() {
            return Err(Error::Shape);
        }
        // Without a number it has no other name that would have to follow.
        resource.surface = tokens.bind(self.token, resource.surface)?;
        Ok(())
    }

    /// Makes the handle one more name of the token's resource.
    pub(crate) fn import(&self, resources: &mut Resources, tokens: &Tokens) -> Result<(), Error> {
        if !resources.is_free(self.handle) {
            return Err(Error::Handle);
        }
        let resource = *bound(self.token, resources, tokens)?;
        if resources.is_full() {
            return Err(Error::Full);
        }
        resources.add(Resource {
            handle: self.handle,
            ..resource
        });
        Ok(())
    }
}

/// A release packet.
#[derive(Clone, Copy, Debug)]
pub(crate) struct Release {
    token: u64,
}

impl Release {
    /// The named fields of release.
    pub(crate) const FIELDS: &'static [Field] = &[(8, 8)];

    pub(crate) fn read(packet: &[u8]) -> Release {
        Release {
            token: u64_at(packet, 8),
        }
    }

    /// Spends the token, and no other of its resource.
    pub(crate) fn release(&self, resources: &Resources, tokens: &mut Tokens) -> Result<(), Error> {
        bound(self.token, resources, tokens)?;
        tokens.release(self.token);
        Ok(())
    }
}

/// The live resource that the token is bound to, under any of its names; error
/// 29 if there is none.
fn bound<'r>(token: u64, resources: &'r Resources, tokens: &Tokens) -> Result<&'r Resource, Error> {
    tokens
        .surface(token)
        .and_then(|surface| resources.find_surface(surface))
        .ok_or(Error::TokenUnbound)
}
