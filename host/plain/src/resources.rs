//! The live resources under their names: at most 64, found by handle.
//!
//! A resource with several names stands here once for each of them, alike but
//! for the handle. None of it changes once it is made, but for the number it
//! gets at its first export if it has none yet, before which it has one name
//! only.

use crate::shapes::Shape;

/// The most names that may live at once.
pub(crate) const MAX_NAMES: usize = 64;

/// The surface number of a resource that was never exported, nor loaded.
pub(crate) const NO_SURFACE: u32 = 0;

/// A live resource under one of its names. Backing id 0 means host-backed.
#[derive(Clone, Copy, Debug, PartialEq)]
pub(crate) struct Resource {
    pub(crate) handle: u32,
    pub(crate) shape: Shape,
    /// How many bytes the shape takes; follows from the shape.
    pub(crate) bytes: u64,
    pub(crate) backing_id: u32,
    pub(crate) backing_offset: u32,
    /// The number it has from its first export on, or from loading, which no
    /// other resource has; see [`crate::tokens`].
    pub(crate) surface: u32,
}

impl Resource {
    pub(crate) fn is_host_backed(&self) -> bool {
        self.backing_id == 0
    }

    pub(crate) fn is_buffer(&self) -> bool {
        matches!(self.shape, Shape::Buffer { .. })
    }

    /// Whether they are equal, whatever their surface numbers.
    fn is_like(&self, other: &Resource) -> bool {
        let other = Resource {
            surface: self.surface,
            ..*other
        };
        *self == other
    }
}

/// The live resources, a row for each name, in no order that counts.
#[derive(Clone, Debug)]
pub(crate) struct Resources {
    rows: Vec<Resource>,
}

impl Resources {
    /// No resources, with room for all names that may live.
    pub(crate) fn new() -> Resources {
        Resources {
            rows: Vec::with_capacity(MAX_NAMES),
        }
    }

    pub(crate) fn find(&self, handle: u32) -> Option<&Resource> {
        self.rows.iter().find(|row| row.handle == handle)
    }

    pub(crate) fn find_mut(&mut self, handle: u32) -> Option<&mut Resource> {
        self.rows.iter_mut().find(|row| row.handle == handle)
    }

    /// The resource with this surface number, under any of its names.
    pub(crate) fn find_surface(&self, surface: u32) -> Option<&Resource> {
        self.rows.iter().find(|row| row.surface == surface)
    }

    /// Whether a new name may have this handle.
    pub(crate) fn is_free(&self, handle: u32) -> bool {
        handle != 0 && self.find(handle).is_none()
    }

    pub(crate) fn is_full(&self) -> bool {
        self.rows.len() >= MAX_NAMES
    }

    /// Adds a resource or one more name of it; the caller has checked room and
    /// handle.
    pub(crate) fn add(&mut self, resource: Resource) {
        self.rows.push(resource);
    }

    /// Removes this name, and with the last one the resource; false if it is
    /// not live.
    pub(crate) fn remove(&mut self, handle: u32) -> bool {
        match self.rows.iter().position(|row| row.handle == handle) {
            Some(index) => {
                self.rows.swap_remove(index);
                true
            }
            None => false,
        }
    }

    pub(crate) fn clear(&mut self) {
        self.rows.clear();
    }

    /// Becomes a copy of `other`, in the room already there.
    pub(crate) fn copy_from(&mut self, other: &Resources) {
        self.rows.clear();
        self.rows.extend_from_slice(&other.rows);
    }

    /// How many names live.
    pub(crate) fn count(&self) -> usize {
        self.rows.len()
    }

    /// Each resource once, under its lowest name, by rising name.
    pub(crate) fn under_lowest_names(&self) -> Vec<Resource> {
        let mut rows = self.rows.clone();
        rows.retain(|row| self.lowest_name_of(row) == row.handle);
        rows.sort_unstable_by_key(|row| row.handle);
        rows
    }

    /// Every other name with the lowest name of its resource, by rising name.
    pub(crate) fn other_names(&self) -> Vec<(u32, u32)> {
        let mut names = self.names();
        names.retain(|(name, lowest)| name != lowest);
        names
    }

    /// Whether any resource has another name beside its lowest.
    pub(crate) fn has_other_names(&self) -> bool {
        !self.other_names().is_empty()
    }

    /// The lowest name of the resource with this surface number.
    pub(crate) fn lowest_name(&self, surface: u32) -> Option<u32> {
        let of_surface = self.rows.iter().filter(|row| row.surface == surface);
        of_surface.map(|row| row.handle).min()
    }

    /// Every name with the lowest name of its resource, by rising name.
    pub(crate) fn names(&self) -> Vec<(u32, u32)> {
        let mut names: Vec<_> = self
            .rows
            .iter()
            .map(|row| (row.handle, self.lowest_name_of(row)))
            .collect();
        names.sort_unstable();
        names
    }

    fn lowest_name_of(&self, row: &Resource) -> u32 {
        if row.surface == NO_SURFACE {
            row.handle
        } else {
            self.lowest_name(row.surface).unwrap_or(row.handle)
        }
    }
}

/// Resources compare as a map by handle, and by which handles name the same
/// one; surface numbers do not count.
impl PartialEq for Resources {
    fn eq(&self, other: &Resources) -> bool {
        self.names() == other.names()
            && self.rows.iter().all(|row| match other.find(row.handle) {
                Some(twin) => row.is_like(twin),
                None => false,
            })
    }
}

#[cfg(test)]
mod tests {
    use super::*;

    fn buffer(handle: u32) -> Resource {
        Resource {
            handle,
            shape: Shape::Buffer { size: 16 },
            bytes: 16,
            backing_id: 0,
            backing_offset: 0,
            surface: NO_SURFACE,
        }
    }

    #[test]
    fn resources_compare_as_a_map() {
        let mut one = Resources::new();
        let mut two = Resources::new();
        for handle in 1..=3 {
            one.add(buffer(handle));
            two.add(buffer(4 - handle));
        }
        assert_eq!(one, two);
        assert!(one.remove(2));
        assert!(!one.remove(2));
        assert_ne!(one, two);
        assert!(two.remove(2));
        assert_eq!(one, two);
        one.add(Resource {
            backing_id: 1,
            ..buffer(2)
        });
        two.add(buffer(2));
        assert_ne!(one, two);
    }

    /// Buffers under these handles, each with its surface number.
    fn shared(rows: &[(u32, u32)]) -> Resources {
        let mut resources = Resources::new();
        for (handle, surface) in rows {
            resources.add(Resource {
                surface: *surface,
                ..buffer(*handle)
            });
        }
        resources
    }

    #[test]
    fn names_tell_the_lowest_of_their_resource() {
        let resources = shared(&[(9, 1), (3, 0), (2, 7), (5, 1), (8, 1), (1, 0)]);
        let names = [(1, 1), (2, 2), (3, 3), (5, 5), (8, 5), (9, 5)];
        assert_eq!(resources.names(), names);
        assert_eq!(resources.lowest_name(1), Some(5));
        assert_eq!(resources.lowest_name(4), None);
    }

    #[test]
    fn other_names_are_those_above_the_lowest() {
        assert!(!shared(&[]).has_other_names());
        assert!(!shared(&[(9, 1), (3, 0), (2, 7), (1, 0)]).has_other_names());
        assert!(shared(&[(9, 1), (3, 0), (2, 7), (5, 1)]).has_other_names());
    }

    #[test]
    fn each_resource_stands_once_under_its_lowest_name() {
        let resources = shared(&[(9, 1), (3, 0), (8, 7), (5, 1), (6, 1), (4, 7), (1, 0)]);
        let handles: Vec<_> = resources
            .under_lowest_names()
            .iter()
            .map(|row| row.handle)
            .collect();
        assert_eq!(handles, [1, 3, 4, 5]);
        assert_eq!(resources.other_names(), [(6, 5), (8, 4), (9, 5)]);
    }

    #[test]
    fn resources_compare_by_who_shares_whatever_the_number() {
        let one = shared(&[(1, 1), (2, 1), (3, 4), (4, 0)]);
        assert_eq!(one, shared(&[(2, 9), (4, 0), (1, 9), (3, 0)]));
        assert_ne!(one, shared(&[(1, 1), (2, 0), (3, 1), (4, 0)]));
        assert_ne!(one, shared(&[(1, 1), (2, 1), (3, 1), (4, 0)]));
        assert_ne!(one, shared(&[(1, 0), (2, 0), (3, 0), (4, 0)]));
        assert_ne!(one, shared(&[(1, 1), (2, 1), (3, 4)]));
    }
}
