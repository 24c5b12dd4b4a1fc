//! A submission being written: its table's entries, its packets, and what the guest believes of its names, tokens and target meanwhile.
//! Packets put in here are believed to pass; one that is to be refused is put in last, and the belief thrown away.

pub use crate::held::Resource;
use crate::held::{Held, Token};
use crate::image::{blank, put32, Entry};
use crate::numbers::{READ_ONLY, WRITEBACK};
use crate::packet::{self, Backing, Clear, Copying, Scissor, Viewport};
use crate::random::Random;
use crate::shape::Shape;
use crate::world::World;

/// How often, of a hundred times, a known packet is grown.
const GROWN: u64 = 12;

pub struct Draft<'a> {
    pub random: &'a mut Random,
    /// The memory's length.
    pub memory: u64,
    /// How many bytes of packets have room.
    pub room: usize,
    /// A row for each name.
    pub live: Vec<Resource>,
    pub tokens: Vec<Token>,
    pub entries: Vec<Entry>,
    pub target: Option<Resource>,
    pub records: usize,
    pub packets: Vec<Vec<u8>>,
    /// The packets' bytes.
    pub used: usize,
    /// No packet may follow: the last one's meaning hangs on being the last.
    pub closed: bool,
}

impl<'a> Draft<'a> {
    /// Nothing is written yet, for a device that holds this.
    pub fn new(
        random: &'a mut Random,
        world: &World,
        before: &Held,
        entries: Vec<Entry>,
    ) -> Draft<'a> {
        Draft {
            random,
            memory: world.memory,
            room: world.scale.stream_room(),
            live: before.live.clone(),
            tokens: before.tokens.clone(),
            entries,
            target: None,
            records: 0,
            packets: Vec::new(),
            used: 0,
            closed: false,
        }
    }
}

impl Draft<'_> {
    pub fn entry(&self, id: u32) -> Option<Entry> {
        self.entries.iter().copied().find(|entry| entry.id == id)
    }

    pub fn is_live(&self, handle: u32) -> bool {
        self.live.iter().any(|resource| resource.handle == handle)
    }

    /// A handle that no live resource has; small ones come again after they were destroyed.
    pub fn fresh_handle(&mut self) -> u32 {
        loop {
            let handle = match self.random.within(0..=9) {
                0 => self.random.word(),
                1 => u32::MAX - self.random.within(0..=70) as u32,
                _ => self.random.within(1..=90) as u32,
            };
            if handle != 0 && !self.is_live(handle) {
                return handle;
            }
        }
    }

    /// An id that the table has not.
    pub fn foreign_id(&mut self) -> u32 {
        loop {
            let id = if self.random.coin() {
                self.random.within(1..=99) as u32
            } else {
                self.random.word()
            };
            if id != 0 && self.entry(id).is_none() {
                return id;
            }
        }
    }

    /// How many bytes of a backed resource, from its start, this table's entry covers; none if there is no entry, or if it
    /// ends before the resource starts.
    pub fn covered(&self, resource: &Resource) -> Option<u64> {
        let room = self
            .entry(resource.backing.id)?
            .size
            .checked_sub(resource.backing.offset.into())?;
        Some(room.min(resource.bytes))
    }

    pub fn find(&mut self, fits: impl Fn(&Self, &Resource) -> bool) -> Option<Resource> {
        let fitting: Vec<Resource> = self
            .live
            .iter()
            .copied()
            .filter(|resource| fits(self, resource))
            .collect();
        if fitting.is_empty() {
            return None;
        }
        Some(self.random.pick(&fitting))
    }

    pub fn has_room(&self, bytes: usize) -> bool {
        !self.closed && self.used + bytes <= self.room
    }

    /// Puts a packet in as it is, whatever it means.
    pub fn push(&mut self, packet: Vec<u8>) {
        self.used += packet.len();
        self.packets.push(packet);
    }

    /// Puts a known packet in, now and then grown: what is appended is ignored.
    pub fn push_known(&mut self, packet: Vec<u8>) {
        self.push(packet);
        if self.random.percent(GROWN) {
            let bytes = 4 * self.random.within(1..=16) as usize;
            if self.has_room(bytes) {
                self.grow_last(bytes);
            }
        }
    }

    /// Appends so many bytes to the last packet, and lets its size say so.
    pub fn grow_last(&mut self, bytes: usize) {
        let appended = self.appended(bytes);
        if let Some(last) = self.packets.last_mut() {
            last.extend(appended);
            let size = last.len() as u32;
            put32(last, 4, size);
            self.used += bytes;
        }
    }

    /// Leaves so many bytes of the last packet, and lets its size say so.
    pub fn cut_last(&mut self, bytes: usize) {
        if let Some(last) = self.packets.last_mut() {
            self.used -= last.len() - bytes;
            last.truncate(bytes);
            put32(last, 4, bytes as u32);
        }
    }

    /// Bytes behind a packet's own: zeros, noise, or what would be a good packet if it stood by itself.
    fn appended(&mut self, length: usize) -> Vec<u8> {
        let mut bytes = blank(self.random, length);
        if self.random.percent(30) {
            let handle = self.live.first().map_or(0, |resource| resource.handle);
            let packet = packet::destroy(self.random, handle);
            let common = length.min(packet.len());
            bytes[..common].copy_from_slice(&packet[..common]);
        }
        bytes
    }

    pub fn create_buffer(&mut self, handle: u32, size: u64, backing: Backing) {
        let packet = packet::create_buffer(self.random, handle, size, backing);
        self.push_known(packet);
        self.created(Resource {
            handle,
            surface: self.new_surface(),
            texture: false,
            one_image: false,
            width: 0,
            height: 0,
            bytes: size,
            backing,
        });
    }

    pub fn create_texture(&mut self, handle: u32, shape: Shape, backing: Backing) {
        let packet = packet::create_texture(self.random, handle, shape, backing);
        self.push_known(packet);
        let bytes = if backing.id == 0 { 0 } else { shape.packed() };
        self.created(Resource {
            handle,
            surface: self.new_surface(),
            texture: true,
            one_image: (shape.mips, shape.layers) == (1, 1),
            width: shape.width,
            height: shape.height,
            bytes,
            backing,
        });
    }

    fn created(&mut self, mut resource: Resource) {
        if resource.backed() {
            self.records += 1;
        } else {
            resource.backing.offset = 0;
        }
        self.live.push(resource);
    }

    pub fn destroy(&mut self, handle: u32) {
        let packet = packet::destroy(self.random, handle);
        self.push_known(packet);
        self.live.retain(|resource| resource.handle != handle);
        self.target = self.target.filter(|target| target.handle != handle);
    }

    pub fn dirty(&mut self, handle: u32, offset: u64, size: u64) {
        let packet = packet::dirty(self.random, handle, offset, size);
        self.push_known(packet);
        self.records += usize::from(size > 0);
    }

    pub fn copy(&mut self, copying: Copying) {
        let packet = packet::copy(self.random, copying);
        self.push_known(packet);
        self.records += usize::from(copying.flags & WRITEBACK != 0 && copying.size > 0);
    }

    /// Any handle at all; only a live texture's becomes the target.
    pub fn set_target(&mut self, handle: u32) {
        let packet = packet::target(self.random, handle);
        self.push_known(packet);
        let named = self.live.iter().find(|live| live.handle == handle);
        self.target = named.copied().filter(|named| named.texture);
    }

    pub fn viewport(&mut self, viewport: Viewport) {
        let packet = packet::viewport(self.random, viewport);
        self.push_known(packet);
    }

    pub fn scissor(&mut self, scissor: Scissor) {
        let packet = packet::scissor(self.random, scissor);
        self.push_known(packet);
        self.records += 1;
    }

    pub fn clear(&mut self, clear: Clear) {
        let packet = packet::clear(self.random, clear);
        self.push_known(packet);
    }

    pub fn writable(&self, resource: &Resource) -> bool {
        self.entry(resource.backing.id)
            .map_or(false, |entry| entry.flags & READ_ONLY == 0)
    }
}
