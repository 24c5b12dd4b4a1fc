//! The register file: what each offset reads and takes, and what errors,
//! fences and resets leave in it.

use crate::bytes::{high, low};
use crate::errors::Fault;

/// What the magic register reads.
pub(crate) const MAGIC: u32 = u32::from_le_bytes(*b"AGPU");
/// Major 1 in the high 16 bits, minor 3.
pub(crate) const VERSION: u32 = 65_539;
/// What the feature registers read.
pub(crate) const FEATURES: u64 = 7;

/// The control bit that enables, the only one that reads back.
pub(crate) const CONTROL_ENABLE: u32 = 1;
const CONTROL_RESET: u32 = 2;

const STATUS_FENCE: u32 = 1;
const STATUS_ERROR: u32 = 2;
/// All IRQ status bits.
pub(crate) const STATUS_BITS: u32 = STATUS_FENCE | STATUS_ERROR;

/// What a register write asks of the desk.
#[derive(Clone, Copy, Debug, PartialEq, Eq)]
pub(crate) enum Written {
    /// Nothing more: the register took the value.
    Done,
    /// The registers are reset; the rest of the device has to follow.
    Reset,
    /// No such register, or not writable. Nothing changed.
    Refused,
}

/// The state behind the registers. The default is a new device.
#[derive(Clone, Debug, Default, PartialEq)]
pub(crate) struct Registers {
    pub(crate) ring_gpa: u64,
    pub(crate) ring_size: u32,
    pub(crate) enabled: bool,
    pub(crate) fence_gpa: u64,
    pub(crate) completed: u64,
    /// The doorbell flag.
    pub(crate) doorbell: bool,
    pub(crate) irq_enable: u32,
    pub(crate) irq_status: u32,
    pub(crate) error_code: u32,
    pub(crate) error_fence: u64,
    pub(crate) error_count: u32,
    pub(crate) error_detail: u32,
}

impl Registers {
    /// The value read at `offset`, if there is a readable register.
    pub(crate) fn read(&self, offset: u32) -> Option<u32> {
        let value = match offset {
            0x000 => MAGIC,
            0x004 => VERSION,
            0x008 => low(FEATURES),
            0x00C => high(FEATURES),
            0x100 => low(self.ring_gpa),
            0x104 => high(self.ring_gpa),
            0x108 => self.ring_size,
            0x10C => u32::from(self.enabled),
            0x120 => low(self.fence_gpa),
            0x124 => high(self.fence_gpa),
            0x130 => low(self.completed),
            0x134 => high(self.completed),
            0x300 => self.irq_status,
            0x304 => self.irq_enable,
            0x310 => self.error_code,
            0x314 => low(self.error_fence),
            0x318 => high(self.error_fence),
            0x31C => self.error_count,
            0x320 => self.error_detail,
            _ => return None,
        };
        Some(value)
    }

    /// Writes `value` at `offset`.
    pub(crate) fn write(&mut self, offset: u32, value: u32) -> Written {
        match offset {
            0x100 => set_low(&mut self.ring_gpa, value),
            0x104 => set_high(&mut self.ring_gpa, value),
            0x108 => self.ring_size = value,
            0x10C => return self.write_control(value),
            0x120 => set_low(&mut self.fence_gpa, value),
            0x124 => set_high(&mut self.fence_gpa, value),
            0x200 => self.doorbell = true,
            0x304 => self.irq_enable = value,
            0x308 => self.irq_status &= !value,
            _ => return Written::Refused,
        }
        Written::Done
    }

    /// Takes bit 0, resets on bit 1, drops the other bits.
    fn write_control(&mut self, value: u32) -> Written {
        self.enabled = value & CONTROL_ENABLE != 0;
        if value & CONTROL_RESET == 0 {
            return Written::Done;
        }
        self.completed = 0;
        self.irq_status = 0;
        self.doorbell = false;
        Written::Reset
    }

    /// Sets the error registers and the error status bit.
    pub(crate) fn set_error(&mut self, fault: Fault, fence: u64) {
        self.error_code = fault.error.code();
        self.error_detail = fault.place;
        self.error_fence = fence;
        self.error_count = self.error_count.saturating_add(1);
        self.irq_status |= STATUS_ERROR;
    }

    /// Raises the completed fence to `fence` if that is larger, with the
    /// fence status bit unless the submission asked for no IRQ.
    pub(crate) fn complete(&mut self, fence: u64, no_irq: bool) {
        if fence <= self.completed {
            return;
        }
        self.completed = fence;
        if !no_irq {
            self.irq_status |= STATUS_FENCE;
        }
    }
}

fn set_low(register: &mut u64, value: u32) {
    *register = *register & !0xFFFF_FFFF | u64::from(value);
}

fn set_high(register: &mut u64, value: u32) {
    *register = *register & 0xFFFF_FFFF | u64::from(value) << 32;
}

#[cfg(test)]
mod tests {
    use super::*;
    use crate::errors::Error;

    #[test]
    fn the_error_count_stops_at_the_top() {
        let mut registers = Registers {
            error_count: u32::MAX - 1,
            ..Registers::default()
        };
        registers.set_error(Error::Ring.nowhere(), 0);
        assert_eq!(registers.read(0x31C), Some(u32::MAX));
        registers.set_error(Error::Host.nowhere(), 5);
        assert_eq!(registers.read(0x31C), Some(u32::MAX));
        assert_eq!(registers.read(0x310), Some(27));
        assert_eq!(registers.read(0x314), Some(5));
    }

    #[test]
    fn every_error_sets_the_detail() {
        let mut registers = Registers::default();
        assert_eq!(registers.read(0x320), Some(0));
        for place in [24, u32::MAX, 28] {
            registers.set_error(Error::Packet.at(place), 1);
            assert_eq!(registers.read(0x320), Some(place));
        }
        registers.set_error(Error::Host.nowhere(), 2);
        assert_eq!(registers.read(0x320), Some(0));
    }

    #[test]
    fn halves_do_not_touch_each_other() {
        let mut value = 0x1111_2222_3333_4444;
        set_low(&mut value, 0xAAAA_BBBB);
        assert_eq!(value, 0x1111_2222_AAAA_BBBB);
        set_high(&mut value, 0xCCCC_DDDD);
        assert_eq!(value, 0xCCCC_DDDD_AAAA_BBBB);
    }
}
