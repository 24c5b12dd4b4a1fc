//! The adapter's registers by name: byte offsets of 32-bit registers, and the bits of those that have bits.
//!
//! A 64-bit number takes two registers, the low half first.

/// Read only: the bytes "AGPU".
pub const MAGIC: u32 = 0x000;
/// Read only: the version, the major number in the high 16 bits.
pub const VERSION: u32 = 0x004;
/// Read only: the features, low half.
pub const FEATURES_LO: u32 = 0x008;
/// Read only: the features, high half.
pub const FEATURES_HI: u32 = 0x00C;

/// The ring's address in guest memory, low half.
pub const RING_GPA_LO: u32 = 0x100;
/// The ring's address in guest memory, high half.
pub const RING_GPA_HI: u32 = 0x104;
/// The ring's size in bytes.
pub const RING_SIZE: u32 = 0x108;
/// Control: [`CONTROL_ENABLE`] and [`CONTROL_RESET`].
pub const CONTROL: u32 = 0x10C;

/// The fence page's address in guest memory, low half; the address 0 is no page.
pub const FENCE_GPA_LO: u32 = 0x120;
/// The fence page's address in guest memory, high half.
pub const FENCE_GPA_HI: u32 = 0x124;

/// Read only: the completed fence, low half.
pub const COMPLETED_FENCE_LO: u32 = 0x130;
/// Read only: the completed fence, high half.
pub const COMPLETED_FENCE_HI: u32 = 0x134;

/// Write only: any number rings the doorbell.
pub const DOORBELL: u32 = 0x200;

/// Read only: what has happened, [`IRQ_FENCE`] and [`IRQ_ERROR`].
pub const IRQ_STATUS: u32 = 0x300;
/// Which of the status bits interrupt.
pub const IRQ_ENABLE: u32 = 0x304;
/// Write only: clears the status bits that are written as 1.
pub const IRQ_ACK: u32 = 0x308;

/// Read only: the last error's number, 0 if there was none.
pub const ERROR_CODE: u32 = 0x310;
/// Read only: the fence of the submission that the last error ended, low half.
pub const ERROR_FENCE_LO: u32 = 0x314;
/// Read only: the fence of the submission that the last error ended, high half.
pub const ERROR_FENCE_HI: u32 = 0x318;
/// Read only: how many errors there were; it stops at 4294967295.
pub const ERROR_COUNT: u32 = 0x31C;
/// Read only: where the last error arose. The index of the table entry for errors 14 and 15, the packet's byte offset in the stream
/// for an error that a packet raised, else 0; [`Place`](crate::Place) tells them apart.
pub const ERROR_DETAIL: u32 = 0x320;

/// Bit of [`CONTROL`]: submissions are taken.
pub const CONTROL_ENABLE: u32 = 1;
/// Bit of [`CONTROL`]: resets the device; it reads as 0.
pub const CONTROL_RESET: u32 = 2;
/// Bit of [`IRQ_STATUS`]: the completed fence rose.
pub const IRQ_FENCE: u32 = 1;
/// Bit of [`IRQ_STATUS`]: there was an error.
pub const IRQ_ERROR: u32 = 2;

/// A register's name, as it stands here: `None` where there is none.
///
/// ```
/// use zelezmut::registers;
///
/// assert_eq!(registers::name(0x31C), Some("ERROR_COUNT"));
/// assert_eq!(registers::name(registers::DOORBELL), Some("DOORBELL"));
/// assert_eq!(registers::name(0x324), None);
/// ```
pub fn name(offset: u32) -> Option<&'static str> {
    Some(match offset {
        MAGIC => "MAGIC",
        VERSION => "VERSION",
        FEATURES_LO => "FEATURES_LO",
        FEATURES_HI => "FEATURES_HI",
        RING_GPA_LO => "RING_GPA_LO",
        RING_GPA_HI => "RING_GPA_HI",
        RING_SIZE => "RING_SIZE",
        CONTROL => "CONTROL",
        FENCE_GPA_LO => "FENCE_GPA_LO",
        FENCE_GPA_HI => "FENCE_GPA_HI",
        COMPLETED_FENCE_LO => "COMPLETED_FENCE_LO",
        COMPLETED_FENCE_HI => "COMPLETED_FENCE_HI",
        DOORBELL => "DOORBELL",
        IRQ_STATUS => "IRQ_STATUS",
        IRQ_ENABLE => "IRQ_ENABLE",
        IRQ_ACK => "IRQ_ACK",
        ERROR_CODE => "ERROR_CODE",
        ERROR_FENCE_LO => "ERROR_FENCE_LO",
        ERROR_FENCE_HI => "ERROR_FENCE_HI",
        ERROR_COUNT => "ERROR_COUNT",
        ERROR_DETAIL => "ERROR_DETAIL",
        _ => return None,
    })
}

/// Every register that can be read, by rising offset.
pub const READABLE: [u32; 19] = [
    MAGIC,
    VERSION,
    FEATURES_LO,
    FEATURES_HI,
    RING_GPA_LO,
    RING_GPA_HI,
    RING_SIZE,
    CONTROL,
    FENCE_GPA_LO,
    FENCE_GPA_HI,
    COMPLETED_FENCE_LO,
    COMPLETED_FENCE_HI,
    IRQ_STATUS,
    IRQ_ENABLE,
    ERROR_CODE,
    ERROR_FENCE_LO,
    ERROR_FENCE_HI,
    ERROR_COUNT,
    ERROR_DETAIL,
];

/// Every register that can be written, by rising offset.
pub const WRITABLE: [u32; 9] = [
    RING_GPA_LO,
    RING_GPA_HI,
    RING_SIZE,
    CONTROL,
    FENCE_GPA_LO,
    FENCE_GPA_HI,
    DOORBELL,
    IRQ_ENABLE,
    IRQ_ACK,
];
