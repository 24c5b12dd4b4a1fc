//! A host's calls in each front's own words, for what is measured call by call: a common form of the answers would cost
//! instructions that no host has to spend.

use crate::every_mip;
use crate::front::{current_ticket, Front};
use crate::shape::Shape;
use zelezmut::diff::Difference;
use zelezmut::registers::DOORBELL;
use zelezmut::{saved, Form, HostAnswer};

/// Each call gives just one number or truth of its answer, so that no call can be left out.
pub trait Host: Front {
    /// Whether the register took it.
    fn wrote(&mut self, offset: u32, value: u32) -> bool;
    /// The register's value.
    fn value(&self, offset: u32) -> u32;
    /// The last of the record's numbers: its length.
    fn length(&self, i: u32) -> u64;
    /// The units that a run with the largest allowance spent.
    fn spent(&mut self, memory: &mut [u8]) -> u16;
    /// Whether something waited for this good answer, after which nothing is run.
    fn answered(&mut self, memory: &mut [u8]) -> bool;
    /// The units spent behind a good answer with the largest allowance.
    fn carried_on(&mut self, memory: &mut [u8]) -> u16;
    /// The length of the file that the desk is saved as.
    fn saved(&self, buffer: &mut [u8]) -> usize;
    /// The same in form 2.
    fn saved_form_2(&self, buffer: &mut [u8]) -> usize;
    /// Whether the file was good.
    fn loaded(&mut self, file: &[u8]) -> bool;
    /// The length of what the file becomes in its other form.
    fn moved(file: &[u8], buffer: &mut [u8]) -> usize;
    /// The length of a stream's listing, unknown packets and all.
    fn listed(stream: &[u8]) -> usize;
    /// A texture's packed size; the plain program leaves it to a sum over every mip of every layer.
    fn packed_or_summed(shape: Shape) -> u64;
    /// Goes through all pairs of two good streams: a sum over their classes and over the offsets at which they differ.
    fn walked(first: &[u8], second: &[u8]) -> u64;

    /// A submission from doorbell to good answer: its units.
    #[inline]
    fn submission(&mut self, memory: &mut [u8]) -> u16 {
        let rang = self.wrote(DOORBELL, 1);
        let units = self.spent(memory);
        assert!(
            self.answered(memory) && rang,
            "{} was not waiting",
            Self::NAME
        );
        units
    }

    /// From one submission that waits to the next that does, in one call behind the doorbell: the units.
    #[inline]
    fn next_joined(&mut self, memory: &mut [u8]) -> u16 {
        let rang = self.wrote(DOORBELL, 1);
        let units = self.carried_on(memory);
        assert!(rang, "{} has no doorbell", Self::NAME);
        units
    }

    /// The same, answer and run apart.
    #[inline]
    fn next_apart(&mut self, memory: &mut [u8]) -> u16 {
        let rang = self.wrote(DOORBELL, 1);
        assert!(
            self.answered(memory) && rang,
            "{} was not waiting",
            Self::NAME
        );
        self.spent(memory)
    }
}

impl Host for zelezmut::Desk {
    #[inline]
    fn wrote(&mut self, offset: u32, value: u32) -> bool {
        self.write(offset, value).is_ok()
    }

    #[inline]
    fn value(&self, offset: u32) -> u32 {
        self.read(offset).unwrap_or(0)
    }

    #[inline]
    fn length(&self, i: u32) -> u64 {
        self.record(i).map_or(0, |record| record.numbers()[4])
    }

    #[inline]
    fn spent(&mut self, memory: &mut [u8]) -> u16 {
        self.run(memory, u16::MAX).map_or(0, |ran| ran.units)
    }

    #[inline]
    fn answered(&mut self, memory: &mut [u8]) -> bool {
        self.answer(memory, current_ticket(self), HostAnswer::Good, 0)
            .is_ok()
    }

    #[inline]
    fn carried_on(&mut self, memory: &mut [u8]) -> u16 {
        self.answer(memory, current_ticket(self), HostAnswer::Good, u16::MAX)
            .map_or(0, |ran| ran.units)
    }

    #[inline]
    fn saved(&self, buffer: &mut [u8]) -> usize {
        self.save_into(buffer).unwrap_or(0)
    }

    #[inline]
    fn saved_form_2(&self, buffer: &mut [u8]) -> usize {
        self.save_as_into(Form::Two, buffer).unwrap_or(0)
    }

    #[inline]
    fn moved(file: &[u8], buffer: &mut [u8]) -> usize {
        saved::move_form_into(file, buffer).unwrap_or(0)
    }

    #[inline]
    fn loaded(&mut self, file: &[u8]) -> bool {
        self.load(file).is_ok()
    }

    #[inline]
    fn listed(stream: &[u8]) -> usize {
        zelezmut::dump::text(stream, false).len()
    }

    #[inline]
    fn packed_or_summed(shape: Shape) -> u64 {
        Self::packed_size(shape)
    }

    #[inline]
    fn walked(first: &[u8], second: &[u8]) -> u64 {
        let mut sum = 0;
        for pair in Difference::of(first, second).expect("good streams").pairs() {
            sum += 1 + u64::from(pair.class.number());
            sum += pair.offsets().sum::<u64>();
        }
        sum
    }
}

impl Host for plain::Desk {
    #[inline]
    fn wrote(&mut self, offset: u32, value: u32) -> bool {
        self.write(offset, value) == 0
    }

    #[inline]
    fn value(&self, offset: u32) -> u32 {
        self.read(offset).1
    }

    #[inline]
    fn length(&self, i: u32) -> u64 {
        self.record(i).1.length
    }

    #[inline]
    fn spent(&mut self, memory: &mut [u8]) -> u16 {
        self.run(memory, u16::MAX).units
    }

    #[inline]
    fn answered(&mut self, memory: &mut [u8]) -> bool {
        self.answer(memory, true, 0).answer == 0
    }

    #[inline]
    fn carried_on(&mut self, memory: &mut [u8]) -> u16 {
        self.answer(memory, true, u16::MAX).units
    }

    #[inline]
    fn saved(&self, buffer: &mut [u8]) -> usize {
        plain::Desk::save(self, buffer).1
    }

    #[inline]
    fn saved_form_2(&self, buffer: &mut [u8]) -> usize {
        self.save_form_2(buffer).1
    }

    #[inline]
    fn moved(file: &[u8], buffer: &mut [u8]) -> usize {
        plain::move_form(file, buffer).1
    }

    #[inline]
    fn loaded(&mut self, file: &[u8]) -> bool {
        self.load(file).0 == 0
    }

    #[inline]
    fn listed(stream: &[u8]) -> usize {
        plain::dump::dump(stream, false).len()
    }

    #[inline]
    fn packed_or_summed(shape: Shape) -> u64 {
        every_mip::packed_size(shape)
    }

    #[inline]
    fn walked(first: &[u8], second: &[u8]) -> u64 {
        let mut sum = 0;
        for pair in plain::diff::pairs(first, second).expect("good streams") {
            let class = pair.class();
            sum += 1 + class as u64;
            // Of any other class it would only find out again that there are none.
            if class == plain::diff::Class::SameOpcode {
                sum += pair.offsets(0).sum::<u64>();
            }
        }
        sum
    }
}
