//! A desk saved into bytes, and loaded from them.
use super::Desk;
use crate::answers::Refused;
use crate::front;
use crate::saved::{BadFile, Form, LONGEST_SAVED_DESK};

impl Desk {
    /// The desk as a file of form 1, to be loaded elsewhere: registers, the memory's length, the doorbell flag and the resources. The desk
    /// stays as it is.
    ///
    /// Guest memory is not in it: it has to be moved beside the file. Nor is what the host itself keeps for resources. A desk is saved at
    /// rest; what waits is answered before.
    ///
    /// # Errors
    /// [`Refused::InWork`] while a submission is in work, else [`Refused::NotInForm`] if there is a token, used since the last reset or
    /// come with a loaded file, a second name is live, or the error detail is not 0. Form 2 has fields for these: [`save_as`](Desk::save_as).
    ///
    /// ```
    /// use zelezmut::{registers, Desk};
    ///
    /// let mut desk = Desk::new(4096);
    /// desk.write(registers::RING_SIZE, 320)?;
    /// let file = desk.save()?;
    /// // Elsewhere, and later.
    /// let moved = Desk::from_saved(&file).expect("it was saved");
    /// assert_eq!(moved, desk);
    /// # Ok::<(), zelezmut::Refused>(())
    /// ```
    pub fn save(&self) -> Result<Vec<u8>, Refused> {
        self.save_as(Form::One)
    }

    /// As [`save`](Desk::save) does, in a form: [`Form::Two`] has all that a desk at rest has, with its names, its tokens and the error's
    /// detail.
    ///
    /// # Errors
    /// [`Refused::InWork`] while a submission is in work, and in form 1 those of [`save`](Desk::save).
    ///
    /// ```
    /// use zelezmut::{Desk, Form};
    ///
    /// let desk = Desk::new(4096);
    /// let files = Form::ALL.map(|form| desk.save_as(form).expect("it is at rest, and new"));
    /// assert!(files.iter().all(|file| Desk::from_saved(file).as_ref() == Ok(&desk)));
    /// ```
    pub fn save_as(&self, form: Form) -> Result<Vec<u8>, Refused> {
        let mut buffer = [0; LONGEST_SAVED_DESK];
        let length = self.save_as_into(form, &mut buffer)?;
        Ok(buffer[..length].to_vec())
    }

    /// As [`save`](Desk::save) does, into a lent buffer: how many bytes the file has, from the buffer's first on. Later bytes are kept.
    /// It allocates nothing. A buffer of [`LONGEST_SAVED_DESK`] bytes is never too short.
    ///
    /// # Errors
    /// Those of [`save`](Desk::save), then [`Refused::TooShort`] if the buffer is shorter than the file. The buffer is untouched then.
    #[inline]
    pub fn save_into(&self, buffer: &mut [u8]) -> Result<usize, Refused> {
        self.save_as_into(Form::One, buffer)
    }

    /// As [`save_as`](Desk::save_as) does, into a lent buffer, and otherwise as [`save_into`](Desk::save_into).
    ///
    /// # Errors
    /// Those of [`save_as`](Desk::save_as), then [`Refused::TooShort`] if the buffer is shorter than the file. The buffer is untouched then.
    #[inline]
    pub fn save_as_into(&self, form: Form, buffer: &mut [u8]) -> Result<usize, Refused> {
        let (answer, length) = front::save(&self.state, form, buffer);
        Refused::from_answer(answer)?;
        Ok(length as usize)
    }

    /// The desk becomes what the file says, whatever it was before: a submission in work is gone, nothing of it settles, and no byte of
    /// guest memory changes. Nothing is in work then. The memory's length is the file's, too: [`memory_len`](Desk::memory_len) says which
    /// memory is to be lent from now on.
    ///
    /// The file may be of either form, or one from before files had numbers. After one of form 1 no token was used, every resource has one
    /// name, and no error detail is known.
    ///
    /// Tickets of before are used up. The completed fence may be lower than before.
    ///
    /// # Errors
    /// What is wrong with the file, if it is no saved desk. The desk is as it was then, and so are its tickets.
    pub fn load(&mut self, file: &[u8]) -> Result<(), BadFile> {
        BadFile::from_front(front::load(&mut self.state, file), file)?;
        self.ticket.use_up();
        Ok(())
    }

    /// A new desk that is what the file says.
    ///
    /// # Errors
    /// As [`load`](Desk::load).
    ///
    /// # Panics
    /// As [`new`](Desk::new) does.
    pub fn from_saved(file: &[u8]) -> Result<Desk, BadFile> {
        let mut desk = Desk::new(0);
        desk.load(file)?;
        Ok(desk)
    }
}
