//! The calls of a desk: a roster and a plan of it, held from one call to the
//! next, and a proposal beside the plan. A desk goes into each exported call by
//! value and comes back; the calls that only look at it hand the same desk back,
//! which is asserted in builds with debug assertions.

use crate::answers::{self, Comparison, Found, Holding, Least, ProposalVotes, Verdict};
use crate::ffi;
use crate::layout::{Desk, Step};
use crate::refusal::{self, Refusal};

impl Default for Desk {
    fn default() -> Desk {
        Desk::open()
    }
}

impl Desk {
    /// A desk with nothing loaded.
    pub fn open() -> Desk {
        // SAFETY: no pointer goes in.
        unsafe { ffi::crew_open() }
    }

    /// Takes a roster in, drops the plan and closes a proposal. A refused file
    /// changes nothing.
    pub fn load_roster(&mut self, file: &[u8]) -> Result<(), Refusal> {
        // SAFETY: a slice that is read, with its own length.
        let reply = unsafe { ffi::crew_load_roster(self.clone(), file.as_ptr(), file.len()) };
        self.take_loaded(reply)
    }

    /// Takes a plan of the held roster in, in the place of the one held, and
    /// closes a proposal. A refused file changes nothing.
    pub fn load_plan(&mut self, file: &[u8]) -> Result<(), Refusal> {
        // SAFETY: a slice that is read, with its own length.
        let reply = unsafe { ffi::crew_load_plan(self.clone(), file.as_ptr(), file.len()) };
        self.take_loaded(reply)
    }

    /// Proposes a plan of the held roster beside the held plan, in the place of an
    /// open proposal, and answers both votes. The held plan stays held until
    /// [`Desk::commit`]. A refused file changes nothing: an open proposal stays
    /// open. The pairings of the proposal's vote are written to the front of
    /// `forward`, those of the held plan's vote to the front of `back`, as
    /// [`Desk::compare`] does.
    ///
    /// A proposal is closed by a commit, by a roster or a plan that is loaded, by a
    /// surveyor who joins, and by one who leaves, unless that changes nothing.
    /// Refused calls and all others leave it open.
    pub fn propose(
        &mut self,
        file: &[u8],
        forward: &mut [u8],
        back: &mut [u8],
    ) -> Result<ProposalVotes, Refusal> {
        // SAFETY: slices, each with its own length; those that are written overlap none, as `&mut`.
        let reply = unsafe {
            ffi::crew_propose(
                self.clone(),
                file.as_ptr(),
                file.len(),
                forward.as_mut_ptr(),
                forward.len(),
                back.as_mut_ptr(),
                back.len(),
            )
        };
        *self = reply.desk;
        answers::proposal_votes(&reply.proposed)
    }

    /// Makes the open proposal the held plan, which closes it. Where none is open
    /// the call is refused, and nothing changes.
    pub fn commit(&mut self) -> Result<(), Refusal> {
        // SAFETY: no pointer goes in.
        let reply = unsafe { ffi::crew_commit(self.clone()) };
        self.take_loaded(reply)
    }

    /// The desk that a load or a commit hands back, in the place of this one.
    fn take_loaded(&mut self, reply: ffi::DeskLoaded) -> Result<(), Refusal> {
        *self = reply.desk;
        refusal::check(reply.refusal)
    }

    /// Writes the held roster to the front of `out` and gives its length. On a
    /// refusal no byte changes.
    pub fn write_roster(&self, out: &mut [u8]) -> Result<usize, Refusal> {
        // SAFETY: a slice that is lent to be written, with its own length.
        let reply = unsafe { ffi::crew_write_roster(self.clone(), out.as_mut_ptr(), out.len()) };
        self.written(&reply)
    }

    /// Writes the held plan to the front of `out` and gives its length. On a
    /// refusal no byte changes.
    pub fn write_plan(&self, out: &mut [u8]) -> Result<usize, Refusal> {
        // SAFETY: a slice that is lent to be written, with its own length.
        let reply = unsafe { ffi::crew_write_plan(self.clone(), out.as_mut_ptr(), out.len()) };
        self.written(&reply)
    }

    /// Writes the open proposal to the front of `out`, which needs
    /// [`crate::PLAN_BYTES`], and gives its length; it stays open. On a refusal no
    /// byte changes.
    pub fn write_proposal(&self, out: &mut [u8]) -> Result<usize, Refusal> {
        // SAFETY: a slice that is lent to be written, with its own length.
        let reply = unsafe { ffi::crew_write_proposal(self.clone(), out.as_mut_ptr(), out.len()) };
        self.written(&reply)
    }

    /// What the desk holds: nothing, a roster, a plan with it, or a proposal beside
    /// both.
    pub fn holds(&self) -> Holding {
        // SAFETY: no pointer goes in.
        let reply = unsafe { ffi::crew_holds(self.clone()) };
        debug_assert!(*self == reply.desk);
        answers::holding(reply.holds)
    }

    /// Spreads the held plan over days: writes a day for each entry, in the plan's
    /// order, to the front of `out`, which needs [`crate::DAY_BYTES`], and gives
    /// their number. No surveyor and no stand has two entries on one day. The days
    /// are 1 to as many as the busiest node has entries, at most 8, and all of them
    /// are used; no other spreading uses fewer. On a refusal no byte changes.
    /// [`Desk::sheet`] gives the days with their entries.
    pub fn spread(&self, out: &mut [u8]) -> Result<usize, Refusal> {
        // SAFETY: a slice that is lent to be written, with its own length.
        let reply = unsafe { ffi::crew_spread(self.clone(), out.as_mut_ptr(), out.len()) };
        self.written(&reply)
    }

    /// Turns an old plan file of the held roster into a new one, with shift 1
    /// throughout: writes it to the front of `out`, which needs
    /// [`crate::PLAN_BYTES`], and gives its length. No plan needs to be held, and a
    /// held one stays. On a refusal no byte changes.
    pub fn plan_to_new(&self, file: &[u8], out: &mut [u8]) -> Result<usize, Refusal> {
        // SAFETY: slices, each with its own length; those that are written overlap none, as `&mut`.
        let reply = unsafe {
            ffi::crew_plan_to_new(
                self.clone(),
                file.as_ptr(),
                file.len(),
                out.as_mut_ptr(),
                out.len(),
            )
        };
        self.written(&reply)
    }

    /// Turns a plan file of the held roster that has only shift 1 back to the old
    /// bytes: writes them to the front of `out`, which needs
    /// [`crate::PLAN_BYTES`] too, and gives their number. The roster may have other
    /// shifts. On a refusal no byte changes.
    pub fn plan_to_old(&self, file: &[u8], out: &mut [u8]) -> Result<usize, Refusal> {
        // SAFETY: slices, each with its own length; those that are written overlap none, as `&mut`.
        let reply = unsafe {
            ffi::crew_plan_to_old(
                self.clone(),
                file.as_ptr(),
                file.len(),
                out.as_mut_ptr(),
                out.len(),
            )
        };
        self.written(&reply)
    }

    /// The length that a call wrote, which hands the same desk back.
    fn written(&self, reply: &ffi::DeskWritten) -> Result<usize, Refusal> {
        debug_assert!(*self == reply.desk);
        answers::length(&reply.outcome)
    }

    /// The verdict on the held plan. The plan of a rival is written to the
    /// front of `rival`, and the pairings of the vote against it to the front of
    /// `pairing`, which needs [`crate::PAIRING_BYTES`]; for a strong plan and on a
    /// refusal no byte changes. The verdict says how long the rival is, and
    /// [`Desk::pairings`] reads the pairings.
    pub fn judge(&self, rival: &mut [u8], pairing: &mut [u8]) -> Result<Verdict, Refusal> {
        // SAFETY: slices that are lent to be written, each with its own length.
        let reply = unsafe {
            ffi::crew_judge(
                self.clone(),
                rival.as_mut_ptr(),
                rival.len(),
                pairing.as_mut_ptr(),
                pairing.len(),
            )
        };
        debug_assert!(*self == reply.desk);
        answers::verdict(&reply.judged)
    }

    /// Compares two plan files of the held roster: the first one in full, then
    /// the second. The pairings of the first plan's vote are written to the front
    /// of `forward`, those of the second's to the front of `back`, which need
    /// [`crate::PAIRING_BYTES`] each; on a refusal no byte changes.
    /// [`Desk::pairings`] reads them.
    pub fn compare<'a>(
        &self,
        first: &'a [u8],
        second: &'a [u8],
        forward: &mut [u8],
        back: &mut [u8],
    ) -> Comparison<'a> {
        // SAFETY: slices, each with its own length; those that are written overlap none, as `&mut`.
        let reply = unsafe {
            ffi::crew_compare(
                self.clone(),
                first.as_ptr(),
                first.len(),
                second.as_ptr(),
                second.len(),
                forward.as_mut_ptr(),
                forward.len(),
                back.as_mut_ptr(),
                back.len(),
            )
        };
        debug_assert!(*self == reply.desk);
        answers::comparison(&reply.compared, first, second)
    }

    /// The least vote of the plan of one file against that of another, where the
    /// ranks in the lists are known only from a low to a high number. `ranges` has
    /// these two for each list entry in the roster's order: the surveyors' lists and
    /// then the stands', each from its first entry on, a stand's tied entries behind
    /// its strict ones. A rank within each range goes to the front of `ranks`, which
    /// needs [`crate::RANK_BYTES`]: with these the vote is the least that any choice
    /// within the ranges allows, equal ranks included. Where both numbers of every
    /// range are the rank in the roster, it is the first vote of [`Desk::compare`].
    /// The first plan is judged in full, then the second, then the ranges; on a
    /// refusal no byte changes.
    pub fn least(
        &self,
        first: &[u8],
        second: &[u8],
        ranges: &[u8],
        ranks: &mut [u8],
    ) -> Result<Least, Refusal> {
        // SAFETY: slices, each with its own length; those that are written overlap none, as `&mut`.
        let reply = unsafe {
            ffi::crew_least(
                self.clone(),
                first.as_ptr(),
                first.len(),
                second.as_ptr(),
                second.len(),
                ranges.as_ptr(),
                ranges.len(),
                ranks.as_mut_ptr(),
                ranks.len(),
            )
        };
        debug_assert!(*self == reply.desk);
        answers::least(&reply.least)
    }

    /// The first blocking pair of the held plan, by the numbers of its surveyor
    /// and its stand and by its shift, or that there is none: of the lowest
    /// surveyor that has one, the pair best in this surveyor's list.
    pub fn blocking(&self) -> Result<Option<(u8, u8, u8)>, Refusal> {
        // SAFETY: no pointer goes in.
        let reply = unsafe { ffi::crew_blocking(self.clone()) };
        debug_assert!(*self == reply.desk);
        answers::blocking(&reply.blocker)
    }

    /// Runs the finder on the held roster. The diary needs
    /// [`crate::DIARY_RECORDS`], `left` [`crate::LEFT_BYTES`], `plan` and
    /// `rival` [`crate::PLAN_BYTES`] each. The answer says how much is written to
    /// each; behind that, and on a refusal, nothing changes.
    pub fn find(
        &self,
        diary: &mut [Step],
        left: &mut [u8],
        plan: &mut [u8],
        rival: &mut [u8],
    ) -> Result<Found, Refusal> {
        // SAFETY: slices that are lent to be written, each with its own length.
        let reply = unsafe {
            ffi::crew_find(
                self.clone(),
                diary.as_mut_ptr(),
                diary.len(),
                left.as_mut_ptr(),
                left.len(),
                plan.as_mut_ptr(),
                plan.len(),
                rival.as_mut_ptr(),
                rival.len(),
            )
        };
        debug_assert!(*self == reply.desk);
        answers::found(&reply)
    }

    /// A surveyor joins the held roster, with the number after the highest:
    /// a quota, and one stand list as a file, a length and then stands with their
    /// shifts, best first. The held plan stays, and a proposal is closed. Answers and
    /// writes what [`Desk::find`] does on the changed roster. A refused call changes
    /// nothing.
    pub fn join(
        &mut self,
        quota: u8,
        list: &[u8],
        diary: &mut [Step],
        left: &mut [u8],
        plan: &mut [u8],
        rival: &mut [u8],
    ) -> Result<Found, Refusal> {
        // SAFETY: slices, each with its own length; those that are written overlap none, as `&mut`.
        let reply = unsafe {
            ffi::crew_join(
                self.clone(),
                quota,
                list.as_ptr(),
                list.len(),
                diary.as_mut_ptr(),
                diary.len(),
                left.as_mut_ptr(),
                left.len(),
                plan.as_mut_ptr(),
                plan.len(),
                rival.as_mut_ptr(),
                rival.len(),
            )
        };
        self.take_changed(reply)
    }

    /// A surveyor leaves the held roster and keeps the number, with quota 0 and
    /// no pairs. The held plan loses the leaver's pairs, and a proposal is closed.
    /// One who had left, and leaves again, changes nothing. Answers and writes what
    /// [`Desk::find`] does on the changed roster. A refused call changes nothing.
    pub fn leave(
        &mut self,
        number: u8,
        diary: &mut [Step],
        left: &mut [u8],
        plan: &mut [u8],
        rival: &mut [u8],
    ) -> Result<Found, Refusal> {
        // SAFETY: slices that are lent to be written, each with its own length.
        let reply = unsafe {
            ffi::crew_leave(
                self.clone(),
                number,
                diary.as_mut_ptr(),
                diary.len(),
                left.as_mut_ptr(),
                left.len(),
                plan.as_mut_ptr(),
                plan.len(),
                rival.as_mut_ptr(),
                rival.len(),
            )
        };
        self.take_changed(reply)
    }

    /// The desk that a change of the roster hands back, in the place of this
    /// one.
    fn take_changed(&mut self, reply: ffi::DeskFound) -> Result<Found, Refusal> {
        let answer = answers::found(&reply);
        *self = reply.desk;
        answer
    }
}
