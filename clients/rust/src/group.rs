use crate::error::{check, Error};
use crate::ffi;
use crate::volume::Session;
use std::fmt;
use std::marker::PhantomData;

/// A group of changes of this thread, which [`Volume::group`](crate::Volume::group) begins. It ends when this is
/// dropped.
///
/// It stays with its thread:
///
/// ```compile_fail,E0277
/// fn send(volume: &famsync::Volume) {
///     let group = volume.group().unwrap();
///     std::thread::scope(|scope| {
///         scope.spawn(move || drop(group));
///     });
/// }
/// ```
///
/// and the volume stays open meanwhile:
///
/// ```compile_fail,E0505
/// fn end(volume: famsync::Volume) {
///     let group = volume.group().unwrap();
///     drop(volume);
///     drop(group);
/// }
/// ```
#[must_use = "the group ends when this is dropped"]
pub struct Group<'a> {
    session: &'a Session,
    /// A pointer, which no other thread may have.
    thread: PhantomData<*mut ()>,
}

impl Group<'_> {
    pub(crate) fn begin(session: &Session) -> Result<Group<'_>, Error> {
        // Safety: the session is open.
        check(unsafe { ffi::famsync_begin(session.handle()) })?;
        Ok(Group { session, thread: PhantomData })
    }
}

impl Drop for Group<'_> {
    fn drop(&mut self) {
        // Safety: the session is open. In a forked process this does nothing.
        unsafe { ffi::famsync_end(self.session.handle()) };
    }
}

impl fmt::Debug for Group<'_> {
    fn fmt(&self, formatter: &mut fmt::Formatter<'_>) -> fmt::Result {
        formatter.debug_struct("Group").finish_non_exhaustive()
    }
}
