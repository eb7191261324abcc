//! Reading an event under a description that isn't shared.

use std::io::BufRead;
use std::sync::Arc;

use crate::binlog_event_format::FormatDescriptionEvent;
use crate::binlog_events::Event;
use crate::binlog_wire::{Error, IntoOwned};

impl Event {
    /// Reads the event at the start of the input under a format description, and takes exactly its bytes, as
    /// [`Event::read_shared`] does. The event has a copy of the description; that call shares it.
    ///
    /// ```
    /// use binlog::consts::BinlogVersion;
    /// use binlog::events::{Event, FormatDescriptionEvent};
    ///
    /// let description = FormatDescriptionEvent::new(BinlogVersion::Version4);
    /// let xid = b"\0\0\0\0\x10\x01\0\0\0\x1b\0\0\0\x1f\0\0\0\0\0\x07\0\0\0\0\0\0\0";
    /// let event = Event::read(&description, &xid[..])?;
    /// assert_eq!(event.data(), [7, 0, 0, 0, 0, 0, 0, 0]);
    /// # Ok::<(), binlog::Error>(())
    /// ```
    ///
    /// # Errors
    ///
    /// Those of that call, and [`Error::Memory`] if the description can't be copied; nothing is taken then.
    pub fn read<R: BufRead>(fde: &FormatDescriptionEvent<'_>, input: R) -> Result<Event, Error> {
        let fde = fde.as_ref().to_event().try_into_owned()?;
        Event::read_shared(&Arc::new(fde), input)
    }
}
