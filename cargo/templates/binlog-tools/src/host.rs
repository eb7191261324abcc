//! The machine that the program runs on: its standard streams, files, clock and arguments, by the names that the proved
//! sources have for them.
use binlog::Error;
use std::fmt;
use std::io;
use std::io::{Read, Seek, Stderr, StdinLock, Stdout, Write};
use std::sync::LazyLock;
use std::time::{Duration, Instant};

/// Writes to standard error.
pub trait Eprint {
    /// Writes a text.
    fn eprint(&self, text: fmt::Arguments<'_>) -> io::Result<()>;

    /// Writes a text and a line break, at once.
    fn eprintln(&self, text: fmt::Arguments<'_>) -> io::Result<()> {
        self.eprint(format_args!("{text}\n"))
    }
}

/// Writes to standard output.
pub trait Print {
    /// Writes a text.
    fn print(&self, text: fmt::Arguments<'_>) -> io::Result<()>;
}

/// Reads standard input.
pub trait Input {
    /// The reader of standard input.
    type Reader: Read;

    /// Standard input.
    fn reader(&self) -> Self::Reader;
}

/// What a file can do besides.
pub trait OpenFile {
    /// Waits until all of it is on its device.
    fn sync_all(&self) -> io::Result<()>;

    /// Cuts it off behind so many bytes, or appends zeros.
    fn set_len(&self, len: u64) -> io::Result<()>;
}

/// Has files.
pub trait Files {
    /// An open file.
    type File: Read + Write + Seek + OpenFile;

    /// Opens the file of a name for reading.
    fn open(&self, name: &str) -> io::Result<Self::File>;

    /// Makes the file of a name, empty, and opens it for writing.
    fn create(&self, name: &str) -> io::Result<Self::File>;

    /// The same, but refuses a name that a file has.
    fn create_new(&self, name: &str) -> io::Result<Self::File>;

    /// Opens the file of a name in this way.
    fn open_file(&self, options: &std::fs::OpenOptions, name: &str) -> io::Result<Self::File>;

    /// Whether a file has a name.
    fn exists(&self, name: &str) -> io::Result<bool>;

    /// Gives the file of a name another one, in place of a file that has it.
    fn rename(&self, from: &str, to: &str) -> io::Result<()>;

    /// Removes the file of a name.
    fn remove_file(&self, name: &str) -> io::Result<()>;

    /// What is known of the file of a name without opening it.
    fn metadata(&self, name: &str) -> io::Result<std::fs::Metadata>;
}

/// Has a clock.
pub trait Clock {
    /// The time since its first call.
    fn monotonic(&self) -> io::Result<Duration>;

    /// Waits.
    fn sleep(&self, duration: Duration);
}

/// Has the arguments of the command line.
pub trait Env {
    /// The arguments; an error if one of them isn't UTF-8.
    fn args(&self) -> io::Result<env::Args>;
}

/// An error of which another one is made that says the same.
pub trait Copied {
    /// The other one.
    fn copied(&self) -> Self;
}

impl Copied for Error {
    fn copied(&self) -> Self {
        self.clone()
    }
}

impl Copied for io::Error {
    fn copied(&self) -> Self {
        match self.raw_os_error() {
            Some(code) => io::Error::from_raw_os_error(code),
            None => self.kind().into(),
        }
    }
}

/// The machine.
#[derive(Clone, Copy, Debug)]
pub struct Host;

impl Host {
    /// Standard output.
    pub fn stdout(&self) -> Stdout {
        io::stdout()
    }

    /// Standard error.
    pub fn stderr(&self) -> Stderr {
        io::stderr()
    }
}

impl Eprint for Host {
    fn eprint(&self, text: fmt::Arguments<'_>) -> io::Result<()> {
        io::stderr().lock().write_fmt(text)
    }
}

impl Print for Host {
    fn print(&self, text: fmt::Arguments<'_>) -> io::Result<()> {
        let mut output = io::stdout().lock();
        output.write_fmt(text)?;
        output.flush()
    }
}

impl Input for Host {
    type Reader = StdinLock<'static>;

    fn reader(&self) -> Self::Reader {
        io::stdin().lock()
    }
}

impl Files for Host {
    type File = fs::File;

    fn open(&self, name: &str) -> io::Result<fs::File> {
        std::fs::File::open(name).map(fs::File)
    }

    fn create(&self, name: &str) -> io::Result<fs::File> {
        std::fs::File::create(name).map(fs::File)
    }

    fn create_new(&self, name: &str) -> io::Result<fs::File> {
        std::fs::File::create_new(name).map(fs::File)
    }

    fn open_file(&self, options: &std::fs::OpenOptions, name: &str) -> io::Result<fs::File> {
        options.open(name).map(fs::File)
    }

    fn exists(&self, name: &str) -> io::Result<bool> {
        std::fs::exists(name)
    }

    fn rename(&self, from: &str, to: &str) -> io::Result<()> {
        std::fs::rename(from, to)
    }

    fn remove_file(&self, name: &str) -> io::Result<()> {
        std::fs::remove_file(name)
    }

    fn metadata(&self, name: &str) -> io::Result<std::fs::Metadata> {
        std::fs::metadata(name)
    }
}

/// When the time was asked for first.
static FIRST: LazyLock<Instant> = LazyLock::new(Instant::now);

impl Clock for Host {
    fn monotonic(&self) -> io::Result<Duration> {
        Ok(FIRST.elapsed())
    }

    fn sleep(&self, duration: Duration) {
        std::thread::sleep(duration);
    }
}

impl Env for Host {
    fn args(&self) -> io::Result<env::Args> {
        let words: Option<Vec<String>> = std::env::args_os().map(|word| word.into_string().ok()).collect();
        words.map(|words| env::Args(words.into_iter())).ok_or_else(|| io::ErrorKind::InvalidData.into())
    }
}

/// The arguments of the command line.
pub mod env {
    use super::Env;
    use binlog::AllocError;
    use std::io;
    use std::vec::IntoIter;

    /// The arguments, the program's name first.
    #[derive(Debug)]
    pub struct Args(pub(super) IntoIter<String>);

    impl Args {
        /// The arguments in a collection.
        pub fn collect<C: FromIterator<String>>(self) -> Result<C, AllocError> {
            Ok(self.0.collect())
        }
    }

    impl Iterator for Args {
        type Item = String;

        fn next(&mut self) -> Option<String> {
            self.0.next()
        }
    }

    /// The arguments; an error if one of them isn't UTF-8.
    pub fn args<R: Env>(rt: &R) -> io::Result<Args> {
        rt.args()
    }
}

/// Files by their names.
pub mod fs {
    use super::{Files, OpenFile};
    use std::fs::{Metadata, TryLockError};
    use std::io;
    use std::io::{Read, Seek, SeekFrom, Write};
    use std::os::unix::fs::FileExt;

    /// An open file.
    #[derive(Debug)]
    pub struct File(pub(super) std::fs::File);

    impl File {
        /// Makes a file, and refuses a name that one has.
        pub fn create_new<R: Files>(rt: &R, name: &str) -> io::Result<R::File> {
            rt.create_new(name)
        }

        /// Locks the file against all others that do, for as long as it is open.
        pub fn try_lock(&self) -> Result<(), TryLockError> {
            self.0.try_lock()
        }
    }

    impl OpenFile for File {
        fn sync_all(&self) -> io::Result<()> {
            self.0.sync_all()
        }

        fn set_len(&self, len: u64) -> io::Result<()> {
            self.0.set_len(len)
        }
    }

    impl Read for File {
        fn read(&mut self, buf: &mut [u8]) -> io::Result<usize> {
            self.0.read(buf)
        }
    }

    impl Write for File {
        fn write(&mut self, buf: &[u8]) -> io::Result<usize> {
            self.0.write(buf)
        }

        fn flush(&mut self) -> io::Result<()> {
            self.0.flush()
        }
    }

    impl FileExt for File {
        fn read_at(&self, buf: &mut [u8], offset: u64) -> io::Result<usize> {
            self.0.read_at(buf, offset)
        }

        fn write_at(&self, buf: &[u8], offset: u64) -> io::Result<usize> {
            self.0.write_at(buf, offset)
        }
    }

    impl Seek for File {
        fn seek(&mut self, to: SeekFrom) -> io::Result<u64> {
            self.0.seek(to)
        }
    }

    /// In which way a file is opened.
    #[derive(Debug)]
    pub struct OpenOptions(std::fs::OpenOptions);

    #[allow(clippy::new_without_default)]
    impl OpenOptions {
        /// In none yet.
        pub fn new() -> OpenOptions {
            OpenOptions(std::fs::OpenOptions::new())
        }

        /// For writing, or not.
        pub fn write(&mut self, is_written: bool) -> &mut OpenOptions {
            self.0.write(is_written);
            self
        }

        /// Opens the file of a name.
        pub fn open<R: Files>(&self, rt: &R, name: &str) -> io::Result<R::File> {
            rt.open_file(&self.0, name)
        }
    }

    /// Whether a file has a name.
    pub fn exists<R: Files>(rt: &R, name: &str) -> io::Result<bool> {
        rt.exists(name)
    }

    /// Opens a file for reading.
    pub fn open<R: Files>(rt: &R, name: &str) -> io::Result<R::File> {
        rt.open(name)
    }

    /// Makes a file, empty, and opens it for writing.
    pub fn create<R: Files>(rt: &R, name: &str) -> io::Result<R::File> {
        rt.create(name)
    }

    /// Gives a file another name.
    pub fn rename<R: Files>(rt: &R, from: &str, to: &str) -> io::Result<()> {
        rt.rename(from, to)
    }

    /// Removes a file.
    pub fn remove_file<R: Files>(rt: &R, name: &str) -> io::Result<()> {
        rt.remove_file(name)
    }

    /// What is known of a file without opening it.
    pub fn metadata<R: Files>(rt: &R, name: &str) -> io::Result<Metadata> {
        rt.metadata(name)
    }
}

/// Waiting.
pub mod thread {
    use super::Clock;
    use std::time::Duration;

    /// Waits.
    pub fn sleep<C: Clock>(clock: &C, duration: Duration) {
        clock.sleep(duration);
    }
}
