//! What the sources use of Rattle's library, over Rust's own: for builds without proofs.
//!
//! Each name stands where Rattle's library has it. A call that takes memory answers that there was none where Rust
//! can tell: vectors and texts do, boxes and ordered maps don't.

pub use std::{cmp, error, fmt, hash, iter, mem, num, ops, process, slice, str};

pub mod alloc {
    use std::collections::TryReserveError;
    use std::error::Error;
    use std::{fmt, io};

    /// Where memory comes from.
    #[derive(Clone, Copy, Debug)]
    pub struct Global;

    /// That there was no memory.
    #[derive(Clone, Copy, Debug, PartialEq, Eq)]
    pub struct AllocError;

    impl fmt::Display for AllocError {
        fn fmt(&self, f: &mut fmt::Formatter<'_>) -> fmt::Result {
            f.write_str("memory allocation failed")
        }
    }

    impl Error for AllocError {}

    /// That there was no memory for a value, which is given back.
    #[derive(Clone, Copy, PartialEq, Eq)]
    pub struct AllocFailed<T>(pub T);

    impl<T> fmt::Debug for AllocFailed<T> {
        fn fmt(&self, f: &mut fmt::Formatter<'_>) -> fmt::Result {
            f.write_str("AllocFailed")
        }
    }

    impl<T> fmt::Display for AllocFailed<T> {
        fn fmt(&self, f: &mut fmt::Formatter<'_>) -> fmt::Result {
            AllocError.fmt(f)
        }
    }

    impl<T> Error for AllocFailed<T> {}

    impl<T> From<AllocFailed<T>> for AllocError {
        fn from(_failed: AllocFailed<T>) -> AllocError {
            AllocError
        }
    }

    impl From<TryReserveError> for AllocError {
        fn from(_error: TryReserveError) -> AllocError {
            AllocError
        }
    }

    impl From<AllocError> for io::Error {
        fn from(_error: AllocError) -> io::Error {
            io::ErrorKind::OutOfMemory.into()
        }
    }

    impl<T> From<AllocFailed<T>> for io::Error {
        fn from(_failed: AllocFailed<T>) -> io::Error {
            io::ErrorKind::OutOfMemory.into()
        }
    }
}

pub mod boxed {
    use crate::alloc::{AllocFailed, Global};
    use std::boxed::Box as Inner;
    use std::fmt;
    use std::ops::{Deref, DerefMut};

    #[derive(PartialEq, Eq, Hash)]
    pub struct Box<T>(Inner<T>);

    impl<T> Box<T> {
        pub fn new(_alloc: Global, value: T) -> Result<Box<T>, AllocFailed<T>> {
            Ok(Box(Inner::new(value)))
        }

        pub fn into_inner(it: Box<T>) -> T {
            *it.0
        }
    }

    impl<T> Deref for Box<T> {
        type Target = T;

        fn deref(&self) -> &T {
            &self.0
        }
    }

    impl<T> DerefMut for Box<T> {
        fn deref_mut(&mut self) -> &mut T {
            &mut self.0
        }
    }

    impl<T: fmt::Debug> fmt::Debug for Box<T> {
        fn fmt(&self, f: &mut fmt::Formatter<'_>) -> fmt::Result {
            self.0.fmt(f)
        }
    }
}

pub mod vec {
    use crate::alloc::{AllocError, AllocFailed, Global};
    use std::borrow::Borrow;
    use std::fmt;
    use std::ops::{Deref, DerefMut, RangeBounds};
    use std::slice::Iter;
    use std::vec::Vec as Inner;
    use std::vec::{Drain, IntoIter};

    #[derive(Clone, PartialEq, Eq, PartialOrd, Ord, Hash)]
    pub struct Vec<T>(pub(crate) Inner<T>);

    impl<T> Vec<T> {
        pub fn new(_alloc: Global) -> Vec<T> {
            Vec(Inner::new())
        }

        pub fn with_capacity(_alloc: Global, capacity: usize) -> Result<Vec<T>, AllocError> {
            let mut made = Inner::new();
            made.try_reserve_exact(capacity)?;
            Ok(Vec(made))
        }

        pub fn from_array<const N: usize>(
            alloc: Global,
            items: [T; N],
        ) -> Result<Vec<T>, AllocError> {
            let mut made = Vec::with_capacity(alloc, N)?;
            made.0.extend(items);
            Ok(made)
        }

        pub fn as_slice(&self) -> &[T] {
            &self.0
        }

        pub fn as_mut_slice(&mut self) -> &mut [T] {
            &mut self.0
        }

        pub fn push(&mut self, value: T) -> Result<(), AllocFailed<T>> {
            if self.0.try_reserve(1).is_err() {
                return Err(AllocFailed(value));
            }
            self.0.push(value);
            Ok(())
        }

        pub fn insert(&mut self, place: usize, value: T) -> Result<(), AllocFailed<T>> {
            if self.0.try_reserve(1).is_err() {
                return Err(AllocFailed(value));
            }
            self.0.insert(place, value);
            Ok(())
        }

        pub fn remove(&mut self, place: usize) -> T {
            self.0.remove(place)
        }

        pub fn pop(&mut self) -> Option<T> {
            self.0.pop()
        }

        pub fn truncate(&mut self, length: usize) {
            self.0.truncate(length);
        }

        pub fn clear(&mut self) {
            self.0.clear();
        }

        pub fn drain(&mut self, range: impl RangeBounds<usize>) -> Drain<'_, T> {
            self.0.drain(range)
        }

        pub fn append(&mut self, other: &mut Vec<T>) -> Result<(), AllocError> {
            self.0.try_reserve(other.0.len())?;
            self.0.append(&mut other.0);
            Ok(())
        }
    }

    impl<T: Ord> Vec<T> {
        pub fn sort(&mut self) -> Result<(), AllocError> {
            self.0.sort();
            Ok(())
        }
    }

    impl<T: Clone> Vec<T> {
        pub fn from_slice(alloc: Global, items: &[T]) -> Result<Vec<T>, AllocError> {
            let mut made = Vec::new(alloc);
            made.extend_from_slice(items)?;
            Ok(made)
        }

        pub fn from_elem(alloc: Global, value: T, length: usize) -> Result<Vec<T>, AllocError> {
            let mut made = Vec::new(alloc);
            made.resize(length, value)?;
            Ok(made)
        }

        pub fn extend_from_slice(&mut self, items: &[T]) -> Result<(), AllocError> {
            self.0.try_reserve(items.len())?;
            self.0.extend_from_slice(items);
            Ok(())
        }

        pub fn resize(&mut self, length: usize, value: T) -> Result<(), AllocError> {
            self.0.try_reserve(length.saturating_sub(self.0.len()))?;
            self.0.resize(length, value);
            Ok(())
        }
    }

    impl<T> Deref for Vec<T> {
        type Target = [T];

        fn deref(&self) -> &[T] {
            &self.0
        }
    }

    impl<T> DerefMut for Vec<T> {
        fn deref_mut(&mut self) -> &mut [T] {
            &mut self.0
        }
    }

    impl<T: fmt::Debug> fmt::Debug for Vec<T> {
        fn fmt(&self, f: &mut fmt::Formatter<'_>) -> fmt::Result {
            self.0.fmt(f)
        }
    }

    impl<T> Borrow<[T]> for Vec<T> {
        fn borrow(&self) -> &[T] {
            &self.0
        }
    }

    impl<T> IntoIterator for Vec<T> {
        type Item = T;
        type IntoIter = IntoIter<T>;

        fn into_iter(self) -> IntoIter<T> {
            self.0.into_iter()
        }
    }

    impl<'a, T> IntoIterator for &'a Vec<T> {
        type Item = &'a T;
        type IntoIter = Iter<'a, T>;

        fn into_iter(self) -> Iter<'a, T> {
            self.0.iter()
        }
    }
}

pub mod string {
    use crate::alloc::{AllocError, Global};
    use crate::vec::Vec;
    use std::borrow::Borrow;
    use std::fmt;
    use std::ops::Deref;
    use std::string::String as Inner;

    #[derive(Clone, PartialEq, Eq, PartialOrd, Ord, Hash)]
    pub struct String(pub(crate) Inner);

    impl String {
        pub fn new(_alloc: Global) -> String {
            String(Inner::new())
        }

        pub fn from_str(alloc: Global, text: &str) -> Result<String, AllocError> {
            let mut made = String::new(alloc);
            made.push_str(text)?;
            Ok(made)
        }

        pub fn as_str(&self) -> &str {
            &self.0
        }

        pub fn into_bytes(self) -> Vec<u8> {
            Vec(self.0.into_bytes())
        }

        pub fn clear(&mut self) {
            self.0.clear();
        }

        pub fn push_str(&mut self, text: &str) -> Result<(), AllocError> {
            self.0.try_reserve(text.len())?;
            self.0.push_str(text);
            Ok(())
        }

        pub fn push(&mut self, character: char) -> Result<(), AllocError> {
            self.push_str(character.encode_utf8(&mut [0; 4]))
        }

        /// What `write!` calls.
        pub fn write_fmt(&mut self, text: fmt::Arguments<'_>) -> Result<(), AllocError> {
            fmt::write(&mut Writing(self), text).map_err(|_| AllocError)
        }
    }

    struct Writing<'a>(&'a mut String);

    impl fmt::Write for Writing<'_> {
        fn write_str(&mut self, text: &str) -> fmt::Result {
            self.0.push_str(text).map_err(|_| fmt::Error)
        }
    }

    impl Deref for String {
        type Target = str;

        fn deref(&self) -> &str {
            &self.0
        }
    }

    impl Borrow<str> for String {
        fn borrow(&self) -> &str {
            &self.0
        }
    }

    impl fmt::Debug for String {
        fn fmt(&self, f: &mut fmt::Formatter<'_>) -> fmt::Result {
            self.0.fmt(f)
        }
    }

    impl fmt::Display for String {
        fn fmt(&self, f: &mut fmt::Formatter<'_>) -> fmt::Result {
            self.0.fmt(f)
        }
    }
}

pub mod collections {
    use crate::alloc::{AllocError, AllocFailed, Global};
    use std::collections::btree_map::Iter;
    use std::collections::BTreeMap as InnerMap;
    use std::collections::VecDeque as Inner;

    pub struct BTreeMap<K, V>(InnerMap<K, V>);

    impl<K: Ord, V> BTreeMap<K, V> {
        pub fn new(_alloc: Global) -> BTreeMap<K, V> {
            BTreeMap(InnerMap::new())
        }

        pub fn insert(&mut self, key: K, value: V) -> Result<Option<V>, AllocError> {
            Ok(self.0.insert(key, value))
        }
    }

    impl<'a, K, V> IntoIterator for &'a BTreeMap<K, V> {
        type Item = (&'a K, &'a V);
        type IntoIter = Iter<'a, K, V>;

        fn into_iter(self) -> Iter<'a, K, V> {
            self.0.iter()
        }
    }

    pub struct VecDeque<T>(Inner<T>);

    impl<T> VecDeque<T> {
        pub fn new(_alloc: Global) -> VecDeque<T> {
            VecDeque(Inner::new())
        }

        pub fn len(&self) -> usize {
            self.0.len()
        }

        pub fn push_back(&mut self, value: T) -> Result<(), AllocFailed<T>> {
            if self.0.try_reserve(1).is_err() {
                return Err(AllocFailed(value));
            }
            self.0.push_back(value);
            Ok(())
        }

        pub fn pop_front(&mut self) -> Option<T> {
            self.0.pop_front()
        }
    }
}

pub mod convert {
    use crate::string::String;

    pub use std::convert::*;

    /// What is a text.
    pub trait AsStr {
        fn as_str(&self) -> &str;
    }

    impl AsStr for str {
        fn as_str(&self) -> &str {
            self
        }
    }

    impl AsStr for String {
        fn as_str(&self) -> &str {
            &self.0
        }
    }
}

pub mod marker {
    pub use std::marker::PhantomData;

    /// How contracts see a value, which is nothing here.
    pub trait Model {}
}

pub mod io {
    use crate::rt::HostRuntime;
    use std::fmt::{Arguments, Display};

    pub use std::io::*;

    /// A host that has a standard output, which `print!` writes to.
    pub trait Print {
        fn print_fmt(&self, text: Arguments<'_>) -> Result<()>;

        fn print<T: Display>(&self, value: &T) -> Result<()> {
            self.print_fmt(format_args!("{value}"))
        }
    }

    /// A host that has a standard error, which `eprint!` writes to.
    pub trait Eprint {
        fn eprint_fmt(&self, text: Arguments<'_>) -> Result<()>;

        fn eprint<T: Display>(&self, value: &T) -> Result<()> {
            self.eprint_fmt(format_args!("{value}"))
        }
    }

    impl Print for HostRuntime {
        fn print_fmt(&self, text: Arguments<'_>) -> Result<()> {
            self.stdout().write_fmt(text)
        }
    }

    impl Eprint for HostRuntime {
        fn eprint_fmt(&self, text: Arguments<'_>) -> Result<()> {
            self.stderr().write_fmt(text)
        }
    }
}

pub mod fs {
    use crate::rt::Files;
    use crate::string::String;
    use crate::vec::Vec;
    use std::fs::File;
    use std::io;

    pub fn open<R: Files>(_rt: &R, name: &str) -> io::Result<File> {
        File::open(name)
    }

    pub fn read<R: Files>(_rt: &R, name: &str) -> io::Result<Vec<u8>> {
        Ok(Vec(std::fs::read(name)?))
    }

    pub fn read_to_string<R: Files>(_rt: &R, name: &str) -> io::Result<String> {
        Ok(String(std::fs::read_to_string(name)?))
    }
}

pub mod env {
    use crate::rt::HostRuntime;
    use crate::string::String;
    use std::io;

    /// The program's name and its words, where all are UTF-8.
    pub fn args(_rt: &HostRuntime) -> io::Result<impl Iterator<Item = String>> {
        let words: Option<std::vec::Vec<String>> = std::env::args_os()
            .map(|word| word.into_string().ok().map(String))
            .collect();
        Ok(words.ok_or(io::ErrorKind::InvalidData)?.into_iter())
    }
}

pub mod time {
    use crate::rt::HostRuntime;
    use std::io::Result;
    use std::time::Instant as Inner;

    pub use std::time::Duration;

    /// A host that has a clock.
    pub trait Clock {}

    impl Clock for HostRuntime {}

    #[derive(Clone, Copy)]
    pub struct Instant(Inner);

    impl Instant {
        pub fn now(_clock: &impl Clock) -> Result<Instant> {
            Ok(Instant(Inner::now()))
        }

        pub fn elapsed(&self, _clock: &impl Clock) -> Result<Duration> {
            Ok(self.0.elapsed())
        }
    }
}

pub mod thread {
    use crate::alloc::{AllocError, Global};
    use crate::rt::{HostRuntime, STACK};
    use crate::vec::Vec;
    use std::thread::{scope, Builder};

    /// A host that has threads.
    pub trait Threads {}

    impl Threads for HostRuntime {}

    /// What a function answers of the numbers below `count`, asked in threads.
    pub fn map_indices<X: Send>(
        _rt: &impl Threads,
        alloc: Global,
        count: usize,
        ask: &(impl Fn(usize) -> X + Sync),
    ) -> Result<Vec<X>, AllocError> {
        let mut answers = Vec::with_capacity(alloc, count)?;
        scope(|threads| {
            let asked: std::vec::Vec<_> = (0..count)
                .map(|number| {
                    Builder::new()
                        .stack_size(STACK)
                        .spawn_scoped(threads, move || ask(number))
                })
                .collect();
            for it in asked {
                let answer = it.map_err(|_| AllocError)?.join();
                answers.push(answer.expect("an answer"))?;
            }
            Ok(answers)
        })
    }
}

pub mod rt {
    use crate::alloc::Global;
    use std::fs::File;
    use std::os::fd::AsFd;
    use std::process::{ExitCode, Termination};
    use std::thread::Builder;

    /// Room, in bytes, for calls on formulas that are thousands of levels deep.
    pub(crate) const STACK: usize = 256 << 20;

    pub trait Files {}

    /// What a program is given by its host.
    pub struct HostRuntime;

    impl Files for HostRuntime {}

    impl HostRuntime {
        pub fn alloc(&self) -> Global {
            Global
        }

        /// What is written to it isn't held back, so that each fault is seen. One isn't: for a stream that was closed
        /// at the start Rust opens /dev/null, where the kit's write fails.
        pub fn stdout(&self) -> File {
            own(&std::io::stdout())
        }

        pub fn stderr(&self) -> File {
            own(&std::io::stderr())
        }
    }

    /// A file over a copy of an open stream.
    fn own(stream: &impl AsFd) -> File {
        stream
            .as_fd()
            .try_clone_to_owned()
            .expect("an open stream")
            .into()
    }

    /// Runs a program whose `main` takes a runtime. Where it stops at a fault that a proof would have refused, the
    /// status is 70.
    pub fn start<T: Termination + 'static>(run: fn(HostRuntime) -> T) -> ExitCode {
        let running = Builder::new()
            .stack_size(STACK)
            .spawn(move || run(HostRuntime).report());
        running
            .expect("a thread")
            .join()
            .unwrap_or(ExitCode::from(70))
    }
}

pub mod prelude {
    use crate::alloc::{AllocError, Global};

    pub use crate::boxed::Box;
    pub use crate::io::{Eprint, Print};
    pub use crate::rt::HostRuntime;
    pub use crate::string::String;
    pub use crate::vec::Vec;

    /// What may be let go, which is everything here.
    pub trait Drop {}

    impl<T: ?Sized> Drop for T {}

    /// The `collect` of iterators, which takes an allocator there.
    pub trait Collect: Iterator {
        fn collect_in(self, alloc: Global) -> Result<Vec<Self::Item>, AllocError>
        where
            Self: Sized,
        {
            let mut made = Vec::new(alloc);
            for item in self {
                made.push(item)?;
            }
            Ok(made)
        }
    }

    impl<I: Iterator> Collect for I {}

    /// The `to_vec` of slices, which takes an allocator there.
    pub trait ToVec<T> {
        fn to_vec_in(&self, alloc: Global) -> Result<Vec<T>, AllocError>;
    }

    impl<T: Clone> ToVec<T> for [T] {
        fn to_vec_in(&self, alloc: Global) -> Result<Vec<T>, AllocError> {
            Vec::from_slice(alloc, self)
        }
    }

    /// The `replace` of texts, which takes an allocator there.
    pub trait Replace {
        fn replace_in(&self, alloc: Global, from: &str, to: &str) -> Result<String, AllocError>;
    }

    impl Replace for str {
        fn replace_in(&self, alloc: Global, from: &str, to: &str) -> Result<String, AllocError> {
            String::from_str(alloc, &self.replace(from, to))
        }
    }
}

#[macro_export]
macro_rules! vec {
    (in $alloc:expr; $value:expr; $length:expr) => {
        $crate::vec::Vec::from_elem($alloc, $value, $length)
    };
    (in $alloc:expr; $($value:expr),+ $(,)?) => {
        $crate::vec::Vec::from_array($alloc, [$($value),+])
    };
}

#[macro_export]
macro_rules! format {
    (in $alloc:expr; $($text:tt)*) => {{
        let mut made = $crate::string::String::new($alloc);
        made.write_fmt(::core::format_args!($($text)*)).map(|()| made)
    }};
}

#[macro_export]
macro_rules! print {
    ($rt:expr; $($text:tt)*) => {
        $crate::io::Print::print_fmt($rt, ::core::format_args!($($text)*))
    };
}

#[macro_export]
macro_rules! println {
    ($rt:expr; $($text:tt)*) => {
        $crate::print!($rt; $($text)*).and_then(|()| $crate::print!($rt; "\n"))
    };
}

#[macro_export]
macro_rules! eprint {
    ($rt:expr; $($text:tt)*) => {
        $crate::io::Eprint::eprint_fmt($rt, ::core::format_args!($($text)*))
    };
}

#[macro_export]
macro_rules! eprintln {
    ($rt:expr; $($text:tt)*) => {
        $crate::eprint!($rt; $($text)*).and_then(|()| $crate::eprint!($rt; "\n"))
    };
}
