// What the given Rust wants of other crates, as little of it as compiles. The crate goes by their names (main.rs), so these stand at its root.
use std::fmt;
use std::fs::File;
use std::hash::{BuildHasherDefault, DefaultHasher};
use std::io::{self, Read};
use std::ops::Deref;

// eyre
pub struct Report(pub String);

impl fmt::Debug for Report {
    fn fmt(&self, f: &mut fmt::Formatter<'_>) -> fmt::Result {
        f.write_str(&self.0)
    }
}

pub type Result<T, E = Report> = std::result::Result<T, E>;

#[macro_export]
macro_rules! anyhow {
    ($($part:tt)*) => { $crate::stand_in::Report(format!($($part)*)) };
}

// libc: the system's own call
#[allow(non_camel_case_types)]
pub type c_void = std::ffi::c_void;
pub const MADV_HUGEPAGE: i32 = 14;

#[cfg(target_os = "linux")]
unsafe extern "C" {
    pub fn madvise(start: *mut c_void, bytes: usize, advice: i32) -> i32;
}

// rustc-hash
pub type FxBuildHasher = BuildHasherDefault<DefaultHasher>;

// memmap2
pub struct Mmap(Vec<u8>);

impl Mmap {
    /// # Safety
    /// None is asked: the file is read.
    pub unsafe fn map(file: &File) -> io::Result<Mmap> {
        let mut bytes = Vec::new();
        let mut file = file;
        file.read_to_end(&mut bytes)?;
        Ok(Mmap(bytes))
    }
}

impl Deref for Mmap {
    type Target = [u8];

    fn deref(&self) -> &[u8] {
        &self.0
    }
}

// memchr
pub mod memmem {
    pub struct Finder<'n>(&'n [u8]);

    impl<'n> Finder<'n> {
        pub fn new<B: ?Sized + AsRef<[u8]>>(needle: &'n B) -> Self {
            Finder(needle.as_ref())
        }

        pub fn needle(&self) -> &[u8] {
            self.0
        }

        pub fn find(&self, text: &[u8]) -> Option<usize> {
            (0..=text.len()).find(|&at| text[at..].starts_with(self.0))
        }

        pub fn find_iter<'a>(&'a self, text: &'a [u8]) -> impl Iterator<Item = usize> + 'a {
            (0..=text.len()).filter(|&at| text[at..].starts_with(self.0))
        }
    }
}

// rayon, with one thread
pub fn current_num_threads() -> usize {
    1
}

pub mod prelude {
    pub struct Serial<I>(I);

    pub trait ParallelIterator: Sized {
        type Item;
        type Items: Iterator<Item = Self::Item>;

        fn items(self) -> Self::Items;

        fn map<B, F: FnMut(Self::Item) -> B>(self, f: F) -> Serial<std::iter::Map<Self::Items, F>> {
            Serial(self.items().map(f))
        }

        fn reduce(
            self,
            start: impl Fn() -> Self::Item,
            join: impl Fn(Self::Item, Self::Item) -> Self::Item,
        ) -> Self::Item {
            self.items().fold(start(), join)
        }
    }

    impl<I: Iterator> ParallelIterator for Serial<I> {
        type Item = I::Item;
        type Items = I;

        fn items(self) -> I {
            self.0
        }
    }

    pub trait IntoParallelIterator {
        type Items: Iterator;

        fn into_par_iter(self) -> Serial<Self::Items>;
    }

    impl<T> IntoParallelIterator for Vec<T> {
        type Items = std::vec::IntoIter<T>;

        fn into_par_iter(self) -> Serial<Self::Items> {
            Serial(self.into_iter())
        }
    }
}
