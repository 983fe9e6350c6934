//! The ten functions of an archive, each behind a safe function over slices.

use crate::model::red_card::Answer;
use crate::model::tables::Tables;
use crate::model::tally::Settings;
use crate::model::trace::Lists;

/// Declares the functions of the library's archive and, for `beside`, of an earlier commit's: `snailstamp_*`, `before_*`.
macro_rules! archive {
    ($(fn $name:ident($($argument:ident: $kind:ty),* $(,)?) -> u64;)*) => {
        /// The functions of one archive.
        pub struct Library {
            $($name: unsafe extern "C" fn($($kind),*) -> u64,)*
        }

        mod now {
            extern "C" {
                $(#[link_name = concat!("snailstamp_", stringify!($name))]
                pub fn $name($($argument: $kind),*) -> u64;)*
            }
        }

        pub const NOW: Library = Library { $($name: now::$name,)* };

        #[cfg(feature = "beside")]
        mod before {
            extern "C" {
                $(#[link_name = concat!("before_", stringify!($name))]
                pub fn $name($($argument: $kind),*) -> u64;)*
            }
        }

        #[cfg(feature = "beside")]
        pub const BEFORE: Library = Library { $($name: before::$name,)* };
    };
}

archive! {
    fn fresh(
        unit: u64,
        policy: u64,
        capacity: u64,
        places: u64,
        catalogue: u64,
        tally: *mut u64,
        tally_length: usize,
        place: *mut u16,
        place_length: usize,
        file: *mut u16,
        file_length: usize,
        size: *mut u32,
        size_length: usize,
        cost: *mut u16,
        cost_length: usize,
        freq: *mut u32,
        freq_length: usize,
        key: *mut u64,
        key_length: usize,
        stamp: *mut u64,
        stamp_length: usize,
        queue: *mut u16,
        queue_length: usize,
    ) -> u64;

    fn carry_on(
        unit: u64,
        tally: *mut u64,
        tally_length: usize,
        place: *mut u16,
        place_length: usize,
        file: *mut u16,
        file_length: usize,
        size: *mut u32,
        size_length: usize,
        cost: *mut u16,
        cost_length: usize,
        freq: *mut u32,
        freq_length: usize,
        key: *mut u64,
        key_length: usize,
        stamp: *mut u64,
        stamp_length: usize,
        queue: *mut u16,
        queue_length: usize,
        part: *const u8,
        part_length: usize,
        events: *mut u32,
        events_length: usize,
    ) -> u64;

    fn read_file(
        trace: *const u8,
        trace_length: usize,
        settings: *mut u64,
        settings_length: usize,
        files: *mut u16,
        files_length: usize,
        sizes: *mut u32,
        sizes_length: usize,
        costs: *mut u16,
        costs_length: usize,
    ) -> u64;

    fn read_part(
        catalogue: u64,
        part: *const u8,
        part_length: usize,
        files: *mut u16,
        files_length: usize,
        sizes: *mut u32,
        sizes_length: usize,
        costs: *mut u16,
        costs_length: usize,
    ) -> u64;

    fn write_file(
        unit: u64,
        policy: u64,
        capacity: u64,
        places: u64,
        catalogue: u64,
        files: *const u16,
        files_length: usize,
        sizes: *const u32,
        sizes_length: usize,
        costs: *const u16,
        costs_length: usize,
        out: *mut u8,
        out_length: usize,
    ) -> u64;

    fn write_part(
        catalogue: u64,
        files: *const u16,
        files_length: usize,
        sizes: *const u32,
        sizes_length: usize,
        costs: *const u16,
        costs_length: usize,
        out: *mut u8,
        out_length: usize,
    ) -> u64;

    fn sheet(
        trace: *const u8,
        trace_length: usize,
        out: *mut u8,
        out_length: usize,
    ) -> u64;

    fn squid_file(
        unit: u64,
        policy: u64,
        capacity: u64,
        places: u64,
        catalogue: u64,
        log: *const u8,
        log_length: usize,
        out: *mut u8,
        out_length: usize,
    ) -> u64;

    fn squid_part(
        catalogue: u64,
        log: *const u8,
        log_length: usize,
        out: *mut u8,
        out_length: usize,
    ) -> u64;

    fn ratios(
        tally: *const u64,
        tally_length: usize,
        ratios: *mut f64,
        ratios_length: usize,
    ) -> u64;
}

/// The eight tables as they are lent for one call.
pub struct LentTables<'a> {
    pub place: &'a mut [u16],
    pub file: &'a mut [u16],
    pub size: &'a mut [u32],
    pub cost: &'a mut [u16],
    pub freq: &'a mut [u32],
    pub key: &'a mut [u64],
    pub stamp: &'a mut [u64],
    pub queue: &'a mut [u16],
}

/// The three lists of requests as they are lent to a reader.
pub struct LentLists<'a> {
    pub files: &'a mut [u16],
    pub sizes: &'a mut [u32],
    pub costs: &'a mut [u16],
}

impl Tables {
    pub fn lend(&mut self) -> LentTables<'_> {
        LentTables {
            place: &mut self.place,
            file: &mut self.file,
            size: &mut self.size,
            cost: &mut self.cost,
            freq: &mut self.freq,
            key: &mut self.key,
            stamp: &mut self.stamp,
            queue: &mut self.queue,
        }
    }
}

impl Lists {
    pub fn lend(&mut self) -> LentLists<'_> {
        LentLists {
            files: &mut self.files,
            sizes: &mut self.sizes,
            costs: &mut self.costs,
        }
    }
}

/// An answer is one word: its value times 256, plus its number.
fn decoded(word: u64) -> Answer {
    Answer {
        value: word / 256,
        number: word % 256,
    }
}

impl Library {
    pub fn fresh(&self, settings: &Settings, tally: &mut [u64], tables: LentTables) -> Answer {
        // Safe for each function below: every pointer comes with the length of its own slice,
        // and exclusive slices cannot overlap.
        decoded(unsafe {
            (self.fresh)(
                settings.unit,
                settings.policy,
                settings.capacity,
                settings.places,
                settings.catalogue,
                tally.as_mut_ptr(),
                tally.len(),
                tables.place.as_mut_ptr(),
                tables.place.len(),
                tables.file.as_mut_ptr(),
                tables.file.len(),
                tables.size.as_mut_ptr(),
                tables.size.len(),
                tables.cost.as_mut_ptr(),
                tables.cost.len(),
                tables.freq.as_mut_ptr(),
                tables.freq.len(),
                tables.key.as_mut_ptr(),
                tables.key.len(),
                tables.stamp.as_mut_ptr(),
                tables.stamp.len(),
                tables.queue.as_mut_ptr(),
                tables.queue.len(),
            )
        })
    }

    pub fn carry_on(
        &self,
        unit: u64,
        tally: &mut [u64],
        tables: LentTables,
        part: &[u8],
        events: &mut [u32],
    ) -> Answer {
        decoded(unsafe {
            (self.carry_on)(
                unit,
                tally.as_mut_ptr(),
                tally.len(),
                tables.place.as_mut_ptr(),
                tables.place.len(),
                tables.file.as_mut_ptr(),
                tables.file.len(),
                tables.size.as_mut_ptr(),
                tables.size.len(),
                tables.cost.as_mut_ptr(),
                tables.cost.len(),
                tables.freq.as_mut_ptr(),
                tables.freq.len(),
                tables.key.as_mut_ptr(),
                tables.key.len(),
                tables.stamp.as_mut_ptr(),
                tables.stamp.len(),
                tables.queue.as_mut_ptr(),
                tables.queue.len(),
                part.as_ptr(),
                part.len(),
                events.as_mut_ptr(),
                events.len(),
            )
        })
    }

    pub fn read_file(&self, trace: &[u8], settings: &mut [u64], lists: LentLists) -> Answer {
        decoded(unsafe {
            (self.read_file)(
                trace.as_ptr(),
                trace.len(),
                settings.as_mut_ptr(),
                settings.len(),
                lists.files.as_mut_ptr(),
                lists.files.len(),
                lists.sizes.as_mut_ptr(),
                lists.sizes.len(),
                lists.costs.as_mut_ptr(),
                lists.costs.len(),
            )
        })
    }

    pub fn read_part(&self, catalogue: u64, part: &[u8], lists: LentLists) -> Answer {
        decoded(unsafe {
            (self.read_part)(
                catalogue,
                part.as_ptr(),
                part.len(),
                lists.files.as_mut_ptr(),
                lists.files.len(),
                lists.sizes.as_mut_ptr(),
                lists.sizes.len(),
                lists.costs.as_mut_ptr(),
                lists.costs.len(),
            )
        })
    }

    pub fn write_file(
        &self,
        settings: &Settings,
        files: &[u16],
        sizes: &[u32],
        costs: &[u16],
        out: &mut [u8],
    ) -> Answer {
        decoded(unsafe {
            (self.write_file)(
                settings.unit,
                settings.policy,
                settings.capacity,
                settings.places,
                settings.catalogue,
                files.as_ptr(),
                files.len(),
                sizes.as_ptr(),
                sizes.len(),
                costs.as_ptr(),
                costs.len(),
                out.as_mut_ptr(),
                out.len(),
            )
        })
    }

    pub fn write_part(
        &self,
        catalogue: u64,
        files: &[u16],
        sizes: &[u32],
        costs: &[u16],
        out: &mut [u8],
    ) -> Answer {
        decoded(unsafe {
            (self.write_part)(
                catalogue,
                files.as_ptr(),
                files.len(),
                sizes.as_ptr(),
                sizes.len(),
                costs.as_ptr(),
                costs.len(),
                out.as_mut_ptr(),
                out.len(),
            )
        })
    }

    pub fn sheet(&self, trace: &[u8], out: &mut [u8]) -> Answer {
        decoded(unsafe { (self.sheet)(trace.as_ptr(), trace.len(), out.as_mut_ptr(), out.len()) })
    }

    pub fn squid_file(&self, settings: &Settings, log: &[u8], out: &mut [u8]) -> Answer {
        decoded(unsafe {
            (self.squid_file)(
                settings.unit,
                settings.policy,
                settings.capacity,
                settings.places,
                settings.catalogue,
                log.as_ptr(),
                log.len(),
                out.as_mut_ptr(),
                out.len(),
            )
        })
    }

    pub fn squid_part(&self, catalogue: u64, log: &[u8], out: &mut [u8]) -> Answer {
        decoded(unsafe {
            (self.squid_part)(
                catalogue,
                log.as_ptr(),
                log.len(),
                out.as_mut_ptr(),
                out.len(),
            )
        })
    }

    pub fn ratios(&self, tally: &[u64], list: &mut [f64]) -> Answer {
        decoded(unsafe {
            (self.ratios)(tally.as_ptr(), tally.len(), list.as_mut_ptr(), list.len())
        })
    }
}
