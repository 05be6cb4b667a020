//! Memory that is asked for, and may be denied.

use std::collections::TryReserveError;
use std::fs;

use crate::failure::Failure;

/// A vector of zeros.
pub fn zeros<T: Clone + Default>(count: u64, what: &str) -> Result<Vec<T>, Failure> {
    let mut vector = Vec::new();
    reserve(&mut vector, count, what)?;
    vector.resize(count as usize, T::default());
    Ok(vector)
}

/// Makes room for so many more elements, exactly.
pub fn reserve<T>(vector: &mut Vec<T>, more: u64, what: &str) -> Result<(), Failure> {
    let bytes = more.saturating_mul(size_of::<T>() as u64);
    let granted = available(bytes)
        && usize::try_from(more).is_ok_and(|more| vector.try_reserve_exact(more).is_ok());
    if granted {
        Ok(())
    } else {
        Err(denied(bytes, what))
    }
}

/// Whether the system has so much memory. It would grant more than it has, and end the program
/// later.
pub fn available(bytes: u64) -> bool {
    free().is_none_or(|free| bytes <= free)
}

/// Puts one more element, growing by doubling.
pub fn push<T>(vector: &mut Vec<T>, item: T) -> Result<(), TryReserveError> {
    if vector.len() == vector.capacity() {
        vector.try_reserve(1)?;
    }
    vector.push(item);
    Ok(())
}

/// Memory that could not be had.
pub fn denied(bytes: u64, what: &str) -> Failure {
    let free = free().map_or(String::new(), |free| format!(", and {free} are free"));
    Failure::Trouble(format!(
        "not enough memory: {what} takes {bytes} bytes{free} (a limit may be set lower)"
    ))
}

/// Bytes of memory that can be had without swapping, where the system tells.
fn free() -> Option<u64> {
    let about = fs::read_to_string("/proc/meminfo").ok()?;
    let line = (about.lines()).find_map(|line| line.strip_prefix("MemAvailable:"))?;
    let kilobytes: u64 = line.trim().strip_suffix(" kB")?.parse().ok()?;
    Some(kilobytes * 1024)
}
