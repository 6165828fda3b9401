//! Memory that grows with a file is asked for, so that a lack of it is told in a line and does not end the program by a signal.

use std::error::Error;
use std::fmt;
use std::hint::black_box;

/// So many bytes are wanted and are not there.
#[derive(Clone, Copy, Debug, PartialEq, Eq)]
pub struct NoMemory {
    pub bytes: usize,
}

impl fmt::Display for NoMemory {
    fn fmt(&self, f: &mut fmt::Formatter<'_>) -> fmt::Result {
        write!(f, "no memory for {} bytes", self.bytes)
    }
}

impl Error for NoMemory {}

/// What must be there besides, for all that is small and is not asked for.
const BESIDES: usize = 1 << 20;

/// Makes room for so many more elements in a list.
fn reserve<T>(list: &mut Vec<T>, more: usize) -> Result<(), NoMemory> {
    let wanted = list.len().saturating_add(more);
    let bytes = wanted.saturating_mul(size_of::<T>());
    let mut besides: Vec<u8> = Vec::new();
    let reserved = list
        .try_reserve_exact(more)
        .and_then(|()| besides.try_reserve_exact(BESIDES));
    // What is not used would not have to be asked for.
    black_box(&besides);
    reserved.map_err(|_| NoMemory { bytes })
}

/// An empty list with room for so many elements.
pub fn room<T>(count: usize) -> Result<Vec<T>, NoMemory> {
    let mut list = Vec::new();
    reserve(&mut list, count)?;
    Ok(list)
}

/// Puts an element at the end of a list.
pub fn push<T>(list: &mut Vec<T>, element: T) -> Result<(), NoMemory> {
    if list.len() == list.capacity() {
        let more = list.len().max(64);
        reserve(list, more)?;
    }
    list.push(element);
    Ok(())
}

/// The first `len` elements of a slice that is kept. One that is shorter gives way to one of this length, which is asked for,
/// let go of, and then had from the allocator as zeros: so no page of it is touched here.
pub fn part<T: Clone + Default>(kept: &mut Vec<T>, len: usize) -> Result<&mut [T], NoMemory> {
    if kept.len() < len {
        *kept = Vec::new();
        drop(black_box(room::<T>(len)?));
        *kept = vec![T::default(); len];
    }
    Ok(&mut kept[..len])
}

#[cfg(test)]
mod tests {
    use super::*;

    #[test]
    fn what_is_not_there_is_told() {
        let most = isize::MAX as usize;
        assert_eq!(room::<u8>(most), Err(NoMemory { bytes: most }));
        let lack = part(&mut vec![0_u16; 3], most / 2).unwrap_err();
        assert_eq!(
            lack.to_string(),
            format!("no memory for {} bytes", most - 1)
        );
    }

    #[test]
    fn a_slice_is_kept_and_gives_way_to_a_longer_one() {
        let mut kept = vec![7_u8; 4];
        assert_eq!(part(&mut kept, 3), Ok(&mut [7; 3][..]));
        assert_eq!(part(&mut kept, 5), Ok(&mut [0; 5][..]));
        assert_eq!((kept.len(), kept.capacity()), (5, 5));
    }

    #[test]
    fn a_list_grows_by_its_elements() {
        let mut list = Vec::new();
        for number in 0..1000 {
            push(&mut list, number).unwrap();
        }
        assert!(list.into_iter().eq(0..1000));
    }
}
