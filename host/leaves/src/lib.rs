//! The proved leaves, to be run and measured beside hora: order numbers, distances, the heap.

mod ffi {
    #[link(name = "leaves", kind = "static")]
    extern "C" {
        pub fn leaves_order(x: f32) -> i32;
        pub fn leaves_distance(
            metric: u16,
            a: *const f32,
            a_len: usize,
            b: *const f32,
            b_len: usize,
        ) -> f32;
        pub fn leaves_push(
            ids: *mut u16,
            ids_len: usize,
            distances: *mut f32,
            distances_len: usize,
            len: usize,
            id: u16,
            distance: f32,
        );
        pub fn leaves_pop(
            ids: *mut u16,
            ids_len: usize,
            distances: *mut f32,
            distances_len: usize,
            len: usize,
            distance: *mut f32,
        ) -> u16;
        pub fn leaves_sort(
            ids: *mut u16,
            ids_len: usize,
            distances: *mut f32,
            distances_len: usize,
            len: usize,
        );
    }
}

/// The order number of a float.
pub fn order(x: f32) -> i32 {
    // SAFETY: it takes any float.
    unsafe { ffi::leaves_order(x) }
}

/// The distance of two vectors under a metric's number.
#[inline]
pub fn distance(metric: u16, a: &[f32], b: &[f32]) -> f32 {
    // SAFETY: both slices are as long as is said; unequal lengths are tested on the other side.
    unsafe { ffi::leaves_distance(metric, a.as_ptr(), a.len(), b.as_ptr(), b.len()) }
}

/// A heap of pairs of an id and a distance, the greatest on top.
pub struct Heap {
    ids: Vec<u16>,
    distances: Vec<f32>,
    len: usize,
}

impl Heap {
    pub fn with_capacity(capacity: usize) -> Heap {
        Heap {
            ids: vec![0; capacity],
            distances: vec![0.0; capacity],
            len: 0,
        }
    }

    pub fn len(&self) -> usize {
        self.len
    }

    pub fn is_empty(&self) -> bool {
        self.len == 0
    }

    /// Forgets the entries and keeps the room.
    pub fn clear(&mut self) {
        self.len = 0;
    }

    #[inline]
    pub fn push(&mut self, id: u16, distance: f32) {
        assert!(self.len < self.ids.len(), "a heap that is full");
        let (ids, distances) = (&mut self.ids, &mut self.distances);
        // SAFETY: both vectors have one length, and len is below it.
        unsafe {
            ffi::leaves_push(
                ids.as_mut_ptr(),
                ids.len(),
                distances.as_mut_ptr(),
                distances.len(),
                self.len,
                id,
                distance,
            )
        }
        self.len += 1;
    }

    #[inline]
    pub fn pop(&mut self) -> Option<(u16, f32)> {
        if self.len == 0 {
            return None;
        }
        let (ids, distances) = (&mut self.ids, &mut self.distances);
        let mut distance = 0.0;
        // SAFETY: both vectors have one length, and len is from 1 to it.
        let id = unsafe {
            ffi::leaves_pop(
                ids.as_mut_ptr(),
                ids.len(),
                distances.as_mut_ptr(),
                distances.len(),
                self.len,
                &mut distance,
            )
        };
        self.len -= 1;
        Some((id, distance))
    }

    /// Sorts the entries in place, least first. What is left is no heap: `clear` it.
    pub fn sort(&mut self) -> (&[u16], &[f32]) {
        let (ids, distances) = (&mut self.ids, &mut self.distances);
        // SAFETY: both vectors have one length, and len is at most that.
        unsafe {
            ffi::leaves_sort(
                ids.as_mut_ptr(),
                ids.len(),
                distances.as_mut_ptr(),
                distances.len(),
                self.len,
            )
        }
        (&self.ids[..self.len], &self.distances[..self.len])
    }
}
