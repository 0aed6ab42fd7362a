//! CRoaring, as far as it is compared: ids in sorted arrays or bitmaps by their high 16 bits.
use std::ffi::c_void;

/// The library's iterator, of which the fields are its own affair.
#[repr(C, align(16))]
struct Walk([u8; 128]);

extern "C" {
    fn roaring_bitmap_of_ptr(count: usize, ids: *const u32) -> *mut c_void;
    fn roaring_bitmap_copy(set: *const c_void) -> *mut c_void;
    fn roaring_bitmap_free(set: *mut c_void);
    fn roaring_bitmap_contains(set: *const c_void, id: u32) -> bool;
    fn roaring_bitmap_and(a: *const c_void, b: *const c_void) -> *mut c_void;
    fn roaring_bitmap_or_inplace(a: *mut c_void, b: *const c_void);
    fn roaring_bitmap_and_inplace(a: *mut c_void, b: *const c_void);
    fn roaring_bitmap_xor_inplace(a: *mut c_void, b: *const c_void);
    fn roaring_init_iterator(set: *const c_void, walk: *mut Walk);
    fn roaring_read_uint32_iterator(walk: *mut Walk, out: *mut u32, room: u32) -> u32;
}

/// A set of the library's, freed at the end.
pub struct Roaring(*mut c_void);

impl Roaring {
    pub fn new(ids: &[u32]) -> Roaring {
        Roaring(unsafe { roaring_bitmap_of_ptr(ids.len(), ids.as_ptr()) })
    }

    pub fn contains(&self, id: u32) -> u64 {
        u64::from(unsafe { roaring_bitmap_contains(self.0, id) })
    }

    /// The sum of all ids, up to 256 members a call.
    pub fn sum(&self, out: &mut [u32; 256]) -> u64 {
        let (mut walk, mut sum) = (Walk([0; 128]), 0);
        unsafe { roaring_init_iterator(self.0, &mut walk) };
        loop {
            let count = unsafe { roaring_read_uint32_iterator(&mut walk, out.as_mut_ptr(), out.len() as u32) } as usize;
            sum += out[..count].iter().map(|&id| u64::from(id)).sum::<u64>();
            if count < out.len() {
                return sum;
            }
        }
    }

    pub fn both(&self, other: &Roaring) -> Roaring {
        Roaring(unsafe { roaring_bitmap_and(self.0, other.0) })
    }

    pub fn or(&mut self, other: &Roaring) {
        unsafe { roaring_bitmap_or_inplace(self.0, other.0) }
    }

    pub fn and(&mut self, other: &Roaring) {
        unsafe { roaring_bitmap_and_inplace(self.0, other.0) }
    }

    pub fn xor(&mut self, other: &Roaring) {
        unsafe { roaring_bitmap_xor_inplace(self.0, other.0) }
    }
}

impl Clone for Roaring {
    fn clone(&self) -> Roaring {
        Roaring(unsafe { roaring_bitmap_copy(self.0) })
    }
}

impl Drop for Roaring {
    fn drop(&mut self) {
        unsafe { roaring_bitmap_free(self.0) }
    }
}
