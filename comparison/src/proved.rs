//! The proved functions. Each takes a slice as a pointer and a length, demands nothing of its words, and keeps nothing.

extern "C" {
    fn cerambiu_tables_refusal(words: *const u32, count: usize) -> u32;
    fn cerambiu_image_refusal(words: *const u32, count: usize) -> u32;
    fn cerambiu_flat_steps(words: *const u32, count: usize) -> usize;
    fn cerambiu_snapshot_refusal(words: *const u32, count: usize) -> u32;
    fn cerambiu_store_shaped(words: *const u32, count: usize) -> bool;
    fn cerambiu_store_check(words: *const u32, count: usize) -> bool;
    fn cerambiu_condition(
        snapshot: *const u32,
        snapshot_count: usize,
        image: *const u32,
        image_count: usize,
        store: *const u32,
        store_count: usize,
        index: u32,
    ) -> u32;
    fn cerambiu_value(
        snapshot: *const u32,
        snapshot_count: usize,
        image: *const u32,
        image_count: usize,
        store: *const u32,
        store_count: usize,
        index: u32,
        answer: *mut [u32; 3],
    );
}

pub fn image_refusal(image: &[u32]) -> u32 {
    // SAFETY: the pointer and the length are those of a slice that outlives the call.
    unsafe { cerambiu_image_refusal(image.as_ptr(), image.len()) }
}

/// 10 to 15.
pub fn tables_refusal(image: &[u32]) -> u32 {
    // SAFETY: as above.
    unsafe { cerambiu_tables_refusal(image.as_ptr(), image.len()) }
}

pub fn flat_steps(image: &[u32]) -> usize {
    // SAFETY: as above.
    unsafe { cerambiu_flat_steps(image.as_ptr(), image.len()) }
}

pub fn snapshot_refusal(snapshot: &[u32]) -> u32 {
    // SAFETY: as above.
    unsafe { cerambiu_snapshot_refusal(snapshot.as_ptr(), snapshot.len()) }
}

pub fn store_shaped(store: &[u32]) -> bool {
    // SAFETY: as above.
    unsafe { cerambiu_store_shaped(store.as_ptr(), store.len()) }
}

pub fn store_check(store: &[u32]) -> bool {
    // SAFETY: as above.
    unsafe { cerambiu_store_check(store.as_ptr(), store.len()) }
}

/// What conditions and values are evaluated in.
#[derive(Clone, Copy)]
pub struct Given<'a> {
    pub snapshot: &'a [u32],
    pub image: &'a [u32],
    pub store: &'a [u32],
}

impl Given<'_> {
    /// 0 no, 1 yes, 2 unevaluable, 3 refused.
    pub fn condition(self, index: u32) -> u32 {
        let Given { snapshot, image, store } = self;
        let (a, b, c) = (snapshot.as_ptr(), image.as_ptr(), store.as_ptr());
        // SAFETY: as above.
        unsafe { cerambiu_condition(a, snapshot.len(), b, image.len(), c, store.len(), index) }
    }

    /// 1 and the number's two words; 2 unevaluable; 3 refused.
    pub fn value(self, index: u32) -> [u32; 3] {
        let Given { snapshot, image, store } = self;
        let (a, b, c) = (snapshot.as_ptr(), image.as_ptr(), store.as_ptr());
        let mut answer = [u32::MAX; 3];
        // SAFETY: as above; the answer is lent for the call alone.
        unsafe { cerambiu_value(a, snapshot.len(), b, image.len(), c, store.len(), index, &mut answer) };
        answer
    }
}
