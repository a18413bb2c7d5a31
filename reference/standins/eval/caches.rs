//! Stand-in for the caches of function look-ups. It holds nothing but how many there would be.

#[derive(Debug, Default)]
pub struct Caches(Vec<FnResolutionCache>);

#[derive(Debug, Default)]
pub struct FnResolutionCache;

impl FnResolutionCache {
    pub fn clear(&mut self) {}
}

impl Caches {
    pub fn fn_resolution_caches_len(&self) -> usize {
        self.0.len()
    }
    pub fn push_fn_resolution_cache(&mut self) {
        self.0.push(FnResolutionCache);
    }
    pub fn rewind_fn_resolution_caches(&mut self, len: usize) {
        self.0.truncate(len);
    }
    pub fn fn_resolution_cache_mut(&mut self) -> &mut FnResolutionCache {
        if self.0.is_empty() {
            self.push_fn_resolution_cache();
        }
        self.0.last_mut().unwrap()
    }
}
