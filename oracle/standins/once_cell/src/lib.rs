//! Stand-in for `once_cell::race::OnceBox` over `std::sync::OnceLock`. They differ only when threads race
//! to fill one cell; the driver keeps a store on one thread.
pub mod race {
    use std::sync::OnceLock;

    pub struct OnceBox<T>(OnceLock<Box<T>>);

    #[allow(clippy::new_without_default)] // the published files ask for `new` alone
    impl<T> OnceBox<T> {
        pub const fn new() -> Self {
            OnceBox(OnceLock::new())
        }

        pub fn get(&self) -> Option<&T> {
            self.0.get().map(|b| &**b)
        }

        pub fn get_or_init<F: FnOnce() -> Box<T>>(&self, f: F) -> &T {
            self.0.get_or_init(f)
        }
    }
}
