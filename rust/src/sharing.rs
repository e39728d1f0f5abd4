//! What the types do not allow, as examples that must not compile.
//!
//! Two threads can't make calls on one router, nor on one inlet:
//!
//! ```compile_fail,E0277
//! fn is_sync<T: Sync>() {}
//! is_sync::<clickpull::Router>();
//! ```
//!
//! ```compile_fail,E0277
//! fn is_sync<T: Sync>() {}
//! is_sync::<clickpull::LiveRouter<u64>>();
//! ```
//!
//! ```compile_fail,E0277
//! fn is_sync<T: Sync>() {}
//! is_sync::<clickpull::Inlet<u64>>();
//! ```
//!
//! Values that stay on their thread keep routers and inlets there:
//!
//! ```compile_fail,E0277
//! fn is_send<T: Send>() {}
//! is_send::<clickpull::Inlet<std::rc::Rc<u64>>>();
//! ```
//!
//! ```compile_fail,E0277
//! fn is_send<T: Send>() {}
//! is_send::<clickpull::LiveRouter<std::rc::Rc<u64>>>();
//! ```
//!
//! Other values let them go:
//!
//! ```
//! fn is_send<T: Send>() {}
//! is_send::<clickpull::Router>();
//! is_send::<clickpull::LiveRouter<std::cell::Cell<u64>>>();
//! is_send::<clickpull::Inlet<std::cell::Cell<u64>>>();
//! ```
