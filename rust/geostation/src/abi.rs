/// The `GEOSTATION_ABI` of the header whose structs and functions `ffi.rs` has. `build.rs` and the
/// crate compare the library's number with it.
pub(crate) const ABI: u32 = 5;
