# The crate for Rust (rust/README.md), from the repository's root: make rust; make rust-packages for a machine without cargo and rustc.
.PHONY: rust rust-packages
rust:
	@MAKE='$(MAKE)' rust/test

rust-packages:
	@rust/packages
