# `make` alone lists the targets. A make that is called from here does not name its folder.
MAKEFLAGS += --no-print-directory
.PHONY: help
help:
	@echo 'make read FILE=samples/skdupd.edi   prints the reading of an interchange; builds the printing program if need be'
	@echo 'make test                           the gate: proves every crate, tries each must-fail edit, runs each program'
	@echo 'make test_read                      tries make read on good files and on files that cannot be read'
	@echo 'make desk                           the desk program, target/desk/desk, with the library for C'
	@echo 'make desk-test                      tests it: every command and status, a full disk, kills, two writers'
	@echo 'make example                        the example for C: lists the services of a file with their days'
	@echo 'make install PREFIX=..              program, library, header and man page'
	@echo 'make rust                           builds and runs the tests of the crate for Rust (rust/README.md)'
	@echo 'make bench                          holds the reader against a tuned one in C: times, costs and answers (bench/README.md)'

.PHONY: test
test:
	@.ci/run

# The name is taken as it was given, with any space, quote or dollar in it. A file that cannot be read stops make with one line.
override FILE := $(value FILE)
quoted = '$(subst ','\'',$(FILE))'
.PHONY: read
read:
	$(if $(problem),$(error $(problem)))
	@tools/read $(quoted)
problem = $(shell tools/read -n $(quoted))

.PHONY: test_read
test_read:
	@tools/test_read

.PHONY: bench
bench:
	@$(MAKE) -C bench bench

# The desk program: desk, desk-test, example, install PREFIX=..
include desk/desk.mk
include rust/rust.mk
