# The desk program (docs/GUIDE.md), from the repository's root: make desk, desk-test, example, install PREFIX=.. (and DESTDIR=..).
# It is compiled for x86-64 with the kit's tools, and needs a C library there (glibc 2.34 or later).
KIT = $(patsubst %/,%,$(dir $(shell rt doc)))
TOOLS = $(KIT)/toolchain
PREFIX = /usr/local
DESK_LIB = target/staticlib/libdesk.a
DESK_OUT = target/desk
DESK_PARTS = $(patsubst desk/%.c,$(DESK_OUT)/parts/%.o,$(wildcard desk/*.c))
DESK_CC = $(TOOLS)/bin/clang --target=x86_64-unknown-linux-gnu -nostdinc -isystem desk/libc -Iinclude \
  -std=gnu11 -O2 -fPIC -Wall -Wextra -pedantic -Werror
DESK_LD = $(TOOLS)/bin/ld.lld -pie -dynamic-linker /lib64/ld-linux-x86-64.so.2
DESK_START = $(addprefix $(TOOLS)/lib/,Scrt1.o crti.o crtbeginS.o)
DESK_END = $(addprefix $(TOOLS)/lib/,libc.so.6 libc_nonshared.a libgcc.a crtendS.o crtn.o)

.PHONY: desk desk-test example install
desk: $(DESK_OUT)/desk
	@:

example: $(DESK_OUT)/services
	@:

desk-test: desk example
	@desk/test.sh

install: desk
	@install -d $(addprefix $(DESTDIR)$(abspath $(PREFIX))/,bin lib include share/man/man1)
	@install -m 755 $(DESK_OUT)/desk $(DESTDIR)$(abspath $(PREFIX))/bin/desk
	@install -m 644 $(DESK_LIB) $(DESTDIR)$(abspath $(PREFIX))/lib/libdrumcallisto.a
	@install -m 644 include/drumcallisto.h $(DESTDIR)$(abspath $(PREFIX))/include/drumcallisto.h
	@install -m 644 man/desk.1 $(DESTDIR)$(abspath $(PREFIX))/share/man/man1/desk.1

$(DESK_OUT)/desk: $(DESK_PARTS) $(DESK_LIB)
	@$(DESK_LD) -o $@ $(DESK_START) $^ $(DESK_END)

$(DESK_OUT)/services: $(DESK_OUT)/parts/services.o $(DESK_LIB)
	@$(DESK_LD) -o $@ $(DESK_START) $^ $(DESK_END)

$(DESK_OUT)/parts/services.o: examples/services.c include/drumcallisto.h
	@mkdir -p $(@D)
	@$(DESK_CC) -c $< -o $@

$(DESK_PARTS): $(DESK_OUT)/parts/%.o: desk/%.c desk/desk.h include/drumcallisto.h $(wildcard desk/libc/*.h desk/libc/sys/*.h)
	@mkdir -p $(@D)
	@$(DESK_CC) -c $< -o $@

# The library is kept beside what rt makes, which the gate sets aside while it runs.
$(DESK_LIB): $(wildcard crates/*/src/*.rt)
	@mkdir -p $(@D) $(DESK_OUT)
	@(cd crates/desk && rt lib) > $(DESK_OUT)/lib.log 2>&1 || { cat $(DESK_OUT)/lib.log; exit 1; }
	@cp crates/desk/out/libdesk.a $@
