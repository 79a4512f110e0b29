# Proves and builds the crates of crates.txt, each once those that it stands on are built, side by side:
#
#   make                           the programs and the library
#   make quick SINCE=..            of the gate what is quick, for what changed since a commit (tools/quick)
#   make check                     the gate
#   make install PREFIX=..         programs and library, with their manual pages; DESTDIR stands before PREFIX
#   make install-library PREFIX=.. the library alone, by the compiler BACKEND, which is llvm or rattle
#   make uninstall PREFIX=..       takes away what was installed there
#   make clean SURE=1              takes away what was proved and built
#   make help                      these lines
#
# As many crates as processors and memory allow are built at once (tools/jobs); `make -j2` says another number.

PREFIX = /usr/local
INSTALL = install
BACKEND = llvm

comma := ,
space := $(subst ,, )
# The lines of crates.txt, each as NAME:CRATE,CRATE,..
lines := $(shell sed -n 's/^\([a-z_][a-z_]*\)[^:#]*: */\1:/p' crates.txt | tr ' ' ',')
name = $(firstword $(subst :, ,$(1)))
named = $(subst $(comma), ,$(lastword $(subst :, ,$(1))))
names := $(foreach line,$(lines),$(call name,$(line)))
built = crates/$(1)/out/built
# The benchmark's program, which is neither built with the others nor installed (bench/run).
benchmark = bench_main
# The programs, by their crates, and what each is called.
programs := $(filter-out $(benchmark),$(patsubst crates/%/src/main.rt,%,$(wildcard crates/*/src/main.rt)))
called = $(subst lab_main,routelab,$(subst conv_main,routeconv,$(subst show_main,routeshow,$(subst route_main,routesim,$(1)))))
archive = crates/hoiskend/out/$(1)/libhoiskend.a
shared = crates/hoiskend/out/$(1)/libhoiskend.so
# What loaders call the shared object (tools/shared).
soname = libhoiskend.so.$(shell sed -n 's/^Version: \([0-9]*\)\..*/\1/p' tools/hoiskend.pc)
# Nothing for a program that is there and no older than its sources, which is also one that the gate left.
to_build = $(if $(shell tools/current $(1) && echo yes),,$(call built,$(1)))
# The crates that the goals are of, for those who tell how far the build is; none where all are.
goals := $(or $(MAKECMDGOALS),all)
export HOISKEND_WANTED := $(if $(filter all install,$(goals)),,$(if $(filter install-library,$(goals)),hoiskend) \
	$(patsubst crates/%,%,$(foreach goal,$(filter crates/%,$(goals)),$(firstword $(subst /out/, ,$(goal))))))

ifeq ($(filter -j% --jobserver%,$(MAKEFLAGS)),)
MAKEFLAGS += -j$(shell tools/jobs)
endif

.PHONY: all quick check install install-library uninstall clean help
all: $(foreach crate,$(programs),$(call to_build,$(crate))) $(call archive,$(BACKEND)) $(call shared,$(BACKEND))
	@:

# What stops make where there is nothing to prove with.
with_toolchain = $(if $(shell tools/toolchain && echo yes),,$(error nothing is built))
# A crate is built again where one of its files is newer than it, or one that it stands on was.
define rule
$(call built,$(1)): crates.txt $$(shell find crates/$(1) -name out -prune -o -type f -name '*.rt' -print -o -name '*.antt' -print) \
		$(foreach crate,$(filter $(names),$(2)),$(call built,$(crate)))
	@$$(with_toolchain)tools/build $(1)
endef
$(foreach line,$(lines),$(eval $(call rule,$(call name,$(line)),$(call named,$(line)))))

# The library once it is proved, by each compiler, as an archive and as a shared object.
$(call archive,%) $(call shared,%): $(call built,hoiskend) tools/archive tools/shared
	@tools/archive $*

quick:
	@tools/quick $(SINCE)

check:
	./check

install: all install-library
	$(INSTALL) -d "$(DESTDIR)$(PREFIX)/bin" "$(DESTDIR)$(PREFIX)/share/man/man1"
	$(foreach crate,$(programs),$(INSTALL) crates/$(crate)/out/$(crate) \
		"$(DESTDIR)$(PREFIX)/bin/$(call called,$(crate))" &&) :
	$(foreach page,$(wildcard docs/*.1),$(INSTALL) -m 644 $(page) "$(DESTDIR)$(PREFIX)/share/man/man1/" &&) :

install-library: $(call archive,$(BACKEND)) $(call shared,$(BACKEND))
	$(INSTALL) -d $(foreach folder,include lib/pkgconfig share/man/man3,"$(DESTDIR)$(PREFIX)/$(folder)")
	$(INSTALL) -m 644 include/hoiskend.h "$(DESTDIR)$(PREFIX)/include/"
	$(INSTALL) -m 644 $(call archive,$(BACKEND)) "$(DESTDIR)$(PREFIX)/lib/"
	$(INSTALL) $(call shared,$(BACKEND)) "$(DESTDIR)$(PREFIX)/lib/$(soname)"
	sed 's|@PREFIX@|$(PREFIX)|' tools/hoiskend.pc > "$(DESTDIR)$(PREFIX)/lib/pkgconfig/hoiskend.pc"
	$(INSTALL) -m 644 docs/hoiskend.3 "$(DESTDIR)$(PREFIX)/share/man/man3/"

uninstall:
	rm -f $(foreach crate,$(programs),"$(DESTDIR)$(PREFIX)/bin/$(call called,$(crate))") \
		$(foreach page,$(notdir $(wildcard docs/*.[13])),"$(DESTDIR)$(PREFIX)/share/man/man$(lastword $(subst ., ,$(page)))/$(page)") \
		$(foreach file,include/hoiskend.h lib/libhoiskend.a lib/$(soname) lib/pkgconfig/hoiskend.pc,\
			"$(DESTDIR)$(PREFIX)/$(file)")

# What took long to make is not thrown away by a slip.
thrown = $(wildcard crates/*/out out bindings/rust/target)
clean:
ifneq ($(thrown),)
ifndef SURE
	@echo "make clean throws away $$(du -sch $(thrown) | tail -n 1 | cut -f 1) in crates/*/out, out and bindings/rust/target:" >&2
	@echo "all that was proved and built, which takes $$(tools/progress anew) to make again." >&2
	@echo "'make clean SURE=1' does it." >&2
	@exit 1
endif
endif
	rm -rf crates/*/out out bindings/rust/target

help:
	@sed -n '/^$$/q; s/^#  *\(make\)/\1/p; s/^# \{0,1\}//p' Makefile
