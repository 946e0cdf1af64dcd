# The static library and the program kit.
#
#   make              builds what is missing or older than its sources; proving the library from nothing takes minutes
#   make library      builds the static library alone
#   make plan         builds the program target/bin/plan
#   make install      copies library, header, pkg-config file, program and manual pages below DESTDIR and PREFIX
#   make uninstall    removes them
#   make test         runs the gate
PREFIX = /usr/local
DESTDIR =

VERSION := $(shell sed -n 's/^.define KIT_VERSION "\(.*\)"$$/\1/p' include/kit_planner.h)
ARCHIVE := target/staticlib/libplanner_c.a
PLAN := target/bin/plan
KIT := rust/target/release/kit
PROVED := $(shell find crates crates.txt -path 'crates/*/out' -prune -o -type f -print)
SOURCES := $(shell find rust/src rust/kit rust/build.rs rust/Cargo.toml -type f)
# Pages that say no more than where their text is.
LINKS := kit_read kit_join kit_source kit_check kit_reason
PAGES := man1/kit.1 man3/kit_plan.3 man5/kit-card.5

INSTALLED := lib/libplanner_c.a lib/pkgconfig/kit_planner.pc include/kit_planner.h bin/kit \
	$(PAGES:%=share/man/%) $(LINKS:%=share/man/man3/%.3)
FOLDERS := $(sort $(dir $(INSTALLED)))
ROOT = $(DESTDIR)$(PREFIX)
# The program is linked with the archive that is installed.
unexport KIT_PLANNER_LIB_DIR

all: $(ARCHIVE) $(KIT)

library: $(ARCHIVE)

plan: $(PLAN)

$(ARCHIVE): $(PROVED)
	cd crates/planner_c && rt lib
	install -D -m 644 crates/planner_c/out/libplanner_c.a $@

$(PLAN): $(PROVED)
	cd crates/plan && rt run < stdin > /dev/null
	install -D crates/plan/out/plan $@

$(KIT): $(ARCHIVE) $(SOURCES)
	cargo build --release --offline --manifest-path rust/Cargo.toml --target-dir rust/target -p kit
	touch $@

install: $(ARCHIVE) $(KIT) include/kit_planner.h kit_planner.pc.in $(addprefix man/,$(notdir $(PAGES)))
	$(if $(filter /%,$(PREFIX)),,$(error PREFIX is to begin with /))
	install -d $(FOLDERS:%="$(ROOT)"/%)
	install -m 644 $(ARCHIVE) "$(ROOT)"/lib/libplanner_c.a
	install -m 644 include/kit_planner.h "$(ROOT)"/include/kit_planner.h
	install -m 755 $(KIT) "$(ROOT)"/bin/kit
	$(call filled,kit_planner.pc.in,lib/pkgconfig/kit_planner.pc)
	$(foreach page,$(PAGES),$(call filled,man/$(notdir $(page)),share/man/$(page)) &&) true
	$(foreach page,$(LINKS),echo .so man3/kit_plan.3 | $(call put,share/man/man3/$(page).3) &&) true

# $(call filled,TEMPLATE,FILE): the template with prefix and version in it
filled = sed -e 's|@PREFIX@|$(PREFIX)|' -e 's|@VERSION@|$(VERSION)|' $(1) | $(call put,$(2))
# $(call put,FILE): standard input as a file that all may read
put = install -m 644 /dev/stdin "$(ROOT)"/$(1)

uninstall:
	rm -f $(INSTALLED:%="$(ROOT)"/%)

test:
	bash .ci/run

.PHONY: all library plan install uninstall test
