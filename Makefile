# `make` alone prints what can be made. It wants GNU make, and `rt` on the PATH; CONTRIBUTING.md says more.
#
# A program is a crate NAME_main of crates.txt; it is called NAME. `make NAME` proves and builds the crates that it
# stands on and no others, lowest first, where they are missing or old.

PREFIX = /usr/local
BINDIR = $(PREFIX)/bin
MANDIR = $(PREFIX)/share/man
ARGS =

# what `make bench` measures, and the folder that it keeps its files in
SIZES = 1000000 16000000
RUNS = 5
WORKERS = 1 2 4
LISTS = ids keep count
BENCH_DIR = bench/out

CRATES := $(shell sed -n 's/\#.*//; s/^\([a-z0-9_]\{1,\}\)[^:]*:.*/\1/p' crates.txt)
PROGRAMS := $(patsubst %_main,%,$(filter %_main,$(CRATES)))

# the crates of the repository that the crate $(1) names in crates.txt
named_by = $(filter $(CRATES),$(shell sed -n 's/\#.*//; s/^$(1)\([^a-z0-9_:][^:]*\)\{0,1\}://p' crates.txt))
# the files of the crate $(1) that its proof reads; its folders too, so that a file that was taken out counts
files_of = $(shell find crates/$(1)/src crates/$(1)/specs crates/$(1)/proofs 2>/dev/null)
# where the program $(1) lies
built = crates/$(1)_main/out/$(1)_main

.PHONY: help run check bench install uninstall $(PROGRAMS) $(PROGRAMS:%=install-%) $(PROGRAMS:%=uninstall-%)

help:
	@$(foreach program,$(PROGRAMS),printf '%-24s %s\n' 'make $(program) ARGS="..."' \
	'prove and build $(program) where it is missing or old, and run it from here';)
	@echo 'make run ARGS="..."      the same as make dedup'
	@echo 'make install             put the programs and their pages below PREFIX, which is $(PREFIX)'
	@echo 'make uninstall           take them away'
	@echo 'make check               prove everything, try the wrong bodies, run all tests and programs'
	@echo 'make bench               measure dedup beside sort, awk and hash sets; bench/README.md says how'

run: dedup

check:
	rt ci

# -B: python keeps nothing beside the scripts
bench: $(call built,dedup)
	@python3 -B bench/run.py --dedup $< --folder "$(BENCH_DIR)" --sizes $(SIZES) --runs $(RUNS) \
	--workers $(WORKERS) --lists $(LISTS)

install: $(PROGRAMS:%=install-%)

uninstall: $(PROGRAMS:%=uninstall-%)

# $(call says,NAME,START) tells that a crate is done, and in how many seconds
says = echo "proved $(1), $$(($$(date +%s) - $(2))) s" >&2

# A crate is proved: out/proved tells make so. What rt said is in out/build.log.
define crate_rule
crates/$(1)/out/proved: HANDLES crates.txt $(call files_of,$(1)) $(patsubst %,crates/%/out/proved,$(call named_by,$(1)))
	@mkdir -p $$(@D)
	@start=$$$$(date +%s); (cd crates/$(1) && rt lib) >$$(@D)/build.log 2>&1 \
	|| { cat $$(@D)/build.log >&2; exit 1; }; $$(call says,$(1),$$$$start)
	@touch $$@
endef
$(foreach crate,$(filter-out %_main,$(CRATES)),$(eval $(call crate_rule,$(crate))))

# A program is built. The build ends by running it with no words, which is no command: its own status says nothing.
define program_rule
$(1): $(call built,$(1))
	@$$< $$(ARGS)

$(call built,$(1)): HANDLES crates.txt $(call files_of,$(1)_main) $(patsubst %,crates/%/out/proved,$(call named_by,$(1)_main))
	@mkdir -p $$(@D)
	@rm -f $$@
	@start=$$$$(date +%s); (cd crates/$(1)_main && rt run) >$$(@D)/build.log 2>&1 </dev/null; \
	test -x $$@ || { cat $$(@D)/build.log >&2; exit 1; }; $$(call says,$(1)_main,$$$$start)

install-$(1): $(call built,$(1))
	install -D -m 755 $$< "$$(DESTDIR)$$(BINDIR)/$(1)"
	install -D -m 644 docs/$(1).1 "$$(DESTDIR)$$(MANDIR)/man1/$(1).1"

uninstall-$(1):
	rm -f "$$(DESTDIR)$$(BINDIR)/$(1)" "$$(DESTDIR)$$(MANDIR)/man1/$(1).1"
endef
$(foreach program,$(PROGRAMS),$(eval $(call program_rule,$(program))))
