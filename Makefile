# build: prove and compile the programs, with all processors (scripts/crates.mk); test: rebuild every proof and test from scratch, then run the
# built program; install, uninstall: PREFIX and DESTDIR as usual; deb, dist: a Debian package and archives of the built programs, in out/.
# lib: builds the libraries for C and Python, and installs them as install does; page: makes the page for the browser in web/out; test-lib and
# test-page test these (docs/EMBEDDING.md). fuzz: compares the checker with a reference in Python on COUNT generated cases of a SEED, or,
# with MODE=--verdicts, --findings or --guarantees, what ctd-lint tells with runs, and with --impossible what ctd-cover does not ask for. nightly: tests that
# take too long for test. bench: times the checker beside C written by hand (bench/README.md). portable: makes both programs as one C file, and packs it into portable/; test-portable: tests it for other
# systems; wasm: compiles it for WebAssembly, in out/wasm (portable/README.md).
#
# Without the toolchain the programs are compiled from the packed C file, if that was made of these sources.
version := 1.0

PREFIX ?= /usr/local
DESTDIR ?=
bindir ?= $(PREFIX)/bin
libdir ?= $(PREFIX)/lib
includedir ?= $(PREFIX)/include
datadir ?= $(PREFIX)/share
mandir ?= $(datadir)/man
docdir ?= $(datadir)/doc/checktestdata
bashdir ?= $(datadir)/bash-completion/completions
zshdir ?= $(datadir)/zsh/site-functions
fishdir ?= $(datadir)/fish/vendor_completions.d
vimdir ?= $(datadir)/vim/vimfiles
# A prefix that is no full path lies below this folder.
ifneq ($(filter-out /%,$(firstword $(PREFIX))),)
override PREFIX := $(CURDIR)/$(PREFIX)
endif
# (with it, cd may go elsewhere)
unexport CDPATH
# What belongs to these programs alone: the companions with their modules, and the grammar for editors.
ourdir := $(datadir)/checktestdata
pythondir ?= $(ourdir)/python
COUNT ?= 100000
SEED ?= 1

# What is installed: programs that are built, each in the crate of its name, and companions in tools/, each with completions in
# completions/ and a man page in man/; further man pages, and texts.
has_toolchain := $(shell command -v rt)
programs := checktestdata ctd-lint
companions := ctd-show ctd-cover ctd-mutate ctd-package ctd-validate ctd-language-server
modules := $(sort $(notdir $(wildcard tools/ctd_*.py)))
commands := $(programs) $(companions)
manuals := $(commands:=.1) checktestdata.5
vim_files := $(patsubst editors/vim/%,%,$(wildcard editors/vim/*/*.vim))
texts := README.md CHANGELOG.md SECURITY.md LICENSE-MIT LICENSE-APACHE NOTICE

# Where a program is built, or in BUILT, if that is given.
BUILT := $(if $(has_toolchain),,out)
built = $(if $(BUILT),$(BUILT)/$(1),crates/$(subst -,_,$(1))/out/$(subst -,_,$(1)))
all_built := $(foreach program,$(programs),$(call built,$(program)))
sources := HANDLES crates.txt $(shell find crates -name out -prune -o \( -name '*.rt' -o -name '*.antt' \) -print)
need_toolchain = $(if $(missing),$(error $(missing)))
missing = $(shell scripts/missing_toolchain.sh)
packed := portable/checktestdata.c.xz
# Stops where a program cannot be compiled from the packed C file, and says why: PROGRAM, a variable for the script that looks.
need_c_file = $(if $(obstacle),$(error $(obstacle)))
obstacle = $(shell $(2) portable/obstacle.sh $(1))
by_c = compiling $(1) from $(packed), made of these sources: the Rattle toolchain, which proves them, is not here
embedded := crates/ctd_capi/out/build/libctd_capi.a
modules_made := out/wasm/made
strip := $(if $(shell command -v strip),-s)

.PHONY: build build-lib test nightly test-lib test-page test-portable fuzz bench install install-built lib wasm page page-needs portable uninstall deb dist clean

build: $(all_built)

# The crates have a makefile of their own. It uses all processors, unless this make was given a number of jobs (-j).
make_crates = $(MAKE) --no-print-directory --silent $(if $(filter -j% --jobserver%,$(MAKEFLAGS)),,-j$(shell nproc)) -f scripts/crates.mk

ifdef has_toolchain
# A program that is up to date may be older than a source that it is not made of, such as a test: so touch.
$(all_built) &: $(sources)
	$(need_toolchain)
	+@$(make_crates) $(all_built)
	@touch $(all_built)
else
$(all_built): $(sources) $(wildcard $(packed))
	$(call need_c_file,$(@F))
	@echo '$(call by_c,$(@F))' >&2
	@portable/compile.sh $(@F) $@
endif

portable:
	$(need_toolchain)
	@portable/pack.sh

# The programs come first, since all are made over the same libraries.
$(embedded): $(sources) | build
	$(need_toolchain)
	+@$(make_crates) $@
	@touch $@

ifdef has_toolchain
embed/out/libchecktestdata.so.1: $(embedded) embed/link.sh
	@embed/link.sh
else
embed/out/libchecktestdata.so.1: $(sources) $(wildcard $(packed))
	$(call need_c_file,checktestdata)
	@echo '$(call by_c,the library)' >&2
	@portable/library.sh embed/out
endif

build-lib: embed/out/libchecktestdata.so.1

wasm: $(modules_made)

# The script itself says what is missing of its compiler, which is not that of the system.
$(modules_made): $(sources) $(wildcard $(packed)) portable/wasm.sh
	$(foreach program,$(programs),$(call need_c_file,$(program),CC=sh))
	@portable/wasm.sh $(@D)
	@touch $@

# What is missing for the page is said before anything is compiled for it.
page-needs:
	@web/needs.sh $(modules_made)

page: page-needs $(modules_made)
	@web/build.sh

test:
	$(need_toolchain)
	@tests/gate.sh

nightly: build
	@tests/nightly.sh

test-lib: build-lib
	@embed/test.py

test-page: page
	@node web/test/page.js

test-portable:
	@portable/test.py

fuzz: build
	@tests/fuzz.py $(call built,checktestdata) --linter $(call built,ctd-lint) $(MODE) --count $(COUNT) --seed $(SEED)

bench: build
	@bench/whole_runs.py --checker $(call built,checktestdata)

# A word of the shell, and a place in DESTDIR as one.
quoted = '$(subst ','\'',$(1))'
staged = $(call quoted,$(DESTDIR)$(1))
# Makes a folder that all may enter, whatever the umask is.
folder = umask 022 && mkdir -p $(call staged,$(1))
# Installs files: MODE, FILES, FOLDER, for one file a NAME. BSD and macOS have no install -D.
put = $(call folder,$(3)) && install -m $(1) $(2) $(call staged,$(3)/$(4))
# Copies a folder with all that is in it, for all to read, to one that is ours alone: FOLDER, TO.
copy_tree = $(call folder,$(2)) && cp -R $(1)/. $(call staged,$(2)) && chmod -R u=rwX,go=rX $(call staged,$(2))
# Links a companion from where commands stand, by a relative path where ln can. COMPANION.
link = $(call folder,$(bindir)) && { ln -sfr $(call staged,$(ourdir)/tools/$(1)) $(call staged,$(bindir)/$(1)) 2>/dev/null || ln -sf $(call quoted,$(ourdir)/tools/$(1)) $(call staged,$(bindir)/$(1)); }

install: build
	@$(MAKE) --no-print-directory install-built

# The files of install, with the program as it stands.
install-built:
	$(foreach program,$(programs),$(call put,755 $(strip),$(call quoted,$(call built,$(program))),$(bindir),$(program)) &&) true
	$(call put,755,$(addprefix tools/,$(companions)),$(ourdir)/tools)
	$(call put,644,$(addprefix tools/,$(modules)),$(ourdir)/tools)
	$(foreach script,$(companions),$(call link,$(script)) &&) true
	$(foreach section,1 5,$(call put,644,$(addprefix man/,$(filter %.$(section),$(manuals))),$(mandir)/man$(section)) &&) true
	$(call put,644,$(addprefix completions/bash/,$(commands)),$(bashdir))
	$(call put,644,$(addprefix completions/zsh/_,$(commands)),$(zshdir))
	$(call put,644,$(patsubst %,completions/fish/%.fish,$(commands)),$(fishdir))
	$(foreach file,$(vim_files),$(call put,644,editors/vim/$(file),$(vimdir)/$(file:%/$(notdir $(file))=%)) &&) true
	$(call copy_tree,editors/vscode,$(ourdir)/vscode)
	$(call put,644,$(texts),$(docdir))
	$(call copy_tree,docs,$(docdir)/docs)
	$(call copy_tree,examples,$(docdir)/examples)
	scripts/take_out_links.sh $(call staged,$(docdir))

lib: build-lib
	$(call put,644,embed/out/libchecktestdata.a,$(libdir),libchecktestdata.a)
	$(call put,755,embed/out/libchecktestdata.so.1,$(libdir),libchecktestdata.so.1)
	ln -sf libchecktestdata.so.1 $(call staged,$(libdir)/libchecktestdata.so)
	$(call put,644,embed/checktestdata.h,$(includedir),checktestdata.h)
	$(call folder,$(libdir)/pkgconfig)
	umask 022 && { printf '%s\n' $(call quoted,libdir=$(libdir)) $(call quoted,includedir=$(includedir)) 'Version: $(version)' && cat embed/checktestdata.pc; } >$(call staged,$(libdir)/pkgconfig/checktestdata.pc)
	$(call put,644,embed/python/checktestdata.py,$(pythondir),checktestdata.py)

# The folders of what is installed, which uninstall takes out where they are empty then.
emptied = $(foreach name,man1 man5,$(call quoted,$(mandir)/$(name))) $(foreach name,$(sort $(dir $(vim_files))),$(call quoted,$(vimdir)/$(name))) \
    $(call quoted,$(libdir)/pkgconfig) $(foreach name,bindir bashdir zshdir fishdir libdir includedir ourdir docdir,$(call quoted,$($(name))))

uninstall:
	rm -f $(foreach command,$(commands),$(call staged,$(bindir)/$(command)))
	rm -f $(foreach page,$(manuals),$(call staged,$(mandir)/man$(subst .,,$(suffix $(page)))/$(page)))
	rm -f $(foreach command,$(commands),$(call staged,$(bashdir)/$(command)) $(call staged,$(zshdir)/_$(command)) $(call staged,$(fishdir)/$(command).fish))
	rm -f $(call staged,$(libdir))/libchecktestdata.a $(call staged,$(libdir))/libchecktestdata.so* $(call staged,$(libdir)/pkgconfig/checktestdata.pc) $(call staged,$(includedir)/checktestdata.h)
	rm -f $(foreach file,$(vim_files),$(call staged,$(vimdir)/$(file)))
	rm -rf $(call staged,$(ourdir)) $(call staged,$(docdir))
	scripts/take_out_empty.sh $(call quoted,$(DESTDIR)) $(emptied)

deb: build
	@packaging/deb.sh $(version)

dist: build
	@packaging/dist.sh $(version) x86_64-linux aarch64-linux x86_64-windows wasm

clean:
	rm -rf out crates/*/out embed/out embed/python/build embed/python/*.egg-info web/out
