# Proves and compiles crates, each once those below it are proved: make -j -f scripts/crates.mk FILE.., at the top of the repository. The
# Makefile calls it.
#
# The rules come from crates.txt, which names in each line a crate and the libraries that it uses; a library without a line is the
# toolchain's. A crate makes one of these:
#
#     crates/NAME/out/NAME                  a program, where it has src/main.rt
#     crates/NAME/out/build/libNAME.a       a static library, where it is marked `staticlib`
#     crates/NAME/out/build/NAME.rlib       a library for other crates, else
#
# Beside a program and a static library stays the LLVM module that it was compiled from, NAME.bc (scripts/toolchain.sh), unless TOOLCHAIN names
# the folder of another compiler and linker. With LIBRARY_FOLDER=rlib libraries stand in crates/NAME/out/rlib, where rt puts them. With
# TARGET=aarch64-unknown-linux-gnu the object file of a program is NAME.aarch64-unknown-linux-gnu.o, for that system.
#
# The rules call the toolchain's rattle and not rt: the libraries of `rt lib` hold their proofs too, which every crate above reads again.
# With --statements they hold only what was proved, as they do in the gate.
kit := $(shell dirname "$$(rt doc)")
rattle := $(kit)/bin/rattle
TOOLCHAIN ?=
LIBRARY_FOLDER := build
TARGET :=
processors := $(shell nproc)
statements := $(findstring --statements,$(shell $(rattle) build --help))

# What crates.txt says: the crates, those of them that are static libraries, and what follows the colon of a crate.
lines := sed -e 's/[\#].*//' -e '/^ *$$/d' crates.txt
crates := $(shell $(lines) | sed -e 's/[ :].*//')
static_libraries := $(shell $(lines) | sed -n -e 's/ [^:]*staticlib.*//p')
libraries_of = $(shell $(lines) | sed -n -E -e 's/^$(1)( [^:]*)?://p')
programs := $(patsubst crates/%/src/main.rt,%,$(wildcard crates/*/src/main.rt))

# One of three, for a program, a static library and another library: CRATE, the three.
by_kind = $(if $(filter $(1),$(programs)),$(2),$(if $(filter $(1),$(static_libraries)),$(3),$(4)))

# The file that rattle makes of a crate, an object file if it is a program; those of several crates, of which the toolchain's have none.
built = crates/$(1)/out/$(call by_kind,$(1),build/$(1)$(TARGET:%=.%).o,build/lib$(1).a,$(LIBRARY_FOLDER)/$(1).rlib)
built_of = $(foreach crate,$(filter $(crates),$(1)),$(call built,$(crate)))
sources_of = $(shell find crates/$(1)/src crates/$(1)/specs crates/$(1)/proofs 2>/dev/null)

# The words for rattle, which runs in the folder of a crate.
extern = --extern $(1)=$(if $(filter $(crates),$(1)),../../$(call built,$(1)),'$(kit)/rlibs/$(1).rlib')
search := -L 'dependency=$(kit)/rlibs' $(foreach crate,$(crates),-L dependency=../$(crate)/out/$(LIBRARY_FOLDER))
logic := --antt-project '$(kit)/rattle/logic/antt-project.json' --logic-built '$(kit)/logic_built'
own_toolchain := $(or $(TOOLCHAIN),$(kit)/toolchain)
compiler = --toolchain $(if $(or $(TOOLCHAIN),$(TARGET)),'$(own_toolchain)',"$$$$(scripts/toolchain.sh $(1))")
root_of = $(call by_kind,$(1),src/main.rt,src/lib.rt,src/lib.rt)
kind_of = $(call by_kind,$(1),$(TARGET:%=--target %) $(call compiler,$(1)),--crate-type staticlib $(call compiler,$(1)),$(statements))

# The rule of a crate: CRATE, its libraries.
define rule
$(call built,$(1)): $(rattle) $(call sources_of,$(1)) $(call built_of,$(2))
	@scripts/prove.sh $(1) '$(rattle)' build $(call root_of,$(1)) --crate-name $(1) --jobs $(processors) \
		$(foreach library,std $(2),$(call extern,$(library))) $(search) $(logic) $(call kind_of,$(1)) -o ../../$(call built,$(1))
endef
$(foreach crate,$(crates),$(eval $(call rule,$(crate),$(call libraries_of,$(crate)))))

# The rule of a program, which is linked with the toolchain's C code. What the linker prints is shown only where it fails.
define link
crates/$(1)/out/$(1): $(call built,$(1))
	@printed=$$$$('$(kit)/bin/rattle-link' --target x86_64-unknown-linux-gnu --toolchain '$(own_toolchain)' -o $$@ $$< \
		'$(kit)/c/libos_c.a' '$(kit)/c/liblibc_c.a' 2>&1) || { echo "$$$$printed" >&2; exit 1; }
endef
$(foreach program,$(programs),$(eval $(call link,$(program))))

.DELETE_ON_ERROR:
