# make demo: the two-point path. make test: the gate. The rest builds, installs and tests the archive, and compares with
# the Rust (oracle/). Only what proves crates needs rt: an archive that is up to date is used as it is.
.PHONY: demo card-example numbers test kinds archive install
.PHONY: c-test c-worked c-faults c-stack c-environment c-header c-installed
.PHONY: rust-test oracle-test lists counts compare bench netlib-examples need-rt need-cargo need-cc need-cxx
.PHONY: need-pkg-config

# Two runs of rt would meet in target/.
.NOTPARALLEL:

ARCHIVE = target/libzirve_blas.a
KINDS = real64 real32 complex

# A part of the archive: the functions of one number kind, or those for cards, proved and built by itself.
NAMES = $(KINDS) card
PARTS = $(foreach k,$(NAMES),crates/capi_$(k)/out/libcapi_$(k).a)

# From C and from Rust, through the proved functions of f64.
demo: need-cc need-cargo $(firstword $(PARTS))
	@$(CC) -std=c11 -O1 -Wall -Wextra -Iinclude -o target/two_point demo/two_point.c $(firstword $(PARTS))
	@echo "From C (demo/two_point.c)"
	@echo
	@target/two_point
	@echo
	@echo "From Rust (bindings/rust/examples/two_point.rs)"
	@echo
	@cd bindings/rust && ZB_ARCHIVE=$(abspath $(firstword $(PARTS))) cargo run --offline --quiet --example two_point

# From C, a matrix onto a card in a file and back, through the proved functions for cards.
CARD = crates/capi_card/out/libcapi_card.a

card-example: need-cc $(CARD)
	@$(CC) -std=c11 -O1 -Wall -Wextra -Iinclude -o target/card demo/card.c $(CARD)
	@target/card target/matrix.card

# The worked numbers, printed.
numbers: need-rt
	@mkdir -p target
	@echo "Proving the number kinds and building the program (a minute or two from nothing) .."
	@scripts/prove check worked_examples target/numbers.log
	@cd crates/worked_examples && rt run 2>> ../../target/numbers.log

# rt ci comes last: its last line, 'N passed, M failed', is the verdict.
test: need-rt
	scripts/kinds --check
	scripts/gate

# The texts of f32, and of complex numbers where they are the same, written from those of f64.
kinds:
	scripts/kinds

# For C and Rust; include/zirve_blas.h declares its functions. Beside one that is up to date no part need be there.
archive: $(ARCHIVE)

.SECONDARY: $(PARTS)

$(ARCHIVE): $(PARTS)
	@$(call need,$(AR),the Debian package binutils)
	@printf 'create $@\n$(PARTS:%=addlib %\n)save\nend\n' | $(AR) -M

# A crate and all that it uses, by crates.txt.
used = $(shell awk -F: -v want=$(1) '{ split($$1, head, " "); uses[head[1]] = $$2 } END { n = split(want, q, " "); \
	for (i = 1; i <= n; i++) if (q[i] in uses && !seen[q[i]]++) { print q[i]; m = split(uses[q[i]], d, " "); \
	for (k = 1; k <= m; k++) q[++n] = d[k] } }' crates.txt)

# Built again when a crate that it uses has changed. Those under it are proved first.
.SECONDEXPANSION:
$(PARTS): crates/%.a: \
		$$(shell find $$(addprefix crates/,$$(call used,$$(firstword $$(subst /, ,$$*)))) -path '*/out' -prune \
		-o -name '*.rt' -print -o -name '*.antt' -print)
	@$(NEED_RT)
	@mkdir -p target
	@echo "Proving and building $@ (some minutes from nothing) .."
	@scripts/prove lib $(firstword $(subst /, ,$*)) target/$(firstword $(subst /, ,$*)).log
	@touch $@

# The header, the archive and the file for pkg-config, which names PREFIX; DESTDIR is where PREFIX stands for now.
PREFIX = /usr/local
INTO = $(DESTDIR)$(PREFIX)
VERSION = $(shell sed -n 's/^.define ZB_VERSION "\(.*\)"/\1/p' include/zirve_blas.h)

install: archive
	install -d "$(INTO)/include" "$(INTO)/lib/pkgconfig" "$(INTO)/share/doc/zirve-blas"
	install -m 644 include/zirve_blas.h "$(INTO)/include"
	install -m 644 $(ARCHIVE) "$(INTO)/lib"
	install -m 644 docs/DIFFERENCES.md NOTICE "$(INTO)/share/doc/zirve-blas"
	sed 's|@PREFIX@|$(PREFIX)|; s|@VERSION@|$(VERSION)|' packaging/zirve-blas.pc.in > target/zirve-blas.pc
	install -m 644 target/zirve-blas.pc "$(INTO)/lib/pkgconfig"

# The tests in C, in tests/c.
c-test: c-worked c-faults c-stack c-environment c-header c-installed

C11 = $(CC) -std=c11 -O1 -Wall -Wextra -Iinclude

# Under the compiler's checks of addresses and undefined behaviour, where it has them.
SANITIZE = $(shell echo 'int main(void) { return 0; }' | $(CC) -x c -fsanitize=address,undefined -o /dev/null - \
	2> /dev/null && echo -fsanitize=address,undefined)

# The worked numbers, refusals, flags and cards.
WORKED = main.c expect.c products.c rank.c triangle.c cards.c by_hand.c

c-worked: archive need-cc
	$(C11) $(SANITIZE) -o target/c-worked $(addprefix tests/c/,$(WORKED)) $(ARCHIVE)
	target/c-worked

CALLED = calls.c card_calls.c by_hand.c routines.c

# Slabs beside pages that may not be touched, and two threads; without the compiler's checks, which catch faults too.
c-faults: archive need-cc
	$(C11) -pthread -o target/c-faults $(addprefix tests/c/,faults.c $(CALLED)) $(ARCHIVE)
	target/c-faults

# The stack that a call takes.
c-stack: archive need-cc
	$(C11) -o target/c-stack $(addprefix tests/c/,stack.c $(CALLED)) $(ARCHIVE)
	target/c-stack

# The floating-point environment.
c-environment: archive need-cc
	$(C11) -o target/c-environment $(addprefix tests/c/,environment.c expect.c routines.c) $(ARCHIVE) -lm
	target/c-environment

# The header in each language that it is for, without a warning.
STANDARDS = c90 c99 c11 c17 c2x c++98 c++03 c++11 c++14 c++17 c++20
STRICT = -Wall -Wextra -Wpedantic -Wconversion -Werror

c-header: archive need-cc need-cxx
	@for s in $(STANDARDS); do case $$s in c++*) l=c++ ;; *) l=c ;; esac; \
		$(CC) -x $$l -std=$$s $(STRICT) -Iinclude -o target/c-header tests/c/header.c -x none $(ARCHIVE) && \
		target/c-header && echo "header, -std=$$s: ok" || exit 1; done

# A program built through pkg-config from what is installed, under a DESTDIR.
STAGE = $(abspath target/installed)
FIND = PKG_CONFIG_SYSROOT_DIR=$(STAGE) PKG_CONFIG_PATH=$(STAGE)/opt/zirve-blas/lib/pkgconfig pkg-config

c-installed: need-cc need-pkg-config
	rm -rf $(STAGE)
	@$(MAKE) --no-print-directory install PREFIX=/opt/zirve-blas DESTDIR=$(STAGE)
	$(FIND) --exact-version=$(VERSION) zirve-blas
	$(CC) $(STRICT) $$($(FIND) --cflags zirve-blas) -o target/c-installed tests/c/header.c $$($(FIND) --libs zirve-blas)
	target/c-installed
	@echo "header and archive, installed: ok"

rust-test: archive need-cargo
	cd bindings/rust && cargo test --offline --quiet

oracle-test: need-cargo need-cc
	$(MAKE) -C oracle test

lists counts: need-cargo need-cc
	$(MAKE) -C oracle $@

compare bench: archive need-cargo need-cc
	$(MAKE) -C oracle $@

# Beside Netlib's reference BLAS; where it is not installed (libblas-dev) it says so and does nothing.
netlib-examples: need-cargo need-cc $(if $(wildcard /usr/lib/*/blas/libblas.a),archive)
	$(MAKE) -C oracle $@

# What to install where a command is missing.
need = command -v $(1) > /dev/null || { echo "$(1) is not found: install $(2)" >&2; exit 1; }
NEED_RT = $(call need,rt,the Rattle kit (rattle-kit-13f) and put its bin/ on PATH)

need-rt:
	@$(NEED_RT)

need-cargo:
	@$(call need,cargo,cargo and rustc 1.84 or newer (Debian 13 has them as packages))

need-cc:
	@$(call need,cc,the Debian package gcc)

need-cxx:
	@echo 'int main() {}' | $(CC) -x c++ -fsyntax-only - 2> /dev/null || \
		{ echo "$(CC) compiles no C++: install the Debian package g++" >&2; exit 1; }

need-pkg-config:
	@$(call need,pkg-config,the Debian package pkgconf)
