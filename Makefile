# For who installs famsync, and for who works on the repository. The merge check is `.ci/run`.
#
#   make              the C library, in clients/c/out
#   make install      everything that users need; PREFIX, DESTDIR, LIBDIR, PYTHONDIR say where (packaging/install.sh)
#   make uninstall    takes it away again; with the same PREFIX and DESTDIR
#   make dist         out/famsync-VERSION-linux-x86_64.tar.gz, for users without the kit
#   make proved       proves and builds the program and the core, which `make install` and `make dist` need. `.ci/run`
#                     does so, too
#
# PROGRAM and CORE name another program and core. With `unproved` for a name, this part is compiled without proofs.
PREFIX ?= /usr/local
OUT ?= out
PROVED = PROGRAM='$(PROGRAM)' CORE='$(CORE)'

all:
	$(MAKE) -C clients/c $(if $(CORE),CORE='$(if $(filter unproved,$(CORE)),unproved,$(abspath $(CORE)))')

install:
	@tree=$$(mktemp -d) && trap 'rm -rf "$$tree"' EXIT && $(PROVED) packaging/stage "$$tree" && \
		"$$tree/install.sh" --prefix '$(PREFIX)' $(if $(DESTDIR),--destdir '$(DESTDIR)') \
			$(if $(LIBDIR),--libdir '$(LIBDIR)') $(if $(PYTHONDIR),--pythondir '$(PYTHONDIR)')

proved:
	crates/famsync/build
	crates/famsync_core/build

uninstall:
	@packaging/install.sh --uninstall --prefix '$(PREFIX)' $(if $(DESTDIR),--destdir '$(DESTDIR)')

dist:
	@$(PROVED) packaging/dist '$(OUT)'

# From now on git checks each commit and its message in this clone before it makes it.
hooks:
	git config core.hooksPath tests/hooks

# What the hook does, on what is staged.
layout:
	tests/lint/layout

# `make proved install` builds first.
.NOTPARALLEL:
.PHONY: all install proved uninstall dist hooks layout
