# `try`, `run`, `quick` and `test` need the kit's `rt` on the PATH. `make help` prints the lines that begin with `##`.
.PHONY: help try run quick test bench install uninstall install-tree uninstall-tree package

# `install` puts everything under PREFIX, in the tree whose root is DESTDIR.
PREFIX ?= /usr/local
PROGRAM = $(DESTDIR)$(PREFIX)/bin/aclck
MANUAL = $(DESTDIR)$(PREFIX)/share/man/man1/aclck.1
COMPLETION = $(DESTDIR)$(PREFIX)/share/bash-completion/completions/aclck
SHARE = $(DESTDIR)$(PREFIX)/share
PAGES = docs/*.md CHANGELOG.md
PACKAGES = bindings/python/aclck $(addprefix bindings/python/aclck_,tree form ask probe)
TREE_PROGRAMS = aclck-tree aclck-form aclck-ask aclck-probe
MODULES = $(DESTDIR)$(PREFIX)/lib/aclck/python

# The first example of the README: may bob, an editor, write under a list of two entries?
EXAMPLE = check-nfs --owner alice --group staff --user bob --mask 'WRITE_DATA|APPEND_DATA' editors
PLAN = examples/plan.xdr

# `make try` gives the list in the file LIST to the program with the words ARGS, whose status 1 is an answer.
LIST =
ARGS = $(if $(LIST),show-nfs,$(EXAMPLE))

## try                runs an example, or `aclck ARGS` on the list in the file LIST, and proves nothing
try:
	{ (cd crates/aclck && rt try -- $(ARGS)) $(if $(LIST),|| [ $$? = 1 ]); } < '$(or $(LIST),$(PLAN))'
	@echo
	@echo 'Nothing is proved or built yet. `make run` proves and builds the program, and `make install` installs it.'
	@echo "Then try a list of your own: getfacl -n FILE > list && make try LIST=list ARGS='show-posix'"
	@echo 'docs/use/recipes.md answers common questions, one by one.'

## help               prints this list
help:
	@sed -n 's/^## //p' $(MAKEFILE_LIST)

## run                proves and builds aclck, and runs the example, with one job per processor or JOBS=N
JOBS ?= $(shell nproc)
run:
	tools/prove --jobs $(JOBS) aclck
	$(MAKE) --no-print-directory $(STATIC)
	crates/aclck/out/aclck-static $(EXAMPLE) < $(PLAN)

## quick CRATE=NAME   formats a crate, proves it and its tests, and tries its must-fail edits
quick:
	for tests in crates/$(CRATE) $(wildcard crates/$(CRATE)_tests); do (cd $$tests && rt fmt && rt test) || exit 1; done
	tests/edits $(CRATE)

## test               installs what tests use, where it can, runs every proof and test, and counts what passed
test:
	.ci/run

## bench              measures time, memory and instructions of the commands
bench:
	bench/commands

# The proved program as a static executable. It runs on any Linux with an x86-64-v2 processor, and starts in two thirds
# of the time of the dynamic one. The two archives of the kit have the functions of the system and of the C library that
# the program calls.
STATIC = crates/aclck/out/aclck-static
KIT = $(dir $(shell rt doc))c
$(STATIC): crates/aclck/out/aclck.o
	$(CC) -static-pie -s -Wl,-z,relro,-z,now,-z,noexecstack,-z,pack-relative-relocs \
	  -o $@ crates/aclck/out/aclck.o $(KIT)/libos_c.a $(KIT)/liblibc_c.a

## install            installs aclck, its pages and examples, and the programs of install-tree, below PREFIX
install: $(STATIC) install-tree
	install -D -m 755 $(STATIC) '$(PROGRAM)'
	install -D -m 644 man/aclck.1 '$(MANUAL)'
	install -D -m 644 completions/aclck.bash '$(COMPLETION)'
	for page in $(PAGES) docs/*/*.md; do install -D -m 644 "$$page" '$(SHARE)/doc/aclck/'"$${page#docs/}" || exit 1; done
	install -D -m 644 -t '$(SHARE)/doc/aclck/examples' examples/*.xdr examples/*.acl examples/systemd/*

## uninstall          removes what install installs
uninstall: uninstall-tree
	rm -f '$(PROGRAM)' '$(MANUAL)' '$(COMPLETION)'
	rm -rf '$(SHARE)/doc/aclck'

## install-tree       installs the programs in Python and their module, which use the installed library
install-tree:
	for name in $(TREE_PROGRAMS); do \
	  install -D -m 755 bin/$$name '$(DESTDIR)$(PREFIX)/bin/'$$name && \
	  install -D -m 644 man/$$name.1 '$(SHARE)/man/man1/'$$name.1 && \
	  install -D -m 644 completions/$$name.bash '$(SHARE)/bash-completion/completions/'$$name || exit 1; done
	for name in aclck $(TREE_PROGRAMS); do \
	  install -D -m 644 completions/_$$name '$(SHARE)/zsh/site-functions/'_$$name && \
	  install -D -m 644 completions/$$name.fish '$(SHARE)/fish/vendor_completions.d/'$$name.fish || exit 1; done
	for file in $$(find $(PACKAGES) -type f ! -path '*/__pycache__/*'); do \
	  install -D -m 644 "$$file" '$(MODULES)/'"$${file#bindings/python/}" || exit 1; done

## uninstall-tree     removes what install-tree installs
uninstall-tree:
	for name in $(TREE_PROGRAMS); do rm -f '$(DESTDIR)$(PREFIX)/bin/'$$name \
	  '$(SHARE)/man/man1/'$$name.1 '$(SHARE)/bash-completion/completions/'$$name; done
	for name in aclck $(TREE_PROGRAMS); do rm -f '$(SHARE)/zsh/site-functions/'_$$name \
	  '$(SHARE)/fish/vendor_completions.d/'$$name.fish; done
	rm -rf '$(MODULES)'

crates/aclck/out/aclck:
	@echo 'aclck is not built: make run' >&2; exit 1

# The object is next to the program. If `rt ci` took a program that it had kept, there is no object.
crates/aclck/out/aclck.o: | crates/aclck/out/aclck
	tools/prove aclck

## package            makes all packages of what run and library built, in debian/out
package: $(STATIC)
	$(MAKE) --no-print-directory $(MADE)/$(SHARED) $(MADE)/libaclck.a extensions
	debian/build

# The targets `library`, `install-library` and `uninstall-library`, for the library for C.
include library/library.mk

# The targets `sqlite` and `postgres`, and those that install what they build.
include sql/sql.mk
