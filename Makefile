# Builds, checks and installs the program, the two archives, the header and the manual page. rt knows what has changed, so no rule here is about the
# crates.
#
#     make                               proves and builds, in the folders out of the three crates
#     make check                         the gate
#     make install PREFIX=/usr/local     what make has built; DESTDIR=FOLDER goes before every path, for a package
#     make uninstall PREFIX=/usr/local   takes away what make install, with the same words, has put there

PREFIX = /usr/local
bindir = $(PREFIX)/bin
libdir = $(PREFIX)/lib
includedir = $(PREFIX)/include
mandir = $(PREFIX)/share/man
pkgconfigdir = $(libdir)/pkgconfig

# The dot stands for the number sign, which not every version of make reads alike here.
version = $(shell sed -n 's/^.define PERMITS_VERSION "\(.*\)"$$/\1/p' include/permits.h)

program = crates/permits/out/permits
panel = crates/panel/out/libpanel.a
console = crates/console/out/libconsole.a
built = $(program) $(panel) $(console)

.PHONY: all check install uninstall clean

# rt builds a program where it runs it: on the session, whose text stands beside it.
all:
	mkdir -p target
	cd crates/permits && rt run <stdin >../../target/printed && cmp ../../target/printed stdout
	cd crates/panel && rt lib
	cd crates/console && rt lib

check:
	.ci/run

# install does not depend on all: rt lib compiles each time, and who installs may have no rt.
$(built):
	@echo "$@ is missing: run make first" >&2; false

# under-prefix PATH: a path under PREFIX as pkg-config's variable has it, so that the files serve where the whole folder is moved
under-prefix = $(patsubst $(PREFIX)/%,$${prefix}/%,$(1))

# fill TEMPLATE,PATH,ARCHIVE,DESCRIPTION: installs a file of the folder install with its words between @ filled in
define fill
sed -e 's|@PREFIX@|$(PREFIX)|' -e 's|@LIBDIR@|$(call under-prefix,$(libdir))|' -e 's|@INCLUDEDIR@|$(call under-prefix,$(includedir))|' \
    -e 's|@VERSION@|$(version)|' -e 's|@ARCHIVE@|$(3)|' -e 's|@DESCRIPTION@|$(4)|' install/$(1) >"$(DESTDIR)$(2)"
chmod 644 "$(DESTDIR)$(2)"
endef

# In a folder that many programs share, libpanel.a and libconsole.a would not say whose they are. pkg-config spares its users the longer names.
install: $(built)
	install -d "$(DESTDIR)$(bindir)" "$(DESTDIR)$(libdir)" "$(DESTDIR)$(includedir)" "$(DESTDIR)$(mandir)/man1" "$(DESTDIR)$(pkgconfigdir)"
	install -m 755 $(program) "$(DESTDIR)$(bindir)/permits"
	install -m 644 $(panel) "$(DESTDIR)$(libdir)/libpermits-panel.a"
	install -m 644 $(console) "$(DESTDIR)$(libdir)/libpermits-console.a"
	install -m 644 include/permits.h "$(DESTDIR)$(includedir)/permits.h"
	$(call fill,permits.pc.in,$(pkgconfigdir)/permits-panel.pc,panel,the batch and the section call for a panel)
	$(call fill,permits.pc.in,$(pkgconfigdir)/permits-console.pc,console,the calls on a record that a console keeps)
	$(call fill,permits.1.in,$(mandir)/man1/permits.1)

uninstall:
	rm -f "$(DESTDIR)$(bindir)/permits"
	rm -f "$(DESTDIR)$(libdir)/libpermits-panel.a"
	rm -f "$(DESTDIR)$(libdir)/libpermits-console.a"
	rm -f "$(DESTDIR)$(includedir)/permits.h"
	rm -f "$(DESTDIR)$(pkgconfigdir)/permits-panel.pc"
	rm -f "$(DESTDIR)$(pkgconfigdir)/permits-console.pc"
	rm -f "$(DESTDIR)$(mandir)/man1/permits.1"

clean:
	rm -rf target crates/*/out
