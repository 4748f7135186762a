# Makes the library and the program from what the proof compiled, with a C compiler alone: `make`, then `make install`.
#
#   FROM     the folder with the assembly: dist (shipped), or build/proved (made here by the proof)
#   OUT      where the outcome goes
#   PREFIX   where it is installed; DESTDIR goes before it, for packages
.POSIX:
.SUFFIXES:

CC = cc
FROM = dist
OUT = build/made
PREFIX = /usr/local
DESTDIR =
LIBDIR = $(PREFIX)/lib
CFLAGS = -O2
WARNINGS = -std=c99 -Wall -Wextra -pedantic
# the processor that the C compiler makes code for
PROCESSOR = $$($(CC) -dumpmachine | sed 's/-.*//; s/^arm64$$/aarch64/; s/^amd64$$/x86_64/')
VERSION = $$(sed -n 's/^.define SEJJEKORU_VERSION "\(.*\)"$$/\1/p' include/sejjekoru.h)
# raised when a program that was linked with the library before could no longer run with it
SONAME = libsejjekoru.so.1

# what a caller gets of it
PARTS = libsejjekoru.a libsejjekoru.so.1 libsejjekoru.so vault lossy_line

all: $(OUT)/libsejjekoru.a $(OUT)/$(SONAME) $(OUT)/libsejjekoru.so $(OUT)/vault $(OUT)/lossy_line

$(OUT)/sejjekoru.o: $(FROM)/sejjekoru-x86_64.s $(FROM)/sejjekoru-aarch64.s
	mkdir -p $(OUT)
	$(CC) -c "$(FROM)/sejjekoru-$(PROCESSOR).s" -o $@

$(OUT)/version.o: program/version.c include/sejjekoru.h
	mkdir -p $(OUT)
	$(CC) $(WARNINGS) $(CFLAGS) -fPIC -Iinclude -c program/version.c -o $@

$(OUT)/libsejjekoru.a: $(OUT)/sejjekoru.o $(OUT)/version.o
	rm -f $@
	$(AR) rcs $@ $(OUT)/sejjekoru.o $(OUT)/version.o

$(OUT)/$(SONAME): $(OUT)/sejjekoru.o $(OUT)/version.o
	$(CC) $(LDFLAGS) -shared -Wl,-soname,$(SONAME) -Wl,-z,text $(OUT)/sejjekoru.o $(OUT)/version.o -o $@

# a copy, and no link: `rt ci` takes no link below the top of the repository
$(OUT)/libsejjekoru.so: $(OUT)/$(SONAME)
	cp $(OUT)/$(SONAME) $@

PROGRAM = program/vault.c program/desk.c program/order.c program/words.c program/file_words.c program/lines.c program/refusals.c program/files.c \
  program/plans.c program/books.c program/reverses.c program/timed.c program/surveys.c
# -DHAS_x for each function sejjekoru_x that the header declares
HAS = $$(sed -n 's/^uint64_t sejjekoru_\([a-z_]*\)(.*/-DHAS_\1/p' include/sejjekoru.h)
HEADERS = program/desk.h program/order.h program/words.h program/lines.h program/refusals.h program/files.h

$(OUT)/vault: $(PROGRAM) $(HEADERS) include/sejjekoru.h $(OUT)/libsejjekoru.a
	$(CC) $(WARNINGS) $(CFLAGS) $(LDFLAGS) -D_XOPEN_SOURCE=700 $(HAS) -Iinclude $(PROGRAM) $(OUT)/libsejjekoru.a -o $@

$(OUT)/lossy_line: examples/lossy_line.c $(OUT)/libsejjekoru.a
	$(CC) $(WARNINGS) $(CFLAGS) $(LDFLAGS) -Iinclude examples/lossy_line.c $(OUT)/libsejjekoru.a -o $@

install: all
	mkdir -p "$(DESTDIR)$(PREFIX)/bin" "$(DESTDIR)$(PREFIX)/include" "$(DESTDIR)$(LIBDIR)/pkgconfig"
	install -m 755 $(OUT)/vault "$(DESTDIR)$(PREFIX)/bin/vault"
	install -m 644 include/sejjekoru.h "$(DESTDIR)$(PREFIX)/include/sejjekoru.h"
	install -m 644 $(OUT)/libsejjekoru.a "$(DESTDIR)$(LIBDIR)/libsejjekoru.a"
	install -m 755 $(OUT)/$(SONAME) "$(DESTDIR)$(LIBDIR)/$(SONAME)"
	ln -sf $(SONAME) "$(DESTDIR)$(LIBDIR)/libsejjekoru.so"
	printf '%s\n' 'prefix=$(PREFIX)' 'libdir=$(LIBDIR)' 'includedir=$${prefix}/include' '' \
	  'Name: sejjekoru' 'Description: Planner and bill-proof crossing log for pallet vaults' "Version: $(VERSION)" \
	  'Cflags: -I$${includedir}' 'Libs: -L$${libdir} -lsejjekoru' >"$(DESTDIR)$(LIBDIR)/pkgconfig/sejjekoru.pc"
	chmod 644 "$(DESTDIR)$(LIBDIR)/pkgconfig/sejjekoru.pc"

clean:
	rm -rf $(OUT)
