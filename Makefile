# The C library, its example and its tests. Everything that is made goes to target/.
#
#   make                        proves and builds target/staticlib/libnoemathu.a; needs the kit (`rt`)
#   make install PREFIX=DIR     puts header, library, command, pkg-config file and man pages below DIR; DESTDIR goes before it
#   make install-library        all of it but the command
#   make tool                   builds target/bin/noemathu, the command; needs libxml2 with its headers
#   make example                builds target/example/host, panels, planner, salvage and ten_lines
#   make test                   the tests of the C interface and of the command
#   make check                  those for which this machine has what they need, and says which were left out
#   make fuzz                   fuzzes both for a minute each, with clang
#
# LIBRARY=FILE takes another static library instead of building one.
PREFIX = /usr/local
DESTDIR =
CC = cc
CXX = c++
CLANG = clang
CFLAGS = -O2 -g
INSTALL = install
BUNDLES = 24000

built = target/staticlib/libnoemathu.a
LIBRARY = $(built)
warnings = -Wall -Wextra -Wpedantic -Wconversion
# Later versions of libxml2 deprecate some of what the earlier ones need.
tool_warnings = $(warnings) -Wno-deprecated-declarations
version := $(shell sed -n 's/^.define NOEMATHU_VERSION "\(.*\)"/\1/p' include/noemathu.h)
root = $(DESTDIR)$(PREFIX)
tried = target/tests/root
sources = $(wildcard tool/*.c)
headers = $(wildcard tool/*.h) include/noemathu.h
xml_cflags = $(shell xml2-config --cflags 2>/dev/null || pkg-config --cflags libxml-2.0 2>/dev/null)
xml_libs = $(shell xml2-config --libs 2>/dev/null || pkg-config --libs libxml-2.0 2>/dev/null)

all: $(LIBRARY)

# What is proved already is not proved again, but for the crate of the C functions itself.
$(built): crates.txt $(shell find crates -type f -path 'crates/*/src/*' -o -type f -path 'crates/*/specs/*' -o -type f -path 'crates/*/proofs/*')
	cd crates/noemathu_c && rt lib
	mkdir -p $(@D)
	cp crates/noemathu_c/out/libnoemathu_c.a $@

install: install-library target/bin/noemathu
	$(INSTALL) -d $(root)/bin $(root)/share/man/man1
	$(INSTALL) -m 755 target/bin/noemathu $(root)/bin/noemathu
	$(INSTALL) -m 644 man/noemathu.1 $(root)/share/man/man1/noemathu.1

install-library: $(LIBRARY)
	mkdir -p target
	$(INSTALL) -d $(root)/include $(root)/lib/pkgconfig $(root)/share/man/man3
	$(INSTALL) -m 644 include/noemathu.h $(root)/include/noemathu.h
	$(INSTALL) -m 644 $(LIBRARY) $(root)/lib/libnoemathu.a
	sed -e 's|@PREFIX@|$(PREFIX)|' -e 's|@VERSION@|$(version)|' include/noemathu.pc.in >target/noemathu.pc
	$(INSTALL) -m 644 target/noemathu.pc $(root)/lib/pkgconfig/noemathu.pc
	$(INSTALL) -m 644 man/noemathu.3 $(root)/share/man/man3/noemathu.3

example: target/example/host target/example/panels target/example/planner target/example/salvage target/example/ten_lines

target/example/%: example/%.c include/noemathu.h $(LIBRARY)
	mkdir -p target/example
	$(CC) -std=c11 $(CFLAGS) $(warnings) -Iinclude -o $@ $< $(LIBRARY)

tool: target/bin/noemathu

target/bin/noemathu: $(sources:tool/%.c=target/tool/%.o) $(LIBRARY)
	@mkdir -p target/bin
	$(CC) $(CFLAGS) $(LDFLAGS) -o $@ $^ $(xml_libs)

libxml2-headers:
	@test -n "$(xml_libs)" || { echo "the command needs libxml2 with its headers (Debian: libxml2-dev)" >&2; exit 1; }

target/tool/%.o: tool/%.c $(headers) | libxml2-headers
	@mkdir -p target/tool
	$(CC) -std=c11 $(CFLAGS) $(tool_warnings) -Iinclude $(xml_cflags) -c -o $@ $<

test: test-header test-boundary test-example test-install test-utf8 test-xml test-compare test-versions test-tool
	@echo "the tests of the C interface and of the command passed"

check:
	tests/check LIBRARY=$(LIBRARY)

# The header alone, as C and as C++.
test-header: include/noemathu.h
	$(CC) -std=c11 $(warnings) -Werror -fsyntax-only -x c include/noemathu.h
	$(CXX) -std=c++11 $(warnings) -Werror -fsyntax-only -x c++ include/noemathu.h

test-boundary: target/tests/boundary
	target/tests/boundary

target/tests/boundary: tests/boundary.c include/noemathu.h $(LIBRARY)
	mkdir -p target/tests
	$(CC) -std=c11 -g -O1 -fsanitize=address,undefined -fno-sanitize-recover=all $(warnings) -Werror -Iinclude -pthread -o $@ $< $(LIBRARY)

# The example prints what it did when it was read; README.md shows the ten lines that are run here.
test-example: example
	target/example/host >target/example/host.stdout
	cmp target/example/host.stdout example/host.stdout
	target/example/panels >target/example/panels.stdout
	cmp target/example/panels.stdout example/panels.stdout
	target/example/planner >target/example/planner.stdout
	cmp target/example/planner.stdout example/planner.stdout
	target/example/salvage >target/example/salvage.stdout
	cmp target/example/salvage.stdout example/salvage.stdout
	target/example/ten_lines <example/element.ntb >target/example/ten_lines.stdout
	cmp target/example/ten_lines.stdout example/ten_lines.stdout
	sed -n '/^```c$$/,/^```$$/p' README.md | sed -e '/^```$$/q' | sed -e '/^```/d' >target/example/shown.c
	cmp target/example/shown.c example/ten_lines.c

# What is installed is enough to build the example.
test-install:
	rm -rf $(tried)
	$(MAKE) --no-print-directory install PREFIX=/usr DESTDIR=$(tried)
	$(CC) -std=c11 $(CFLAGS) -I$(tried)/usr/include -o $(tried)/host example/host.c -L$(tried)/usr/lib -lnoemathu
	$(tried)/host | cmp - example/host.stdout
	grep -q '^Version: $(version)$$' $(tried)/usr/lib/pkgconfig/noemathu.pc
	test -s $(tried)/usr/share/man/man3/noemathu.3
	test -s $(tried)/usr/share/man/man1/noemathu.1
	$(tried)/usr/bin/noemathu xml example/element.ntb 2>&1 | grep -q '^noemathu: example/element.ntb: refusal 23, row 0'

# Refusal 14 and Python's decoder give the same answers.
test-utf8: $(LIBRARY)
	tests/utf8 --library $(LIBRARY)

# From every XML text libxml2 and expat get the tree that the table has.
test-xml: $(LIBRARY)
	tests/xml --library $(LIBRARY) --count $(BUNDLES)

# The command: what it prints, as it is built and with the sanitizers; on damaged files; on sessions in the shapes of real ones.
test-tool: test-transcripts test-audit test-damage test-real-shapes

sanitized = -g -O1 -fsanitize=address,undefined -fno-sanitize-recover=all
test-transcripts: target/bin/noemathu target/tests/tool/noemathu target/tests/tool/messages
	tests/tool/transcripts.py --tool target/bin/noemathu
	tests/tool/transcripts.py --tool target/tests/tool/noemathu
	tests/tool/transcripts.py --tool target/bin/noemathu --readme $(LIBRARY)
	target/tests/tool/messages 2>&1 | cmp - tests/tool/messages.stderr

target/tests/tool/noemathu: $(sources:tool/%.c=target/tests/tool/%.o) $(LIBRARY)
	$(CC) $(sanitized) -o $@ $^ $(xml_libs)

target/tests/tool/damage target/tests/tool/messages: target/tests/tool/%: tests/tool/%.c $(filter-out %/main.o,$(sources:tool/%.c=target/tests/tool/%.o)) $(LIBRARY)
	$(CC) -std=c11 $(sanitized) $(tool_warnings) -Werror -Iinclude $(xml_cflags) -o $@ $^ $(xml_libs)

target/tests/tool/%.o: tool/%.c $(headers) | libxml2-headers
	@mkdir -p target/tests/tool
	$(CC) -std=c11 $(sanitized) $(tool_warnings) -Werror -Iinclude $(xml_cflags) -c -o $@ $<

DAMAGED = 5000
test-damage: target/tests/tool/damage
	rm -rf target/tests/damaged
	mkdir -p target/tests/damaged
	tests/tool/shapes.py target/tests/damaged --count 60
	tests/tool/refused.py target/tests/damaged 100
	cp tests/version1/*.ntb target/tests/damaged/
	target/tests/tool/damage target/tests/damaged $(DAMAGED) 1

# What the command says of names is what the second reading of the rules says.
test-audit: target/bin/noemathu
	tests/tool/audit --tool target/bin/noemathu

test-real-shapes: target/bin/noemathu
	tests/tool/real-shapes --tool target/bin/noemathu

# Not in the gate: libFuzzer, by clang, on the C interface and on the command's reader, so many seconds each.
SECONDS = 60
fuzz: target/fuzz/interface target/fuzz/reader
	tests/fuzz/run $(SECONDS)

target/fuzz/interface: tests/fuzz/interface.c include/noemathu.h $(LIBRARY)
	mkdir -p target/fuzz
	$(CLANG) -std=c11 -g -O1 -fsanitize=fuzzer,address,undefined $(warnings) -Werror -Iinclude -o $@ $< $(LIBRARY)

target/fuzz/reader: tests/fuzz/reader.c $(filter-out tool/main.c,$(sources)) $(headers) $(LIBRARY)
	mkdir -p target/fuzz
	$(CLANG) -std=c11 -g -O1 -fsanitize=fuzzer,address,undefined $(tool_warnings) -Werror -Iinclude $(xml_cflags) -o $@ $(filter %.c,$^) $(LIBRARY) $(xml_libs)

# Of bundles of version 1 every call answers what it answers of the same rows in version 2.
test-versions: $(LIBRARY)
	tests/versions --library $(LIBRARY)

# The library and the second reading of the rules give the same answers, and the comparison finds the planted faults.
test-compare: $(LIBRARY)
	tests/compare --library $(LIBRARY) --count $(BUNDLES)
	tests/test-the-test --library $(LIBRARY)

.PHONY: all install install-library tool libxml2-headers example test check test-header test-boundary test-example test-install test-utf8 test-xml test-compare \
	test-versions test-tool test-transcripts test-audit test-damage test-real-shapes fuzz
