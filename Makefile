# The library without Rattle, from the archives of dist/.
#
#   make install PREFIX=/usr/local [DESTDIR=..] [KIND=x86_64-linux|x86_64-linux-any|aarch64-linux]
#                         header, archive, pkg-config and CMake files
#   make uninstall PREFIX=..
#   make check            tries the archive: the examples, the wrapper, the stored lines; and every test that needs no Rattle
PREFIX ?= /usr/local
DESTDIR ?=
KIND ?= $(shell uname -m | sed 's/^arm64$$/aarch64/')-linux
VERSION := $(shell sed -n 's/^\#define VD_VERSION "\(.*\)"/\1/p' include/vurdellow.h)
TO = $(DESTDIR)$(PREFIX)
CMAKE_FILES = $(TO)/lib/cmake/Vurdellow

all:
	@sed -n '/^#/!q; s/^# \{0,1\}//p' Makefile

install: dist/$(KIND)/libvurdellow.a
	install -d $(TO)/include $(TO)/lib/pkgconfig $(CMAKE_FILES)
	install -m 644 include/vurdellow.h $(TO)/include/vurdellow.h
	install -m 644 dist/$(KIND)/libvurdellow.a $(TO)/lib/libvurdellow.a
	sed 's|@PREFIX@|$(PREFIX)|; s|@VERSION@|$(VERSION)|' packaging/vurdellow.pc.in >$(TO)/lib/pkgconfig/vurdellow.pc
	install -m 644 packaging/VurdellowConfig.cmake $(CMAKE_FILES)/VurdellowConfig.cmake
	sed 's|@VERSION@|$(VERSION)|' packaging/VurdellowConfigVersion.cmake.in >$(CMAKE_FILES)/VurdellowConfigVersion.cmake

uninstall:
	rm -f $(TO)/include/vurdellow.h $(TO)/lib/libvurdellow.a $(TO)/lib/pkgconfig/vurdellow.pc
	rm -f $(CMAKE_FILES)/VurdellowConfig.cmake $(CMAKE_FILES)/VurdellowConfigVersion.cmake
	-rmdir $(CMAKE_FILES)

# The tests that need no Rattle; those of LINKING take the archive of dist/.
CHECKS = sources help layout interface tournament_keys rust_in_rattle cut_scripts claims pages public_documents site refusals try reading
LINKING = stored library driving wrapper
check: dist/$(KIND)/libvurdellow.a
	@[ -d tests ] || { echo "check: the tests are in the repository, and not in this package" >&2; exit 2; }
	@failed=0 skipped=0 passed=0; \
	for test in $(LINKING) $(CHECKS); do \
	    status=0; VURDELLOW_ARCHIVE=$$PWD/dist/$(KIND)/libvurdellow.a tests/$$test </dev/null || status=$$?; \
	    case $$status in \
	    0) echo "check: tests/$$test passed"; passed=$$((passed + 1)) ;; \
	    77) echo "check: tests/$$test skipped"; skipped=$$((skipped + 1)) ;; \
	    *) echo "check: tests/$$test FAILED (status $$status)"; failed=$$((failed + 1)) ;; \
	    esac; \
	done; \
	echo "check: the library of dist/$(KIND): $$passed passed, $$failed failed, $$skipped skipped"; \
	[ $$failed -eq 0 ] && [ $$passed -gt 0 ]

.PHONY: all install uninstall check
