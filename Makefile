# The layer for C and C++: made, installed, tried.
#
#     make                                      the archive for the machine at hand, by tools/archive; TARGET=x86_64 or aarch64 for that one
#     make install PREFIX=/usr/local DESTDIR=   the header, the archive and ahozurime.pc, under PREFIX; it makes nothing
#     make uninstall                            takes the three away again
#     make check                                all tests, tools/gate
TARGET = $(shell uname -m)
PREFIX = /usr/local
INCLUDEDIR = $(PREFIX)/include
LIBDIR = $(PREFIX)/lib
PKGCONFIGDIR = $(LIBDIR)/pkgconfig
DESTDIR =
INSTALL = install

archive = target/archive/$(TARGET)/libahozurime.a
part = $(shell sed -n 's/^.define AHZ_VERSION_$(1) //p' include/ahozurime.h)
VERSION = $(call part,MAJOR).$(call part,MINOR)

# The folders reach the shell by its environment: so a space, or what means something to a shell or to sed, is a part of a name.
export PREFIX INCLUDEDIR LIBDIR PKGCONFIGDIR DESTDIR VERSION

.PHONY: all install uninstall check folders
all:
	sh tools/archive $(TARGET)

folders:
	@for folder in "$$PREFIX" "$$INCLUDEDIR" "$$LIBDIR" "$$PKGCONFIGDIR"; do \
	    case $$folder in \
	    *[\"\#\$$]*) printf 'make: %s has a character that ahozurime.pc cannot hold: ", # or $$\n' "$$folder" >&2; exit 1 ;; \
	    /*) ;; \
	    *) printf 'make: %s does not begin with /: the layer is installed under a whole path\n' "$$folder" >&2; exit 1 ;; \
	    esac; \
	done

# In ahozurime.pc a folder under PREFIX is one under its variable prefix, so that pkg-config --define-prefix finds it wherever it is moved.
install: folders
	@test -f $(archive) || { echo "make: $(archive) is not there: run make TARGET=$(TARGET) first" >&2; exit 1; }
	$(INSTALL) -d "$$DESTDIR$$INCLUDEDIR" "$$DESTDIR$$LIBDIR" "$$DESTDIR$$PKGCONFIGDIR"
	$(INSTALL) -m 644 include/ahozurime.h "$$DESTDIR$$INCLUDEDIR/ahozurime.h"
	$(INSTALL) -m 644 $(archive) "$$DESTDIR$$LIBDIR/libahozurime.a"
	awk 'function under(folder) { return index(folder, prefix "/") == 1 ? "$${prefix}" substr(folder, length(prefix) + 1) : folder } \
	    function put(name, value, at) { if ((at = index($$0, name)) > 0) $$0 = substr($$0, 1, at - 1) value substr($$0, at + length(name)) } \
	    BEGIN { prefix = ENVIRON["PREFIX"] } \
	    { put("@PREFIX@", prefix); put("@INCLUDEDIR@", under(ENVIRON["INCLUDEDIR"])); put("@LIBDIR@", under(ENVIRON["LIBDIR"])) } \
	    { put("@VERSION@", ENVIRON["VERSION"]); print }' ahozurime.pc.in >"$$DESTDIR$$PKGCONFIGDIR/ahozurime.pc.new"
	chmod 644 "$$DESTDIR$$PKGCONFIGDIR/ahozurime.pc.new"
	mv "$$DESTDIR$$PKGCONFIGDIR/ahozurime.pc.new" "$$DESTDIR$$PKGCONFIGDIR/ahozurime.pc"

uninstall: folders
	rm -f "$$DESTDIR$$INCLUDEDIR/ahozurime.h" "$$DESTDIR$$LIBDIR/libahozurime.a" "$$DESTDIR$$PKGCONFIGDIR/ahozurime.pc"

check:
	sh tools/gate
