# Installs, checks and packs the program. While the sources are those of the release, only `prove` needs the Rattle kit. `release` needs the program that `prove` or the gate built.
#
#   make              prints the path of the program that would run
#   make help         prints these lines
#   make install [PREFIX=/usr/local] [DESTDIR=..] [PROGRAM=..]    the program and the lab, man pages, completions and pages
#   make uninstall [PREFIX=..] [DESTDIR=..]          removes them
#   make test         the worked cases, and the lab's quick tests, in about a minute (needs Python 3.11 or later)
#   make check        the worked cases and the commands that the pages show (needs Python 3.11 or later)
#   make dist         dist/bbmcheck-VERSION-x86_64-linux-gnu.tar.gz, and one for x86_64-v3, the same bytes each time
#   make deb          dist/bbmcheck_VERSION_amd64.deb and dist/bbmlab_VERSION_all.deb (needs dpkg-deb)
#   make prove        proves and builds the program here, and compares it with the released one (needs the kit)
#   make release      renews release/ from the program that `make prove` or the gate built here (needs Python 3)
#   make mostlyclean  removes dist/, the program that ./bbmcheck built here, and what Python kept; proofs stay
#   make clean        removes that, and all proofs and programs that were made here
PREFIX ?= /usr/local
DESTDIR ?=
# Another program than the one that ./bbmcheck runs.
PROGRAM ?=

# A text as it stands between single quotes of the shell.
quoted = $(subst ','\'',$1)
# The folder of this file, also with `make -f`: MAKEFILE_LIST begins with a space.
top := $(call quoted,$(shell list='$(call quoted,$(MAKEFILE_LIST))'; dirname -- "$${list# }"))
room = $(call quoted,$(DESTDIR)$(PREFIX))

.PHONY: all help install uninstall test check dist deb prove release mostlyclean clean

all:
	'$(top)/bbmcheck' --wrapper-program

help:
	@sed -n 's/^#   //p' '$(top)/Makefile'

install:
	'$(top)/tools/package/install_files' install '$(room)' $(if $(PROGRAM),'$(call quoted,$(PROGRAM))')
	'$(top)/tools/package/install_files' install_lab '$(room)'

uninstall:
	'$(top)/tools/package/install_files' uninstall_lab '$(room)'
	'$(top)/tools/package/install_files' uninstall '$(room)'

test:
	'$(top)/tools/dev' test "$$('$(top)/bbmcheck' --wrapper-program)"

check:
	@python3 -c 'import sys; sys.exit(sys.version_info < (3, 11))' 2>/dev/null || \
	{ echo 'make check: Python 3.11 or later is missing (Debian: apt-get install python3)' >&2; exit 1; }
	program="$$('$(top)/bbmcheck' --wrapper-program)" && \
	'$(top)/conformance/run.py' "$$program" --all && \
	'$(top)/tools/docs/documented_commands.py' "$$program"

dist:
	'$(top)/tools/package/make_archive'

deb:
	'$(top)/tools/package/make_deb'

prove:
	'$(top)/tools/package/prove'

release:
	'$(top)/tools/package/build_v3'
	'$(top)/tools/package/release'

mostlyclean:
	rm -rf -- '$(top)/dist' '$(top)/crates/bbmcheck/out/wrapper'
	find '$(top)/tools' '$(top)/conformance' '$(top)/examples' '$(top)/lab' '$(top)/bench' -name __pycache__ -prune -exec rm -rf -- {} +

clean: mostlyclean
	rm -rf -- '$(top)'/crates/*/out
