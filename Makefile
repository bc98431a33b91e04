# Installs, packages and tests dcvalid. Nothing is proved here: ./dcvalid --prove does that.
PREFIX = /usr/local
DESTDIR =
PYTHON = python3
UNPROVED =
STOP =
PROGRAM = crates/dcvalid/out/dcvalid
TOP = $(DESTDIR)$(PREFIX)
SHARE = share/dcvalid
MAN = share/man/man1
COMPLETIONS = share/bash-completion/completions

.PHONY: all install stamp check-install uninstall deb test

all:
	@echo 'make install PREFIX=/usr/local        installs the proved program, the workbench, the man page and the completion'
	@echo 'make install UNPROVED=1              the same with a program that was built without proofs, and records that'
	@echo 'make check-install PREFIX=/usr/local compares what is installed with its checksums'
	@echo 'make uninstall PREFIX=/usr/local     removes all of it'
	@echo 'make deb [UNPROVED=1]                makes a Debian package of the same files, in out/'
	@echo 'make test [STOP=1]                   runs the tests that the gate does not run; STOP=1 ends at the first failure'

install:
	@./dcvalid $(if $(UNPROVED),,--require-proof) --build
	install -d '$(TOP)/bin' '$(TOP)/$(MAN)' '$(TOP)/$(COMPLETIONS)' '$(TOP)/$(SHARE)/workbench/c' '$(TOP)/$(SHARE)/patterns'
	install -m 755 $(PROGRAM) packaging/ask '$(TOP)/bin'
	install -m 755 ask '$(TOP)/$(SHARE)'
	install -m 644 workbench/*.py '$(TOP)/$(SHARE)/workbench'
	install -m 644 workbench/c/* '$(TOP)/$(SHARE)/workbench/c'
	install -m 644 patterns/*.dc '$(TOP)/$(SHARE)/patterns'
	cp -R editors '$(TOP)/$(SHARE)'
	$(PYTHON) workbench/pages.py man >'$(TOP)/$(MAN)/dcvalid.1'
	ln -sf dcvalid.1 '$(TOP)/$(MAN)/ask.1'
	$(PYTHON) workbench/pages.py bash >'$(TOP)/$(COMPLETIONS)/dcvalid'
	@$(MAKE) --no-print-directory stamp

# Writes what is installed: version, revision, kit, whether it is proved, and a checksum of each file.
stamp:
	./dcvalid --version >'$(TOP)/$(SHARE)/VERSION'
	cd '$(TOP)' && find bin/dcvalid bin/ask $(MAN)/dcvalid.1* $(COMPLETIONS)/dcvalid $(SHARE) -name __pycache__ -prune -o -type f ! -path $(SHARE)/VERSION -print0 \
	  | LC_ALL=C sort -z | xargs -0 sha256sum >>$(SHARE)/VERSION

check-install:
	@cd '$(TOP)' && sed -n '/^[0-9a-f]\{64\}  /p' $(SHARE)/VERSION | sha256sum --check --quiet >&2
	@awk '/^dcvalid / { version = $$0 } /^proved: / { proof = $$2 == "yes:" ? "proved" : "not proved" } \
	  END { print "$(TOP): as it was installed, " version ", " proof }' '$(TOP)/$(SHARE)/VERSION'

uninstall:
	rm -f '$(TOP)/bin/dcvalid' '$(TOP)/bin/ask' '$(TOP)/$(MAN)/dcvalid.1' '$(TOP)/$(MAN)/ask.1' '$(TOP)/$(COMPLETIONS)/dcvalid'
	rm -rf '$(TOP)/$(SHARE)'

deb:
	@packaging/deb '$(UNPROVED)'

test:
	@STOP='$(STOP)' tests/all.py
