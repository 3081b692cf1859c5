# Short names. Each is a plain command of the kit or a script of this repository.
.PHONY: help run build test check oracle clients edits bench examples docs install
PREFIX = /usr/local
NAME =
SAMPLE = 5

help:
	@echo "make run             the demonstration, unproved, in three to twenty silent minutes"
	@echo "make build           prove the program and leave it at crates/reencd/out/reencd (hours)"
	@echo "make test            every proof, wrong body, test and program, and the scripts (hours)"
	@echo "make check NAME=X    prove the crate X, and those below it, as the gate does"
	@echo "make oracle          judge the rows by the second implementation"
	@echo "make clients         the program under the clients that people use"
	@echo "make examples        the scripts of examples/"
	@echo "make docs            names, commands and clauses that documents name"
	@echo "make edits           try some wrong bodies of tests/edits (SAMPLE=5, or NAME=X)"
	@echo "make bench           rates of the ciphers, of key derivation and of the cell"
	@echo "make install         program, manual page and unit (DESTDIR=, PREFIX=/usr/local)"

run:
	cd crates/reencd && \
	rt try --seconds 600 -- demo --seed 5 --blocks 64 --workers 4

build:
	cd crates/reencd && \
	rt run -- demo --seed 5 --blocks 64 --workers 4

test:
	.ci/run

check:
	@test -n "$(NAME)" || { echo "make check NAME=CRATE"; exit 1; }
	rt ci $(NAME)

oracle:
	tests/oracle/run

clients:
	tests/clients/run

examples:
	examples/run

docs:
	tests/docs

edits:
	tests/edits/run $(if $(NAME),$(NAME),--sample $(SAMPLE) --seed 1)

bench:
	cd crates/bench && rt run -- ciphers 40 4
	cd crates/bench && rt run -- keys 300000
	cd crates/bench && rt run -- cell 1000000

install:
	install -D -m 755 crates/reencd/out/reencd $(DESTDIR)$(PREFIX)/sbin/reencd
	install -D -m 644 docs/reencd.8 $(DESTDIR)$(PREFIX)/share/man/man8/reencd.8
	install -d $(DESTDIR)$(PREFIX)/lib/systemd/system
	sed 's,/usr/local/sbin,$(PREFIX)/sbin,' docs/reencd@.service \
	    >$(DESTDIR)$(PREFIX)/lib/systemd/system/reencd@.service
	chmod 644 $(DESTDIR)$(PREFIX)/lib/systemd/system/reencd@.service
