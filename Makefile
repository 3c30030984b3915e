# Thin: rt does the work. See the README.
PREFIX ?= /usr/local
PROGRAM = crates/udffsck/out/udffsck
SAMPLE = crates/udffsck/data/a.img
COPY = out/a.img
LOG = out/build.log
TRIED = out/tried

.PHONY: all check-sample repair-sample try-sample test check-cases check-files check-volumes install clean

all: $(PROGRAM)

# One line for each crate as it is proved; all that rt prints stands in the log. Where rt fails, so does the rule, with rt's status.
$(PROGRAM): crates.txt $(wildcard crates/*/src/*.rt)
	@echo 'Every crate is proved before the program is built: an hour or more on four cores where nothing is kept. Log: $(LOG)'
	@mkdir -p $(dir $(LOG))
	@rm -f $(LOG).status
	@{ (cd crates/udffsck && rt run -- -c -B 512 data/a.img); echo $$? >$(LOG).status; } 2>&1 \
	    | tee $(LOG) | awk '/^crate / { sub(":", "", $$2); name = $$2 } /^logic=proved / { print name " proved"; fflush() }'
	@status=$$(cat $(LOG).status); rm -f $(LOG).status; \
	    [ "$$status" = 0 ] || { tail -n 20 $(LOG); echo 'make: rt ended with status' $$status; exit $$status; }

# Builds the program and checks the sample volume of the repository.
check-sample: $(PROGRAM)
	$(PROGRAM) -c -B 512 $(SAMPLE)

# Damages a copy of the sample volume, checks it, repairs it, and checks it again: statuses 4, 1 and 0.
repair-sample: $(PROGRAM)
	mkdir -p $(dir $(COPY))
	rm -f $(COPY) $(COPY).redo
	cp $(SAMPLE) $(COPY)
	chmod u+w $(COPY)
	dd if=/dev/zero of=$(COPY) bs=512 seek=96 count=16 conv=notrunc status=none
	$(PROGRAM) -c -B 512 $(COPY); test $$? = 4
	$(PROGRAM) -p -B 512 $(COPY); test $$? = 1
	$(PROGRAM) -c -B 512 $(COPY)
	cmp $(COPY) $(SAMPLE)

# The steps of repair-sample with an unproved build: rt compiles the program with checks at run time, and runs it on copies of the sample
# volume, a check of a whole one, a check of a damaged one and a repair of such a one. It throws away what a program writes.
try-sample:
	@echo 'An unproved build: NOTHING IS PROVED. It takes about a minute to compile, and is not kept.'
	@rm -rf $(TRIED) && mkdir -p $(TRIED)
	@for name in 1-whole 2-damaged 3-repaired; do cp $(SAMPLE) $(TRIED)/$$name && chmod u+w $(TRIED)/$$name; done
	@for name in 2-damaged 3-repaired; do \
	    dd if=/dev/zero of=$(TRIED)/$$name bs=512 seek=96 count=16 conv=notrunc status=none; done
	@for name in 1-whole 2-damaged; do echo -c >$(TRIED)/$$name.args; done; echo -p >$(TRIED)/3-repaired.args
	@cd crates/udffsck && rt try --seconds 600 --steps 1000 --cases ../../$(TRIED) -- -B 512 {} </dev/null >../../$(TRIED).log 2>&1; \
	    grep -v '^interpreter' ../../$(TRIED).log
	@grep -qx 'udffsck: case: clean' $(TRIED).log && grep -qx 'udffsck: case: 1 broken' $(TRIED).log \
	    && grep -qx 'udffsck: case: repairing 6 blocks' $(TRIED).log && grep -q '^case=3-repaired run=ended status=1 ' $(TRIED).log
	@echo 'What the repair wrote is thrown away by rt try: make repair-sample proves the program, repairs, and checks again.'

# The gate: proves every crate, tries the must-fail edits, runs the tests and the programs.
test:
	rt ci

# Runs the cases over volumes in memory and compares what comes of them.
check-cases:
	cd crates/udf_cases && rt run <stdin >/dev/null && out/udf_cases <stdin | cmp - stdout

# Runs the built program on damaged copies of the sample volume and compares what it prints and leaves.
check-files: $(PROGRAM)
	sh tests/files.sh $(PROGRAM) $(SAMPLE)

# Checks volumes of mkudffs and of genisoimage, where these are installed, and compares what is printed with docs/VOLUMES.md.
check-volumes: $(PROGRAM)
	sh tests/mkudffs.sh $(PROGRAM)

install: $(PROGRAM)
	install -d $(DESTDIR)$(PREFIX)/sbin $(DESTDIR)$(PREFIX)/share/man/man8
	install -m 755 $(PROGRAM) $(DESTDIR)$(PREFIX)/sbin/udffsck
	install -m 644 man/udffsck.8 $(DESTDIR)$(PREFIX)/share/man/man8/udffsck.8

clean:
	rm -rf crates/*/out out
