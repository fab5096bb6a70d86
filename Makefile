# make demo      build the programs and run the main job on the sample
# make test      the gate: prove everything, run programs and tests
# make install   put the programs into $(PREFIX)/bin
PREFIX ?= /usr/local

.PHONY: build demo test install clean

# A program is built by running it once.
build:
	cd crates/seal_file && rt run -- --version
	cd crates/open_file && rt run -- --version

demo: build
	tests/demo

test:
	.ci/run

install: build
	install -d $(DESTDIR)$(PREFIX)/bin
	install -m 755 crates/seal_file/out/seal_file $(DESTDIR)$(PREFIX)/bin/strongbox-seal
	install -m 755 crates/open_file/out/open_file $(DESTDIR)$(PREFIX)/bin/strongbox-open

clean:
	rm -rf crates/*/out
