# make install PREFIX=/usr/local    installs the proved program, the tools, manual pages, documents and licences
# make deb                          packs the proved program for Debian, with dpkg-deb(1)
# The program is built and proved first, by ./test, or by `rt run -- --help` in crates/uring_replay.
PREFIX ?= /usr/local
DESTDIR ?=
PROGRAM = crates/uring_replay/out/uring_replay
VERSION = $(shell sed -n 's/^## \([0-9.]*\).*/\1/p' CHANGELOG.md | head -n 1)
ROOT = $(DESTDIR)$(PREFIX)
SHARE = $(ROOT)/share/doc/uring-replay
# What the tools in Python share, and with what they draw traces.
SHARED = tools/shared/playing.py tools/shared/trace_parts.py tests/traces.py tests/model.py tests/drawing.py tests/record_traces.py tests/play_drawing.py
BUILD = out
STAGE = $(BUILD)/deb

all: tools manuals

tools:
	$(MAKE) -C tools

$(PROGRAM):
	@echo "$@ is not built: run ./test, or \`rt run -- --help\` in crates/uring_replay" >&2; exit 1

manuals:
	mkdir -p $(BUILD)/man
	tools/manual uring_replay 1 $(VERSION) "replay recorded io_uring submissions" docs/GUIDE.md > $(BUILD)/man/uring_replay.1
	tools/manual uring_record 1 $(VERSION) "record what a program submits through io_uring" docs/RECORDING.md > $(BUILD)/man/uring_record.1
	tools/manual uring_play 1 $(VERSION) "play a trace on a real system" docs/PLAYING.md > $(BUILD)/man/uring_play.1
	tools/manual uring_minimise 1 $(VERSION) "make a trace that differs as short as it can be" docs/FINDING.md > $(BUILD)/man/uring_minimise.1
	tools/manual uring_campaign 1 $(VERSION) "play drawn traces on some systems" docs/FINDING.md > $(BUILD)/man/uring_campaign.1
	tools/manual uring-trace 5 $(VERSION) "traces of io_uring submissions, and reports" docs/FORMAT.md > $(BUILD)/man/uring-trace.5

install: install-program
	$(MAKE) -C tools
	install -m 755 tools/out/uring_record tools/out/uring_play tools/uring_minimise tools/uring_campaign tools/uring_timeline $(ROOT)/bin
	install -m 644 $(patsubst %,$(BUILD)/man/%.1,uring_record uring_play uring_minimise uring_campaign) $(ROOT)/share/man/man1
	install -d $(ROOT)/share/uring-replay
	install -m 644 $(SHARED) $(ROOT)/share/uring-replay

install-program: $(PROGRAM) manuals
	install -D -m 755 $(PROGRAM) $(ROOT)/bin/uring_replay
	install -D -m 644 $(BUILD)/man/uring_replay.1 $(ROOT)/share/man/man1/uring_replay.1
	install -D -m 644 $(BUILD)/man/uring-trace.5 $(ROOT)/share/man/man5/uring-trace.5
	install -d $(SHARE)/docs $(SHARE)/examples/recorded
	install -m 644 README.md CHANGELOG.md CONTRIBUTING.md LICENSE-MIT LICENSE-APACHE $(SHARE)
	install -m 644 docs/*.md docs/*.svg $(SHARE)/docs
	install -m 644 examples/README.md examples/read_four_bytes.* examples/appends_wait_for_each_other.* $(SHARE)/examples
	install -m 644 examples/recorded/qemu_disk_image.* $(SHARE)/examples/recorded

deb: $(PROGRAM)
	rm -rf $(STAGE)
	$(MAKE) install-program DESTDIR=$(STAGE) PREFIX=/usr
	tools/licences > $(STAGE)/usr/share/doc/uring-replay/copyright
	gzip -9n $(STAGE)/usr/share/man/man*/*
	mkdir -p $(STAGE)/DEBIAN
	printf 'Package: uring-replay\nVersion: %s\nArchitecture: amd64\nMaintainer: The uring_replay authors <uring_replay@example.org>\nDepends: libc6\nSection: utils\nPriority: optional\nDescription: replay recorded io_uring submissions\n It executes a recorded trace in memory, and reports every result. The answers\n are proved to be the same on every run and on every number of threads.\n' $(VERSION) > $(STAGE)/DEBIAN/control
	dpkg-deb --root-owner-group --build $(STAGE) $(BUILD)/uring-replay_$(VERSION)_amd64.deb

clean:
	rm -rf $(BUILD)
	$(MAKE) -C tools clean

.PHONY: all tools manuals install install-program deb clean
