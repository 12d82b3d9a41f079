# The command `curlew`: built by make, installed by make install with its page and its completion for bash.

bindir = $(exec_prefix)/bin
man1dir = $(mandir)/man1
completionsdir = $(datarootdir)/bash-completion/completions

COMMAND := target/curlew
COMMAND_SOURCES := $(wildcard command/*.c)

all: $(COMMAND)

$(COMMAND): $(COMMAND_SOURCES) $(wildcard command/*.h) include/curlew.h $(ARCHIVE)
	@command -v $(CC) >/dev/null || { echo "$(CC) not found: install gcc (Debian's package gcc), or say CC=.."; exit 2; }
	$(CC) -std=c99 -O2 -Wall -Wextra -pedantic $(CFLAGS) $(CPPFLAGS) -Iinclude -o $@ $(COMMAND_SOURCES) $(ARCHIVE) -pthread $(LDFLAGS)

.PHONY: install-command uninstall-command

install: install-command
install-command: $(COMMAND)
	$(INSTALL) -d "$(DESTDIR)$(bindir)" "$(DESTDIR)$(man1dir)" "$(DESTDIR)$(completionsdir)"
	$(INSTALL_PROGRAM) $(COMMAND) "$(DESTDIR)$(bindir)/curlew"
	$(INSTALL_DATA) command/curlew.1 "$(DESTDIR)$(man1dir)/curlew.1"
	$(INSTALL_DATA) command/curlew.bash "$(DESTDIR)$(completionsdir)/curlew"

uninstall: uninstall-command
uninstall-command:
	rm -f "$(DESTDIR)$(bindir)/curlew" "$(DESTDIR)$(man1dir)/curlew.1" "$(DESTDIR)$(completionsdir)/curlew"
