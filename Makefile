# `make demo` shows the tool at work on the sample house, and `make test` is the whole gate.
#   make lib          proves and builds the library that C programs link, target/staticlib/libzaqfinell.a; with TARGET=.., a target that
#                     tools/lib_for.sh names, the one for an ARM chip, target/TARGET/libzaqfinell.a
#   make tool         builds target/bin/zaq
#   make install      installs both with header, pkg-config file and man page: PREFIX=/usr/local DESTDIR=
#   make uninstall    takes them away
#   make bench        times the library against plain C
#   make pictures     draws the pictures of the README
#   make check-long   has other people's programs look at the method and at the library's answers, and shows that the outside tests notice
#                     planted mistakes
#   make check-arm    tries the libraries for ARM
.PHONY: demo lib tool install uninstall test bench pictures check-long check-arm clean
PREFIX ?= /usr/local
DESTDIR ?=
export PREFIX DESTDIR
library := target/staticlib/libzaqfinell.a

demo: tool
	@echo
	@echo 'The house, examples/house.txt:'
	@cat examples/house.txt
	@echo
	@echo 'The routes from its television, zaq routes examples/house.txt 1:'
	@target/bin/zaq routes examples/house.txt 1
	@target/bin/zaq draw examples/house.txt 1 -o target/house.svg
	@echo
	@echo 'Its picture, zaq draw examples/house.txt 1, is in target/house.svg'

ifneq ($(TARGET),)
lib:
	@bash tools/lib_for.sh '$(TARGET)'
else
lib: $(library)
endif

# a folder is newer than the library if a file in it came or went
$(library): crates.txt $(shell find crates -name out -prune -o -print)
	@bash tools/prove.sh

tool: $(library)
	@bash tools/build.sh
	@echo 'target/bin/zaq is built'

# what is installed must be what is proved, but installing proves nothing
install:
	@{ $(MAKE) --no-print-directory -q $(library) && bash tools/build.sh --is-new; } || \
	    { echo 'The library or the tool is not built, or something that it is made of is newer: run make lib tool first' >&2; exit 1; }
	@bash tools/install.sh

uninstall:
	@bash tools/install.sh --remove

test:
	bash .ci/run

bench:
	bash bench/run.sh

pictures: $(library)
	bash tools/pictures.sh

check-long:
	bash tests/long/run.sh

check-arm:
	bash tests/arm/run.sh

clean:
	rm -rf target
