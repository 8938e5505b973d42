# make install PREFIX=/usr/local: the proved program with the door, the tools in Python, the manual page, completion for
# bash and highlighting for vim. DESTDIR goes in front of all paths. What is installed needs neither sources nor the kit.
PREFIX = /usr/local
DESTDIR =
export PREFIX DESTDIR

all:
	@echo 'make build: prove and build the program'
	@echo 'make install PREFIX=..: install it; make uninstall PREFIX=..: remove what was installed'
	@echo 'make check: the gate: all proofs, and all tests of what is not proved'

build:
	./ntbsim --build

check:
	.ci/run

install:
	@tools/install

uninstall:
	@tools/install --remove

.PHONY: all build check install uninstall
