# make test    everything: set-up, documents, layout, every proof, every must-fail edit, every program
# make run     runs a list of writes: examples/writes.txt, or SCRIPT=file
# make lib     proves the C interface and makes the folder target/segrunov: libsegrunov.a beside segrunov.h
#              TARGET=triple: for another processor, target/segrunov-TRIPLE (FLAGS=.. for its compiler, CLANG=.. for another one): docs/PROCESSORS.md
# make install library, header and segrunov.pc below PREFIX (/usr/local, with TARGET /usr/local/TRIPLE); DESTDIR=folder goes before it, where a
#              package is staged
# make clients TARGET=triple: runs the clients of the C interface on that processor, in qemu
# make setup   the Debian packages that the tests need
# make figures lines of code, definitions and proof by crate
# make measure stack and time of each call of the C interface; TARGET=triple: on that processor, in qemu
# make puts    how many images a block takes between erases, by its pages
# make bench   the library's time beside other programs: docs/PERFORMANCE.md (ARCHIVE=file for another archive of the C interface)
# make soak    the comparison ten times longer, with a new seed (or SEED=n, FACTOR=n or 1/n); TARGET=triple: on that processor in qemu, once

.PHONY: test run lib install clients setup figures measure puts bench soak clean always

# All that `make run` and `make lib` need. The kit is given on the machine and is no package. The hint names a heading of README.md (see tests/gate).
HAVE_RT = command -v rt > /dev/null || { echo "make: the command rt of the Rattle kit is not on the PATH: see README.md, 'The kit'" >&2; exit 1; }

test: setup
	@bash tests/gate

# The program is proved and built before it is run, once without input; what the prover says is shown where it fails.
SCRIPT = examples/writes.txt
run:
	@$(HAVE_RT)
	@mkdir -p target
	@(cd crates/run && rt run < /dev/null) > target/run.log 2>&1 || { cat target/run.log; exit 1; }
	@crates/run/out/run < $(SCRIPT)

OWN = target/segrunov
LIB = $(OWN)$(if $(TARGET),-$(TARGET))
lib: $(LIB)/libsegrunov.a $(LIB)/segrunov.h
	@echo "lib: $(LIB) has libsegrunov.a and segrunov.h"

# The archive is of crate firmware_c, for the processor that every x86-64 serves. Folders are listed too, since a file that is gone is a change;
# what rt keeps in out/ is none. With CHECKED=yes the libraries below are those that rt ci left in this checkout right before, as in tests/gate:
# rt lib would prove each of them once more.
$(OWN)/libsegrunov.a: crates.txt KIT $(shell find crates -name out -prune -o -print)
	@$(HAVE_RT)
	@mkdir -p target
ifdef CHECKED
	@cross/build $@ > target/lib.log 2>&1 || { cat target/lib.log; exit 1; }
else
	@(cd crates/firmware_c && rt lib --cpu x86-64) > target/lib.log 2>&1 || { cat target/lib.log; exit 1; }
	@install -D -m 644 crates/firmware_c/out/libfirmware_c.a $@
endif

$(LIB)/segrunov.h: include/segrunov.h
	@install -D -m 644 $< $@

# For another processor: made again where the archive for x86-64 is another one, or the compiler or its flags are others than the last time.
ifdef TARGET
$(LIB)/libsegrunov.a: $(OWN)/libsegrunov.a target/cross/$(TARGET).flags cross/lib cross/build cross/high_first cross/compile
	@$(HAVE_RT)
	@CLANG="$(CLANG)" cross/lib $(TARGET) $(FLAGS)

target/cross/$(TARGET).flags: always
	@mkdir -p $(@D)
	@echo "$(CLANG) $(FLAGS)" | cmp -s - $@ || echo "$(CLANG) $(FLAGS)" > $@
endif

# The version stands in the header and nowhere else.
PREFIX = /usr/local$(if $(TARGET),/$(TARGET))
VERSION = $(shell sed -n 's/^.define SEGRUNOV_VERSION "\(.*\)"$$/\1/p' include/segrunov.h)
install: lib
	@case "$(PREFIX)" in /*) ;; *) echo "make: PREFIX has to be an absolute path: it stands in segrunov.pc" >&2; exit 1 ;; esac
	@install -D -m 644 $(LIB)/libsegrunov.a "$(DESTDIR)$(PREFIX)/lib/libsegrunov.a"
	@install -D -m 644 $(LIB)/segrunov.h "$(DESTDIR)$(PREFIX)/include/segrunov.h"
	@sed 's|@PREFIX@|$(PREFIX)|; s|@VERSION@|$(VERSION)|' segrunov.pc.in | install -D -m 644 /dev/stdin "$(DESTDIR)$(PREFIX)/lib/pkgconfig/segrunov.pc"
	@echo "install: $(DESTDIR)$(PREFIX) has lib/libsegrunov.a, include/segrunov.h and lib/pkgconfig/segrunov.pc"

# The clients of the C interface on another processor, in qemu, with the packages that this needs.
clients:
	@$(HAVE_RT)
	@[ -n "$(TARGET)" ] || { echo "make: clients wants TARGET=triple: see docs/PROCESSORS.md" >&2; exit 1; }
	@bash tests/setup $(TARGET)
	@bash tests/clients $(TARGET)

setup:
	@$(HAVE_RT)
	@bash tests/setup tested

figures:
	@python3 tests/figures.py

# What stands before the name of a program that tests/build made.
THERE = $(if $(TARGET),tests/on $(TARGET) target/tests-$(TARGET),target/tests)

measure: lib
	@bash tests/setup $(TARGET)
	@tests/build measure $(TARGET)
	@$(THERE)/measure

puts: lib
	@bash tests/setup
	@tests/build puts
	@target/tests/puts

# It has a set-up of its own: the tests need neither its packages nor its programs.
bench:
	@bash bench/run

SEED = $(shell date +%s)
FACTOR = $(if $(TARGET),1,10)
soak: lib
	@bash tests/setup $(if $(TARGET),cpp $(TARGET))
	@tests/build compare $(TARGET)
	@$(THERE)/compare $(SEED) $(FACTOR)

clean:
	rm -rf target
