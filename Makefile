# Everything goes through the Rattle kit's command `rt`, which proves, builds and runs the crates.

.PHONY: run test gate lib c-example bench table reference kit clean

CFLAGS = -std=c99 -O2 -Wall -Wextra -pedantic -Ibuild

# Proves the demo and all below it, builds it, and runs it in the folder of its bay map. `rt run` itself runs it where no bay map
# is, so that its status says nothing here.
run: kit
	@mkdir -p build
	@rm -f crates/demo/out/demo
	@cd crates/demo && rt run > ../../build/demo.log 2>&1; test -x out/demo || { cat ../../build/demo.log; exit 1; }
	@cd crates/demo/data && ../out/demo

# The whole gate: `rt ci`, in which no edit may be bad, then the table for a second maker and the examples in C. Its last line is
# that of `rt ci`.
test: gate
	@$(MAKE) --no-print-directory table c-example
	@tail -n 1 build/ci.log

gate: kit
	@mkdir -p build
	@{ rt ci 2>&1; echo $$? > build/ci.status; } | tee build/ci.log
	@test "$$(cat build/ci.status)" = 0
	@! grep -E '^rt: ok.*, [1-9][0-9]* bad' build/ci.log

# The library for C, proved: build/librunnelpan.a and its header.
lib: kit
	@mkdir -p build
	@cd crates/capi_c && rt lib > ../../build/lib.log 2>&1 || { cat ../../build/lib.log; exit 1; }
	@cp crates/capi_c/out/libcapi_c.a build/librunnelpan.a
	@cp include/runnelpan.h build/runnelpan.h

# Builds each example in C with gcc alone, runs it, and compares what it writes.
c-example: example-site example-seal example-slices

example-%: lib
	@gcc $(CFLAGS) -o build/$* examples/c/$*.c build/librunnelpan.a
	@build/$* > build/$*.out; status=$$?; cat build/$*.out; exit $$status
	@diff examples/c/$*.txt build/$*.out

# The speed of sealing against OpenSSL's AES, and of slices against zfec, Jerasure and ISA-L, each where its package is
# installed. OPENSSL_ia32cap keeps OpenSSL from the processor's AES instructions. zfec's module asks for names of Python's,
# which nothing that is called uses: build/python.c has them.
bench: has = $(shell echo '\#include <$(1)>' | gcc -isystem /usr/include/jerasure -E - > /dev/null 2>&1 && echo '$(2)')
bench: OPENSSL = $(call has,openssl/evp.h,-DWITH_OPENSSL -lcrypto)
bench: JERASURE = $(call has,jerasure.h,-DWITH_JERASURE -isystem /usr/include/jerasure -lJerasure -lgf_complete)
bench: ISAL = $(call has,isa-l/erasure_code.h,-DWITH_ISAL -lisal)
bench: ZFEC = $(firstword $(wildcard /usr/lib/python3/dist-packages/zfec/_fec*.so))
bench: lib
	@cd crates/benchcalls && rt lib > ../../build/benchcalls.log 2>&1 || { cat ../../build/benchcalls.log; exit 1; }
	@echo 'typedef char object[64];' > build/python.c
	@nm -Du $(ZFEC) /dev/null 2> /dev/null | awk '$$2 ~ /^_?Py/ { print "object " $$2 ";" }' >> build/python.c
	@gcc $(CFLAGS) -o build/bench bench/bench.c build/librunnelpan.a $(OPENSSL)
	@gcc $(CFLAGS) -rdynamic $(ZFEC:%=-DZFEC='"%"') -o build/slices bench/slices.c build/python.c \
	    crates/benchcalls/out/libbenchcalls.a build/librunnelpan.a $(JERASURE) $(ISAL) -ldl
	@OPENSSL_ia32cap="~0x200000200000000:~0x0" build/bench; sealing=$$?; build/slices; slices=$$?; \
	    test $$sealing = 0 && test $$slices = 0

# That the table is what `rt ci` compares with the program's output.
table:
	@cmp docs/vectors/records.txt crates/conformance/stdout

# The table made a second time, in Python and by the rules of docs/FORMATS.md; needs its package cryptography.
reference: table
	@mkdir -p build
	@python3 tools/reference.py table > build/records.txt
	@diff docs/vectors/records.txt build/records.txt

kit:
	@command -v rt > /dev/null 2>&1 || { echo "make: the Rattle kit is not here: no command rt on the PATH" >&2; exit 1; }

clean:
	rm -rf build crates/*/out
