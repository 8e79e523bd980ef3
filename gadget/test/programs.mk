# Included by ../Makefile, and run in its folder. For tests, the same programs with calls of the system that stand before those of the C
# library: flushes are refused, or what was written is noted, so that it can be lost, or a call is refused once. And a host in memory
# around the bulk endpoints of usbdisk-gadget.
LOSSY = ../checks/hosts.d/lossy.c
BUILT += $(GADGETS:=.lossy) usbdisk-usbip.refusing usbdisk-usbip.sanitized.refusing usbdisk-gadget.refusing test/bulk_host

refusing: usbdisk-usbip.refusing usbdisk-usbip.sanitized.refusing

lossy: $(GADGETS:=.lossy)

usbdisk-usbip.refusing: test/refuse_flush.c $(USBIP) $(HEADERS) $(LIB)
	$(CC) $(FLAGS) $(CFLAGS) $(STATIC) -o $@ $< $(USBIP) $(LIB)

usbdisk-usbip.sanitized.refusing: test/refuse_flush.c $(USBIP) $(HEADERS) $(LIB)
	$(CC) $(FLAGS) -O1 -g $(SANITIZE) -o $@ $< $(USBIP) $(LIB)

usbdisk-usbip.lossy: $(LOSSY) $(USBIP) $(HEADERS) $(LIB)
	$(CC) $(FLAGS) $(CFLAGS) $(STATIC) -o $@ $< $(USBIP) $(LIB)

usbdisk-gadget.lossy: $(LOSSY) $(GADGET) $(HEADERS) $(LIB)
	$(CC) $(FLAGS) $(CFLAGS) $(STATIC) -o $@ $< $(GADGET) $(LIB)

REFUSED = -Wl,--wrap=syscall,--wrap=read,--wrap=write,--wrap=pwrite

usbdisk-gadget.refusing: test/refuse_calls.c $(GADGET) $(HEADERS) $(LIB)
	$(CC) $(FLAGS) $(CFLAGS) $(STATIC) $(REFUSED) -o $@ $< $(GADGET) $(LIB)

BULK = test/bulk_host.c test/bulk_controller.c functionfs_bulk.c $(SHARED)

test/bulk_host: $(BULK) test/bulk_host.h $(HEADERS) $(LIB)
	$(CC) $(FLAGS) -O1 -g $(SANITIZE) -o $@ $(BULK) $(LIB)

# Hosts that keep no rule, in one process with the server; and the same for libFuzzer, which is run by hand:
#   FUZZ_IMAGE=an.img test/fuzz.libfuzzer -max_len=4096 FOLDER
FUZZED = test/fuzz.c test/fuzz_host.c $(filter-out usbip.c usbip_address.c,$(USBIP))
BUILT += test/fuzz test/fuzz.libfuzzer

test/fuzz: $(FUZZED) test/fuzz_host.h $(HEADERS) $(LIB)
	$(CC) $(FLAGS) -O1 -g $(SANITIZE) -o $@ $(FUZZED) $(LIB)

test/fuzz.libfuzzer: $(FUZZED) test/fuzz_host.h $(HEADERS) $(LIB)
	clang $(FLAGS) -DLIBFUZZER -O1 -g -fsanitize=fuzzer,address,undefined -o $@ $(FUZZED) $(LIB)

.PHONY: refusing lossy
