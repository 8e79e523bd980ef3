/* What usbdisk.h wants of a compiler's own headers, for the toolchain's clang, which has none. */
#define bool _Bool
#define true 1
#define false 0
