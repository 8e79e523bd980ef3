/* What usbdisk.h wants of a compiler's own headers, for the toolchain's clang, which has none. */
typedef __SIZE_TYPE__ size_t;
#define offsetof(type, part) __builtin_offsetof(type, part)
