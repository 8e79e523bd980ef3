"""Faults in the firmware of a machine, each of which has to be found: what it is, the file below examples/, the text that is changed, and what stands in its
place."""

NOT_FLUSHED = ("a flush is not handed on", "bare/block.c", "    return ask(FLUSH, 0, NULL, 0);\n", "    return true;\n")

AARCH64 = (
    (
        "a flush is told done before it is made",
        "bare/main.c",
        "        bool ok = make_call(&call);\n",
        "        static bool is_due;\n        bool ok = !is_due || block_flush();\n        is_due = call.kind == USBDISK_FLUSH;\n"
        "        ok = ok && (is_due || make_call(&call));\n",
    ),
    NOT_FLUSHED,
    ("a bus reset stops the disk and starts it", "bare/main.c", "        return reset();\n", "        usbdisk_stop(&disk);\n        start();\n        return reset();\n"),
    ("a run is written without its last sector", "bare/main.c", "block_write(call->sector, buffer, (size_t)call->count);", "block_write(call->sector, buffer, call->count > 1 ? (size_t)call->count - 1 : 1);"),
    ("SIMD is not enabled", "bare/start.S", "        msr     cpacr_el1, x0\n", ""),
)

CORTEX = (
    (
        "a flush leaves a sector in the cache",
        "cortex-m/flash.c",
        "    for (uint32_t i = 0; i < CACHED; i++)\n        if (cache[i].sector != UNUSED)\n            put(i);",
        "    for (uint32_t i = 1; i < CACHED; i++)\n        if (cache[i].sector != UNUSED)\n            put(i);",
    ),
    (
        "the place that no sector has is not looked for",
        "cortex-m/flash.c",
        "    for (uint32_t i = 0; i < SECTORS; i++)\n        spare -= FLASH->place[i];\n",
        "    for (uint32_t i = 0; i < SECTORS; i++)\n        spare -= i;\n",
    ),
    ("memory keeps what it held before a reset", "cortex-m/start.c", "        *at = 0;", "        ;"),
)

RISCV = (NOT_FLUSHED,)
