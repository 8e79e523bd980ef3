/* How much stack the calls of the library take, by painting it. */
#ifndef STACK_H
#define STACK_H

#include <stdbool.h>
#include <stddef.h>

/* The most bytes that a start took, to its last call, and that an event took. */
struct stacks {
    size_t start;
    size_t event;
};

/* Plays lives on images of both formats: starts on empty logs and on full ones, each command,
 * control request and step. False where a start did not find what it was to find. */
bool measure_stacks(struct stacks *most);

#endif
