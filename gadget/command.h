/* Reads a command line, for all three programs. */
#ifndef COMMAND_H
#define COMMAND_H

#include <getopt.h>
#include <stdbool.h>

enum { GO_ON = -1 };

/* The words that a program knows. */
struct command {
    const char *usage, *more;   /* what --help prints, and what it prints behind that, or NULL */
    const char *letters;        /* "-:", and the letters of words with one dash */
    const struct option *known; /* the others, all with the number 0, and one without a name at the
                                   end; --help and --version are known too */
    /* Takes a word of `known`, and its value, which is NULL where it has none. False: the value
     * does not fit. */
    bool (*take)(void *to, const char *word, const char *value);
};

/* Reads the words of `main`: those that `command` knows, and one IMAGE. Prints the usage or the
 * version where it is asked for, and says which word is wrong. Answers GO_ON, or the exit status
 * with which the program ends now. */
int read_command(const struct command *command, char **words, void *to, const char **image);

/* Says what is wrong with this word. Answers STATUS_USAGE. */
int refuse_word(const char *word, const char *cause);

#endif
