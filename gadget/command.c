/* Reads a command line by getopt_long, which says nothing itself: its messages do not tell where
 * help is. */
#include "command.h"
#include "disk.h"
#include "program.h"
#include <stdio.h>
#include <string.h>

/* What getopt_long answers: 0 for a word of the program's own, PLAIN for one without a dash, all in
 * their order. MOST: how many words a program knows at most, with these two. */
enum { PLAIN = 1, HELP = 256, VERSION_ASKED, MOST = 32 };

int refuse_word(const char *word, const char *cause)
{
    say("%s: %s; %s --help tells the words", word, cause, program_name());
    return STATUS_USAGE;
}

static int refuse_value(const char *word, const char *value)
{
    char both[512];
    snprintf(both, sizeof both, "%s %s", word, value ? value : "");
    return refuse_word(both, "the value does not fit");
}

/* The word that getopt_long did not take: a letter behind one dash, or the word before the next. */
static int refuse_last(char **words, const char *cause)
{
    char letter[] = { '-', (char)optopt, 0 };
    return refuse_word(optopt > 0 && optopt < HELP ? letter : words[optind - 1], cause);
}

static int tell(const struct command *command, int asked)
{
    if (asked == HELP)
        printf("%s%s", command->usage, command->more ? command->more : "");
    else
        printf("%s " VERSION "\n", program_name());
    return fflush(stdout) ? STATUS_FILE : 0;
}

/* A command line that is read. */
struct line {
    const struct command *command;
    char **words;
    void *to;
    const char **image;
};

static int take_image(const struct line *line, const char *word)
{
    if (*line->image)
        return refuse_word(word, "a second IMAGE");
    *line->image = word;
    return GO_ON;
}

/* A word of the program's own, by its name or its letter. */
static int take_word(const struct line *line, const char *name, int letter)
{
    char word[64];
    if (letter)
        snprintf(word, sizeof word, "-%c", letter);
    else
        snprintf(word, sizeof word, "--%s", name);
    return line->command->take(line->to, word, optarg) ? GO_ON : refuse_value(word, optarg);
}

/* One answer of getopt_long. */
static int take_answer(const struct line *line, int answer, const char *name)
{
    switch (answer) {
    case HELP:
    case VERSION_ASKED:
        return tell(line->command, answer);
    case PLAIN:
        return take_image(line, optarg);
    case ':':
        return refuse_last(line->words, "its value is left out");
    case '?':
        return refuse_last(line->words, "no such word");
    default:
        return take_word(line, name, answer);
    }
}

/* The words of the program's own behind these two. */
static void join(struct option all[MOST], const struct option *known)
{
    all[0] = (struct option){ "help", no_argument, NULL, HELP };
    all[1] = (struct option){ "version", no_argument, NULL, VERSION_ASKED };
    for (int i = 0; known[i].name && i < MOST - 3; i++)
        all[i + 2] = known[i];
}

int read_command(const struct command *command, char **words, void *to, const char **image)
{
    const struct line line = { command, words, to, image };
    struct option all[MOST] = { 0 };
    int count = 0, ended = GO_ON, index = 0, answer = 0;
    join(all, command->known);
    while (words[count])
        count++;
    opterr = 0;
    while (ended == GO_ON && answer != -1) {
        answer = getopt_long(count, words, command->letters, all, &index);
        if (answer != -1)
            ended = take_answer(&line, answer, all[index].name);
    }
    while (ended == GO_ON && words[optind])
        ended = take_image(&line, words[optind++]);
    return ended == GO_ON && !*image ? refuse_word("IMAGE", "is left out") : ended;
}
