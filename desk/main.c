// desk: the words on the command line, and a run of commands from standard input.
#include "desk.h"
#include <fcntl.h>
#include <signal.h>
#include <stdio.h>
#include <stdlib.h>
#include <string.h>

static const char help[] =
    "desk REGISTER open [--anew] yyyy-mm-dd Q1 .. Q8   a register: its window's first date, a quota for each account\n"
    "desk REGISTER stage [--every-day] ACCOUNT FILE    the services of a file become pending, all or none\n"
    "desk REGISTER release ACCOUNT                     what is pending becomes live\n"
    "desk REGISTER withdraw ACCOUNT NUMBER             what is pending under a service number is dropped\n"
    "desk REGISTER show ACCOUNT [K] [--months]         record K, from 0, or all: as lines, or as months\n"
    "desk REGISTER check                               whether it is a register, and how many records it has\n"
    "desk REGISTER run                                 commands from standard input, one a line, without `desk REGISTER`\n"
    "desk read [--every-day] FILE                      the segments of a file: offset, group, tag\n"
    "desk --help [NUMBER], desk --version              this, or what a refusal's number means\n"
    "FILE may be -, standard input. read - prints each segment as it arrives, of at most 4,096 bytes.\n"
    "--every-day: a POP with neither a day string nor weekdays means every day, as the ferry account's files need; else it is refused.\n"
    "Answers are done and a value, or refused, a number, a position and, beside 10, which part of the POP is wrong, else 0.\n"
    "Status: 0 done, 1 refused, 2 wrong usage, 3 the system failed. More: man desk\n";

static int print_help(const char *word) {
    uint32_t number;
    if (word && (!read_number(word, &number) || !meaning_of(number)))
        return wrong("the numbers are 0 to 21", "");
    return printf("%s%s", word ? meaning_of(number) : help, word ? "\n" : "") < 0 ? FAILED : DONE;
}

// Parts a line at spaces and tabs, in place; a backslash makes the next character plain. No command has as many words as this.
enum { MOST_WORDS = 16 };
static int split(char *from, char **words) {
    int count = 0;
    while (*(from += strspn(from, " \t\r\n")) && count < MOST_WORDS) {
        char *to = words[count++] = from;
        for (; *from && !strchr(" \t\r\n", *from); *to++ = *from++)
            from += *from == '\\' && from[1];
        from += *from != 0;
        *to = 0;
    }
    words[count] = NULL;
    return count;
}

// Every command is answered, by `failed` and the status where there is nothing else to answer. The worst status is that of the run.
static int run(const char *name) {
    char *line = NULL, *words[MOST_WORDS + 1];
    size_t room = 0;
    int worst = DONE;
    for (ssize_t n; !ferror(stdout) && (n = getline(&line, &room, stdin)) >= 0;) {
        bool text = strlen(line) == (size_t)n;
        int count = split(line, words);
        if (text && (!count || *words[0] == '#'))
            continue;
        bool good = text && (strcmp(words[0], "stage") || strcmp(words[count - 1], "-"));
        int status = good ? perform(name, count, words) : wrong("standard input is a run of commands, and no file", "");
        if (status > REFUSED)
            printf("failed\t%d\n", status);
        fflush(stdout);
        worst = status > worst ? status : worst;
    }
    free(line);
    return ferror(stdin) ? failed("standard input", "; the commands before are answered") : worst;
}

static int command_line(int count, char **words) {
    if ((count == 2 || count == 3) && !strcmp(words[1], "--help"))
        return print_help(words[2]);
    if (count == 2 && !strcmp(words[1], "--version"))
        return fputs("desk 1.0 (Drumcallisto)\n", stdout) < 0 ? FAILED : DONE;
    if (count > 2 && !strcmp(words[1], "read") && count == 3 + says(words[2], "--every-day"))
        return read_command(words[count - 1], count == 4);
    if (count == 3 && !strcmp(words[2], "run"))
        return run(words[1]);
    return count < 3 || !strcmp(words[1], "read") ? wrong("desk --help says what it takes", "") : perform(words[1], count - 2, words + 2);
}

// A full disk and a reader that has gone are answers of write, not the end. No file takes the number of a standard file that is closed.
int main(int count, char **words) {
    for (int fd = 0; fd >= 0 && fd <= 2;)
        fd = open("/dev/null", O_RDONLY | O_CLOEXEC);
    signal(SIGXFSZ, SIG_IGN);
    signal(SIGPIPE, SIG_IGN);
    setvbuf(stderr, NULL, _IOLBF, 8192); // the words of two programs do not mix
    int status = command_line(count, words);
    return fflush(stdout) || ferror(stdout) ? failed("standard output", "; what was changed stands") : status;
}
