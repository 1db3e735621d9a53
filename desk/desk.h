// The desk program: commands over a register file (docs/GUIDE.md). What its files share.
#ifndef DESK_H
#define DESK_H

#include "drumcallisto.h"
#include <sys/stat.h>

// Exit statuses; the worst of several is the greatest. MISUSED is a wrong usage that is still to be told.
enum { MISUSED = -1, DONE, REFUSED, USAGE, FAILED };

// file.c. A register's file: its path, the names beside it, the lock while it is held (else -1), whether there is a file, what it is,
// and its bytes; of a file that is too long, one byte too many. Each function gives a status and has said what failed.
enum { LONGEST_PATH = 4096 };
enum purpose { LOOK, CHANGE, MAKE }; // to make a register, there need be none
struct store {
    char path[LONGEST_PATH], beside[LONGEST_PATH + 8], lock[LONGEST_PATH + 8];
    int held;
    bool there;
    struct stat stat;
    uint8_t bytes[DRUMCALLISTO_REGISTER_LENGTH + 1];
    size_t length;
};
int take_store(struct store *f, const char *name, enum purpose purpose);
int replace_store(const struct store *f);
void leave_store(struct store *f);
int read_file(const char *name, uint8_t *to, size_t most, size_t *length); // `-` is standard input
int failed(const char *name, const char *then);                            // says why, by errno

// words.c. What a number means, NULL where there is none; a refusal answered, with the part of a POP that is wrong, with the text and the register that it is about.
struct text {
    const char *name;
    const uint8_t *bytes;
    size_t length;
};
const char *meaning_of(unsigned number);
int refuse(drumcallisto_reply reply, const struct text *text, const struct store *f);

// months.c. A day of the register's window; a record's lines as months.
drumcallisto_date date_of(const struct store *f, unsigned k);
void print_months(const struct store *f, const char *lines);

// reading.c. The segments of a file, or of standard input as it arrives; whether a POP that gives no days means every day.
int read_command(const char *name, bool every_day);

// commands.c. A command over a register, by its words.
bool read_number(const char *word, uint32_t *to);
int perform(const char *name, int count, char **words);
bool says(const char *word, const char *option); // whether there is a word, and it is this option
int wrong(const char *what, const char *then); // says so, and gives USAGE

#endif
