// The commands. Each is given a register's name and its words, and gives a status, or MISUSED where the words are wrong.
#include "desk.h"
#include <stdio.h>
#include <string.h>

static uint8_t interchange[DRUMCALLISTO_INTERCHANGE_LENGTH + 1];
static struct store store = {.held = -1};

int wrong(const char *what, const char *then) {
    fprintf(stderr, "desk: wrong usage: %s%s\n", what, then);
    return USAGE;
}

// What a change came to: a refusal writes nothing, and the answer comes when the new register stands.
static int settled(drumcallisto_reply reply, const struct text *given) {
    int status = reply.number ? refuse(reply, given, &store) : replace_store(&store);
    if (!status)
        printf("done\t%zu\n", reply.value);
    return status;
}

// A decimal number; one that is too great becomes one that no account, quota or place has.
bool read_number(const char *word, uint32_t *to) {
    *to = 0;
    for (const char *p = word; *p >= '0' && *p <= '9'; p++)
        *to = *to < 100000000 ? *to * 10 + (uint32_t)(*p - '0') : 1000000000;
    return *word && strspn(word, "0123456789") == strlen(word);
}

bool says(const char *word, const char *option) { return word && !strcmp(word, option); }

// Three numbers as yyyy-mm-dd, whether they make a date or not.
static bool read_date(const char *word, drumcallisto_date *to) {
    bool good = strlen(word) == 10 && strspn(word, "0123456789-") == 10 && word[4] == '-' && word[7] == '-';
    return good && sscanf(word, "%4u-%2u-%2u", &to->year, &to->month, &to->day) == 3;
}

// What is there stays, unless --anew is said.
static int open_command(const char *name, int count, char **words) {
    drumcallisto_date first;
    uint32_t quotas[DRUMCALLISTO_ACCOUNTS];
    bool anew = says(words[1], "--anew");
    words += anew;
    bool good = count - anew == 2 + DRUMCALLISTO_ACCOUNTS && read_date(words[1], &first);
    for (int i = 0; good && i < DRUMCALLISTO_ACCOUNTS; i++)
        good = read_number(words[2 + i], &quotas[i]);
    int status = good ? take_store(&store, name, MAKE) : MISUSED;
    if (!status && store.there && !anew)
        status = wrong(name, " is there already; only open --anew replaces it");
    store.length = DRUMCALLISTO_REGISTER_LENGTH;
    return status ? status : settled(drumcallisto_open(store.bytes, store.length, first, quotas), NULL);
}

// stage, release, withdraw: under the lock. A file is read before, so that a slow one keeps nobody waiting.
static int change_command(const char *name, int count, char **words) {
    bool stage = !strcmp(words[0], "stage"), release = !strcmp(words[0], "release"), every_day = stage && says(words[1], "--every-day");
    words += every_day;
    count -= every_day;
    struct text given = {words[count - 1], stage ? interchange : (const uint8_t *)words[count - 1], strlen(words[count - 1])};
    uint32_t account;
    if (count != (release ? 2 : 3) || !read_number(words[1], &account))
        return MISUSED;
    if ((stage && read_file(given.name, interchange, sizeof interchange, &given.length)) || take_store(&store, name, CHANGE))
        return FAILED;
    if (release)
        return settled(drumcallisto_release(store.bytes, store.length, account), NULL);
    if (stage)
        return settled(drumcallisto_stage(store.bytes, store.length, account, given.bytes, given.length, every_day), &given);
    return settled(drumcallisto_withdraw(store.bytes, store.length, account, given.bytes, given.length), NULL);
}

// Looking needs no lock: a register's file is whole at any time. Where every record is wanted, their end is no refusal.
static int show_command(const char *name, int count, char **words) {
    char lines[DRUMCALLISTO_RECORD_LENGTH + 1];
    uint32_t account, k = 0;
    bool months = !strcmp(words[count - 1], "--months"), one = (count -= months) == 3;
    if ((count != 2 && !one) || !read_number(words[1], &account) || (one && !read_number(words[2], &k)))
        return MISUSED;
    if (take_store(&store, name, LOOK))
        return FAILED;
    do {
        drumcallisto_reply reply = drumcallisto_show(store.bytes, store.length, account, k++, (uint8_t *)lines, sizeof lines - 1);
        if (reply.number)
            return reply.number == DRUMCALLISTO_NOTHING_THERE && !one ? DONE : refuse(reply, NULL, &store);
        lines[reply.value] = 0;
        if (months)
            print_months(&store, lines);
        else
            fputs(lines, stdout);
    } while (!one);
    return DONE;
}

// Whether the file is a register; the value is how many records it has.
static int check_command(const char *name, int count, char **words) {
    (void)words;
    uint8_t lines[DRUMCALLISTO_RECORD_LENGTH];
    size_t records = 0;
    if (count != 1 || take_store(&store, name, LOOK))
        return count != 1 ? MISUSED : FAILED;
    if (!drumcallisto_is_register(store.bytes, store.length))
        return refuse((drumcallisto_reply){DRUMCALLISTO_NOT_A_REGISTER, 0, 0, 0}, NULL, &store);
    for (size_t account = 1, k = 0; account <= DRUMCALLISTO_ACCOUNTS; account++, k = 0)
        while (!drumcallisto_show(store.bytes, store.length, account, k++, lines, sizeof lines).number)
            records++;
    printf("done\t%zu\n", records);
    return DONE;
}

int perform(const char *name, int count, char **words) {
    static const struct {
        const char *name, *takes;
        int (*command)(const char *name, int count, char **words);
    } all[] = {
        {"open", "open [--anew] yyyy-mm-dd Q1 Q2 Q3 Q4 Q5 Q6 Q7 Q8", open_command}, {"stage", "stage [--every-day] ACCOUNT FILE", change_command},
        {"release", "release ACCOUNT", change_command}, {"withdraw", "withdraw ACCOUNT NUMBER", change_command},
        {"show", "show ACCOUNT [K] [--months]", show_command}, {"check", "check", check_command}};
    for (size_t i = 0; i < sizeof all / sizeof all[0]; i++) {
        if (strcmp(words[0], all[i].name))
            continue;
        int status = all[i].command(name, count, words);
        leave_store(&store);
        return status == MISUSED ? wrong("it is desk REGISTER ", all[i].takes) : status;
    }
    return wrong(words[0], " is no command");
}
