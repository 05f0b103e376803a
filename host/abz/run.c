/*
 * Many requests in one call: each line of a host file becomes a record, the service makes them, up to 64 in a call, and
 * the pack is written back only when it made all of them.
 */
#include "commands.h"

#include "abezolit.h"
#include "hostfile.h"
#include "modes.h"
#include "names.h"
#include "packfile.h"
#include "show.h"
#include "tell.h"

#include <stdio.h>
#include <string.h>

enum { TEXT_MOST = 65536, REQUESTS_MOST = 4096, WORDS_MOST = 4 };

/* A request of the host file: the line it stands in, counted from 1, and its word, for who is told of a refusal. */
typedef struct {
    size_t line;
    const char *word;
} asked;

static pack_file pack;
static char text[TEXT_MOST + 1];
static asked requests[REQUESTS_MOST];
static uint8_t records[REQUESTS_MOST * ABZ_RECORD_BYTES], answers[sizeof records];

/* ---- Records, laid out as abezolit.h tells; each function puts what stands behind the caller ---- */

static void put_word(uint8_t *record, size_t word, size_t value)
{
    record[2 * word] = (uint8_t)(value % 256);
    record[2 * word + 1] = (uint8_t)(value / 256);
}

static bool put_file(uint8_t *record, size_t word, const char *name)
{
    file_name file;

    if (!read_name(name, &file))
        return false;
    put_word(record, word, file.name1);
    put_word(record, word + 1, file.name2);
    put_word(record, word + 2, file.extension);
    put_word(record, word + 3, file.uic);
    return true;
}

static bool put_protect(uint8_t *record, size_t word, const char *code)
{
    size_t protect = PROTECT_USUAL;

    if (!read_protect(code, &protect))
        return false;
    put_word(record, word, protect);
    return true;
}

static bool put_alloc(char **words, uint8_t *record)
{
    size_t segments;

    if (!put_file(record, 2, words[0]) || !read_decimal("SEGMENTS", words[1], 1, 65535, &segments)
        || !put_protect(record, 6, words[2]))
        return false;
    put_word(record, 0, ABZ_LIST_ALLOC);
    put_word(record, 7, segments);
    return true;
}

static bool put_delete(char **words, uint8_t *record)
{
    put_word(record, 0, ABZ_LIST_DELET);
    return put_file(record, 2, words[0]);
}

static bool put_rename(char **words, uint8_t *record)
{
    file_name new;

    if (!put_file(record, 2, words[0]) || !read_new_name(words[1], &new) || !put_protect(record, 9, words[2]))
        return false;
    put_word(record, 0, ABZ_LIST_RENAM);
    put_word(record, 6, new.name1);
    put_word(record, 7, new.name2);
    put_word(record, 8, new.extension);
    return true;
}

static bool put_append(char **words, uint8_t *record)
{
    put_word(record, 0, ABZ_LIST_APPND);
    return put_file(record, 2, words[0]) && put_file(record, 6, words[1]);
}

static bool put_keep(char **words, uint8_t *record)
{
    put_word(record, 0, ABZ_LIST_KEEP);
    return put_file(record, 2, words[0]);
}

static bool put_open(char **words, uint8_t *record)
{
    static const size_t opens[] = { [ABZ_UPDATE] = ABZ_LIST_OPENU, [ABZ_OUTPUT] = ABZ_LIST_OPENO,
                                    [ABZ_EXTEND] = ABZ_LIST_OPENE, [ABZ_INPUT] = ABZ_LIST_OPENI };
    size_t mode;

    if (!put_file(record, 2, words[0]) || !read_mode(words[1], &mode))
        return false;
    if (words[2] && mode != ABZ_OUTPUT) {
        complain("PROTECT: '%s': only a file that is opened for output gets one, since it is made", words[2]);
        return false;
    }
    put_word(record, 0, opens[mode]);
    return put_protect(record, 6, words[2]);
}

static bool put_close(char **words, uint8_t *record)
{
    size_t mode;

    if (!put_file(record, 2, words[0]) || !read_mode(words[1], &mode))
        return false;
    put_word(record, 0, ABZ_LIST_CLOSE);
    put_word(record, 6, mode);
    return true;
}

/* ---- Lines ---- */

static const struct {
    const char *word, *takes;
    size_t least, most; /* how many words behind it */
    bool (*put)(char **words, uint8_t *record);
} kinds[] = {
    { "alloc", "FILE SEGMENTS [PROTECT]", 2, 3, put_alloc },
    { "delete", "FILE", 1, 1, put_delete },
    { "rename", "OLD NEW PROTECT", 3, 3, put_rename },
    { "append", "FIRST SECOND", 2, 2, put_append },
    { "keep", "FILE", 1, 1, put_keep },
    { "open", "FILE MODE [PROTECT]", 2, 3, put_open },
    { "close", "FILE MODE", 2, 2, put_close },
};

/* Takes a line apart at its blanks, and returns how many words it has; of those that are too many only one is kept. */
static size_t take_words(char *line, char *words[WORDS_MOST + 2])
{
    size_t count = 0;

    memset(words, 0, (WORDS_MOST + 2) * sizeof *words);
    for (char *word = strtok(line, " \t\r"); word && count <= WORDS_MOST; word = strtok(NULL, " \t\r"))
        words[count++] = word;
    return count;
}

/* Makes a record of the words of a line. */
static bool put_request(char **words, size_t count, size_t caller, uint8_t *record)
{
    memset(record, 0, ABZ_RECORD_BYTES);
    put_word(record, 1, caller);
    for (size_t i = 0; i < sizeof kinds / sizeof *kinds; i++)
        if (strcmp(words[0], kinds[i].word) == 0) {
            if (count - 1 >= kinds[i].least && count - 1 <= kinds[i].most)
                return kinds[i].put(words + 1, record);
            complain("%s takes %s", kinds[i].word, kinds[i].takes);
            return false;
        }
    complain("'%s' is no request", words[0]);
    return false;
}

/* Makes records of all lines but such as are empty or begin with #. False where a line is wrong, which is then told. */
static bool read_requests(const char *host, size_t caller, size_t *number)
{
    char *words[WORDS_MOST + 2], *line = text, *end;
    size_t count;

    *number = 0;
    for (size_t place = 1; line; line = end, place++) {
        end = strchr(line, '\n');
        if (end)
            *end++ = '\0';
        count = take_words(line, words);
        if (count == 0 || words[0][0] == '#')
            continue;
        if (*number == REQUESTS_MOST) {
            complain("%s: there are more than %d requests", host, REQUESTS_MOST);
            return false;
        }
        if (!put_request(words, count, caller, records + ABZ_RECORD_BYTES * *number)) {
            complain("%s: line %zu is wrong", host, place);
            return false;
        }
        requests[*number].line = place;
        requests[(*number)++].word = words[0];
    }
    return true;
}

static bool read_text(const char *host)
{
    size_t length;

    if (!host_read(host, (uint8_t *)text, sizeof text, &length))
        return false;
    if (length > TEXT_MOST)
        complain("%s: has more than %d bytes", host, TEXT_MOST);
    else if (memchr(text, '\0', length))
        complain("%s: has a NUL, so it is no text", host);
    else
        text[length] = '\0';
    return length <= TEXT_MOST && strlen(text) == length;
}

/* ---- The call ---- */

/* How many of the requests were made, from the first on; all of them, unless one was refused. */
static size_t make(size_t number)
{
    for (size_t at = 0; at < number; at += ABZ_RECORDS_MOST) {
        const size_t count = number - at < ABZ_RECORDS_MOST ? number - at : ABZ_RECORDS_MOST;
        const size_t first = ABZ_RECORD_BYTES * at, size = ABZ_RECORD_BYTES * count;
        abz_many(pack.image, pack.length, records + first, size, answers + first, size);
        for (size_t i = at; i < at + count; i++)
            if (word_at(answers + ABZ_RECORD_BYTES * i) != ABZ_OK)
                return i;
    }
    return number;
}

static void show_made(size_t number)
{
    for (size_t i = 0; i < number; i++)
        if (word_at(records + ABZ_RECORD_BYTES * i) == ABZ_LIST_ALLOC) {
            printf("line %zu: first block ", requests[i].line);
            show_count(word_at(answers + ABZ_RECORD_BYTES * i + 2));
            putchar('\n');
        }
    printf("requests ");
    show_count(number);
    putchar('\n');
}

int command_run(char **arguments)
{
    size_t caller, number, made;
    char line[32];

    if (!read_uic(arguments[1], &caller) || !read_path("HOSTFILE", arguments[2]))
        return STATUS_USAGE;
    if (!read_text(arguments[2]) || !read_requests(arguments[2], caller, &number) || !pack_take(&pack, arguments[0]))
        return STATUS_FAILED;
    made = make(number);
    if (made < number) {
        snprintf(line, sizeof line, "line %zu", requests[made].line);
        return tell_refusal_of(requests[made].word, line, word_at(answers + ABZ_RECORD_BYTES * made));
    }
    show_made(number);
    if (!show_end()) /* before the pack is written: where abz fails, the pack is to be as it was */
        return STATUS_FAILED;
    return pack_write(&pack) ? STATUS_DONE : STATUS_FAILED;
}
