/*
 * The commands. Each gets its arguments, as many as main's table says that it takes; one that was left out is NULL.
 * Its options are asked for by name (options.h). Each returns the exit status, and has said what went wrong unless that
 * is STATUS_DONE.
 */
#ifndef COMMANDS_H
#define COMMANDS_H

typedef struct {
    const char *name;     /* a command; or with an option behind it a variant of one that takes other arguments */
    const char *synopsis; /* its options, then its arguments; in brackets what may be left out */
    int least, most;      /* how many arguments it takes */
    int (*run)(char **arguments);
    const char *does; /* lines of the help */
} command;

/* Packs */
int command_format(char **arguments);
int command_list(char **arguments);
int command_owners(char **arguments);
int command_info(char **arguments);
int command_map(char **arguments);
int command_report(char **arguments);
int command_convert(char **arguments);

/* Files */
int command_look(char **arguments);
int command_alloc(char **arguments);
int command_delete(char **arguments);
int command_rename(char **arguments);
int command_append(char **arguments);
int command_keep(char **arguments);
int command_finish(char **arguments);
int command_close(char **arguments);
int command_run(char **arguments);

/* Bytes of files, linked and contiguous */
int command_put(char **arguments);
int command_put_all(char **arguments);
int command_get(char **arguments);
int command_get_all(char **arguments);
int command_load(char **arguments);
int command_dump(char **arguments);

/* Text of linked files */
int command_type(char **arguments);
int command_enter(char **arguments);
int command_enter_append(char **arguments);

/* Command lines */
int command_read(char **arguments);

#endif
