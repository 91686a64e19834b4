/* A shell: it reads lines from descriptor 0, up to the input's end, and does what docs/shell.md tells of them, but that a NUL ends a line.
   (MIT 6.828, lab 5: user/sh.c) */
#include "output.h"
#include "print.h"
#include "service.h"
#include "string.h"

#define LINE_MAX 1023
#define WORDS_MAX 16
#define COMMANDS_MAX 8

#define NONE MAXFD /* no descriptor */

struct command {
    const char *words[WORDS_MAX + 1]; /* and a 0 */
    uint32_t count;
    const char *input, *output;
    int is_piped; /* to the next one */
};

/* of the line under way; a word is copied to have a NUL behind it */
static char line[LINE_MAX + 1];
static char words[2 * LINE_MAX];
static struct command commands[COMMANDS_MAX + 1];

/* ---- the line: its tokens, and the commands that they make */

enum { END, WORD, REFUSED }; /* and '<', '>', '|' and ';' */

static const char *rest_of_line;
static char *rest_of_words;

static int is_one_of(const char *bytes, char byte)
{
    return byte != 0 && strchr(bytes, byte) != 0;
}

/* A word stands where `rest_of_words` was. */
static int next_token(void)
{
    while (is_one_of(" \t\r", *rest_of_line))
        rest_of_line++;
    if (*rest_of_line == 0 || *rest_of_line == '#')
        return END;
    if (is_one_of("&()", *rest_of_line))
        return REFUSED;
    if (is_one_of("<>|;", *rest_of_line))
        return *rest_of_line++;
    while (*rest_of_line != 0 && !is_one_of(" \t\r#&()<>|;", *rest_of_line))
        *rest_of_words++ = *rest_of_line++;
    *rest_of_words++ = 0;
    return WORD;
}

/* How many commands the line has, or -1 where it can't be read. */
static int parsed(void)
{
    struct command *command = commands;
    const char **file = 0; /* that the next word names */

    memset(commands, 0, sizeof commands);
    rest_of_line = line;
    rest_of_words = words;
    for (;;) {
        const char *word = rest_of_words;
        int token = next_token();

        if (token == WORD && file != 0) {
            *file = word;
            file = 0;
            continue;
        }
        if (token == WORD) {
            if (command->count == WORDS_MAX)
                return -1;
            command->words[command->count++] = word;
            continue;
        }
        if (token == REFUSED || file != 0)
            return -1;
        if (token == '<' || token == '>') {
            file = token == '<' ? &command->input : &command->output;
            if (*file != 0)
                return -1;
            continue;
        }
        if (command->count > 0) {
            if (command == &commands[COMMANDS_MAX])
                return -1;
            command->is_piped = token == '|';
            command++;
        } else if (token == '|' || command->input != 0 || command->output != 0 || (command > commands && command[-1].is_piped)) {
            return -1;
        }
        if (token == END)
            return command - commands;
    }
}

/* ---- what a command does, in a child of the shell */

/* in one piece */
static void say(const char *what, const char *behind)
{
    static struct output output;

    output.fd = CONSOLE;
    put_text(&output, what);
    put_text(&output, behind);
    flush(&output);
}

static void becomes(uint32_t fd, uint32_t wanted)
{
    dup(fd, wanted);
    close(fd);
}

static void opened_as(uint32_t wanted, const char *name, uint32_t mode)
{
    int fd = open((uint32_t)name, mode);

    if (fd < 0) {
        say(name, ": cannot be opened\n");
        exit();
    }
    becomes(fd, wanted);
}

static int started(const struct command *command)
{
    static char path[1 + LINE_MAX + 1];

    path[0] = '/';
    strcpy(path + (command->words[0][0] != '/'), command->words[0]);
    return spawn((uint32_t)path, (uint32_t)command->words);
}

static void __attribute__((noreturn)) be(const struct command *command, uint32_t reading, const struct pipe *ends)
{
    int child;

    if (reading != NONE)
        becomes(reading, 0);
    if (command->is_piped) {
        dup(ends->writing, 1);
        close(ends->reading);
        close(ends->writing);
    }
    if (command->input != 0)
        opened_as(0, command->input, O_RDONLY);
    if (command->output != 0)
        opened_as(1, command->output, O_WRONLY | O_CREAT | O_TRUNC);
    child = started(command);
    if (child == -E_NOT_FOUND)
        say(command->words[0], ": not found\n");
    else if (child < 0)
        tell_error(command->words[0], child);
    if (child > 0) {
        for (uint32_t fd = 0; fd < MAXFD; fd++)
            close(fd);
        wait(child);
    }
    exit();
}

/* ---- what the shell does */

/* A pipe or a child that can't be made. */
static void give_up(int error, uint32_t reading, const struct pipe *ends)
{
    print("error ");
    print_number(-error);
    print("\n");
    if (reading != NONE)
        close(reading);
    if (ends != 0) {
        close(ends->reading);
        close(ends->writing);
    }
}

/* The commands up to the one whose output is no pipe, side by side; the first one behind them. */
static const struct command *job_done(const struct command *command)
{
    int children[COMMANDS_MAX], count = 0;
    uint32_t reading = NONE; /* what the command before writes */
    struct pipe ends;

    for (;; command++) {
        int error = command->is_piped ? pipe(&ends) : 0;
        int child = error < 0 ? error : fork();

        if (child < 0) {
            give_up(child, reading, command->is_piped && error == 0 ? &ends : 0);
            while (command->is_piped)
                command++;
            break;
        }
        if (child == 0)
            be(command, reading, &ends);
        children[count++] = child;
        if (reading != NONE)
            close(reading);
        if (!command->is_piped)
            break;
        close(ends.writing);
        reading = ends.reading;
    }
    for (int k = 0; k < count; k++)
        wait(children[k]);
    return command + 1;
}

/* Whether a newline ends the line, and not the input; its length may be too great. */
static int next_line(uint32_t *length)
{
    char byte;

    for (*length = 0; read(0, (uint32_t)&byte, 1) == 1; (*length)++) {
        if (byte == '\n')
            return 1;
        if (*length < LINE_MAX)
            line[*length] = byte;
    }
    return 0;
}

void umain(int argc, char **argv)
{
    uint32_t length;
    int goes_on, count;

    do {
        goes_on = next_line(&length);
        line[length < LINE_MAX ? length : LINE_MAX] = 0;
        count = length > LINE_MAX ? -1 : parsed();
        if (count < 0)
            print("syntax error\n");
        for (const struct command *command = commands; command < commands + count;)
            command = job_done(command);
    } while (goes_on);
}
