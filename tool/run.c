#include "run.h"
#include "commands.h"
#include "files.h"
#include "messages.h"
#include "output.h"

#include <stdio.h>
#include <stdlib.h>
#include <string.h>

static void print_group(const char *title, bool changes)
{
    printf("\n%s\n", title);
    for (size_t i = 0; i < command_count; i++)
        if (commands[i].changes == changes)
            printf("  %-14s  %s\n", commands[i].name, commands[i].summary);
}

static void print_help(void)
{
    puts("usage: noemathu COMMAND [OPTION]... [FILE[#NODE]]...\n\n"
         "XML namespaces: what names mean to their makers, what a reader would take them\n"
         "for, and how to make that the same. A file is XML text or a bundle, the form in\n"
         "which a tree is kept; - or no file is standard input. NODE is a row number or a\n"
         "path as it is written: /session/p:order[2]/@p:since.");
    print_group("Look:", false);
    print_group("Change (write a bundle; xml writes text):", true);
    puts("\n  noemathu COMMAND --help   tells more of a command and has its options\n"
         "  noemathu --version        tells the version\n\n"
         "Status 0: done. 1: a no (nothing found, names that mean something else, a\n"
         "difference). 2: refused by the library. 3: trouble (usage, files, text that is\n"
         "no XML).");
}

static void print_command_help(const struct command *command)
{
    printf("usage: noemathu %s [OPTION]... %s\n\n%s\n", command->name, command->operands, command->help);
    print_options(command->options);
}

static const struct command *command_of(const char *name)
{
    for (size_t i = 0; i < command_count; i++)
        if (strcmp(commands[i].name, name) == 0)
            return commands + i;
    return NULL;
}

/* Says how a command is used, after too few or too many operands. */
static enum status wrong_count(const struct command *command, size_t count)
{
    struct buffer usage = {0};
    append_text(&usage, count < command->least ? "something is missing; usage: noemathu " : "too much; usage: noemathu ");
    append_text(&usage, command->name);
    append_text(&usage, " [OPTION]... ");
    char *said = taken_string(&usage);
    enum status status = trouble(NULL, said, command->operands);
    free(said);
    return status;
}

static enum status run_command(const struct command *command, char **words, size_t count)
{
    struct options options;
    bool json = false;
    for (size_t i = 0; i < count && strcmp(words[i], "--") != 0; i++)
        json |= strcmp(words[i], "--json") == 0;
    messages_in_json(json, !command->changes);
    enum status status = read_options(command->name, command->options, words, count, &options);
    if (status == STATUS_DONE && has_option(&options, OPTION_HELP)) {
        print_command_help(command);
    } else if (status == STATUS_DONE && (options.count < command->least || options.count > command->most)) {
        status = wrong_count(command, options.count);
    } else if (status == STATUS_DONE) {
        set_color(options.color);
        status = command->run(&options);
    }
    free(options.operands);
    return finish_output(status);
}

enum status run(int count, char **words)
{
    const char *name = count > 1 ? words[1] : "";
    const struct command *command = command_of(name);
    messages_in_json(false, false);
    if (command)
        return run_command(command, words + 2, (size_t)count - 2);
    if (strcmp(name, "--help") == 0 || strcmp(name, "-h") == 0 || strcmp(name, "help") == 0) {
        command = count > 2 ? command_of(words[2]) : NULL;
        if (count > 2 && !command)
            return trouble(NULL, "there is no command ", words[2]);
        if (command)
            print_command_help(command);
        else
            print_help();
        return finish_output(STATUS_DONE);
    }
    if (strcmp(name, "--version") == 0 || strcmp(name, "-V") == 0) {
        printf("noemathu %s, libxml2 %s\n", NOEMATHU_VERSION, xml_reader_version());
        return finish_output(STATUS_DONE);
    }
    if (count < 2)
        return trouble(NULL, "usage: noemathu COMMAND [OPTION]... [FILE[#NODE]]...; noemathu --help tells more", "");
    return trouble(NULL, "there is no command of this name; noemathu --help has them: ", name);
}
