#include "options.h"
#include "messages.h"

#include <stdio.h>
#include <stdlib.h>
#include <string.h>

struct known {
    const char *name;  /* --name */
    char letter;       /* -l, or 0 */
    const char *value; /* what stands behind it, or NULL */
    enum option option;
    const char *help;
};

static const struct known known[] = {
    {"uri", 0, "URI", OPTION_URI, "only names of this namespace; '' is none"},
    {"null", '0', NULL, OPTION_ZERO, "end each line with a zero byte"},
    {"browser", 0, NULL, OPTION_BROWSER, "by names and declarations, as browsers do"},
    {"as-read", 0, NULL, OPTION_AS_READ, "compare what a reader takes the names for"},
    {"makers", 0, NULL, OPTION_MAKERS, "compare the makers of nodes too"},
    {"maker", 0, "NUMBER", OPTION_MAKER, "the maker of every row; 0 if none is given"},
    {"bare", 0, NULL, OPTION_BARE, "without the declarations in scope there"},
    {"under", 0, "NODE", OPTION_UNDER, "the node of HOST that gets the guests"},
    {"diff", 0, NULL, OPTION_DIFF, "print the tree with what changes instead"},
    {"list", 0, NULL, OPTION_LIST, "print what is dropped instead"},
    {"output", 'o', "FILE", OPTION_OUTPUT, "write to FILE, whole or not at all"},
    {"color", 0, "WHEN", OPTION_COLOR, "always, never or auto; NO_COLOR is heeded"},
    {"no-comments", 0, NULL, OPTION_READING, "read XML without its comments"},
    {"no-instructions", 0, NULL, OPTION_READING, "read XML without its instructions"},
    {"no-cdata", 0, NULL, OPTION_READING, "read CDATA sections as text"},
    {"no-blanks", 0, NULL, OPTION_READING, "read XML without blanks between elements"},
    {"json", 0, NULL, OPTION_JSON, "print objects of JSON, one to a line"},
    {"help", 'h', NULL, OPTION_HELP, "this help"},
};

#define KNOWN (sizeof known / sizeof *known)

static void set_option(struct options *options, const struct known *option, const char *value)
{
    options->given |= option->option;
    switch (option->option) {
    case OPTION_URI: options->uri = value; break;
    case OPTION_UNDER: options->under = value; break;
    case OPTION_OUTPUT: options->output = value; break;
    case OPTION_COLOR: options->color = value; break;
    case OPTION_MAKER: options->wishes.maker = (uint32_t)strtoul(value, NULL, 10); break;
    default: break;
    }
    struct xml_wishes *wishes = &options->wishes;
    wishes->no_comments |= strcmp(option->name, "no-comments") == 0;
    wishes->no_instructions |= strcmp(option->name, "no-instructions") == 0;
    wishes->no_cdata |= strcmp(option->name, "no-cdata") == 0;
    wishes->no_blanks |= strcmp(option->name, "no-blanks") == 0;
}

/* The option that a word begins with, and its value if it stands in the same word: --uri=URI, -oFILE. */
static const struct known *option_of(const char *word, const char **value)
{
    *value = NULL;
    for (size_t i = 0; i < KNOWN; i++) {
        size_t length = strlen(known[i].name);
        if (word[1] == '-' && strncmp(word + 2, known[i].name, length) == 0) {
            if (word[2 + length] == '=')
                *value = word + 3 + length;
            if (word[2 + length] == '=' || word[2 + length] == 0)
                return known + i;
        }
        if (word[1] != '-' && known[i].letter && word[1] == known[i].letter) {
            *value = word[2] ? word + 2 : NULL;
            return known + i;
        }
    }
    return NULL;
}

/* Says what is wrong with what was typed behind a command. */
static enum status wrong(const char *command, const char *text, const char *word)
{
    struct buffer whole = {0};
    append_text(&whole, command);
    append_text(&whole, text);
    char *said = taken_string(&whole);
    enum status status = trouble(NULL, said, word);
    free(said);
    return status;
}

/* Whether some text is a number that a row's maker can be. */
static bool is_maker(const char *text)
{
    size_t digits = strspn(text, "0123456789");
    return digits > 0 && digits <= 10 && text[digits] == 0 && strtoull(text, NULL, 10) <= UINT32_MAX;
}

/* Takes one option, and the word behind it if that is its value. */
static enum status take_option(const char *command, unsigned taken, char **words, size_t count, size_t *at,
                               struct options *options)
{
    const char *value, *word = words[*at];
    const struct known *option = option_of(word, &value);
    if (!option || !(option->option & taken))
        return wrong(command, option ? " has no option " : ": there is no option ", word);
    if (option->value && !value && *at + 1 < count)
        value = words[++*at];
    if (option->value && !value)
        return wrong(command, ": a value is missing behind ", word);
    if (!option->value && value)
        return wrong(command, ": this option has no value: ", word);
    if (option->option == OPTION_COLOR && strcmp(value, "always") && strcmp(value, "never") && strcmp(value, "auto"))
        return wrong(command, ": --color is always, never or auto, not ", value);
    if (option->option == OPTION_MAKER && !is_maker(value))
        return wrong(command, ": a maker is a number from 0 to 4294967295, not ", value);
    set_option(options, option, value);
    return STATUS_DONE;
}

enum status read_options(const char *command, unsigned taken, char **words, size_t count, struct options *options)
{
    bool ended = false;
    enum status status = STATUS_DONE;
    *options = (struct options){.operands = held(NULL, count, sizeof *options->operands)};
    for (size_t i = 0; i < count && status == STATUS_DONE; i++) {
        const char *word = words[i];
        if (!ended && strcmp(word, "--") == 0)
            ended = true;
        else if (ended || word[0] != '-' || word[1] == 0 || strncmp(word, "-#", 2) == 0)
            options->operands[options->count++] = word;
        else
            status = take_option(command, taken, words, count, &i, options);
    }
    return status;
}

bool has_option(const struct options *options, enum option option)
{
    return (options->given & option) != 0;
}

void print_options(unsigned taken)
{
    for (size_t i = 0; i < KNOWN; i++) {
        char name[40], letter[8] = "";
        if (!(known[i].option & taken))
            continue;
        if (known[i].letter)
            snprintf(letter, sizeof letter, "-%c, ", known[i].letter);
        snprintf(name, sizeof name, "%s--%s%s%s", letter, known[i].name, known[i].value ? " " : "",
                 known[i].value ? known[i].value : "");
        printf("  %-20s  %s\n", name, known[i].help);
    }
}
