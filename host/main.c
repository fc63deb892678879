/* spinebriar: the command line. */
#include <errno.h>
#include <fcntl.h>
#include <getopt.h>
#include <signal.h>
#include <string.h>
#include <unistd.h>

#include "commands.h"
#include "spinebriar.h"

static const char HELP[] =
    "spinebriar check BUNDLE [--names LIST]     whether the bundle is accepted, and what its last step says\n"
    "spinebriar check BUNDLE --names LIST --claim OLD NEW\n"
    "                                           whether a step of it says that OLD is contained in NEW\n"
    "spinebriar explain BUNDLE --names LIST     every step of the bundle as text\n"
    "spinebriar rows FILE.xml --names LIST [--add] [--local-names]\n"
    "                                           the XML file as the rows of a document\n"
    "spinebriar select SELECTOR FILE.xml --names LIST [--from ROW] [--limit N] [--add] [--local-names]\n"
    "                                           the nodes selected: row, line in the file, path from the root\n"
    "spinebriar file CALLS                      the bundle of what the calls, replay's lines, leave held\n"
    "spinebriar --help, --version\n"
    "\n"
    "A file named - is standard input. Results go to standard output, messages to standard error.\n"
    "Exit status: 0 yes, 1 a refusal or a no, 2 a wrong use or a file that can't be read or written.\n"
    "An accepted bundle shows what its steps say and nothing else: ask with --claim, or read the step.\n";

struct command {
    const char *name;
    int (*run)(const struct options *options, FILE *out);
    const char *options; /* the letters of those that it takes */
    int words;           /* beside the options */
    bool needs_names;
};

static const struct command COMMANDS[] = {
    {"check", check_command, "nc", 1, false},
    {"explain", explain_command, "n", 1, true},
    {"rows", rows_command, "nal", 1, true},
    {"select", select_command, "nalft", 2, true},
    {"file", file_command, "", 1, false},
};
enum { COMMAND_COUNT = sizeof COMMANDS / sizeof *COMMANDS };

static int wrong_use(const char *what, const char *which)
{
    complain("%s%s (spinebriar --help)", what, which);
    return UNREADABLE;
}

/* A number in base ten, digits alone, up to `most`. */
static bool parse_number(const char *text, uint32_t most, uint32_t *number)
{
    uint64_t value = 0;
    const char *at = text;
    while (*at >= '0' && *at <= '9' && value <= most) {
        value = 10 * value + (uint64_t)(*at++ - '0');
    }
    *number = (uint32_t)value;
    return at != text && *at == '\0' && value <= most;
}

/* Notes an option with its word; false where the word is not as it must be. --claim takes a second word. */
static bool take_option(int letter, int argc, char **argv, struct options *options)
{
    switch (letter) {
    case 'n': options->names = optarg; return true;
    case 'a': options->add = true; return true;
    case 'l': options->local_names = true; return true;
    case 'f': return parse_number(optarg, UINT16_MAX, &options->from);
    case 't': options->limited = true; return parse_number(optarg, UINT32_MAX, &options->limit);
    default:
        options->old_selector = optarg;
        options->new_selector = optind < argc ? argv[optind++] : NULL;
        return options->new_selector != NULL;
    }
}

/* The words beside the options, and what must be there. */
static int take_words(const struct command *command, int argc, char **argv, struct options *options)
{
    if (argc - optind != command->words) {
        return wrong_use(argc - optind < command->words ? "too few words for " : "too many words for ", command->name);
    }
    options->selector = command->words == 2 ? argv[optind++] : NULL;
    options->file = argv[optind];
    if ((command->needs_names || options->old_selector != NULL) && options->names == NULL) {
        return wrong_use("no --names LIST for ", command->name);
    }
    bool standard = options->names != NULL && strcmp(options->names, "-") == 0;
    return standard ? wrong_use("a list of names can't be standard input", "") : YES;
}

/* The word that getopt_long doesn't know: letters after one dash are not passed yet where they are several. */
static const char *wrong_word(int argc, char **argv)
{
    const char *next = optind < argc ? argv[optind] : "";
    bool letters = optopt != 0 && next[0] == '-' && next[1] == optopt && next[2] != '\0';
    return letters ? next : argv[optind - 1];
}

/* Reads the words after the subcommand; YES, or UNREADABLE after a message. */
static int read_options(const struct command *command, int argc, char **argv, struct options *options)
{
    static const struct option LONG[] = {
        {"names", required_argument, NULL, 'n'}, {"add", no_argument, NULL, 'a'},
        {"local-names", no_argument, NULL, 'l'}, {"from", required_argument, NULL, 'f'},
        {"limit", required_argument, NULL, 't'}, {"claim", required_argument, NULL, 'c'}, {NULL, 0, NULL, 0}};
    opterr = 0;
    for (int letter, which = 0; (letter = getopt_long(argc, argv, ":", LONG, &which)) != -1;) {
        if (letter == ':') {
            return wrong_use("no word after ", argv[optind - 1]);
        }
        if (letter == '?') {
            return wrong_use("wrong option ", wrong_word(argc, argv));
        }
        if (strchr(command->options, letter) == NULL) {
            complain("%s has no option --%s (spinebriar --help)", command->name, LONG[which].name);
            return UNREADABLE;
        }
        if (!take_option(letter, argc, argv, options)) {
            return wrong_use(letter == 'c' ? "no NEW for --claim " : "wrong number ", optarg);
        }
    }
    return take_words(command, argc, argv, options);
}

/* What was printed must have been written: an answer that is lost is none. A closed pipe needs no message. */
static int written(int status)
{
    bool failed = ferror(stdout) != 0;
    if (fclose(stdout) == 0 && !failed) {
        return status;
    }
    if (errno != EPIPE) {
        complain("standard output: %s", strerror(errno));
    }
    return UNREADABLE;
}

/* A file that is opened must not get the number of a standard stream that is closed. */
static bool streams_open(void)
{
    if (fcntl(STDOUT_FILENO, F_GETFD) == -1) {
        return false;
    }
    for (int stream = STDIN_FILENO; stream <= STDERR_FILENO; stream += STDERR_FILENO) {
        int way = stream == STDIN_FILENO ? O_RDONLY : O_WRONLY;
        if (fcntl(stream, F_GETFD) == -1 && open("/dev/null", way) != stream) {
            return false;
        }
    }
    return true;
}

/* --help among the words, up to `--`. */
static bool asks_help(int argc, char **argv)
{
    for (int i = 1; i < argc && strcmp(argv[i], "--") != 0; i++) {
        if (strcmp(argv[i], "--help") == 0) {
            return true;
        }
    }
    return false;
}

int main(int argc, char **argv)
{
    signal(SIGPIPE, SIG_IGN);
    if (!streams_open()) {
        return UNREADABLE;
    }
    const char *first = argc > 1 ? argv[1] : "";
    if (asks_help(argc, argv)) {
        fputs(HELP, stdout);
        return written(YES);
    }
    if (strcmp(first, "--version") == 0 && argc == 2) {
        puts("spinebriar " SPINEBRIAR_VERSION);
        return written(YES);
    }
    for (size_t i = 0; i < COMMAND_COUNT; i++) {
        if (strcmp(first, COMMANDS[i].name) == 0) {
            struct options options = {0};
            int status = read_options(&COMMANDS[i], argc - 1, argv + 1, &options);
            return status == YES ? written(COMMANDS[i].run(&options, stdout)) : status;
        }
    }
    return wrong_use(argc > 1 ? "no command " : "no command", first);
}
