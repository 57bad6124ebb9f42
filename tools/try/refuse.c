/*
 * Refuses each request for memory of a program in turn: refuse INPUT PROGRAM [WORD]..
 *
 * It runs PROGRAM with these words on the file INPUT. In the first run the first request is refused, in the second run the second
 * request, and so on until a run makes fewer requests. A run is ended after a minute. If a run ends in another way than the run
 * before it, a line is printed: `request N: status S, B bytes, ERRORS`. S is the exit status, or 128 plus the number of the signal
 * that ended the run. B is the number of bytes on standard output. ERRORS is the beginning of standard error.
 *
 * The last line is `refused in turn: N;` with the number N of refused requests. After this it has ` C status S, B bytes, ERRORS;`
 * for each way in which runs ended. C is the number of runs that ended in this way.
 *
 * The shared library made from refusing.c refuses the requests. Its file has to be in the same folder as this program, with the
 * program's name and `.so` after it.
 */
#include <fcntl.h>
#include <stdio.h>
#include <stdlib.h>
#include <string.h>
#include <sys/wait.h>
#include <unistd.h>

enum { SHOWN = 200, LENGTH = SHOWN + 100, SECONDS = 60, OUTPUT = 0, ERRORS = 1, REFUSED = 2, FILES = 3 };

/* One way in which runs ended. */
struct way {
    struct way *next;
    long count;
    char text[LENGTH];
};

/* The files that a run writes, and their numbers in the run. The last one gets a byte if a request was refused. */
static int files[FILES];
static const int numbers[FILES] = {1, 2, 9};

static void stop(const char *what) {
    perror(what);
    exit(2);
}

/* Turns this process into a run of the program, with one request refused. */
static void become(char **words, long request) {
    char library[4096], number[24];
    int input = open(words[1], O_RDONLY);
    snprintf(library, sizeof library, "%s.so", words[0]);
    snprintf(number, sizeof number, "%ld", request);
    if (input < 0 || dup2(input, 0) < 0) stop(words[1]);
    for (int file = 0; file < FILES; file++)
        if (dup2(files[file], numbers[file]) < 0) stop("a file of a run");
    if (setenv("LD_PRELOAD", library, 1) || setenv("REFUSED_REQUEST", number, 1)) stop("the environment");
    alarm(SECONDS);
    execv(words[2], words + 2);
    stop(words[2]);
}

/* Returns the number of bytes that a run has written to a file. */
static long length_of(int file) {
    return (long)lseek(files[file], 0, SEEK_END);
}

/* Writes a description of the way in which a run ended. */
static void describe(int status, char text[LENGTH]) {
    char reported[SHOWN + 1] = {0};
    int code = WIFEXITED(status) ? WEXITSTATUS(status) : 128 + WTERMSIG(status);
    if (pread(files[ERRORS], reported, SHOWN, 0) < 0) stop("a file of a run");
    for (char *at = reported; (at = strchr(at, '\n')); at++) *at = ' ';
    snprintf(text, LENGTH, "status %d, %ld bytes, %s", code, length_of(OUTPUT), reported);
}

/* Runs the program, with one request refused. Returns true if the program made this request. */
static int is_refused(char **words, long request, char text[LENGTH]) {
    int status = 0;
    for (int file = 0; file < FILES; file++)
        if (lseek(files[file], 0, SEEK_SET) || ftruncate(files[file], 0)) stop("a file of a run");
    pid_t child = fork();
    if (child == 0) become(words, request);
    if (child < 0 || waitpid(child, &status, 0) < 0) stop("a run");
    describe(status, text);
    return length_of(REFUSED) > 0;
}

/* Returns the way that a text describes. A new way is added after the others. */
static struct way *way_of(struct way **at, const char *text) {
    while (*at && strcmp((*at)->text, text)) at = &(*at)->next;
    if (!*at) {
        *at = calloc(1, sizeof **at);
        if (!*at) stop("a way to end");
        strcpy((*at)->text, text);
    }
    return *at;
}

/* Makes the files of the runs. They have no names. */
static void make_files(void) {
    for (int file = 0; file < FILES; file++) {
        FILE *made = tmpfile();
        if (!made) stop("a file of a run");
        files[file] = fileno(made);
    }
}

/* Refuses the requests in turn, and returns their number. */
static long refuse(char **words, struct way **ways) {
    struct way *last = NULL;
    char text[LENGTH];
    long request = 1;
    for (; is_refused(words, request, text); request++) {
        struct way *way = way_of(ways, text);
        if (way != last) printf("request %ld: %s\n", request, text);
        way->count++;
        last = way;
    }
    return request - 1;
}

int main(int count, char **words) {
    struct way *ways = NULL;
    if (count < 3) {
        fprintf(stderr, "usage: %s INPUT PROGRAM [WORD]..\n", words[0]);
        return 2;
    }
    if (access(words[1], R_OK)) stop(words[1]);
    if (access(words[2], X_OK)) stop(words[2]);
    make_files();
    printf("refused in turn: %ld;", refuse(words, &ways));
    for (struct way *way = ways; way; way = way->next) printf(" %ld %s;", way->count, way->text);
    putchar('\n');
    return 0;
}
