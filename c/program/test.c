/* Checks the functions of system.c by their contracts. Run it with some arguments, an empty one
 * among them. Prints the number of checks, or the line of the first that fails. */
#include <errno.h>
#include <fcntl.h>
#include <stdbool.h>
#include <stdint.h>
#include <stdio.h>
#include <stdlib.h>
#include <string.h>
#include <sys/types.h>
#include <unistd.h>

extern char **environ;

int32_t rattle_errno(void);
void rattle_set_errno(int32_t error);
ssize_t rattle_arg(size_t i, uint8_t *buffer, size_t size);
ssize_t rattle_env(const uint8_t *name, uint8_t *buffer, size_t size);
ssize_t rattle_env_at(size_t i, uint8_t *buffer, size_t size);
int32_t rattle_set_nonblocking(int32_t fd, bool on);

enum { ROOM = 4096, UNTOUCHED = 0xa5 };

static unsigned long checks;

static void check_at(int line, bool good) {
    checks++;
    if (!good) {
        printf("line %d fails after %lu checks\n", line, checks - 1);
        exit(1);
    }
}
#define CHECK(good) check_at(__LINE__, good)

/* Checks what one of the three functions returned and wrote into a buffer of this size. Behind that
 * the buffer has to be as before. */
static void check_copy(ssize_t got, const uint8_t *buffer, size_t size, const char *text) {
    size_t length = text != NULL ? strlen(text) : 0;
    size_t copied = length < size ? length : size;
    CHECK(got == (text == NULL ? -1 : length <= size ? (ssize_t)length : -2));
    CHECK(copied == 0 || memcmp(buffer, text, copied) == 0);
    for (size_t k = copied; k < size + 8; k++) {
        CHECK(buffer[k] == UNTOUCHED);
    }
}

enum source { ARGUMENT, ENTRY, VARIABLE };

/* With no space, one byte too little, just enough space, and more. */
static void check_sizes(enum source from, size_t i, const char *name, const char *text) {
    static uint8_t buffer[ROOM + 16];
    size_t length = text != NULL ? strlen(text) : 0;
    const size_t sizes[] = { 0, 1, length != 0 ? length - 1 : 0, length, length + 1, length + 100 };
    for (size_t k = 0; k < sizeof sizes / sizeof *sizes; k++) {
        CHECK(sizes[k] <= ROOM);
        memset(buffer, UNTOUCHED, sizeof buffer);
        ssize_t got = from == ARGUMENT ? rattle_arg(i, buffer, sizes[k])
            : from == ENTRY            ? rattle_env_at(i, buffer, sizes[k])
                                       : rattle_env((const uint8_t *)name, buffer, sizes[k]);
        check_copy(got, buffer, sizes[k], text);
    }
}

static void check_arguments(int count, char **words) {
    for (int k = 0; k < count; k++) {
        check_sizes(ARGUMENT, (size_t)k, NULL, words[k]);
    }
    check_sizes(ARGUMENT, (size_t)count, NULL, NULL);
    check_sizes(ARGUMENT, SIZE_MAX, NULL, NULL);
}

static void check_environment(void) {
    static char *made[] = { "ONE=1", "EMPTY=", "TWO=a=b", NULL };
    static char *none[] = { NULL };
    char **own = environ;
    environ = made;
    for (size_t k = 0; k < 4; k++) {
        check_sizes(ENTRY, k, NULL, made[k]);
    }
    check_sizes(ENTRY, SIZE_MAX, NULL, NULL);
    check_sizes(VARIABLE, 0, "ONE", "1");
    check_sizes(VARIABLE, 0, "EMPTY", "");
    check_sizes(VARIABLE, 0, "TWO", "a=b");
    check_sizes(VARIABLE, 0, "ON", NULL);
    check_sizes(VARIABLE, 0, "", NULL);
    environ = none;
    check_sizes(ENTRY, 0, NULL, NULL);
    check_sizes(VARIABLE, 0, "ONE", NULL);
    environ = NULL;
    check_sizes(ENTRY, 0, NULL, NULL);
    environ = own;
}

static void check_errno(void) {
    for (int32_t error = 0; error < 134; error++) {
        rattle_set_errno(error);
        CHECK(errno == error && rattle_errno() == error);
        errno = 133 - error;
        CHECK(rattle_errno() == 133 - error);
    }
}

/* Each change twice, as the second one changes nothing. */
static void check_nonblocking(void) {
    int ends[2];
    CHECK(pipe(ends) == 0);
    int before = fcntl(ends[0], F_GETFL);
    for (int k = 0; k < 4; k++) {
        bool on = k < 2;
        CHECK(rattle_set_nonblocking(ends[0], on) == 0);
        CHECK(fcntl(ends[0], F_GETFL) == (on ? before | O_NONBLOCK : before));
        CHECK((fcntl(ends[1], F_GETFL) & O_NONBLOCK) == 0);
    }
    close(ends[0]);
    close(ends[1]);
    CHECK(rattle_set_nonblocking(ends[0], true) == -1 && rattle_errno() == EBADF);
    CHECK(rattle_set_nonblocking(-1, false) == -1 && rattle_errno() == EBADF);
}

int main(int count, char **words) {
    check_arguments(count, words);
    check_environment();
    check_errno();
    check_nonblocking();
    printf("%lu checks\n", checks);
    return 0;
}
