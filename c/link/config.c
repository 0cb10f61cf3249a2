/* A configuration file: settings, one per line, as NAME = VALUE. */
#define _GNU_SOURCE
#include "parts.h"
#include <errno.h>
#include <fcntl.h>
#include <getopt.h>
#include <string.h>
#include <unistd.h>

static const char blanks[] = " \t\r";

/* Cuts the blanks off both ends. */
static char *trimmed(char *text) {
    text += strspn(text, blanks);
    size_t length = strlen(text);
    while (length != 0 && strchr(blanks, text[length - 1]) != NULL) {
        length--;
    }
    text[length] = 0;
    return text;
}

static bool take_line(struct options *o, char *line, struct setting *s, struct fault *f) {
    char *equals = strchr(line, '=');
    if (equals != NULL) {
        *equals = 0;
    }
    s->name = trimmed(line);
    s->value = equals != NULL ? trimmed(equals + 1) : NULL;
    s->row = setting_named(s->name);
    if (s->row == NULL) {
        s->value = NULL;
        return refuse_value(s, "no such option in a configuration file", f);
    }
    if (s->row->argument == required_argument && s->value == NULL) {
        return refuse_value(s, "the value is missing: NAME = VALUE", f);
    }
    if (s->row->argument == no_argument && s->value != NULL) {
        return refuse_value(s, "this option has no value", f);
    }
    if (s->value != NULL && (strstr(s->value, " #") != NULL || strstr(s->value, "\t#") != NULL)) {
        return refuse_value(s, "a comment needs a line of its own", f);
    }
    return s->row->take(o, s, f);
}

/* Lines that are empty or begin with # are skipped. */
static bool take_lines(struct options *o, const char *path, struct fault *f) {
    struct setting s = { path, 0, NULL, NULL, NULL };
    for (char *line = o->config, *next; line != NULL; line = next) {
        next = strchr(line, '\n');
        if (next != NULL) {
            *next++ = 0;
        }
        s.line++;
        char *text = trimmed(line);
        if (*text != 0 && *text != '#' && !take_line(o, text, &s, f)) {
            return false;
        }
    }
    return true;
}

bool read_config(struct options *o, const char *path, struct fault *f) {
    size_t length = 0;
    ssize_t n = 0;
    if (o->config[0] != 0) {
        return set_fault(f, BAD_ARGUMENTS, "--config %s: there is one already", path);
    }
    int fd = open(path, O_RDONLY | O_CLOEXEC | O_NONBLOCK);
    if (fd < 0) {
        return set_fault(f, BAD_ARGUMENTS, "--config %s: %s", path, strerror(errno));
    }
    do {
        n = read(fd, o->config + length, sizeof o->config - length);
        length += n > 0 ? (size_t)n : 0;
    } while (n > 0 && length < sizeof o->config);
    int why = n < 0 ? errno : 0;
    close(fd);
    if (why != 0) {
        return set_fault(f, BAD_ARGUMENTS, "--config %s: %s", path, strerror(why));
    }
    if (length == sizeof o->config || memchr(o->config, 0, length) != NULL) {
        return set_fault(f, BAD_ARGUMENTS, "--config %s: not a text of less than %d bytes", path,
                         CONFIG_ROOM);
    }
    o->config[length] = 0;
    return take_lines(o, path, f);
}
