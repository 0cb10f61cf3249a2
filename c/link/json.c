/* Reads one JSON object, member by member (RFC 8259). It reads the text once, never beyond its end,
 * and rejects what is not JSON. Escapes in strings are checked and left as they are. */
#include "parts.h"
#include <string.h>

enum { DEEPEST = 16 };

static void skip_blanks(struct json *j) {
    while (j->at < j->end
           && (*j->at == ' ' || *j->at == '\t' || *j->at == '\r' || *j->at == '\n')) {
        j->at++;
    }
}

/* Skips blanks, and then this octet if it is next. */
static bool take(struct json *j, char wanted) {
    skip_blanks(j);
    if (j->at == j->end || *j->at != wanted) {
        return false;
    }
    j->at++;
    return true;
}

static bool is_hexadecimal(char c) {
    return (c >= '0' && c <= '9') || (c >= 'a' && c <= 'f') || (c >= 'A' && c <= 'F');
}

static bool take_escape(struct json *j) {
    if (j->at == j->end || strchr("\"\\/bfnrtu", *j->at) == NULL || *j->at == 0) {
        return false;
    }
    int digits = *j->at++ == 'u' ? 4 : 0;
    for (; digits != 0 && j->at < j->end && is_hexadecimal(*j->at); digits--) {
        j->at++;
    }
    return digits == 0;
}

static bool take_text(struct json *j, const char **text, size_t *length) {
    if (!take(j, '"')) {
        return false;
    }
    *text = j->at;
    while (j->at < j->end) {
        unsigned char c = (unsigned char)*j->at++;
        if (c == '"') {
            *length = (size_t)(j->at - 1 - *text);
            return true;
        }
        if (c < 0x20 || (c == '\\' && !take_escape(j))) {
            return false;
        }
    }
    return false;
}

static size_t take_digits(struct json *j) {
    const char *start = j->at;
    while (j->at < j->end && *j->at >= '0' && *j->at <= '9') {
        j->at++;
    }
    return (size_t)(j->at - start);
}

static bool take_any(struct json *j, const char *of) {
    bool found = j->at < j->end && *j->at != 0 && strchr(of, *j->at) != NULL;
    j->at += found;
    return found;
}

static bool take_number(struct json *j) {
    (void)take_any(j, "-");
    bool zero = j->at < j->end && *j->at == '0';
    size_t whole = take_digits(j);
    if (whole == 0 || (zero && whole > 1) || (take_any(j, ".") && take_digits(j) == 0)) {
        return false;
    }
    if (take_any(j, "eE")) {
        (void)take_any(j, "+-");
        return take_digits(j) != 0;
    }
    return true;
}

static bool take_word(struct json *j) {
    static const char *const words[] = { "true", "false", "null" };
    for (size_t k = 0; k < sizeof words / sizeof *words; k++) {
        size_t length = strlen(words[k]);
        if ((size_t)(j->end - j->at) >= length && memcmp(j->at, words[k], length) == 0) {
            j->at += length;
            return true;
        }
    }
    return false;
}

static bool take_value(struct json *j, struct json_member *m, int depth);

/* Skips an object or an array, and checks its members. */
static bool take_nested(struct json *j, char close, int depth) {
    struct json_member inner;
    if (depth == DEEPEST) {
        return false;
    }
    if (take(j, close)) {
        return true;
    }
    do {
        bool named = close == ']'
            || (take_text(j, &inner.key, &inner.key_length) && take(j, ':'));
        if (!named || !take_value(j, &inner, depth + 1)) {
            return false;
        }
    } while (take(j, ','));
    return take(j, close);
}

static bool take_value(struct json *j, struct json_member *m, int depth) {
    skip_blanks(j);
    m->text = j->at;
    m->kind = JSON_OTHER;
    bool good;
    if (j->at < j->end && *j->at == '"') {
        m->kind = JSON_TEXT;
        return take_text(j, &m->text, &m->length);
    } else if (take(j, '{')) {
        good = take_nested(j, '}', depth);
    } else if (take(j, '[')) {
        good = take_nested(j, ']', depth);
    } else if (take_word(j)) {
        good = true;
    } else {
        m->kind = JSON_NUMBER;
        good = take_number(j);
    }
    m->length = (size_t)(j->at - m->text);
    return good;
}

bool json_open(struct json *j, const char *text, size_t length) {
    *j = (struct json){ text, text + length };
    return take(j, '{');
}

/* The first member comes after `{`, the others after a comma. */
enum json_step json_next(struct json *j, struct json_member *m) {
    bool first = j->at[-1] == '{';
    if (take(j, '}')) {
        skip_blanks(j);
        return j->at == j->end ? JSON_END : JSON_WRONG;
    }
    bool good = (first || take(j, ',')) && take_text(j, &m->key, &m->key_length) && take(j, ':')
        && take_value(j, m, 0);
    return good ? JSON_MEMBER : JSON_WRONG;
}

bool json_is_key(const struct json_member *m, const char *name) {
    return strlen(name) == m->key_length && memcmp(m->key, name, m->key_length) == 0;
}
