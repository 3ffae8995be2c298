/* Mutations that keep the form of a file whole, so that those behind the first checks are reached:
 * a text stays JSON, and a container keeps the lengths of its chunks. One in four is libFuzzer's
 * own, which breaks them. */
#include <stddef.h>
#include <stdint.h>
#include <stdio.h>
#include <stdlib.h>
#include <string.h>

size_t LLVMFuzzerMutate(uint8_t *bytes, size_t size, size_t most);
size_t LLVMFuzzerCustomMutator(uint8_t *bytes, size_t size, size_t most, unsigned int seed);

static uint64_t state;

static size_t any(size_t below)
{
    state ^= state << 13;
    state ^= state >> 7;
    state ^= state << 17;
    return below == 0 ? 0 : (size_t)(state % below);
}

/* Values that stand in the place of another one. */
static const char *const values[] = {
    "0", "1", "2", "3", "4", "5", "-1", "255", "65535", "4294967295", "4294967296",
    "18446744073709551615", "18446744073709551616", "1e9", "0.5", "-0.0", "1e400", "null", "true",
    "false", "\"\"", "\"VEC3\"", "\"SCALAR\"", "\"MAT4\"", "\"data:,\"",
    "\"data:application/octet-stream;base64,AAAA\"", "\"translation\"", "\"weights\"", "[]", "{}",
    "[0]", "[0,1,2]", "[0,0,0,1]", "{\"POSITION\":0}", "5120", "5121", "5123", "5125", "5126",
};

/* A text that is changed in place; `most` is its room. */
typedef struct text {
    char *at;
    size_t size, most;
} text;

/* Puts `size` bytes in the place of those from `from` to `to`, where there is room. */
static int replace(text *t, size_t from, size_t to, const char *bytes, size_t size)
{
    if (t->size - (to - from) + size > t->most)
        return 0;
    memmove(t->at + from + size, t->at + to, t->size - to);
    memcpy(t->at + from, bytes, size);
    t->size = t->size - (to - from) + size;
    return 1;
}

static int is_space(char c)
{
    return c == ' ' || c == '\n' || c == '\r' || c == '\t';
}

/* Where the value that begins at `at` ends: past its string, number, word, or closing bracket. */
static size_t end_of(const text *t, size_t at)
{
    size_t depth = 0;
    while (at < t->size) {
        char c = t->at[at];
        if (c == '"') {
            at++;
            while (at < t->size && t->at[at] != '"')
                at += t->at[at] == '\\' ? 2 : 1;
            at++;
        } else if (c == '[' || c == '{') {
            depth++;
            at++;
        } else if (c == ']' || c == '}') {
            if (depth == 0)
                return at;
            depth--;
            at++;
        } else if (depth == 0 && (c == ',' || c == ':' || is_space(c))) {
            return at;
        } else {
            at++;
            if (depth == 0)
                while (at < t->size && strchr(",:]} \n\r\t", t->at[at]) == NULL)
                    at++;
        }
        if (depth == 0)
            return at < t->size ? at : t->size;
    }
    return t->size;
}

/* A place at which a value begins: behind a colon, a comma or an opening bracket. Names of members
 * count too. `SIZE_MAX` where there is none. */
static size_t value_in(const text *t)
{
    size_t start = any(t->size), i;
    for (i = 0; i < t->size; i++) {
        size_t at = (start + i) % t->size;
        if (strchr(":,[{", t->at[at]) != NULL && t->at[at] != 0) {
            at++;
            while (at < t->size && is_space(t->at[at]))
                at++;
            if (at < t->size && strchr("]}", t->at[at]) == NULL)
                return at;
        }
    }
    return SIZE_MAX;
}

/* One change of a JSON text: a value becomes another, is put in twice, or takes the place of one
 * elsewhere; a number changes by a little. */
static void change(text *t)
{
    size_t at = value_in(t), end, other, other_end;
    char number[32];
    if (at == SIZE_MAX)
        return;
    end = end_of(t, at);
    switch (any(6)) {
    case 0:
        if (t->at[at] == '"')
            break;
        /* fall through */
    case 1: {
        const char *value = values[any(sizeof values / sizeof *values)];
        replace(t, at, end, value, strlen(value));
        return;
    }
    case 2:
        other = value_in(t);
        if (other != SIZE_MAX) {
            size_t size;
            char *copy;
            other_end = end_of(t, other);
            size = other_end - other;
            copy = (char *)malloc(size + 1);
            if (copy != NULL) {
                memcpy(copy, t->at + other, size);
                replace(t, at, end, copy, size);
                free(copy);
            }
        }
        return;
    case 3:
        /* An item, or a name with its value, twice. */
        if (end - at < 4096 && t->size + (end - at) + 1 <= t->most) {
            size_t size = end - at + 1;
            char *copy = (char *)malloc(size);
            if (copy != NULL) {
                memcpy(copy, t->at + at, size - 1);
                copy[size - 1] = ',';
                replace(t, at, at, copy, size);
                free(copy);
            }
        }
        return;
    default:
        break;
    }
    if (t->at[at] >= '0' && t->at[at] <= '9') {
        unsigned long long n = strtoull(t->at + at, NULL, 10);
        n = n + any(9) - 4;
        replace(t, at, end, number, (size_t)snprintf(number, sizeof number, "%lld", (long long)n));
    } else if (end > at + 2) {
        /* A letter of a string. */
        size_t place = at + 1 + any(end - at - 2);
        if (strchr("\"\\", t->at[place]) == NULL && strchr("\"\\", t->at[place - 1]) == NULL)
            t->at[place] = (char)('A' + any(58));
    }
}

static uint32_t word(const uint8_t *bytes)
{
    return bytes[0] | (uint32_t)bytes[1] << 8 | (uint32_t)bytes[2] << 16 | (uint32_t)bytes[3] << 24;
}

static void put_word(uint8_t *bytes, size_t value)
{
    int i;
    for (i = 0; i < 4; i++)
        bytes[i] = (uint8_t)(value >> 8 * i);
}

/* A text with some changes; its new size. */
static size_t changed(char *bytes, size_t size, size_t most)
{
    text t;
    size_t times = 1 + any(3);
    /* A zero byte ends the search for numbers. */
    if (most <= size)
        return size;
    t.at = bytes;
    t.size = size;
    t.most = most - 1;
    while (times-- > 0) {
        t.at[t.size] = 0;
        change(&t);
    }
    return t.size;
}

/* A container whose JSON chunk or whose other chunk is changed, with the lengths that it has then. */
static size_t changed_container(uint8_t *bytes, size_t size, size_t most)
{
    size_t json = word(bytes + 12), rest, padded;
    uint8_t *copy;
    if (json > size - 20)
        return LLVMFuzzerMutate(bytes, size, most);
    rest = size - 20 - json;
    if (rest > 8 && any(4) == 0) {
        size_t room = most - 20 - json - 8, left;
        left = LLVMFuzzerMutate(bytes + 28 + json, rest - 8, room) & ~(size_t)3;
        put_word(bytes + 20 + json, left);
        put_word(bytes + 8, 28 + json + left);
        return 28 + json + left;
    }
    copy = (uint8_t *)malloc(rest + 1);
    if (copy == NULL)
        return size;
    memcpy(copy, bytes + 20 + json, rest);
    json = changed((char *)bytes + 20, json, most > rest + 24 ? most - rest - 24 : 0);
    padded = (json + 3) & ~(size_t)3;
    while (json < padded)
        bytes[20 + json++] = ' ';
    memcpy(bytes + 20 + json, copy, rest);
    free(copy);
    put_word(bytes + 12, json);
    put_word(bytes + 8, 20 + json + rest);
    return 20 + json + rest;
}

size_t LLVMFuzzerCustomMutator(uint8_t *bytes, size_t size, size_t most, unsigned int seed)
{
    state = (uint64_t)seed * 2654435769u + 1;
    if (size < 2 || any(4) == 0)
        return LLVMFuzzerMutate(bytes, size, most);
    if (size >= 20 && memcmp(bytes, "glTF", 4) == 0)
        return changed_container(bytes, size, most);
    return changed((char *)bytes, size, most);
}
