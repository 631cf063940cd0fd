/* Names of operations and errors: those of the library, and those that it lacks. */
#include "columns.h"

const char *more_operations = "", *more_errors = "";

/* Puts the name that a list has of a number, after `before`; whether it has one. */
static bool put_listed(struct bytes *out, const char *before, const char *list, int32_t number) {
    char key[16];
    size_t length = (size_t)snprintf(key, sizeof key, "%d=", (int)number);
    for (const char *at = list; at != NULL; at = strchr(at, ',')) {
        at += *at == ',';
        if (strncmp(at, key, length) != 0) continue;
        put_text(out, before);
        put(out, at + length, strcspn(at + length, ","));
        return true;
    }
    return false;
}

bool put_error(struct bytes *out, const char *before, int32_t number) {
    const char *name = line_error_name(number);
    if (*name == 0) return put_listed(out, before, more_errors, number);
    put_text(out, before);
    put_text(out, name);
    return true;
}

void put_operation(struct bytes *out, int32_t number) {
    const char *name = line_operation_name(number);
    if (*name != 0) put_text(out, name);
    else if (!put_listed(out, "", more_operations, number)) put_number(out, number);
}
