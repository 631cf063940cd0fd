/* Names that lines have, which are fewer than those of zk.h; written by dev/names.py. */
#ifndef IN_LINES_H
#define IN_LINES_H

#include "zk.h"

/* Of an operation, or of a part of a multi. */
static inline const char *line_operation_name(int32_t number) {
    switch (number) {
    case 20: case 22: case 102: case 105: case 107:
        return "";
    }
    return zk_operation_name(number);
}

/* Of a reply's err. */
static inline const char *line_error_name(int32_t number) {
    switch (number) {
    case -127: case -125: case -124: case -123: case -122: case -121: case -120: case -14: case -13: case -12:
        return "";
    }
    return zk_error_name(number);
}

/* Of an event's type. */
static inline const char *line_event_name(int64_t number) {
    switch (number) {
    case 5: case 6: case 7:
        return "";
    }
    return zk_event_name(number);
}

#endif
