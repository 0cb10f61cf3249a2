/* Messages and codes for statuses and faults, the version, and geostation_free, which accepts NULL.
 * This part of the library is C. No proof covers it. */
#include "geostation.h"

/* The library's own release of a handle. It does not accept NULL. */
void geostation_dispose(struct geostation *s);

void geostation_free(struct geostation *s) {
    if (s != NULL) {
        geostation_dispose(s);
    }
}

const char *geostation_status_text(int status) {
    switch (status) {
    case GEOSTATION_OK: return "done";
    case GEOSTATION_MOMENT_EARLIER: return "the time is earlier than that of the last call";
    case GEOSTATION_MOMENT_TOO_LATE: return "the time is over 2^62 ms";
    case GEOSTATION_BAD_FRAME: return "not a valid frame";
    case GEOSTATION_TABLE_FULL: return "the location table is full";
    case GEOSTATION_NO_MEMORY: return "out of memory";
    case GEOSTATION_PAYLOAD_TOO_LONG: return "the payload is over 1394 octets";
    case GEOSTATION_HOP_LIMIT_ZERO: return "the hop limit is 0";
    case GEOSTATION_PORT_ALREADY_OPEN: return "the port is open";
    case GEOSTATION_JITTER_RANGE: return "the jitter is over 750 ms";
    case GEOSTATION_PORTS_FULL: return "64 other ports are open";
    case GEOSTATION_PORT_NOT_OPEN: return "the port isn't open";
    case GEOSTATION_BAD_ARGUMENT: return "an argument is out of its range";
    case GEOSTATION_NO_ROOM: return "a buffer is too small";
    case GEOSTATION_OVER_RATE: return "own packets are over their rate";
    default: return "unknown status";
    }
}

static const char *kind_text(uint32_t kind) {
    static const char *const texts[] = {
        "a truncated packet",
        "a version other than 1",
        "no Common Header after the Basic Header",
        "a reserved bit that is set",
        "no hop left",
        "a next header other than none and BTP-B",
        "an unsupported header type, or one that does not go with the next header",
        "a sub-type that the header type does not have",
        "more hops left than the maximum",
        "a payload length out of range",
        "a group address, or a position out of range",
        "an area out of range, or a circle with a second distance or an angle",
    };
    return kind >= 1 && kind <= 12 ? texts[kind - 1] : "no packet in the frame";
}

const char *geostation_fault_text(uint32_t fault, uint32_t fault_kind) {
    switch (fault) {
    case 0: return "no fault";
    case 1: return "a frame of fewer than 14 octets";
    case 2: return "a frame of another type than 0x8947";
    case 3: return "a frame that is too long";
    case 4: return "octets after the packet";
    case 5:
    case 6: return kind_text(fault_kind);
    default: return "no fault";
    }
}

uint32_t geostation_abi(void) { return GEOSTATION_ABI; }

const char *geostation_version(void) { return GEOSTATION_VERSION; }

/* A buffer for a code. `length` counts bytes that did not fit, too. */
struct code {
    char *out;
    size_t room, length;
};

static void put_text(struct code *code, const char *text) {
    for (; *text != 0; text++) {
        if (code->length + 1 < code->room) {
            code->out[code->length] = *text;
        }
        code->length++;
    }
}

static void put_number(struct code *code, size_t number) {
    char digits[3 * sizeof number + 1];
    char *first = digits + sizeof digits - 1;
    *first = 0;
    do {
        *--first = (char)('0' + number % 10);
        number /= 10;
    } while (number != 0);
    put_text(code, first);
}

static const char *status_code(int status) {
    switch (status) {
    case GEOSTATION_MOMENT_EARLIER: return "S1";
    case GEOSTATION_MOMENT_TOO_LATE: return "S2";
    case GEOSTATION_BAD_FRAME: return "S3";
    case GEOSTATION_TABLE_FULL: return "S4";
    case GEOSTATION_NO_MEMORY: return "S5";
    case GEOSTATION_PAYLOAD_TOO_LONG: return "S6";
    case GEOSTATION_HOP_LIMIT_ZERO: return "S7";
    case GEOSTATION_PORT_ALREADY_OPEN: return "S8 B2";
    case GEOSTATION_JITTER_RANGE: return "S9";
    case GEOSTATION_PORTS_FULL: return "S8 B3";
    case GEOSTATION_PORT_NOT_OPEN: return "S8 B4";
    default: return "";
    }
}

size_t geostation_code(int status, uint32_t fault, uint32_t fault_kind, size_t fault_at,
                       char *out, size_t room) {
    struct code code = { .out = out, .room = room, .length = 0 };
    put_text(&code, status_code(status));
    if (status == GEOSTATION_BAD_FRAME && fault >= 1 && fault <= 6) {
        put_text(&code, " L");
        put_number(&code, fault);
        if (fault >= 5) {
            put_text(&code, " G");
            put_number(&code, fault_kind);
            put_text(&code, " at ");
            put_number(&code, fault_at);
        }
    }
    if (room != 0) {
        out[code.length < room ? code.length : room - 1] = 0;
    }
    return code.length;
}
