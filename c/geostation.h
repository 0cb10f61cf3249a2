/**
 * @file geostation.h
 * A GeoNetworking and BTP-B station (EN 302 636-4-1, EN 302 636-5-1) for C11 and C++.
 *
 * Link with `libgeostation.a` or `libgeostation.so.5`. The library has no global state, does no
 * input or output, and reads no clock. You pass in the time, the position and the frames that you
 * received. You get payloads, and frames to send.
 *
 * An example, in which `send` and `use` are functions of yours:
 *
 * @code
 * geostation_handle *s;
 * if (geostation_new(&s, 0x1400020000000001, 514776500, -10000, 64, 8) != GEOSTATION_OK)
 *     return 1;
 * int status = geostation_open_port(s, now, 2002);
 * if (status != GEOSTATION_OK)
 *     return 1;
 *
 * // To send a payload to all stations within 200 m of a point:
 * const struct geostation_area_request area = {
 *     .port = 2002, .lifetime = 6 << 2 | 2, .max_hops = 5, .shape = GEOSTATION_CIRCLE,
 *     .latitude = 514776500, .longitude = -10000, .a = 200,
 * };
 * uint8_t frame[GEOSTATION_FRAME_MAX];
 * size_t length;
 * status = geostation_send_gbc(s, now, &area, payload, payload_length,
 *                              frame, sizeof frame, &length);
 * if (status == GEOSTATION_OK)
 *     send(frame, length);
 * else
 *     puts(geostation_status_text(status));
 *
 * // For each frame that you received:
 * struct geostation_reception r;
 * uint8_t relay[GEOSTATION_FRAME_MAX];
 * status = geostation_receive(s, now, got, got_length, &r, relay, sizeof relay);
 * if (status == GEOSTATION_OK && r.delivered)
 *     use(r.port, got + r.payload_start, r.payload_length);
 * if (r.relay_length != 0)
 *     send(relay, r.relay_length);      // after a random wait: see geostation_receive
 *
 * geostation_free(s);
 * @endcode
 *
 * Rules for all functions:
 *
 * - Times (`now`) are in milliseconds and never go back. They are sent as time stamps. So on the
 *   air they count from 2004-01-01 in TAI: Unix time in ms - 1072915200000 + 5000. (TAI was 32 s
 *   ahead of UTC then, and is 37 s ahead now.) Read CLOCK_REALTIME once, at the start, and from
 *   then on add the progress of CLOCK_MONOTONIC, as c/example.c does. A simulation may begin at any
 *   time.
 * - Coordinates are in 0.1 microdegree.
 * - A frame is an Ethernet frame without its check sequence: 6 bytes of destination address, 6
 *   bytes of source address, the EtherType 0x8947, and from byte 14 the packet.
 * - A GN address has 64 bits. From the top: 1 bit that is 1 if the address was set by hand, 5 bits
 *   for the station type (5: passenger car, 15: road-side unit), 10 bits that are 0, and 48 bits
 *   that are the MAC of the network interface. A road-side unit with the MAC 02:00:00:00:00:01 has
 *   0x3c00020000000001. These 48 bits are the source address of each frame of the station, and
 *   frames to them are its own.
 * - A function that returns anything but #GEOSTATION_OK leaves the station unchanged.
 * - Pointers must not be NULL unless the function says so. An input buffer (payload, frame, line)
 *   may be NULL if its length is 0.
 * - Buffers and structs that you pass to one call must not overlap, not even in parts. Only `plain`
 *   of geostation_receive_verified() may lie inside `frame`.
 * - A buffer must be as long as you say, and at most `PTRDIFF_MAX` bytes. What a function writes to
 *   must be aligned as its type requires.
 * - A handle comes from geostation_new() or geostation_new_from_config(). Do not use it
 *   after geostation_free(). Do not use it in two calls at once; calls with a const handle count
 *   too.
 *
 * The library cannot check the last four rules. With gcc and clang, a program that ignores the
 * status of a call is warned.
 */
#ifndef GEOSTATION_H
#define GEOSTATION_H

#include <stddef.h>
#include <stdint.h>

#if defined(SIZE_MAX) && SIZE_MAX < 0xffffffffffffffff
#error "geostation needs a 64-bit target: all lengths in its contracts have 64 bits"
#endif

/** @cond */
/* A program that ignores the status of a call is warned about it (gcc and clang). */
#ifndef GEOSTATION_NODISCARD
#ifdef __GNUC__
#define GEOSTATION_NODISCARD __attribute__((warn_unused_result))
#else
#define GEOSTATION_NODISCARD
#endif
#endif
/** @endcond */

#ifdef __cplusplus
extern "C" {
#endif

/**
 * @defgroup version Version
 * A program that loads the library at run time, or that has its own copy of the structs, must
 * compare geostation_abi() with #GEOSTATION_ABI before any other call.
 * @{
 */

/** The version of the library. */
#define GEOSTATION_VERSION "0.3.0"
/** The version of the structs and functions in this header. */
#define GEOSTATION_ABI 5

/** @} */

/**
 * @defgroup limits Limits
 * @{
 */

/** The longest frame, in bytes. A buffer to which a frame is written needs this size. */
#define GEOSTATION_FRAME_MAX 1468
/**
 * The longest secured frame, in bytes. The buffers to which geostation_receive_verified() and
 * geostation_seal() write need this size, and it is enough for each frame that geostation_release()
 * writes. The buffer of geostation_handle_json() needs it for a line whose command is `seal` or
 * `release`, or `receive` with a key `plain`.
 */
#define GEOSTATION_SECURED_FRAME_MAX 2310
/** The longest line that geostation_handle_json() reads, in bytes. A longer one is malformed. */
#define GEOSTATION_LINE_MAX 65536
/** The longest answer of geostation_handle_json(), in bytes. A buffer for it needs this size. */
#define GEOSTATION_ANSWER_MAX 16384
/** The longest payload that can be sent, in bytes. */
#define GEOSTATION_PAYLOAD_MAX 1394
/** The longest code of geostation_code(), with its 0, in bytes. A buffer for it needs this size. */
#define GEOSTATION_CODE_MAX 42
/** The greatest jitter of a beacon, in ms. */
#define GEOSTATION_JITTER_MAX 750
/** The greatest rate and the greatest burst of a limit, in frames per second and in frames. */
#define GEOSTATION_RATE_MAX 1000000
/** The latest time that a call accepts, in ms. */
#define GEOSTATION_LAST_MOMENT (UINT64_C(1) << 62)

/** @} */

/**
 * @defgroup types Constants and structs
 * @{
 */

/** The status that a function returns. The code in parentheses is the one that logs show. */
enum geostation_status {
    /** The call succeeded. */
    GEOSTATION_OK = 0,
    /**
     * (S1) The time `now` is earlier than that of the last call.
     *
     * Your clock went back, or two threads took their times in another order than they called.
     * Repeat the call with the time of the last call, or a later one: nothing was done. If a call
     * had a time far in the future, the station refuses all calls until then: free it, and create
     * a new one.
     */
    GEOSTATION_MOMENT_EARLIER = 1,
    /** (S2) The time `now` is over 2^62 ms, #GEOSTATION_LAST_MOMENT. */
    GEOSTATION_MOMENT_TOO_LATE = 2,
    /** (S3) Not a valid frame. The `fault` fields say why. */
    GEOSTATION_BAD_FRAME = 3,
    /** (S4) The location table is full, and the packet's source is not in it. */
    GEOSTATION_TABLE_FULL = 4,
    /** (S5) Out of memory. */
    GEOSTATION_NO_MEMORY = 5,
    /** (S6) The payload is over 1394 octets, #GEOSTATION_PAYLOAD_MAX. */
    GEOSTATION_PAYLOAD_TOO_LONG = 6,
    /** (S7) The hop limit is 0. */
    GEOSTATION_HOP_LIMIT_ZERO = 7,
    /** (S8 B2) The port is open. */
    GEOSTATION_PORT_ALREADY_OPEN = 8,
    /** (S9) The jitter is over 750 ms, #GEOSTATION_JITTER_MAX. */
    GEOSTATION_JITTER_RANGE = 9,
    /** (S8 B3) 64 other ports are open. */
    GEOSTATION_PORTS_FULL = 10,
    /** (S8 B4) The port isn't open. */
    GEOSTATION_PORT_NOT_OPEN = 11,
    /** An argument is out of its range. It has no code. */
    GEOSTATION_BAD_ARGUMENT = 20,
    /**
     * A buffer is smaller than #GEOSTATION_FRAME_MAX, #GEOSTATION_SECURED_FRAME_MAX or
     * #GEOSTATION_ANSWER_MAX. It has no code.
     */
    GEOSTATION_NO_ROOM = 21,
    /** Own packets are over their rate (`own_rate` and `own_burst`). It has no code. */
    GEOSTATION_OVER_RATE = 22
};

/** Why a frame was ignored. */
enum geostation_why {
    /** The frame is addressed to another link address. */
    GEOSTATION_NOT_FOR_ME = 1,
    /** The station itself is the source of the packet. */
    GEOSTATION_OWN_SOURCE = 2,
    /** A BEACON or SHB came from another link address than its source's. */
    GEOSTATION_SENDER_MISMATCH = 3,
    /** The sequence number of a GBC or GAC is in the duplicate packet list of its source. */
    GEOSTATION_DUPLICATE = 4,
    /**
     * A GBC or GAC that was delivered before (`deliver_once`): its source, its sequence number and
     * its time stamp are those of one of the last 1024 packets that were delivered, whose lifetime
     * is not over. It is neither delivered nor forwarded. Its source's entry in the location table
     * is updated.
     */
    GEOSTATION_REPEATED = 5
};

/** How a station forwards a GBC inside its area (EN 302 636-4-1, annex F). */
enum geostation_area_forwarding {
    /** At once (simple forwarding). */
    GEOSTATION_SIMPLE = 0,
    /**
     * After a wait, and only if others have not sent the same frame meanwhile (contention-based
     * forwarding). The farther the sender is, the shorter the wait.
     */
    GEOSTATION_CONTENTION = 1
};

/** The shape of an area (EN 302 931). */
enum geostation_shape {
    /** A circle. */
    GEOSTATION_CIRCLE = 0,
    /** A rectangle. */
    GEOSTATION_RECTANGLE = 1,
    /** An ellipse. */
    GEOSTATION_ELLIPSE = 2
};

/** The type of a packet. */
enum geostation_kind {
    /** A beacon: it carries the position of its source, and no payload. */
    GEOSTATION_BEACON = 1,
    /** A single-hop broadcast, for all stations in radio range. */
    GEOSTATION_SHB = 2,
    /** A geobroadcast, for all stations in an area. */
    GEOSTATION_GBC = 3,
    /** A geoanycast, for any one station in an area. */
    GEOSTATION_GAC = 4
};

/** The command of a line of JSON, its `do`. */
enum geostation_command {
    GEOSTATION_COMMAND_MOVE = 1,         /**< `move` */
    GEOSTATION_COMMAND_OPEN = 2,         /**< `open` */
    GEOSTATION_COMMAND_CLOSE = 3,        /**< `close` */
    GEOSTATION_COMMAND_TICK = 4,         /**< `tick` */
    GEOSTATION_COMMAND_SHB = 5,          /**< `shb` */
    GEOSTATION_COMMAND_GBC = 6,          /**< `gbc` */
    GEOSTATION_COMMAND_GAC = 7,          /**< `gac` */
    GEOSTATION_COMMAND_RESTART = 8,      /**< `restart` */
    GEOSTATION_COMMAND_RECEIVE = 9,      /**< `receive` */
    GEOSTATION_COMMAND_NEXT_BEACON = 10, /**< `next_beacon` */
    GEOSTATION_COMMAND_NEIGHBOURS = 11,  /**< `neighbours` */
    GEOSTATION_COMMAND_LOOK_UP = 12,     /**< `look_up` */
    GEOSTATION_COMMAND_READ_FRAME = 13,  /**< `read_frame` */
    GEOSTATION_COMMAND_COUNTS = 14,      /**< `counts` */
    GEOSTATION_COMMAND_SEAL = 15,        /**< `seal` */
    GEOSTATION_COMMAND_RELEASE = 16,     /**< `release` */
    GEOSTATION_COMMAND_NEXT_DUE = 17     /**< `next_due` */
};

/** The outcome of a line of JSON. */
enum geostation_outcome {
    /** The line is blank. There is no answer. */
    GEOSTATION_OUTCOME_BLANK = 0,
    /** It was executed. */
    GEOSTATION_OUTCOME_DONE = 1,
    /** It lacks the right that its command needs. Nothing changed. */
    GEOSTATION_OUTCOME_NOT_ALLOWED = 2,
    /** It was refused: see `status`. */
    GEOSTATION_OUTCOME_REFUSED = 3,
    /** Its command is missing or unknown. */
    GEOSTATION_OUTCOME_UNKNOWN_COMMAND = 4,
    /** It can't be read for another reason. */
    GEOSTATION_OUTCOME_MALFORMED = 5
};

/** A right that a line of JSON needs. Add those that it has. */
enum geostation_right {
    /** To send a packet: `shb`, `gbc`, `gac`, and `tick`. */
    GEOSTATION_RIGHT_SEND = 1,
    /** To receive a frame: `receive`. */
    GEOSTATION_RIGHT_RECEIVE = 2,
    /** To move the station: `move`. */
    GEOSTATION_RIGHT_MOVE = 4,
    /** To open and close ports: `open`, `close`. */
    GEOSTATION_RIGHT_PORTS = 8,
    /** To restart the station: `restart`. */
    GEOSTATION_RIGHT_RESTART = 16,
    /** All of them. */
    GEOSTATION_RIGHTS_ALL = 31
};

/**
 * @typedef geostation_handle
 * An opaque station handle.
 *
 * In C, `struct geostation` is the same type. In C++, `geostation` is the namespace of
 * geostation.hpp, so the struct has this name there.
 */
#ifdef __cplusplus
struct geostation_handle;
#else
typedef struct geostation geostation_handle;
#endif

/**
 * The result of geostation_receive() and geostation_receive_verified().
 *
 * If the status is not #GEOSTATION_OK, all fields are 0, except the fault fields in case of
 * #GEOSTATION_BAD_FRAME. `media`, and `source` to `hops_left`, are set for each frame with status
 * #GEOSTATION_OK, whether it was ignored or not.
 */
struct geostation_reception {
    uint32_t ignored;      /**< why the frame was ignored (enum geostation_why), or 0 */
    uint32_t delivered;    /**< 1 if a payload is delivered, otherwise 0 */
    uint16_t port;         /**< destination port of the payload (BTP-B) */
    uint16_t info;         /**< destination port info of the payload */
    uint8_t media[4];      /**< SHB: its media-dependent data, otherwise zeros */
    size_t payload_start;  /**< offset of the payload in the received frame, or in `plain` */
    size_t payload_length; /**< length of the payload, in bytes */
    size_t relay_length;   /**< number of bytes to send from the relay buffer, or 0 */
    uint32_t fault;        /**< #GEOSTATION_BAD_FRAME: 1 to 6, for L1 to L6 */
    uint32_t fault_kind;   /**< if `fault` is 5 or 6: 1 to 12, for G1 to G12 */
    size_t fault_at;       /**< if `fault` is 5 or 6: offset of the faulty field in the packet */
    uint64_t source;       /**< GN address of the packet's source */
    uint32_t kind;         /**< type of the packet (enum geostation_kind) */
    uint16_t number;       /**< sequence number of a GBC or GAC, otherwise 0 */
    uint8_t traffic_class; /**< traffic class byte; the forwarded frame has the same */
    uint8_t hops_left;     /**< remaining hop limit (RHL), from 1 */
    uint64_t due;          /**< if `held` is 1: time at which the frame is due, otherwise 0 */
    uint32_t held;         /**< 1 if the frame to forward is held, and `relay_length` is 0 */
    uint32_t cancelled;    /**< 1 if this frame has cancelled a held one, otherwise 0 */
};

/** Parameters of a station. Call geostation_config_init(), then change what you need. */
struct geostation_config {
    uint64_t size;      /**< sizeof(struct geostation_config), set by geostation_config_init() */
    uint64_t address;   /**< GN address, not a group address (default 0) */
    int32_t latitude;   /**< in 0.1 microdegree, -900000000 to 900000000 (default 0) */
    int32_t longitude;  /**< in 0.1 microdegree, -1800000000 to 1800000000 (default 0) */
    uint16_t capacity;  /**< size of the location table, 1 to 4096 (default 64) */
    uint16_t remember;  /**< length of each duplicate packet list, 1 to 64 (default 8) */
    uint16_t mobile;    /**< 0 for a station that does not move, otherwise not 0 (default 1) */
    uint16_t number;    /**< sequence number of the first packet for an area (default 0) */

    /* Limits on what is sent. A rate or a burst of 0 turns a limit off. A limit per source needs a
     * limit of all: forward_burst below 256, and source_burst * forward_rate at most
     * (256 - forward_burst) * source_rate. Otherwise the config is #GEOSTATION_BAD_ARGUMENT. With
     * both, sources share what is left of forward_burst once a fifth of it is used (C.md). */
    uint32_t forward_rate;  /**< forwarded frames per second, 0 to 1000000 (default 100) */
    uint32_t forward_burst; /**< frames forwarded at once, 0 to 1000000 (default 50) */
    uint32_t source_rate;   /**< forwarded frames per second of each source (default 20) */
    uint32_t source_burst;  /**< frames of each source forwarded at once (default 20) */
    uint32_t own_rate;      /**< own packets per second, not beacons (default 50) */
    uint32_t own_burst;     /**< own packets sent at once (default 50) */
    /** greatest RHL of a packet of others that is forwarded, 0 to 255; 0: any (default 10) */
    uint32_t hop_cap;
    /** 0: a packet for an area may be delivered twice (default 1: #GEOSTATION_REPEATED) */
    uint32_t deliver_once;

    /* Contention: see geostation_release(). All five fields are judged, also with
     * #GEOSTATION_SIMPLE. */
    uint32_t area_forwarding;   /**< enum geostation_area_forwarding (default 0) */
    uint32_t contention_max;    /**< greatest wait, 1 to 1000 ms (default 100) */
    uint32_t contention_min;    /**< least wait, 0 to `contention_max`, in ms (default 1) */
    uint32_t contention_range;  /**< distance of the least wait, 1 to 65535 m (default 1000) */
    uint32_t contention_copies; /**< copies that cancel a held frame, 1 to 3 (default 2) */
};

/** Counters of a station since it was created. A counter stops at `UINT64_MAX`. */
struct geostation_counts {
    /** frames passed to geostation_receive() and geostation_receive_verified(), or in JSON */
    uint64_t received;
    uint64_t accepted;  /**< frames whose packet was accepted */
    uint64_t delivered; /**< payloads that were delivered */
    uint64_t relayed;   /**< frames that were written to a relay buffer or released */
    /** Ignored frames, by enum geostation_why. */
    struct {
        uint64_t not_for_me;      /**< #GEOSTATION_NOT_FOR_ME */
        uint64_t own_source;      /**< #GEOSTATION_OWN_SOURCE */
        uint64_t sender_mismatch; /**< #GEOSTATION_SENDER_MISMATCH */
        uint64_t duplicate;       /**< #GEOSTATION_DUPLICATE */
    } ignored;
    /** Failed calls, by code. */
    struct {
        uint64_t moment_earlier;  /**< S1 */
        uint64_t moment_too_late; /**< S2 */
        uint64_t frame;           /**< S3 */
        uint64_t table_full;      /**< S4 */
        uint64_t no_memory;       /**< S5 */
        uint64_t other;           /**< S6 to S9 */
    } refused;
    /** The station's own packets, by type. */
    struct {
        uint64_t beacons;       /**< BEACON */
        uint64_t single_hop;    /**< SHB */
        uint64_t geobroadcasts; /**< GBC */
        uint64_t geoanycasts;   /**< GAC */
    } sent;
    uint64_t suppressed; /**< frames that were not forwarded because of a limit */
    uint64_t repeated;   /**< packets that were delivered before: #GEOSTATION_REPEATED */
    uint64_t over_rate;  /**< calls that failed with #GEOSTATION_OVER_RATE */
    /** Held frames; all 0 without contention. Those that wait are `held` less the next three. */
    struct {
        uint64_t held;      /**< frames that were held */
        uint64_t released;  /**< frames that geostation_release() wrote */
        uint64_t cancelled; /**< frames that others had sent */
        uint64_t dropped;   /**< frames dropped: a restart, over 1 s late, or a limit */
        uint64_t full;      /**< frames that were not held because 64 others were */
    } contention;
};

/** A request for a single-hop broadcast (SHB). */
struct geostation_shb_request {
    uint16_t port;         /**< destination port (BTP-B) */
    uint16_t info;         /**< destination port info */
    uint8_t traffic_class; /**< traffic class byte of the packet: see geostation_area_request */
};

/** What a single-hop broadcast (SHB) has besides its request: see geostation_send_shb_with(). */
struct geostation_shb_options {
    uint8_t lifetime; /**< lifetime byte: see geostation_area_request */
    /**
     * media-dependent data, in the order in which they are sent. On ITS-G5 (EN 302 636-4-2), the
     * first byte is the channel busy ratio that the station measured, the second is the greatest
     * that its neighbours reported, and the third has its transmit power. Neighbours take zeros as
     * measured values. The library neither reads nor changes the bytes.
     */
    uint8_t media[4];
};

/** A request for a geobroadcast (GBC) or a geoanycast (GAC). */
struct geostation_area_request {
    uint16_t port;         /**< destination port (BTP-B) */
    uint16_t info;         /**< destination port info */
    /**
     * traffic class byte of the packet (EN 302 636-4-1, 9.7.5): bit 7 is store-carry-forward (SCF),
     * bit 6 channel offload, bits 5 to 0 are the traffic class ID. Stations of this library carry
     * the byte, and do nothing with it.
     */
    uint8_t traffic_class;
    /**
     * lifetime byte: the upper 6 bits are a multiplier; the lower 2 bits are its base: 0 = 50 ms, 1
     * = 1 s, 2 = 10 s, 3 = 100 s. 0x1a (6 << 2 | 2) is 60 s, 0x29 (10 << 2 | 1) is 10 s.
     */
    uint8_t lifetime;
    /**
     * hop limit, from 1. Stations with the default limits do not forward a packet with more than 10
     * hops left (`hop_cap`).
     */
    uint8_t max_hops;
    uint8_t shape;         /**< shape of the area (enum geostation_shape) */
    int32_t latitude;      /**< latitude of the centre, in 0.1 microdegree */
    int32_t longitude;     /**< longitude of the centre, in 0.1 microdegree */
    uint16_t a;            /**< radius, or distance from the centre along `angle`, in m, from 1 */
    uint16_t b;            /**< distance from the centre across `angle`; not read for a circle */
    uint16_t angle;        /**< degrees clockwise from north, 0 to 359; not read for a circle */
};

/** A position vector: where a station says that it is. */
struct geostation_vector {
    uint64_t address;   /**< GN address of the station */
    uint32_t timestamp; /**< time of the position, in ms modulo 2^32 */
    int32_t latitude;   /**< in 0.1 microdegree */
    int32_t longitude;  /**< in 0.1 microdegree */
    int16_t speed;      /**< in 0.01 m/s, -16384 to 16383; negative means backwards */
    uint16_t heading;   /**< in 0.1 degree, clockwise from north */
    uint8_t accurate;   /**< position accuracy indicator (PAI), 0 or 1 */
};

/** The destination area of a packet. */
struct geostation_area {
    int32_t latitude;  /**< latitude of the centre, in 0.1 microdegree */
    int32_t longitude; /**< longitude of the centre, in 0.1 microdegree */
    uint16_t a;        /**< radius, or distance from the centre along `angle`, in m */
    uint16_t b;        /**< distance from the centre across `angle`, in m; 0 for a circle */
    uint16_t angle;    /**< degrees clockwise from north, 0 to 359; 0 for a circle */
    uint8_t shape;     /**< shape (enum geostation_shape) */
};

/** The payload of a packet, and its port. */
struct geostation_message {
    size_t payload_start;  /**< offset of the payload in the frame */
    size_t payload_length; /**< length of the payload, in bytes */
    uint16_t port;         /**< destination port (BTP-B) */
    uint16_t info;         /**< destination port info */
};

/** What a line of JSON asked for, and the outcome: see geostation_handle_line(). */
struct geostation_line_result {
    uint32_t command;      /**< its command (enum geostation_command), or 0 if it has none */
    uint32_t outcome;      /**< the outcome (enum geostation_outcome) */
    int32_t status;        /**< why it was refused (enum geostation_status), otherwise 0 */
    uint16_t port;         /**< port that it opens or closes, or to which it sends; otherwise 0 */
    uint16_t number;       /**< sequence number of the GBC or GAC that it sent, otherwise 0 */
    size_t payload_length; /**< length of the payload that it sends or would send, otherwise 0 */
    size_t answer_length;  /**< length of the answer, 0 for a blank line */
    size_t id_length;      /**< length of the value of `id` in the answer, or 0. If there is one,
                                it begins after the 6 bytes `{"id":` */
    size_t frame_length;   /**< length of the frame to send, or that was sealed, or 0 */
    struct geostation_vector vector; /**< position vector of the station after the line */
};

/** All fields of a frame. If the bytes are not a valid frame, all is 0 except the fault fields. */
struct geostation_packet {
    uint8_t target[6];                 /**< destination link address */
    uint8_t source[6];                 /**< source link address */
    uint32_t kind;                     /**< type of the packet (enum geostation_kind) */
    struct geostation_vector vector;   /**< position vector of the source */
    uint8_t hops_left;                 /**< remaining hop limit (RHL), from 1 */
    uint8_t max_hops;                  /**< maximum hop limit (MHL), from 1 */
    uint8_t lifetime;                  /**< lifetime byte: see geostation_area_request */
    uint8_t traffic_class;             /**< traffic class byte: see geostation_area_request */
    uint8_t mobile;                    /**< 1 if the source is mobile, otherwise 0 */
    uint8_t media[4];                  /**< SHB: see geostation_shb_options; otherwise zeros */
    uint16_t number;                   /**< GBC, GAC: sequence number */
    struct geostation_area area;       /**< GBC, GAC: destination area */
    struct geostation_message message; /**< SHB, GBC, GAC: payload and port */
    uint32_t fault;                    /**< #GEOSTATION_BAD_FRAME: 1 to 5, for L1 to L5 */
    uint32_t fault_kind;               /**< if `fault` is 5: 1 to 12, for G1 to G12 */
    size_t fault_at;                   /**< if `fault` is 5: offset of the faulty field */
};

/** @} */

/**
 * @addtogroup version
 * @{
 */

/**
 * Returns the #GEOSTATION_ABI with which the library was built.
 * @return the version of its structs and functions
 */
uint32_t geostation_abi(void);

/**
 * Returns the #GEOSTATION_VERSION of the library.
 * @return a string that lives as long as the program
 */
const char *geostation_version(void);

/** @} */

/**
 * @defgroup life Creation and release
 * @{
 */

/**
 * Creates a station.
 *
 * The station is mobile, its first packet for an area has sequence number 0, and its limits are the
 * defaults of geostation_config. Use geostation_new_from_config() for other values.
 *
 * @param[out] out   the handle, or NULL if the status is not #GEOSTATION_OK
 * @param address    GN address, not a group address
 * @param latitude   in 0.1 microdegree, -900000000 to 900000000
 * @param longitude  in 0.1 microdegree, -1800000000 to 1800000000
 * @param capacity   size of the location table, 1 to 4096
 * @param remember   length of each duplicate packet list, 1 to 64
 * @return #GEOSTATION_OK, #GEOSTATION_BAD_ARGUMENT or #GEOSTATION_NO_MEMORY
 */
int geostation_new(geostation_handle **out, uint64_t address, int32_t latitude, int32_t longitude,
                   uint16_t capacity, uint8_t remember)
    GEOSTATION_NODISCARD;

/**
 * Fills a struct with the defaults, which are listed at its fields.
 * @param[out] config  the struct
 */
void geostation_config_init(struct geostation_config *config);

/**
 * Creates a station with the parameters in a struct.
 *
 * For a road-side unit, set `mobile` to 0. Choose `number` at random at each start, or continue the
 * numbering from before (geostation_next_number()): other stations still have the last sequence
 * numbers in their duplicate packet lists, until they have accepted nothing from this address for
 * 20 s. docs/C.md says more ("Sequence numbers after a restart").
 *
 * @param[out] out  the handle, or NULL if the status is not #GEOSTATION_OK
 * @param config    the parameters, initialised with geostation_config_init()
 * @return #GEOSTATION_OK, #GEOSTATION_BAD_ARGUMENT (also if `size` is wrong) or
 *         #GEOSTATION_NO_MEMORY
 */
int geostation_new_from_config(geostation_handle **out, const struct geostation_config *config)
    GEOSTATION_NODISCARD;
/** Deprecated: the former name of geostation_new_from_config(). */
#define geostation_new_with geostation_new_from_config

/**
 * Frees a station.
 * @param s  the handle; NULL does nothing
 */
void geostation_free(geostation_handle *s);

/** @} */

/**
 * @defgroup state Position and ports
 * @{
 */

/**
 * Sets the position of the station. Its time stamp is `now`.
 *
 * @param s          the station
 * @param now        time, in ms
 * @param latitude   in 0.1 microdegree, -900000000 to 900000000
 * @param longitude  in 0.1 microdegree, -1800000000 to 1800000000
 * @param accurate   position accuracy indicator (PAI): 0 or not 0
 * @param speed      in 0.01 m/s, -16384 to 16383; negative means backwards
 * @param heading    in 0.1 degree, clockwise from north
 * @return #GEOSTATION_OK, #GEOSTATION_MOMENT_EARLIER, #GEOSTATION_MOMENT_TOO_LATE or
 *         #GEOSTATION_BAD_ARGUMENT
 */
int geostation_move(geostation_handle *s, uint64_t now, int32_t latitude, int32_t longitude,
                    uint8_t accurate, int16_t speed, uint16_t heading)
    GEOSTATION_NODISCARD;

/**
 * Sets the position of the station, with the time stamp of the fix.
 *
 * Use it for a GNSS receiver, which reports a position that is already slightly old.
 *
 * @param s          the station
 * @param now        time, in ms
 * @param timestamp  time of the fix, in ms since 2004-01-01 TAI, modulo 2^32
 * @param latitude   in 0.1 microdegree, -900000000 to 900000000
 * @param longitude  in 0.1 microdegree, -1800000000 to 1800000000
 * @param accurate   position accuracy indicator (PAI): 0 or not 0
 * @param speed      in 0.01 m/s, -16384 to 16383; negative means backwards
 * @param heading    in 0.1 degree, clockwise from north
 * @return #GEOSTATION_OK, #GEOSTATION_MOMENT_EARLIER, #GEOSTATION_MOMENT_TOO_LATE or
 *         #GEOSTATION_BAD_ARGUMENT
 */
int geostation_move_at(geostation_handle *s, uint64_t now, uint32_t timestamp,
                       int32_t latitude, int32_t longitude, uint8_t accurate, int16_t speed,
                       uint16_t heading)
    GEOSTATION_NODISCARD;

/**
 * Opens a port. Payloads are delivered to open ports only.
 *
 * @param s     the station
 * @param now   time, in ms
 * @param port  destination port (BTP-B)
 * @return #GEOSTATION_OK, #GEOSTATION_MOMENT_EARLIER, #GEOSTATION_MOMENT_TOO_LATE,
 *         #GEOSTATION_PORT_ALREADY_OPEN or #GEOSTATION_PORTS_FULL
 */
int geostation_open_port(geostation_handle *s, uint64_t now, uint16_t port)
    GEOSTATION_NODISCARD;

/**
 * Closes a port.
 *
 * @param s     the station
 * @param now   time, in ms
 * @param port  destination port (BTP-B)
 * @return #GEOSTATION_OK, #GEOSTATION_MOMENT_EARLIER, #GEOSTATION_MOMENT_TOO_LATE or
 *         #GEOSTATION_PORT_NOT_OPEN
 */
int geostation_close_port(geostation_handle *s, uint64_t now, uint16_t port)
    GEOSTATION_NODISCARD;

/**
 * Restarts the station: empties its location table and closes its ports.
 *
 * Its address, its position and its counters stay. Its next beacon is due at once (jitter 0). Held
 * frames are dropped.
 *
 * @param s       the station
 * @param now     time, in ms
 * @param number  sequence number of the next packet for an area
 * @return #GEOSTATION_OK, #GEOSTATION_MOMENT_EARLIER or #GEOSTATION_MOMENT_TOO_LATE
 */
int geostation_restart(geostation_handle *s, uint64_t now, uint16_t number)
    GEOSTATION_NODISCARD;

/** @} */

/**
 * @defgroup sending Sending
 * Each of these functions writes a frame, which you send. If the status is not #GEOSTATION_OK,
 * `*length` is 0.
 * @{
 */

/**
 * Writes a beacon frame if one is due.
 *
 * A beacon is due 3000 ms plus `jitter` after the last packet that the station itself sent. The
 * first beacon is due at time `jitter`. After geostation_restart(), one is due `jitter` ms later.
 * geostation_beacon_at() returns the time at which to call this function.
 *
 * Each own packet postpones the beacon. So a station that sends a GBC or GAC at least every 3 s
 * sends no beacon, and others that have not received one do not take it as a neighbour. An SHB does
 * the work of a beacon.
 *
 * @param s            the station
 * @param now          time, in ms
 * @param jitter       0 to #GEOSTATION_JITTER_MAX, in ms, chosen at random for each beacon
 * @param[out] frame   the frame
 * @param room         size of `frame`, at least #GEOSTATION_FRAME_MAX
 * @param[out] length  length of the frame, or 0 if no beacon is due
 * @return #GEOSTATION_OK, #GEOSTATION_MOMENT_EARLIER, #GEOSTATION_MOMENT_TOO_LATE,
 *         #GEOSTATION_NO_MEMORY, #GEOSTATION_JITTER_RANGE or #GEOSTATION_NO_ROOM
 */
int geostation_tick(geostation_handle *s, uint64_t now, uint16_t jitter,
                    uint8_t *frame, size_t room, size_t *length)
    GEOSTATION_NODISCARD;

/**
 * Writes the frame of a single-hop broadcast (SHB), for all stations in radio range.
 *
 * Its lifetime is 60 s (0x1a), and its media-dependent data are zeros.
 *
 * @param s               the station
 * @param now             time, in ms
 * @param request         port and traffic class
 * @param payload         the payload; may be NULL if `payload_length` is 0
 * @param payload_length  0 to #GEOSTATION_PAYLOAD_MAX
 * @param[out] frame      the frame
 * @param room            size of `frame`, at least #GEOSTATION_FRAME_MAX
 * @param[out] length     length of the frame
 * @return #GEOSTATION_OK, #GEOSTATION_MOMENT_EARLIER, #GEOSTATION_MOMENT_TOO_LATE,
 *         #GEOSTATION_NO_MEMORY, #GEOSTATION_PAYLOAD_TOO_LONG, #GEOSTATION_NO_ROOM or
 *         #GEOSTATION_OVER_RATE
 */
int geostation_send_shb(geostation_handle *s, uint64_t now,
                        const struct geostation_shb_request *request,
                        const uint8_t *payload, size_t payload_length,
                        uint8_t *frame, size_t room, size_t *length)
    GEOSTATION_NODISCARD;

/**
 * Writes the frame of a geobroadcast (GBC), for all stations in an area.
 *
 * The stations that receive it forward it only up to their own `hop_cap`, 10 by default. With
 * `max_hops` above their cap the call succeeds, and the packet goes no further than the stations in
 * radio range.
 *
 * @param s               the station
 * @param now             time, in ms
 * @param request         port, area and hop limit
 * @param payload         the payload; may be NULL if `payload_length` is 0
 * @param payload_length  0 to #GEOSTATION_PAYLOAD_MAX
 * @param[out] frame      the frame
 * @param room            size of `frame`, at least #GEOSTATION_FRAME_MAX
 * @param[out] length     length of the frame
 * @return #GEOSTATION_OK, #GEOSTATION_MOMENT_EARLIER, #GEOSTATION_MOMENT_TOO_LATE,
 *         #GEOSTATION_NO_MEMORY, #GEOSTATION_PAYLOAD_TOO_LONG, #GEOSTATION_HOP_LIMIT_ZERO,
 *         #GEOSTATION_BAD_ARGUMENT (the area is not valid), #GEOSTATION_NO_ROOM or
 *         #GEOSTATION_OVER_RATE
 */
int geostation_send_gbc(geostation_handle *s, uint64_t now,
                        const struct geostation_area_request *request,
                        const uint8_t *payload, size_t payload_length,
                        uint8_t *frame, size_t room, size_t *length)
    GEOSTATION_NODISCARD;

/**
 * Writes the frame of a geoanycast (GAC), for any one station in an area. For `max_hops` above 10,
 * see geostation_send_gbc().
 *
 * @param s               the station
 * @param now             time, in ms
 * @param request         port, area and hop limit
 * @param payload         the payload; may be NULL if `payload_length` is 0
 * @param payload_length  0 to #GEOSTATION_PAYLOAD_MAX
 * @param[out] frame      the frame
 * @param room            size of `frame`, at least #GEOSTATION_FRAME_MAX
 * @param[out] length     length of the frame
 * @return #GEOSTATION_OK, #GEOSTATION_MOMENT_EARLIER, #GEOSTATION_MOMENT_TOO_LATE,
 *         #GEOSTATION_NO_MEMORY, #GEOSTATION_PAYLOAD_TOO_LONG, #GEOSTATION_HOP_LIMIT_ZERO,
 *         #GEOSTATION_BAD_ARGUMENT (the area is not valid), #GEOSTATION_NO_ROOM or
 *         #GEOSTATION_OVER_RATE
 */
int geostation_send_gac(geostation_handle *s, uint64_t now,
                        const struct geostation_area_request *request,
                        const uint8_t *payload, size_t payload_length,
                        uint8_t *frame, size_t room, size_t *length)
    GEOSTATION_NODISCARD;

/**
 * Writes the frame of a single-hop broadcast (SHB) with a given lifetime.
 *
 * @param s               the station
 * @param now             time, in ms
 * @param request         port and traffic class
 * @param lifetime        lifetime byte: see geostation_area_request
 * @param payload         the payload; may be NULL if `payload_length` is 0
 * @param payload_length  0 to #GEOSTATION_PAYLOAD_MAX
 * @param[out] frame      the frame
 * @param room            size of `frame`, at least #GEOSTATION_FRAME_MAX
 * @param[out] length     length of the frame
 * @return #GEOSTATION_OK, #GEOSTATION_MOMENT_EARLIER, #GEOSTATION_MOMENT_TOO_LATE,
 *         #GEOSTATION_NO_MEMORY, #GEOSTATION_PAYLOAD_TOO_LONG, #GEOSTATION_NO_ROOM or
 *         #GEOSTATION_OVER_RATE
 */
int geostation_send_shb_with_lifetime(geostation_handle *s, uint64_t now,
                                      const struct geostation_shb_request *request,
                                      uint8_t lifetime,
                                      const uint8_t *payload, size_t payload_length,
                                      uint8_t *frame, size_t room, size_t *length)
    GEOSTATION_NODISCARD;
/** Deprecated: the former name of geostation_send_shb_with_lifetime(). */
#define geostation_send_shb_for geostation_send_shb_with_lifetime

/**
 * Writes the frame of a single-hop broadcast (SHB) with a given lifetime and media-dependent data.
 *
 * @param s               the station
 * @param now             time, in ms
 * @param request         port and traffic class
 * @param options         lifetime and media-dependent data
 * @param payload         the payload; may be NULL if `payload_length` is 0
 * @param payload_length  0 to #GEOSTATION_PAYLOAD_MAX
 * @param[out] frame      the frame
 * @param room            size of `frame`, at least #GEOSTATION_FRAME_MAX
 * @param[out] length     length of the frame
 * @return #GEOSTATION_OK, #GEOSTATION_MOMENT_EARLIER, #GEOSTATION_MOMENT_TOO_LATE,
 *         #GEOSTATION_NO_MEMORY, #GEOSTATION_PAYLOAD_TOO_LONG, #GEOSTATION_NO_ROOM or
 *         #GEOSTATION_OVER_RATE
 */
int geostation_send_shb_with(geostation_handle *s, uint64_t now,
                             const struct geostation_shb_request *request,
                             const struct geostation_shb_options *options,
                             const uint8_t *payload, size_t payload_length,
                             uint8_t *frame, size_t room, size_t *length)
    GEOSTATION_NODISCARD;

/** @} */

/**
 * @defgroup receiving Receiving
 * @{
 */

/**
 * Processes a received frame.
 *
 * If the packet is to be forwarded, the frame to send is written to `relay`. All stations that
 * received the same broadcast frame would forward it at the same time. So wait for a random time
 * below 2 ms before you send it, unless it goes to one station (the lowest bit of its first byte is
 * 0).
 *
 * If a limit of the station holds that frame back, `relay_length` is 0, and the payload is
 * delivered all the same. With `deliver_once`, a packet for an area that was delivered before is
 * neither delivered nor forwarded: `ignored` is #GEOSTATION_REPEATED.
 *
 * With contention, the frame to forward may be held instead: `held` is 1, and `due` is the time at
 * which to send it. Sleep until geostation_next_due() plus a random time below 2 ms, chosen again
 * when geostation_next_due() has changed. Pass in each frame as it comes, and then call
 * geostation_release() until its length is 0. Send a released frame at once: the random wait above
 * is for frames in `relay`.
 *
 * In frames of up to 60 bytes, zeros after the packet are ignored: Ethernet pads short frames.
 *
 * @param s           the station
 * @param now         time, in ms
 * @param frame       the received frame; may be NULL if `length` is 0
 * @param length      length of `frame`
 * @param[out] out    the result
 * @param[out] relay  the frame to forward, of `out->relay_length` bytes; must not overlap `frame`
 * @param room        size of `relay`, at least #GEOSTATION_FRAME_MAX
 * @return #GEOSTATION_OK, #GEOSTATION_MOMENT_EARLIER, #GEOSTATION_MOMENT_TOO_LATE,
 *         #GEOSTATION_BAD_FRAME, #GEOSTATION_TABLE_FULL, #GEOSTATION_NO_MEMORY or
 *         #GEOSTATION_NO_ROOM
 */
int geostation_receive(geostation_handle *s, uint64_t now, const uint8_t *frame, size_t length,
                       struct geostation_reception *out, uint8_t *relay, size_t room)
    GEOSTATION_NODISCARD;

/**
 * Writes a held frame that is due, if there is one. It is for stations with #GEOSTATION_CONTENTION.
 *
 * Such a station holds the frame of each GBC that it forwards inside the area, up to 64 at a time.
 * It waits from `contention_max` ms, if the sender is near, down to `contention_min` ms, if it is
 * `contention_range` metres away or farther. If `contention_copies` other stations broadcast the
 * same frame meanwhile, it is cancelled. If 64 frames are held, the next one is forwarded at once.
 *
 * Of several frames that are due, the one with the least time is written first. First, frames that
 * were due more than 1000 ms before `now` are dropped. So are those for which the limits have no
 * room. The call does not change the station's clock. Pass received frames to geostation_receive()
 * first: they may cancel what is due.
 *
 * @param s            the station
 * @param now          time, in ms
 * @param[out] frame   the frame; send it at once
 * @param room         size of `frame`, at least #GEOSTATION_FRAME_MAX, and at least the length of
 *                     each held frame: #GEOSTATION_SECURED_FRAME_MAX is always enough
 * @param[out] length  length of the frame, or 0 if none is due
 * @return #GEOSTATION_OK, #GEOSTATION_NO_ROOM, #GEOSTATION_MOMENT_EARLIER or
 *         #GEOSTATION_MOMENT_TOO_LATE
 */
int geostation_release(geostation_handle *s, uint64_t now, uint8_t *frame, size_t room,
                       size_t *length)
    GEOSTATION_NODISCARD;

/**
 * Returns the length of the frame at the start of a buffer. Use it to strip padding.
 *
 * @param octets  the bytes; may be NULL if `length` is 0
 * @param length  how many there are
 * @return the length of the frame, or 0 if the buffer does not start with one; at most one length
 *         gives a valid frame
 */
size_t geostation_frame_length(const uint8_t *octets, size_t length);

/**
 * Reads all fields of a frame, without a station.
 *
 * All bytes have to belong to the frame: padding is an error here.
 *
 * @param frame     the frame; may be NULL if `length` is 0
 * @param length    length of `frame`
 * @param[out] out  the fields
 * @return #GEOSTATION_OK or #GEOSTATION_BAD_FRAME
 */
int geostation_read_frame(const uint8_t *frame, size_t length, struct geostation_packet *out)
    GEOSTATION_NODISCARD;

/** @} */

/**
 * @defgroup security Signed packets
 *
 * A secured frame has a message in place of the packet's plain part: its Common Header, extended
 * header and payload. A security entity of yours signs a plain part into a message, and verifies a
 * message into a plain part. The library has no cryptography and does not read messages.
 *
 * To send: pass the frame that a function wrote to geostation_plain_part(), let the entity sign
 * that part, and pass the message to geostation_seal(). To receive: pass the frame to
 * geostation_message(), let the entity verify the message, and pass its plain part to
 * geostation_receive_verified().
 *
 * The lifetime, the remaining hop limit and the link addresses are not signed: they can be forged.
 * The library does not compare `plain` with the message, and does not judge when it was signed.
 * @{
 */

/**
 * Processes a secured frame whose message was verified.
 *
 * It does what geostation_receive() does with the same packet in an unsecured frame, with the same
 * limits. If the packet is to be forwarded, the secured frame to send is written to `relay`: the
 * received one with new link addresses and one hop less. `out->fault` is 6 if the Basic Header and
 * `plain` are not a valid packet together.
 *
 * @param s             the station
 * @param now           time, in ms
 * @param frame         the received frame; may be NULL if `length` is 0
 * @param length        length of `frame`
 * @param plain         the plain part that the entity returned for the frame's message; may be NULL
 *                      if `plain_length` is 0, and may lie inside `frame`
 * @param plain_length  length of `plain`
 * @param[out] out      the result; `out->payload_start` is an offset in `plain`
 * @param[out] relay    the frame to forward, of `out->relay_length` bytes; must not overlap `frame`
 *                      or `plain`
 * @param room          size of `relay`, at least #GEOSTATION_SECURED_FRAME_MAX
 * @return #GEOSTATION_OK, #GEOSTATION_MOMENT_EARLIER, #GEOSTATION_MOMENT_TOO_LATE,
 *         #GEOSTATION_BAD_FRAME, #GEOSTATION_TABLE_FULL, #GEOSTATION_NO_MEMORY or
 *         #GEOSTATION_NO_ROOM
 */
int geostation_receive_verified(geostation_handle *s, uint64_t now,
                                const uint8_t *frame, size_t length,
                                const uint8_t *plain, size_t plain_length,
                                struct geostation_reception *out, uint8_t *relay, size_t room)
    GEOSTATION_NODISCARD;

#if defined(__cplusplus) && defined(__GNUC__)
#pragma GCC diagnostic push
#pragma GCC diagnostic ignored "-Wshadow" /* the struct and the function have one name */
#endif
/**
 * Finds the message of a secured frame, for the security entity to verify.
 *
 * @param frame                the frame; may be NULL if `length` is 0
 * @param length               length of `frame`
 * @param[out] start           offset of the message in the frame, or 0
 * @param[out] message_length  length of the message, or 0
 * @return #GEOSTATION_OK, or #GEOSTATION_BAD_FRAME if it is not a secured frame
 */
int geostation_message(const uint8_t *frame, size_t length, size_t *start, size_t *message_length)
    GEOSTATION_NODISCARD;
#if defined(__cplusplus) && defined(__GNUC__)
#pragma GCC diagnostic pop
#endif

/**
 * Finds the plain part of an unsecured frame, for the security entity to sign.
 *
 * @param frame              the frame; may be NULL if `length` is 0
 * @param length             length of `frame`
 * @param[out] start         offset of the plain part in the frame, or 0
 * @param[out] plain_length  length of the plain part, or 0
 * @return #GEOSTATION_OK, or #GEOSTATION_BAD_FRAME if it is not a valid unsecured frame
 */
int geostation_plain_part(const uint8_t *frame, size_t length, size_t *start, size_t *plain_length)
    GEOSTATION_NODISCARD;

/**
 * Writes the secured frame of an unsecured one: the same link addresses, lifetime and remaining hop
 * limit, and the message in place of the plain part.
 *
 * @param frame            the unsecured frame; may be NULL if `length` is 0
 * @param length           length of `frame`
 * @param message          what the security entity signed the plain part into
 * @param message_length   from 1; the secured frame must not be longer than
 *                         #GEOSTATION_SECURED_FRAME_MAX
 * @param[out] out         the secured frame
 * @param room             size of `out`, at least #GEOSTATION_SECURED_FRAME_MAX
 * @param[out] out_length  length of the secured frame, or 0
 * @return #GEOSTATION_OK, #GEOSTATION_BAD_FRAME if `frame` is not a valid unsecured frame,
 *         #GEOSTATION_BAD_ARGUMENT if the message is empty or too long, #GEOSTATION_NO_MEMORY or
 *         #GEOSTATION_NO_ROOM
 */
int geostation_seal(const uint8_t *frame, size_t length,
                    const uint8_t *message, size_t message_length,
                    uint8_t *out, size_t room, size_t *out_length)
    GEOSTATION_NODISCARD;

/** @} */

/**
 * @defgroup queries Queries
 * These functions do not change the station. They still count as calls: never use one handle in two
 * calls at once.
 * @{
 */

/**
 * Returns the earliest time at which geostation_tick() with this jitter writes a beacon.
 *
 * Choose a jitter at random for each beacon, and sleep until this time:
 *
 * @code
 * uint64_t due = geostation_beacon_at(s, jitter);
 * for (;;) {
 *     if (now_ms() >= due) {
 *         if (geostation_tick(s, now_ms(), jitter, frame, sizeof frame, &length) == GEOSTATION_OK
 *             && length != 0) {
 *             send(frame, length);
 *             jitter = random_jitter();
 *         }
 *         due = geostation_beacon_at(s, jitter);
 *     }
 *     // wait until `due` or for a frame; pass the frame to geostation_receive
 * }
 * @endcode
 *
 * Call it again after you have sent a packet, which postpones the beacon, and after
 * geostation_restart(). Do not call it again after receiving a frame. The result is never earlier
 * than the time of the last call. So on a busy channel, a wait that begins again with each frame
 * might never end.
 *
 * @param s       the station
 * @param jitter  0 to #GEOSTATION_JITTER_MAX, in ms
 * @return the time, in ms; `UINT64_MAX` if the jitter is out of range
 */
uint64_t geostation_beacon_at(const geostation_handle *s, uint16_t jitter);

/**
 * Returns the earliest time at which geostation_tick() with jitter 0 writes a beacon.
 *
 * Once the beacon is due, the result is the time of the last call, and received frames count as
 * calls. So do not add a jitter to it: use geostation_beacon_at().
 *
 * @param s  the station
 * @return the time, in ms
 */
uint64_t geostation_next_beacon(const geostation_handle *s);

/**
 * Returns the earliest time at which geostation_release() writes a held frame.
 *
 * It changes with geostation_receive(), geostation_receive_verified(), geostation_release(),
 * geostation_restart() and lines of JSON.
 *
 * @param s  the station
 * @return the time, in ms; `UINT64_MAX` if no frame is held
 */
uint64_t geostation_next_due(const geostation_handle *s);

/**
 * Returns the sequence number of the station's next packet for an area.
 * @param s  the station
 * @return the sequence number
 */
uint16_t geostation_next_number(const geostation_handle *s);

/**
 * Finds the next neighbour by address. A neighbour is a live source whose frames arrive directly.
 *
 * This loop visits all neighbours:
 *
 * @code
 * uint64_t after = 0;
 * struct geostation_vector v;
 * for (; geostation_neighbour(s, now, after, &v); after = v.address)
 *     show(&v);
 * @endcode
 *
 * @param s         the station
 * @param now       time, in ms
 * @param after     find the least address above this one; a neighbour with address 0 is never found
 * @param[out] out  the newest position vector, or zeros
 * @return 1 if there is such a neighbour, otherwise 0. It is also 0 if `now` is earlier than the
 *         station's last call or later than #GEOSTATION_LAST_MOMENT.
 */
int geostation_neighbour(const geostation_handle *s, uint64_t now, uint64_t after,
                         struct geostation_vector *out)
    GEOSTATION_NODISCARD;

/**
 * Finds a live source by address. A source is live for 20 s after its last accepted packet.
 *
 * @param s         the station
 * @param now       time, in ms
 * @param address   GN address of the source
 * @param[out] out  the newest position vector, or zeros
 * @return 1 if the source is in the location table, otherwise 0. It is also 0 if `now` is earlier
 *         than the station's last call or later than #GEOSTATION_LAST_MOMENT.
 */
int geostation_look_up(const geostation_handle *s, uint64_t now, uint64_t address,
                       struct geostation_vector *out)
    GEOSTATION_NODISCARD;

/** @} */

/**
 * @defgroup counters Counters
 * @{
 */

#if defined(__cplusplus) && defined(__GNUC__)
#pragma GCC diagnostic push
#pragma GCC diagnostic ignored "-Wshadow" /* the struct and the function have one name */
#endif
/**
 * Writes the counters of the station.
 *
 * Calls that return #GEOSTATION_BAD_ARGUMENT or #GEOSTATION_NO_ROOM are not counted.
 * #GEOSTATION_OVER_RATE is counted in `over_rate` only.
 * geostation_restart() keeps the counters.
 *
 * @param s         the station
 * @param[out] out  the counters
 */
void geostation_counts(const geostation_handle *s, struct geostation_counts *out);
#if defined(__cplusplus) && defined(__GNUC__)
#pragma GCC diagnostic pop
#endif

/** @} */

/**
 * @defgroup json JSON requests
 * @{
 */

/**
 * Executes one JSON request at time `now`: the same requests as those of the command `geostation
 * station` (docs/STATION.md).
 *
 * An `at` key in the line is ignored. The status only says whether an answer was written. Failed
 * calls and malformed lines are reported inside the answer. `answer` and `frame` are not terminated
 * by 0. A thread that calls this function should have 96 KB of stack.
 *
 * The limits of the station do not apply to a line: it is executed at any rate. With
 * geostation_handle_line() they do.
 *
 * @param s                   the station
 * @param now                 time, in ms
 * @param number              line number, for the answer to a malformed line
 * @param line                the line; may be NULL if `line_length` is 0
 * @param line_length         length of `line`; above #GEOSTATION_LINE_MAX the line is malformed
 * @param[out] answer         the answer: one JSON object without a line feed
 * @param answer_room         size of `answer`, at least #GEOSTATION_ANSWER_MAX
 * @param[out] answer_length  length of the answer, 0 for a blank line
 * @param[out] frame          the frame to send
 * @param frame_room          size of `frame`, at least #GEOSTATION_FRAME_MAX. A line whose command
 *                            is `seal` or `release`, or `receive` with a key `plain`, needs
 *                            #GEOSTATION_SECURED_FRAME_MAX. Nothing is done if it is too small.
 * @param[out] frame_length   length of the frame, or 0
 * @return #GEOSTATION_OK, #GEOSTATION_NO_MEMORY or #GEOSTATION_NO_ROOM
 */
int geostation_handle_json(geostation_handle *s, uint64_t now, uint64_t number,
                           const uint8_t *line, size_t line_length,
                           uint8_t *answer, size_t answer_room, size_t *answer_length,
                           uint8_t *frame, size_t frame_room, size_t *frame_length)
    GEOSTATION_NODISCARD;

/**
 * Executes one JSON request at time `now` as geostation_handle_json() does, with three differences:
 *
 * - The limits of the station apply: own packets have their rate, and frames that pass no limit are
 *   not forwarded.
 * - The line needs the rights in `rights`, a sum of #geostation_right. Without its right it changes
 *   nothing, and its answer has the code `not allowed`. Queries need no right. With 0 the call finds
 *   out what a line asks for.
 * - A struct says what was asked, and the outcome.
 *
 * @param s             the station
 * @param now           time, in ms
 * @param number        line number, for the answer to a malformed line
 * @param line          the line; may be NULL if `line_length` is 0
 * @param line_length   length of `line`; above #GEOSTATION_LINE_MAX the line is malformed
 * @param rights        what the line may do: a sum of #geostation_right
 * @param[out] answer   the answer: one JSON object without a line feed
 * @param answer_room   size of `answer`, at least #GEOSTATION_ANSWER_MAX
 * @param[out] frame    the frame to send, or the one that was sealed
 * @param frame_room    size of `frame`, as for geostation_handle_json()
 * @param[out] out      what was asked, and the outcome; zeros if the status is not 0
 * @return #GEOSTATION_OK, #GEOSTATION_NO_MEMORY or #GEOSTATION_NO_ROOM
 */
int geostation_handle_line(geostation_handle *s, uint64_t now, uint64_t number,
                           const uint8_t *line, size_t line_length, uint32_t rights,
                           uint8_t *answer, size_t answer_room, uint8_t *frame, size_t frame_room,
                           struct geostation_line_result *out) GEOSTATION_NODISCARD;
/** Deprecated: the former name of geostation_handle_json(). */
#define geostation_serve geostation_handle_json

/** @} */

/**
 * @defgroup texts Messages and codes
 * @{
 */

/**
 * Returns a message for a status.
 * @param status  a status of enum geostation_status
 * @return a string that lives as long as the program
 */
const char *geostation_status_text(int status);

/**
 * Returns a message for the fault of a frame.
 * @param fault       `fault` of a reception or packet
 * @param fault_kind  its `fault_kind`
 * @return a string that lives as long as the program
 */
const char *geostation_fault_text(uint32_t fault, uint32_t fault_kind);

/**
 * Writes a short code for logs, for example `S4`, `S8 B2` or `S3 L5 G9 at 10`.
 *
 * A status without a code gives an empty string. As with `snprintf`, a code that does not fit is
 * cut off. Each code fits into #GEOSTATION_CODE_MAX bytes.
 *
 * @param status      a status of enum geostation_status
 * @param fault       `fault` of the reception, for #GEOSTATION_BAD_FRAME
 * @param fault_kind  its `fault_kind`
 * @param fault_at    its `fault_at`
 * @param[out] out    the code, terminated by 0; may be NULL if `room` is 0
 * @param room        size of `out`; #GEOSTATION_CODE_MAX is enough
 * @return the length of the whole code, without the 0
 */
size_t geostation_code(int status, uint32_t fault, uint32_t fault_kind, size_t fault_at,
                       char *out, size_t room);

/** @} */

/** @cond */
/* The structs of the library have these sizes and offsets. */
#if !defined(__cplusplus) || __cplusplus >= 201103L
#ifdef __cplusplus
#define GEOSTATION_ASSERT(fact, text) static_assert(fact, text)
#else
#define GEOSTATION_ASSERT(fact, text) _Static_assert(fact, text)
#endif
#define GEOSTATION_SIZE(type, size) \
    GEOSTATION_ASSERT(sizeof(struct geostation_##type) == (size), #type)
#define GEOSTATION_AT(type, field, at) \
    GEOSTATION_ASSERT(offsetof(struct geostation_##type, field) == (at), #type "." #field)

GEOSTATION_ASSERT(sizeof(size_t) == 8 && sizeof(void *) == 8 && sizeof(int) == 4, "size_t");
GEOSTATION_SIZE(vector, 32);
GEOSTATION_AT(vector, timestamp, 8);
GEOSTATION_AT(vector, latitude, 12);
GEOSTATION_AT(vector, longitude, 16);
GEOSTATION_AT(vector, speed, 20);
GEOSTATION_AT(vector, heading, 22);
GEOSTATION_AT(vector, accurate, 24);
GEOSTATION_SIZE(config, 88);
GEOSTATION_AT(config, address, 8);
GEOSTATION_AT(config, latitude, 16);
GEOSTATION_AT(config, longitude, 20);
GEOSTATION_AT(config, capacity, 24);
GEOSTATION_AT(config, remember, 26);
GEOSTATION_AT(config, mobile, 28);
GEOSTATION_AT(config, number, 30);
GEOSTATION_AT(config, forward_rate, 32);
GEOSTATION_AT(config, forward_burst, 36);
GEOSTATION_AT(config, source_rate, 40);
GEOSTATION_AT(config, source_burst, 44);
GEOSTATION_AT(config, own_rate, 48);
GEOSTATION_AT(config, own_burst, 52);
GEOSTATION_AT(config, hop_cap, 56);
GEOSTATION_AT(config, deliver_once, 60);
GEOSTATION_AT(config, area_forwarding, 64);
GEOSTATION_AT(config, contention_max, 68);
GEOSTATION_AT(config, contention_min, 72);
GEOSTATION_AT(config, contention_range, 76);
GEOSTATION_AT(config, contention_copies, 80);
GEOSTATION_SIZE(counts, 208);
GEOSTATION_AT(counts, accepted, 8);
GEOSTATION_AT(counts, delivered, 16);
GEOSTATION_AT(counts, relayed, 24);
GEOSTATION_AT(counts, ignored.not_for_me, 32);
GEOSTATION_AT(counts, ignored.own_source, 40);
GEOSTATION_AT(counts, ignored.sender_mismatch, 48);
GEOSTATION_AT(counts, ignored.duplicate, 56);
GEOSTATION_AT(counts, refused.moment_earlier, 64);
GEOSTATION_AT(counts, refused.moment_too_late, 72);
GEOSTATION_AT(counts, refused.frame, 80);
GEOSTATION_AT(counts, refused.table_full, 88);
GEOSTATION_AT(counts, refused.no_memory, 96);
GEOSTATION_AT(counts, refused.other, 104);
GEOSTATION_AT(counts, sent.beacons, 112);
GEOSTATION_AT(counts, sent.single_hop, 120);
GEOSTATION_AT(counts, sent.geobroadcasts, 128);
GEOSTATION_AT(counts, sent.geoanycasts, 136);
GEOSTATION_AT(counts, suppressed, 144);
GEOSTATION_AT(counts, repeated, 152);
GEOSTATION_AT(counts, over_rate, 160);
GEOSTATION_AT(counts, contention.held, 168);
GEOSTATION_AT(counts, contention.released, 176);
GEOSTATION_AT(counts, contention.cancelled, 184);
GEOSTATION_AT(counts, contention.dropped, 192);
GEOSTATION_AT(counts, contention.full, 200);
GEOSTATION_SIZE(shb_request, 6);
GEOSTATION_AT(shb_request, info, 2);
GEOSTATION_AT(shb_request, traffic_class, 4);
GEOSTATION_SIZE(shb_options, 5);
GEOSTATION_AT(shb_options, media, 1);
GEOSTATION_SIZE(area_request, 24);
GEOSTATION_AT(area_request, info, 2);
GEOSTATION_AT(area_request, traffic_class, 4);
GEOSTATION_AT(area_request, lifetime, 5);
GEOSTATION_AT(area_request, max_hops, 6);
GEOSTATION_AT(area_request, shape, 7);
GEOSTATION_AT(area_request, latitude, 8);
GEOSTATION_AT(area_request, longitude, 12);
GEOSTATION_AT(area_request, a, 16);
GEOSTATION_AT(area_request, b, 18);
GEOSTATION_AT(area_request, angle, 20);
GEOSTATION_SIZE(line_result, 80);
GEOSTATION_AT(line_result, outcome, 4);
GEOSTATION_AT(line_result, status, 8);
GEOSTATION_AT(line_result, port, 12);
GEOSTATION_AT(line_result, number, 14);
GEOSTATION_AT(line_result, payload_length, 16);
GEOSTATION_AT(line_result, answer_length, 24);
GEOSTATION_AT(line_result, id_length, 32);
GEOSTATION_AT(line_result, frame_length, 40);
GEOSTATION_AT(line_result, vector, 48);
GEOSTATION_SIZE(area, 16);
GEOSTATION_AT(area, longitude, 4);
GEOSTATION_AT(area, a, 8);
GEOSTATION_AT(area, b, 10);
GEOSTATION_AT(area, angle, 12);
GEOSTATION_AT(area, shape, 14);
GEOSTATION_SIZE(message, 24);
GEOSTATION_AT(message, payload_length, 8);
GEOSTATION_AT(message, port, 16);
GEOSTATION_AT(message, info, 18);
GEOSTATION_SIZE(reception, 88);
GEOSTATION_AT(reception, delivered, 4);
GEOSTATION_AT(reception, port, 8);
GEOSTATION_AT(reception, info, 10);
GEOSTATION_AT(reception, media, 12);
GEOSTATION_AT(reception, payload_start, 16);
GEOSTATION_AT(reception, payload_length, 24);
GEOSTATION_AT(reception, relay_length, 32);
GEOSTATION_AT(reception, fault, 40);
GEOSTATION_AT(reception, fault_kind, 44);
GEOSTATION_AT(reception, fault_at, 48);
GEOSTATION_AT(reception, source, 56);
GEOSTATION_AT(reception, kind, 64);
GEOSTATION_AT(reception, number, 68);
GEOSTATION_AT(reception, traffic_class, 70);
GEOSTATION_AT(reception, hops_left, 71);
GEOSTATION_AT(reception, due, 72);
GEOSTATION_AT(reception, held, 80);
GEOSTATION_AT(reception, cancelled, 84);
GEOSTATION_SIZE(packet, 120);
GEOSTATION_AT(packet, source, 6);
GEOSTATION_AT(packet, kind, 12);
GEOSTATION_AT(packet, vector, 16);
GEOSTATION_AT(packet, hops_left, 48);
GEOSTATION_AT(packet, max_hops, 49);
GEOSTATION_AT(packet, lifetime, 50);
GEOSTATION_AT(packet, traffic_class, 51);
GEOSTATION_AT(packet, mobile, 52);
GEOSTATION_AT(packet, media, 53);
GEOSTATION_AT(packet, number, 58);
GEOSTATION_AT(packet, area, 60);
GEOSTATION_AT(packet, message, 80);
GEOSTATION_AT(packet, fault, 104);
GEOSTATION_AT(packet, fault_kind, 108);
GEOSTATION_AT(packet, fault_at, 112);

#undef GEOSTATION_AT
#undef GEOSTATION_SIZE
#undef GEOSTATION_ASSERT
#endif
/** @endcond */

#ifdef __cplusplus
}
#endif
#endif
