/* Input buffers may be NULL if their length is 0; the proved functions always need an address. In
 * the library, c/build puts `proved_` before the names of those. The functions here have the names
 * of the header. */
#include "geostation.h"

int proved_geostation_send_shb(geostation_handle *s, uint64_t now,
                               const struct geostation_shb_request *request,
                               const uint8_t *payload, size_t payload_length,
                               uint8_t *frame, size_t room, size_t *length);
int proved_geostation_send_shb_with_lifetime(geostation_handle *s, uint64_t now,
                                             const struct geostation_shb_request *request,
                                             uint8_t lifetime,
                                             const uint8_t *payload, size_t payload_length,
                                             uint8_t *frame, size_t room, size_t *length);
int proved_geostation_send_shb_with(geostation_handle *s, uint64_t now,
                                    const struct geostation_shb_request *request,
                                    const struct geostation_shb_options *options,
                                    const uint8_t *payload, size_t payload_length,
                                    uint8_t *frame, size_t room, size_t *length);
int proved_geostation_send_gbc(geostation_handle *s, uint64_t now,
                               const struct geostation_area_request *request,
                               const uint8_t *payload, size_t payload_length,
                               uint8_t *frame, size_t room, size_t *length);
int proved_geostation_send_gac(geostation_handle *s, uint64_t now,
                               const struct geostation_area_request *request,
                               const uint8_t *payload, size_t payload_length,
                               uint8_t *frame, size_t room, size_t *length);
int proved_geostation_receive(geostation_handle *s, uint64_t now, const uint8_t *frame,
                              size_t length, struct geostation_reception *out, uint8_t *relay,
                              size_t room);
int proved_geostation_receive_verified(geostation_handle *s, uint64_t now,
                                       const uint8_t *frame, size_t length,
                                       const uint8_t *plain, size_t plain_length,
                                       struct geostation_reception *out, uint8_t *relay,
                                       size_t room);
int proved_geostation_message(const uint8_t *frame, size_t length, size_t *start,
                              size_t *message_length);
int proved_geostation_plain_part(const uint8_t *frame, size_t length, size_t *start,
                                 size_t *plain_length);
int proved_geostation_seal(const uint8_t *frame, size_t length,
                           const uint8_t *message, size_t message_length,
                           uint8_t *out, size_t room, size_t *out_length);
int proved_geostation_handle_line(geostation_handle *s, uint64_t now, uint64_t number,
                                  const uint8_t *line, size_t line_length, uint32_t rights,
                                  uint8_t *answer, size_t answer_room, uint8_t *frame,
                                  size_t frame_room, struct geostation_line_result *out);
int proved_geostation_handle_json(geostation_handle *s, uint64_t now, uint64_t number,
                                  const uint8_t *line, size_t line_length,
                                  uint8_t *answer, size_t answer_room, size_t *answer_length,
                                  uint8_t *frame, size_t frame_room, size_t *frame_length);
int proved_geostation_read_frame(const uint8_t *frame, size_t length,
                                 struct geostation_packet *out);
size_t proved_geostation_frame_length(const uint8_t *octets, size_t length);

/* The address of an empty buffer. */
static const uint8_t none;

static const uint8_t *address(const uint8_t *octets) {
    return octets != NULL ? octets : &none;
}

int geostation_send_shb(geostation_handle *s, uint64_t now,
                        const struct geostation_shb_request *request,
                        const uint8_t *payload, size_t payload_length,
                        uint8_t *frame, size_t room, size_t *length) {
    return proved_geostation_send_shb(s, now, request, address(payload), payload_length, frame,
                                      room, length);
}

int geostation_send_shb_with_lifetime(geostation_handle *s, uint64_t now,
                                      const struct geostation_shb_request *request,
                                      uint8_t lifetime,
                                      const uint8_t *payload, size_t payload_length,
                                      uint8_t *frame, size_t room, size_t *length) {
    return proved_geostation_send_shb_with_lifetime(s, now, request, lifetime, address(payload),
                                                    payload_length, frame, room, length);
}

int geostation_send_shb_with(geostation_handle *s, uint64_t now,
                             const struct geostation_shb_request *request,
                             const struct geostation_shb_options *options,
                             const uint8_t *payload, size_t payload_length,
                             uint8_t *frame, size_t room, size_t *length) {
    return proved_geostation_send_shb_with(s, now, request, options, address(payload),
                                           payload_length, frame, room, length);
}

int geostation_send_gbc(geostation_handle *s, uint64_t now,
                        const struct geostation_area_request *request,
                        const uint8_t *payload, size_t payload_length,
                        uint8_t *frame, size_t room, size_t *length) {
    return proved_geostation_send_gbc(s, now, request, address(payload), payload_length, frame,
                                      room, length);
}

int geostation_send_gac(geostation_handle *s, uint64_t now,
                        const struct geostation_area_request *request,
                        const uint8_t *payload, size_t payload_length,
                        uint8_t *frame, size_t room, size_t *length) {
    return proved_geostation_send_gac(s, now, request, address(payload), payload_length, frame,
                                      room, length);
}

int geostation_receive(geostation_handle *s, uint64_t now, const uint8_t *frame, size_t length,
                       struct geostation_reception *out, uint8_t *relay, size_t room) {
    return proved_geostation_receive(s, now, address(frame), length, out, relay, room);
}

int geostation_receive_verified(geostation_handle *s, uint64_t now,
                                const uint8_t *frame, size_t length,
                                const uint8_t *plain, size_t plain_length,
                                struct geostation_reception *out, uint8_t *relay, size_t room) {
    return proved_geostation_receive_verified(s, now, address(frame), length, address(plain),
                                              plain_length, out, relay, room);
}

int geostation_message(const uint8_t *frame, size_t length, size_t *start,
                       size_t *message_length) {
    return proved_geostation_message(address(frame), length, start, message_length);
}

int geostation_plain_part(const uint8_t *frame, size_t length, size_t *start,
                          size_t *plain_length) {
    return proved_geostation_plain_part(address(frame), length, start, plain_length);
}

int geostation_seal(const uint8_t *frame, size_t length,
                    const uint8_t *message, size_t message_length,
                    uint8_t *out, size_t room, size_t *out_length) {
    return proved_geostation_seal(address(frame), length, address(message), message_length, out,
                                  room, out_length);
}

int geostation_handle_json(geostation_handle *s, uint64_t now, uint64_t number,
                           const uint8_t *line, size_t line_length,
                           uint8_t *answer, size_t answer_room, size_t *answer_length,
                           uint8_t *frame, size_t frame_room, size_t *frame_length) {
    return proved_geostation_handle_json(s, now, number, address(line), line_length, answer,
                                         answer_room, answer_length, frame, frame_room,
                                         frame_length);
}

int geostation_handle_line(geostation_handle *s, uint64_t now, uint64_t number,
                           const uint8_t *line, size_t line_length, uint32_t rights,
                           uint8_t *answer, size_t answer_room, uint8_t *frame, size_t frame_room,
                           struct geostation_line_result *out) {
    return proved_geostation_handle_line(s, now, number, address(line), line_length, rights, answer,
                                         answer_room, frame, frame_room, out);
}

int geostation_read_frame(const uint8_t *frame, size_t length, struct geostation_packet *out) {
    return proved_geostation_read_frame(address(frame), length, out);
}

size_t geostation_frame_length(const uint8_t *octets, size_t length) {
    return proved_geostation_frame_length(address(octets), length);
}
