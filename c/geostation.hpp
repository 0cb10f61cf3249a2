/// @file geostation.hpp
/// The station of geostation.h for C++17, header only.
///
/// A Station frees itself, and can be moved but not copied. Functions return a Status or a struct
/// with one. A program that ignores it is warned: both are `[[nodiscard]]`. Nothing throws. The
/// rules at the top of geostation.h hold here too. They say what `now` counts from, what a frame is
/// and how a GN address is made. Times never go back, and a call whose status is not Status::Ok
/// leaves the station unchanged.
///
/// @code
/// auto station = geostation::Station::make(0x1400020000000001, 514776500, -10000, 64, 8);
/// geostation_shb_request request{};
/// request.port = 2002;
/// const std::uint8_t ice[] = {'i', 'c', 'e'};
/// geostation::Frame frame;
/// if (station && station->send_shb(now, request, {ice, sizeof ice}, frame)
///                    == geostation::Status::Ok) {
///     send(frame.octets.data(), frame.size); // `send` is a function of yours
/// }
/// @endcode
#ifndef GEOSTATION_HPP
#define GEOSTATION_HPP

#include "geostation.h"

#include <array>
#include <cstddef>
#include <cstdint>
#include <optional>
#include <utility>

namespace geostation {

/// The status that a function returns: the values of enum geostation_status.
enum class [[nodiscard]] Status : int {
    Ok = GEOSTATION_OK,                                  ///< the call succeeded
    MomentEarlier = GEOSTATION_MOMENT_EARLIER,           ///< (S1) earlier than the last call
    MomentTooLate = GEOSTATION_MOMENT_TOO_LATE,          ///< (S2) the time is over 2^62 ms
    BadFrame = GEOSTATION_BAD_FRAME,                     ///< (S3) not a valid frame
    TableFull = GEOSTATION_TABLE_FULL,                   ///< (S4) the location table is full
    NoMemory = GEOSTATION_NO_MEMORY,                     ///< (S5) out of memory
    PayloadTooLong = GEOSTATION_PAYLOAD_TOO_LONG,        ///< (S6) the payload is over 1394 octets
    HopLimitZero = GEOSTATION_HOP_LIMIT_ZERO,            ///< (S7) the hop limit is 0
    PortAlreadyOpen = GEOSTATION_PORT_ALREADY_OPEN,      ///< (S8 B2) the port is open
    JitterRange = GEOSTATION_JITTER_RANGE,               ///< (S9) the jitter is over 750 ms
    PortsFull = GEOSTATION_PORTS_FULL,                   ///< (S8 B3) 64 other ports are open
    PortNotOpen = GEOSTATION_PORT_NOT_OPEN,              ///< (S8 B4) the port isn't open
    BadArgument = GEOSTATION_BAD_ARGUMENT,               ///< an argument is out of its range
    NoRoom = GEOSTATION_NO_ROOM,                         ///< a buffer is too small
    OverRate = GEOSTATION_OVER_RATE                      ///< own packets are over their rate
};

/// Returns a message for a status.
inline const char *text(Status status) noexcept {
    return geostation_status_text(static_cast<int>(status));
}

/// A view of bytes that it does not own. `data` may be null if `size` is 0.
struct Octets {
    const std::uint8_t *data = nullptr; ///< first byte
    std::size_t size = 0;               ///< number of bytes
};

/// A buffer for a frame to send. `size` is 0 if there is no frame.
struct Frame {
    std::array<std::uint8_t, GEOSTATION_FRAME_MAX> octets; ///< the buffer
    std::size_t size = 0;                                  ///< length of the frame
};

/// A buffer for a secured frame to send. `size` is 0 if there is no frame.
struct SecuredFrame {
    std::array<std::uint8_t, GEOSTATION_SECURED_FRAME_MAX> octets; ///< the buffer
    std::size_t size = 0;                                          ///< length of the frame
};

/// A buffer for the answer to a JSON request. `size` is 0 for a blank line.
struct Answer {
    std::array<std::uint8_t, GEOSTATION_ANSWER_MAX> octets; ///< the buffer
    std::size_t size = 0;                                   ///< length of the answer
};

/// The result of Station::receive and Station::receive_verified.
///
/// `payload` points into the frame that was passed to Station::receive, or into the plain part that
/// was passed to Station::receive_verified. It is empty if nothing is delivered.
struct [[nodiscard]] Received {
    Status status;                  ///< status of the call
    geostation_reception reception; ///< the result, with the fault of a bad frame
    Octets payload;                 ///< the delivered payload

    /// Returns whether the frame to forward is held: Station::release writes it.
    bool held() const noexcept { return reception.held != 0; }
    /// Returns the time at which the held frame is due, in ms, or 0 if none is held.
    std::uint64_t due() const noexcept { return reception.due; }
    /// Returns whether this frame has cancelled a held one.
    bool cancelled() const noexcept { return reception.cancelled != 0; }
};

/// The result of message_of and plain_part.
struct [[nodiscard]] Part {
    Status status; ///< Ok or BadFrame
    Octets octets; ///< the part of the frame, or nothing
};

/// The result of read_frame.
///
/// `payload` points into the bytes that were passed to read_frame.
struct [[nodiscard]] Packet {
    Status status;            ///< Ok or BadFrame
    geostation_packet packet; ///< all fields, or the fault of a bad frame
    Octets payload;           ///< the payload of the packet
};

/// Reads all fields of a frame, without a station.
///
/// All bytes have to belong to the frame: padding is an error here.
/// @return status Ok, or BadFrame with the fault in `packet`
inline Packet read_frame(Octets frame) noexcept {
    Packet got{};
    got.status = static_cast<Status>(geostation_read_frame(frame.data, frame.size, &got.packet));
    if (got.packet.message.payload_length != 0) {
        got.payload = {frame.data + got.packet.message.payload_start,
                       got.packet.message.payload_length};
    }
    return got;
}

/// Returns the length of the frame at the start of a buffer, or 0 if it does not start with one.
inline std::size_t frame_length(Octets octets) noexcept {
    return geostation_frame_length(octets.data, octets.size);
}

/// Finds the message of a secured frame, for the security entity to verify. It points into `frame`.
/// @return status Ok, or BadFrame if it is not a secured frame
inline Part message_of(Octets frame) noexcept {
    std::size_t start = 0, size = 0;
    const Status status = Status(geostation_message(frame.data, frame.size, &start, &size));
    return status == Status::Ok ? Part{status, {frame.data + start, size}} : Part{status, {}};
}

/// Finds the plain part of an unsecured frame, for the security entity to sign. It points into
/// `frame`.
/// @return status Ok, or BadFrame if it is not a valid unsecured frame
inline Part plain_part(Octets frame) noexcept {
    std::size_t start = 0, size = 0;
    const Status status = Status(geostation_plain_part(frame.data, frame.size, &start, &size));
    return status == Status::Ok ? Part{status, {frame.data + start, size}} : Part{status, {}};
}

/// Writes the secured frame of an unsecured one, with the message in place of the plain part:
/// geostation_seal().
/// @return Ok, BadFrame, BadArgument (the message is empty or too long) or NoMemory
inline Status seal(Octets frame, Octets message, SecuredFrame &secured) noexcept {
    return Status(geostation_seal(frame.data, frame.size, message.data, message.size,
                                  secured.octets.data(), secured.octets.size(), &secured.size));
}

/// Returns the default parameters of a station. Set the address, the position and what differs.
inline geostation_config usual_config() noexcept {
    geostation_config config;
    geostation_config_init(&config);
    return config;
}

/// A station.
///
/// Never use one station in two calls at once. You may move it to another thread. A station that
/// you moved from can only be destroyed or assigned to.
class Station {
  public:
    /// Creates a station.
    /// @param address    GN address, not a group address
    /// @param latitude   in 0.1 microdegree
    /// @param longitude  in 0.1 microdegree
    /// @param capacity   size of the location table, 1 to 4096
    /// @param remember   length of each duplicate packet list, 1 to 64
    /// @param status     receives Ok, BadArgument or NoMemory; may be null
    /// @return the station, or nothing if the status is not Ok
    [[nodiscard]]
    static std::optional<Station> make(std::uint64_t address, std::int32_t latitude,
                                       std::int32_t longitude, std::uint16_t capacity,
                                       std::uint8_t remember, Status *status = nullptr) noexcept {
        geostation_config config = usual_config();
        config.address = address;
        config.latitude = latitude;
        config.longitude = longitude;
        config.capacity = capacity;
        config.remember = remember;
        return make(config, status);
    }

    /// Creates a station with the parameters in a struct: start with usual_config.
    /// @param config  the parameters, among them `mobile` and the first sequence number
    /// @param status  receives Ok, BadArgument or NoMemory; may be null
    /// @return the station, or nothing if the status is not Ok
    [[nodiscard]]
    static std::optional<Station> make(const geostation_config &config,
                                       Status *status = nullptr) noexcept {
        geostation_handle *handle = nullptr;
        const int got = geostation_new_from_config(&handle, &config);
        if (status != nullptr) {
            *status = static_cast<Status>(got);
        }
        if (got != GEOSTATION_OK) {
            return std::nullopt;
        }
        return Station(handle);
    }

    Station(const Station &) = delete;
    Station &operator=(const Station &) = delete;
    /// Takes the station out of `other`.
    Station(Station &&other) noexcept : handle_(std::exchange(other.handle_, nullptr)) {}
    /// Swaps the two stations.
    Station &operator=(Station &&other) noexcept {
        std::swap(handle_, other.handle_);
        return *this;
    }
    /// Frees the station.
    ~Station() { geostation_free(handle_); }

    /// Returns the handle, for the functions of geostation.h. The station keeps its ownership.
    geostation_handle *get() const noexcept { return handle_; }

    /// Sets the position of the station: geostation_move().
    /// @return Ok, MomentEarlier, MomentTooLate or BadArgument
    Status move_to(std::uint64_t now, std::int32_t latitude, std::int32_t longitude, bool accurate,
                   std::int16_t speed, std::uint16_t heading) noexcept {
        return Status(geostation_move(handle_, now, latitude, longitude, accurate ? 1 : 0, speed,
                                      heading));
    }

    /// Sets the position of the station, with the time stamp of the fix: geostation_move_at().
    /// @return Ok, MomentEarlier, MomentTooLate or BadArgument
    Status move_at(std::uint64_t now, std::uint32_t timestamp, std::int32_t latitude,
                   std::int32_t longitude, bool accurate, std::int16_t speed,
                   std::uint16_t heading) noexcept {
        return Status(geostation_move_at(handle_, now, timestamp, latitude, longitude,
                                         accurate ? 1 : 0, speed, heading));
    }

    /// Opens a port, at which payloads are delivered.
    /// @return Ok, MomentEarlier, MomentTooLate, PortAlreadyOpen or PortsFull
    Status open_port(std::uint64_t now, std::uint16_t port) noexcept {
        return Status(geostation_open_port(handle_, now, port));
    }

    /// Closes a port.
    /// @return Ok, MomentEarlier, MomentTooLate or PortNotOpen
    Status close_port(std::uint64_t now, std::uint16_t port) noexcept {
        return Status(geostation_close_port(handle_, now, port));
    }

    /// Empties the location table and closes all ports. The next packet for an area has this
    /// sequence number.
    /// @return Ok, MomentEarlier or MomentTooLate
    Status restart(std::uint64_t now, std::uint16_t number) noexcept {
        return Status(geostation_restart(handle_, now, number));
    }

    /// Writes a beacon frame if one is due: geostation_tick(). Otherwise the size of `frame` is 0.
    /// @return Ok, MomentEarlier, MomentTooLate, NoMemory or JitterRange
    Status tick(std::uint64_t now, std::uint16_t jitter, Frame &frame) noexcept {
        return Status(geostation_tick(handle_, now, jitter, frame.octets.data(),
                                      frame.octets.size(), &frame.size));
    }

    /// Writes the frame of a single-hop broadcast, for all stations in radio range.
    /// @return Ok, MomentEarlier, MomentTooLate, NoMemory, PayloadTooLong or OverRate
    Status send_shb(std::uint64_t now, const geostation_shb_request &request, Octets payload,
                    Frame &frame) noexcept {
        return Status(geostation_send_shb(handle_, now, &request, payload.data, payload.size,
                                          frame.octets.data(), frame.octets.size(), &frame.size));
    }

    /// Writes the frame of a single-hop broadcast with this lifetime byte.
    /// @return Ok, MomentEarlier, MomentTooLate, NoMemory, PayloadTooLong or OverRate
    Status send_shb_with_lifetime(std::uint64_t now, const geostation_shb_request &request,
                                  std::uint8_t lifetime, Octets payload, Frame &frame) noexcept {
        return Status(geostation_send_shb_with_lifetime(
            handle_, now, &request, lifetime, payload.data, payload.size, frame.octets.data(),
            frame.octets.size(), &frame.size));
    }
    /// Writes the frame of a single-hop broadcast with this lifetime byte and these
    /// media-dependent data: geostation_send_shb_with().
    /// @return Ok, MomentEarlier, MomentTooLate, NoMemory, PayloadTooLong or OverRate
    Status send_shb_with(std::uint64_t now, const geostation_shb_request &request,
                         const geostation_shb_options &options, Octets payload,
                         Frame &frame) noexcept {
        return Status(geostation_send_shb_with(handle_, now, &request, &options, payload.data,
                                               payload.size, frame.octets.data(),
                                               frame.octets.size(), &frame.size));
    }
    /// The former name of send_shb_with_lifetime().
    [[deprecated("use send_shb_with_lifetime")]] Status
    send_shb_for(std::uint64_t now, const geostation_shb_request &request, std::uint8_t lifetime,
                 Octets payload, Frame &frame) noexcept {
        return send_shb_with_lifetime(now, request, lifetime, payload, frame);
    }

    /// Writes the frame of a geobroadcast, for all stations in an area.
    /// @return Ok, MomentEarlier, MomentTooLate, NoMemory, PayloadTooLong, HopLimitZero,
    ///         BadArgument (the area is not valid) or OverRate
    Status send_gbc(std::uint64_t now, const geostation_area_request &request, Octets payload,
                    Frame &frame) noexcept {
        return Status(geostation_send_gbc(handle_, now, &request, payload.data, payload.size,
                                          frame.octets.data(), frame.octets.size(), &frame.size));
    }

    /// Writes the frame of a geoanycast, for any one station in an area.
    /// @return Ok, MomentEarlier, MomentTooLate, NoMemory, PayloadTooLong, HopLimitZero,
    ///         BadArgument (the area is not valid) or OverRate
    Status send_gac(std::uint64_t now, const geostation_area_request &request, Octets payload,
                    Frame &frame) noexcept {
        return Status(geostation_send_gac(handle_, now, &request, payload.data, payload.size,
                                          frame.octets.data(), frame.octets.size(), &frame.size));
    }

    /// Processes a received frame. If the packet is to be forwarded, the frame to send is written
    /// to `relay`: send it after a random wait, as geostation_receive() says. With contention it may
    /// be held instead.
    /// @return status Ok, MomentEarlier, MomentTooLate, BadFrame, TableFull or NoMemory
    Received receive(std::uint64_t now, Octets frame, Frame &relay) noexcept {
        Received got{};
        got.status = Status(geostation_receive(handle_, now, frame.data, frame.size,
                                               &got.reception, relay.octets.data(),
                                               relay.octets.size()));
        relay.size = got.reception.relay_length;
        if (got.reception.delivered != 0) {
            got.payload = {frame.data + got.reception.payload_start,
                           got.reception.payload_length};
        }
        return got;
    }

    /// Processes a secured frame whose message was verified into `plain`:
    /// geostation_receive_verified(). If the packet is to be forwarded, the secured frame to send
    /// is written to `relay`.
    /// @return status Ok, MomentEarlier, MomentTooLate, BadFrame, TableFull or NoMemory
    Received receive_verified(std::uint64_t now, Octets frame, Octets plain,
                              SecuredFrame &relay) noexcept {
        Received got{};
        got.status = Status(geostation_receive_verified(
            handle_, now, frame.data, frame.size, plain.data, plain.size, &got.reception,
            relay.octets.data(), relay.octets.size()));
        relay.size = got.reception.relay_length;
        if (got.reception.delivered != 0) {
            got.payload = {plain.data + got.reception.payload_start,
                           got.reception.payload_length};
        }
        return got;
    }

    /// Writes a held frame that is due: geostation_release(). Otherwise the size of `frame` is 0.
    /// Send it at once, and call this again until the size is 0.
    /// @return Ok, MomentEarlier, MomentTooLate, or NoRoom if a secured frame is held that is too
    ///         long
    Status release(std::uint64_t now, Frame &frame) noexcept {
        return Status(geostation_release(handle_, now, frame.octets.data(), frame.octets.size(),
                                         &frame.size));
    }
    /// Writes a held frame that is due, secured or not.
    /// @return Ok, MomentEarlier or MomentTooLate
    Status release(std::uint64_t now, SecuredFrame &frame) noexcept {
        return Status(geostation_release(handle_, now, frame.octets.data(), frame.octets.size(),
                                         &frame.size));
    }

    /// Executes one JSON request at time `now`: geostation_handle_json(). Failed calls and
    /// malformed lines are reported inside the answer. `number` is the line number, for a malformed
    /// line.
    /// @return Ok, NoMemory, or NoRoom for a line that needs a SecuredFrame: one whose command is
    ///         `seal` or `release`, or `receive` with a key `plain`
    Status handle_json(std::uint64_t now, std::uint64_t number, Octets line, Answer &answer,
                       Frame &frame) noexcept {
        return Status(geostation_handle_json(
            handle_, now, number, line.data, line.size, answer.octets.data(),
            answer.octets.size(), &answer.size, frame.octets.data(), frame.octets.size(),
            &frame.size));
    }
    /// Executes one JSON request, of any command.
    /// @return Ok or NoMemory
    Status handle_json(std::uint64_t now, std::uint64_t number, Octets line, Answer &answer,
                       SecuredFrame &frame) noexcept {
        return Status(geostation_handle_json(
            handle_, now, number, line.data, line.size, answer.octets.data(),
            answer.octets.size(), &answer.size, frame.octets.data(), frame.octets.size(),
            &frame.size));
    }
    /// Executes one JSON request at time `now` within the limits and with these rights, a sum of
    /// geostation_right: geostation_handle_line(). A line without its right changes nothing.
    /// @return Ok or NoMemory
    Status handle_line(std::uint64_t now, std::uint64_t number, Octets line, std::uint32_t rights,
                       Answer &answer, SecuredFrame &frame,
                       struct ::geostation_line_result &out) noexcept {
        const Status status = Status(geostation_handle_line(
            handle_, now, number, line.data, line.size, rights, answer.octets.data(),
            answer.octets.size(), frame.octets.data(), frame.octets.size(), &out));
        answer.size = out.answer_length;
        frame.size = out.frame_length;
        return status;
    }
    /// The former name of handle_json().
    [[deprecated("use handle_json")]] Status serve(std::uint64_t now, std::uint64_t number,
                                                   Octets line, Answer &answer,
                                                   Frame &frame) noexcept {
        return handle_json(now, number, line, answer, frame);
    }

    /// Returns the counters of the station since it was created.
    struct ::geostation_counts counts() const noexcept {
        struct ::geostation_counts counted;
        ::geostation_counts(handle_, &counted);
        return counted;
    }

    /// Returns the earliest time at which tick() with this jitter writes a beacon, in ms. Call it
    /// again after you have sent a packet and after restart(), but not after receiving a frame.
    /// @return the time, or UINT64_MAX for a jitter over 750 ms
    std::uint64_t beacon_at(std::uint16_t jitter) const noexcept {
        return geostation_beacon_at(handle_, jitter);
    }

    /// Returns the earliest time at which release() writes a held frame, in ms.
    /// @return the time, or UINT64_MAX if no frame is held
    std::uint64_t next_due() const noexcept { return geostation_next_due(handle_); }

    /// Returns the sequence number of the next packet for an area.
    std::uint16_t next_number() const noexcept { return geostation_next_number(handle_); }

    /// Returns the earliest time at which tick() with jitter 0 writes a beacon, in ms.
    std::uint64_t next_beacon() const noexcept { return geostation_next_beacon(handle_); }

    /// Returns the position vector of the live neighbour with the least address above `after`.
    std::optional<geostation_vector> neighbour(std::uint64_t now,
                                               std::uint64_t after) const noexcept {
        geostation_vector vector;
        return geostation_neighbour(handle_, now, after, &vector) == 1 ? std::optional(vector)
                                                                       : std::nullopt;
    }

    /// Returns the newest position vector of the live source with this address.
    std::optional<geostation_vector> look_up(std::uint64_t now,
                                             std::uint64_t address) const noexcept {
        geostation_vector vector;
        return geostation_look_up(handle_, now, address, &vector) == 1 ? std::optional(vector)
                                                                       : std::nullopt;
    }

  private:
    explicit Station(geostation_handle *handle) noexcept : handle_(handle) {}
    geostation_handle *handle_;
};

} // namespace geostation

#endif
