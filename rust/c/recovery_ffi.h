// The declarations of the proved library. tests/rust.py --write writes them from its sources, and its tests compare
// them. docs/C.md states what a caller must ensure. A handle begins as all zeros.
#ifndef RECOVERY_FFI_H
#define RECOVERY_FFI_H

#include <stdbool.h>
#include <stddef.h>
#include <stdint.h>

#ifdef __cplusplus
extern "C" {
#endif

// No error: the result of `recovery_ffi_new` and its like, and the `refusal` of a reply, if nothing is wrong.
enum recovery_ok { RECOVERY_OK = 0 };

// The answers: `kind` of a reply.
enum recovery_answer {
    // The packet is new.
    RECOVERY_ANSWER_NEW = 0,
    // The packet is a duplicate, or so old that it may be one: drop it.
    RECOVERY_ANSWER_DUPLICATE = 1,
    // The packet is sent.
    RECOVERY_ANSWER_SENT = 2,
    // The packet is acknowledged, and no longer tracked.
    RECOVERY_ANSWER_ACKED = 3,
    // The packet is lost, and no longer tracked.
    RECOVERY_ANSWER_LOST = 4,
    // Which of the peer's connection IDs to retire.
    RECOVERY_ANSWER_RETIRE = 5,
    // Yes or no, as the event asks.
    RECOVERY_ANSWER_FLAG = 6,
    // The earliest running timer, if any.
    RECOVERY_ANSWER_TIMEOUT = 7,
    // What is in flight on a path.
    RECOVERY_ANSWER_IN_FLIGHT = 8,
    // The datagram is transmitted.
    RECOVERY_ANSWER_TRANSMITTED = 9,
    // The datagram is not transmitted, by the amplification limit.
    RECOVERY_ANSWER_BLOCKED = 10,
    // The pacer delays the bytes.
    RECOVERY_ANSWER_DELAYED = 11,
    // The pacer permits the bytes now.
    RECOVERY_ANSWER_READY = 12,
    // An MTU probe of the path is sent.
    RECOVERY_ANSWER_PROBE = 13,
    // No MTU probe of the path is due.
    RECOVERY_ANSWER_NO_PROBE = 14,
    // Whether a black hole was reported.
    RECOVERY_ANSWER_BLACK_HOLE = 15,
    // What can be sent.
    RECOVERY_ANSWER_SENDABLE = 16,
    // A retransmission queue.
    RECOVERY_ANSWER_QUEUE = 17,
    // The event has no other answer.
    RECOVERY_ANSWER_DONE = 18,
    // The window has no room for a sender's datagram. The answers of senders alone are above those of events, so that
    // new answers of events do not move them.
    RECOVERY_ANSWER_FULL = 128,
    // A sender processed an ACK frame.
    RECOVERY_ANSWER_ACKNOWLEDGED = 129,
    // No timer of the sender is due.
    RECOVERY_ANSWER_NOTHING = 130,
    // Packets were declared lost, if any. For a timeout, `first` is their space.
    RECOVERY_ANSWER_LOSSES = 131,
    // Probes are due.
    RECOVERY_ANSWER_PROBES = 132,
    // The caller has too little room for what an ACK frame results in: nothing is done.
    RECOVERY_ANSWER_NEEDS_ROOM = 133,
    // The call fails. The number is far from the answers, so that new ones do not move it.
    RECOVERY_ANSWER_REFUSED = 255,
};

// The errors: `refusal` of a reply.
enum recovery_refusal {
    // An allocation failed.
    RECOVERY_REFUSAL_NO_MEMORY = 1,
    // A packet number is 2^62 or more (RFC 9000, 12.3).
    RECOVERY_REFUSAL_NUMBER_TOO_LARGE = 2,
    // The space has assigned all packet numbers below 2^62 (RFC 9000, 12.3).
    RECOVERY_REFUSAL_NUMBERS_EXHAUSTED = 3,
    // The packet is not tracked: it was never sent, or it was acknowledged, lost or forgotten.
    RECOVERY_REFUSAL_NOT_TRACKED = 4,
    // The keys of the space were dropped (RFC 9001, 4.9).
    RECOVERY_REFUSAL_SPACE_DISCARDED = 5,
    // There is no such path.
    RECOVERY_REFUSAL_NO_SUCH_PATH = 6,
    // An MTU search runs on the current path (RFC 8899, 5), or, for an MTU found elsewhere, discovery is enabled.
    RECOVERY_REFUSAL_SEARCHING = 7,
    // A size is zero bytes.
    RECOVERY_REFUSAL_ZERO_MTU = 8,
    // A counter would exceed the maximum of its type.
    RECOVERY_REFUSAL_OVERFLOW = 9,
    // The peer's ID number is below the active one (RFC 9000, 19.15).
    RECOVERY_REFUSAL_RETIRED = 10,
    // The peer's ID number exceeds those that can be held (RFC 9000, 5.1.1).
    RECOVERY_REFUSAL_EXCEEDS_LIMIT = 11,
    // The frame's retire-prior-to exceeds its own number (RFC 9000, 19.15).
    RECOVERY_REFUSAL_BAD_RETIRE_PRIOR_TO = 12,
    // The local endpoint uses zero-length IDs, which cannot be retired (RFC 9000, 19.16).
    RECOVERY_REFUSAL_CIDS_NOT_IN_USE = 13,
    // The ID number was not issued (RFC 9000, 19.16).
    RECOVERY_REFUSAL_UNISSUED_CID = 14,
    // An ACK_FREQUENCY frame asks for a delay below 1 ms (draft-ietf-quic-ack-frequency-04, section 4). The number of
    // the frame is stored.
    RECOVERY_REFUSAL_DELAY_TOO_SMALL = 15,
    // A skipped number, which was never sent, was acknowledged (RFC 9000, 21.4).
    RECOVERY_REFUSAL_SKIPPED_ACKED = 16,
    // The peer's ECN counts fail the check of RFC 9000, 13.4.2.1: the text has the reason.
    RECOVERY_REFUSAL_ECN = 17,
    // The initial ID is no longer the active one (RFC 9000, 7.2).
    RECOVERY_REFUSAL_NOT_INITIAL_ID = 18,
    // Numbers do not continue from the expected one, or a range ends before it begins.
    RECOVERY_REFUSAL_BAD_RANGE = 19,
    // The peer's ID number is held with another ID, or with another token (RFC 9000, 19.15).
    RECOVERY_REFUSAL_CONFLICT = 20,
    // A number was acknowledged that was never sent (RFC 9000, 13.1): of a sender alone. The errors of senders are
    // above those of events, so that new errors of events do not meet them.
    RECOVERY_REFUSAL_UNSENT = 128,
    // The space of 1-RTT packets is never discarded (RFC 9001, 4.9): of a sender alone.
    RECOVERY_REFUSAL_DATA_SPACE = 129,
    // Only the sender itself makes this event; a caller cannot.
    RECOVERY_REFUSAL_DECIDED = 252,
    // The handle holds a bare recovery, without a sender.
    RECOVERY_REFUSAL_NO_SENDER = 253,
    // The handle holds no recovery.
    RECOVERY_REFUSAL_NO_RECOVERY = 254,
    // An argument is out of range. A space or timer does not exist, a connection ID has more than 20 bytes, a number of
    // a frame is 2^62 or more, or nanoseconds are 10^9 or more.
    RECOVERY_REFUSAL_BAD_ARGUMENT = 255,
};

// What is wrong with the peer's ECN counts (RFC 9000, 13.4.2.1): `first` of a reply with the ECN error.
enum recovery_fault {
    // The count of ECT(0) decreased.
    RECOVERY_FAULT_ECT0_FALLS = 0,
    // The count of ECT(1) decreased.
    RECOVERY_FAULT_ECT1_FALLS = 1,
    // The count of ECN-CE decreased.
    RECOVERY_FAULT_CE_FALLS = 2,
    // The three counts increased by less than the newly acknowledged packets.
    RECOVERY_FAULT_BLEACHED = 3,
    // ECT(0) and ECN-CE increased by less than the newly acknowledged packets, or ECT(1) increased.
    RECOVERY_FAULT_CORRUPTED = 4,
};

// The outcome of an ACK frame's ECN counts for a sender (RFC 9000, 13.4.2.1).
enum recovery_ecn {
    // No congestion. If the frame newly acknowledges packets and has no ECN counts, packets are no longer marked on the
    // path.
    RECOVERY_ECN_QUIET = 0,
    // More packets were marked with CE: congestion (RFC 9002, 7.1).
    RECOVERY_ECN_MARKED = 1,
    // Validation failed: packets are no longer marked on the path.
    RECOVERY_ECN_FAILED = 2,
};

// The purpose of a sender's loss detection timer: `awaits` of a sender's view.
enum recovery_awaits {
    // Nothing: no ack-eliciting packet is in flight that is probed for, or there is no sender.
    RECOVERY_AWAITS_NOTHING = 0,
    // The time at which packets of a space may be lost.
    RECOVERY_AWAITS_LOSSES = 1,
    // The probe timeout of a space.
    RECOVERY_AWAITS_PROBES = 2,
    // The probe timeout that ends a deadlock of the handshake (RFC 9002, 6.2.2.1).
    RECOVERY_AWAITS_DEADLOCK_PROBE = 3,
    // The next datagram from the peer: the amplification limit permits no 1200 bytes (RFC 9000, 8.1).
    RECOVERY_AWAITS_PEER = 4,
    // The confirmation of the handshake: only 1-RTT packets are in flight (RFC 9002, 6.2.1).
    RECOVERY_AWAITS_CONFIRMATION = 5,
};

// The results of `recovery_ffi_new`.
enum recovery_new {
    // A recovery was made.
    RECOVERY_NEW_MADE = 0,
    // Allocation failed.
    RECOVERY_NEW_NO_MEMORY = 1,
    // The handle holds a recovery already.
    RECOVERY_NEW_HELD = 2,
    // The peer's connection ID has more than 20 bytes.
    RECOVERY_NEW_CID_TOO_LONG = 3,
    // More than 2^62 connection IDs were issued at the start.
    RECOVERY_NEW_TOO_MANY_ISSUED = 4,
    // The first skip is 64 or more.
    RECOVERY_NEW_SKIP_TOO_LARGE = 5,
    // An MTU is zero.
    RECOVERY_NEW_ZERO_MTU = 6,
    // The initial window is zero.
    RECOVERY_NEW_ZERO_WINDOW = 7,
    // The denominator of the loss reduction factor, or of the time threshold, is zero.
    RECOVERY_NEW_ZERO_DENOMINATOR = 8,
    // The controller does not exist.
    RECOVERY_NEW_UNKNOWN_CONTROLLER = 9,
    // The kind of skips does not exist.
    RECOVERY_NEW_UNKNOWN_SKIPS = 10,
};

// Which congestion controller paths have.
enum recovery_controller {
    // NewReno (RFC 9002, 7).
    RECOVERY_CONTROLLER_NEW_RENO = 0,
    // A fixed window: always the initial one.
    RECOVERY_CONTROLLER_FIXED = 1,
    // CUBIC (RFC 9438).
    RECOVERY_CONTROLLER_CUBIC = 2,
};

// How packet numbers are skipped (RFC 9000, 21.4).
enum recovery_skips {
    // No number is skipped.
    RECOVERY_SKIPS_DISABLED = 0,
    // Skips are drawn with the seed.
    RECOVERY_SKIPS_DRAWN = 1,
    // The first skip is given, and the following ones are drawn with the seed.
    RECOVERY_SKIPS_STARTING = 2,
};

// The packet number spaces (RFC 9000, 12.3).
enum recovery_space {
    // Initial packets.
    RECOVERY_SPACE_INITIAL = 0,
    // Handshake packets.
    RECOVERY_SPACE_HANDSHAKE = 1,
    // 0-RTT and 1-RTT packets.
    RECOVERY_SPACE_DATA = 2,
};

// The timers of a connection.
enum recovery_timer {
    // When to declare packets lost or to send a probe (RFC 9002, 6.2 and A.8).
    RECOVERY_TIMER_LOSS_DETECTION = 0,
    // When to close the connection because it is idle (RFC 9000, 10.1).
    RECOVERY_TIMER_IDLE = 1,
    // When a closing or draining connection ends (RFC 9000, 10.2).
    RECOVERY_TIMER_CLOSE = 2,
    // When keys that an update replaced are dropped (RFC 9001, 6.5).
    RECOVERY_TIMER_KEY_DISCARD = 3,
    // When the validation of a new path has failed (RFC 9000, 8.2.4).
    RECOVERY_TIMER_PATH_VALIDATION = 4,
    // When to send a PING against the idle timeout (RFC 9000, 10.1.2).
    RECOVERY_TIMER_KEEP_ALIVE = 5,
    // When the pacer lets the next packet pass (RFC 9002, 7.7).
    RECOVERY_TIMER_PACING = 6,
    // When to issue new connection IDs (RFC 9000, 5.1.1).
    RECOVERY_TIMER_PUSH_NEW_CID = 7,
    // When to send a delayed ACK (RFC 9000, 13.2.1).
    RECOVERY_TIMER_MAX_ACK_DELAY = 8,
};

// An address and a port.
struct recovery_address {
    // The octets of an IPv6 address; for an IPv4 address, the first four.
    uint8_t octets[16];
    // The flow information of an IPv6 address.
    uint32_t flowinfo;
    // The scope of an IPv6 address.
    uint32_t scope_id;
    // The port.
    uint16_t port;
    // Whether it is an IPv6 address.
    bool v6;
};

// A connection ID that the local endpoint issues (RFC 9000, 19.15).
struct recovery_id {
    // Its sequence number.
    uint64_t sequence;
    // Its bytes, of which the first `len` count.
    uint8_t bytes[20];
    // Its stateless reset token.
    uint8_t token[16];
    // How many bytes it has, at most 20.
    uint8_t len;
};

// The congestion window of the path in use, in bytes.
struct recovery_window_view {
    // How many bytes may be in flight (RFC 9002, 7); 0 if there is no recovery.
    uint64_t window;
    // How many bytes are in flight (RFC 9002, B.2).
    uint64_t in_flight;
};

// The round-trip time of the path in use, in nanoseconds, at most `u64::MAX`.
struct recovery_rtt_view {
    // The RTT estimate: the smoothed one, or the initial one before the first sample (RFC 9002, 5.3); 0 if there is no
    // recovery.
    uint64_t rtt;
    // The probe timeout without the peer's max_ack_delay (RFC 9002, 6.2.1).
    uint64_t pto_base;
};

// The tracked packets of a packet number space.
struct recovery_tracked_view {
    // How many packets; 0 if there is no such space, or if it is discarded.
    uint64_t packets;
    // When a sender declares the next of them lost by its age, in nanoseconds (RFC 9002, 6.1.2 and A.3); 0 if there is
    // no such time.
    uint64_t loss_time;
    // Whether there is such a time.
    bool has_loss_time;
};

// A packet number, if there is one.
struct recovery_number_view {
    // The number; 0 if there is none.
    uint64_t number;
    // Whether there is one.
    bool is_some;
};

// The handle of a recovery. It begins as all zeros, which holds none; from then on only the library changes it.
struct recovery_handle {
    void *ptr;
    bool holds;
};

// The caller's marks of a path, except its PATH_RESPONSE frames.
struct recovery_marks {
    // The data of its PATH_CHALLENGE frame, if one was sent (RFC 9000, 8.2.1).
    uint64_t challenge;
    // The number of the first packet that was sent after an RTT sample (RFC 9002, 7.6.2), if any.
    uint64_t first_number;
    // The space of that packet.
    uint8_t first_space;
    // Whether a PATH_CHALLENGE frame was sent.
    bool has_challenge;
    // Whether a packet was sent after an RTT sample.
    bool has_first;
    // Whether a PATH_CHALLENGE frame is to be sent.
    bool challenge_pending;
    // Whether packets are marked on the path (RFC 9000, 13.4).
    bool sending_ecn;
    // Whether there is such a path; if not, all else is 0. Ignored if marks are set.
    bool lives;
};

// The state of an MTU discovery.
struct recovery_mtu_view {
    // The number of the probe in flight, if any; otherwise 0.
    uint64_t probe;
    // The MTU in use, in bytes.
    uint16_t mtu;
    // Whether a probe is in flight.
    bool probes;
    // Whether a search is running.
    bool searches;
    // Whether the handle holds a discovery; if not, all else is 0.
    bool some;
};

// The handle of an MTU discovery. It begins as all zeros, which holds none; from then on only the library changes it.
struct recovery_mtu_handle {
    void *ptr;
    bool holds;
};

// A bucket of tokens, one per byte. All zeros is no bucket, and an error.
struct recovery_bucket {
    // The most bytes that it holds.
    uint64_t capacity;
    // The congestion window, in bytes, for which the capacity was computed.
    uint64_t window;
    // The bytes in it.
    uint64_t tokens;
    // When it was last refilled, or made, in nanoseconds.
    uint64_t last;
    // The MTU, in bytes, for which the capacity was computed.
    uint16_t mtu;
};

// The fields of an ACK frame, except its ranges, and what the caller knows at its arrival.
struct recovery_ack_frame {
    // The ACK delay that the peer reports, in whole seconds.
    uint64_t delay_secs;
    // The count of ECT(0), if the frame has counts (RFC 9000, 19.3.2).
    uint64_t ect0;
    // The count of ECT(1).
    uint64_t ect1;
    // The count of ECN-CE.
    uint64_t ce;
    // If `is_limited`: how many words of `recovery_ffi_told_packets` the caller has room for.
    uint64_t packets_room;
    // If `is_limited`: how many lost numbers of `recovery_ffi_told_numbers` it has room for.
    uint64_t lost_room;
    // If `has_received`: when the frame was received, in nanoseconds. A later time than that of the call counts as
    // that.
    uint64_t received;
    // The rest of the ACK delay in nanoseconds, below 10^9.
    uint32_t delay_nanos;
    // Whether the frame has ECN counts.
    bool has_ecn;
    // Whether the sender had too little to send to fill its window (RFC 9002, 7.8).
    bool app_limited;
    // Whether the frame is processed only if the caller has room for all that it may read of the outcome. If not, the
    // caller may read the outcome later.
    bool is_limited;
    // Whether the frame was received earlier than it is processed (RFC 9002, 5.3).
    bool has_received;
};

// A range of numbers that an ACK frame acknowledges (RFC 9000, 19.3.1).
struct recovery_ack_range {
    // The first number.
    uint64_t first;
    // The last number.
    uint64_t last;
};

// The last outcome: of an ACK frame, of a timeout that made a loss detection pass, or of a space whose packets were
// all declared lost.
struct recovery_outcome_view {
    // How many numbers the frame newly acknowledged; else 0.
    uint64_t acked;
    // How many numbers were declared lost, without that of the MTU probe.
    uint64_t lost;
    // The number of the MTU probe, if it was lost: this does not indicate congestion (RFC 9000, 14.4).
    uint64_t probe;
    // The bytes lost on the path in use, if there was congestion (RFC 9002, 7.3.2).
    uint64_t congestion;
    // The outcome of the frame's ECN counts (RFC 9000, 13.4.2.1).
    uint8_t ecn;
    // Whether the MTU probe was lost.
    bool has_probe;
    // Whether there was congestion.
    bool has_congestion;
    // Whether it is persistent (RFC 9002, 7.6).
    bool is_persistent;
    // Whether a black hole was reported (RFC 8899, 4.3).
    bool is_black_hole;
    // Whether allocation failed for a lost packet, which is then still tracked: the next timeout, or the same call for
    // the space, declares it lost.
    bool is_cut;
};

// The settings of a recovery: times are in nanoseconds, and sizes in bytes.
struct recovery_settings {
    // The local max_ack_delay (RFC 9000, 18.2).
    uint64_t max_ack_delay;
    // The lifetime of local connection IDs, if they expire.
    uint64_t cid_lifetime;
    // How many connection IDs the local endpoint has issued, at most 2^62; memory grows with it, by 16 bytes per ID.
    uint64_t issued;
    // The seed with which skips are drawn.
    uint64_t seed;
    // The first number that is skipped, below 64, if it is given.
    uint64_t first_skip;
    // The RTT before the first sample (RFC 9002, 6.2.2).
    uint64_t initial_rtt;
    // The time from the end of an MTU search to the next one.
    uint64_t mtu_interval;
    // The time from the report of a black hole to the next MTU search.
    uint64_t black_hole_cooldown;
    // The initial congestion window, above zero (RFC 9002, 7.2).
    uint64_t initial_window;
    // The numerator of the factor by which a loss reduces the window (RFC 9002, 7.3.2).
    uint64_t loss_numerator;
    // Its denominator, above zero.
    uint64_t loss_denominator;
    // The numerator of the time threshold, in RTTs: a sender declares a packet lost this long after it was sent, if a
    // later one is acknowledged. A smaller fraction than 1 counts as 1 (RFC 9002, 6.1.2).
    uint64_t time_numerator;
    // Its denominator, above zero.
    uint64_t time_denominator;
    // The packet threshold: a sender declares a packet lost that was sent this many packets before an acknowledged
    // one; 0 counts as 1 (RFC 9002, 6.1.1).
    uint32_t packet_threshold;
    // How many probe timeouts persistent congestion lasts, for a sender; 0 counts as 1 (RFC 9002, 7.6.1).
    uint32_t persistent_congestion_threshold;
    // The size of datagrams before the search, above zero.
    uint16_t initial_mtu;
    // The datagram size that the path is known to carry, above zero.
    uint16_t min_mtu;
    // The largest datagram size that is probed.
    uint16_t mtu_upper_bound;
    // The smallest difference that is worth a probe.
    uint16_t mtu_minimum_change;
    // The length of local connection IDs.
    uint8_t cid_len;
    // Which congestion controller paths have: `RECOVERY_CONTROLLER_NEW_RENO`, `RECOVERY_CONTROLLER_FIXED` or
    // `RECOVERY_CONTROLLER_CUBIC`.
    uint8_t controller;
    // How numbers are skipped: `RECOVERY_SKIPS_DISABLED`, `RECOVERY_SKIPS_DRAWN` or `RECOVERY_SKIPS_STARTING`.
    uint8_t skips;
    // Whether local connection IDs expire after `cid_lifetime`.
    bool ids_end;
    // Whether the peer's address is validated.
    bool validated;
    // Whether MTU discovery is allowed.
    bool allow_mtud;
    // Whether an MTU search is configured; if not, there is none.
    bool searches;
};

// The reply to an event, in numbers.
struct recovery_encoded_reply {
    // Which answer, or that the call failed.
    uint8_t kind;
    // The number of the error, or 0. For an ECN error, `first` is the number of the fault.
    uint8_t refusal;
    // New: whether to start the ACK delay timer. Sent: whether a non-ack-eliciting packet was forgotten for it. Acked,
    // lost: whether it was the path's MTU probe. Retire: whether any connection IDs are to be retired. Flag: yes or
    // no. Timeout: whether a timer is running. Black hole: whether one was reported. Sendable: whether an ACK is to be
    // sent. Full, delayed by a sender: whether an ACK is required in the space. Acknowledged: whether the outcome has
    // more than the two counts. Otherwise false.
    bool flag;
    // Sendable: whether there is something else to send. Otherwise false.
    bool other;
    // Probe: its size in bytes. Otherwise 0.
    uint16_t size;
    // Sent, probe: the packet number. Retire: the first sequence number. Timeout, delayed: the time, in nanoseconds.
    // In flight: the bytes. Acknowledged: how many numbers are newly acknowledged. Needs room: how many words of
    // packets. Losses of a timeout, probes: the space. Otherwise 0.
    uint64_t first;
    // Sent: the packet number that was forgotten. Retire: one above the last sequence number. In flight: how many
    // packets are ack-eliciting. Acknowledged: how many numbers are lost. Needs room: how many lost numbers. Probes:
    // how many are due. Otherwise 0.
    uint64_t second;
};

// The purpose of a sender's loss detection timer, and the room that is left on the path in use.
struct recovery_sender_view {
    // How many bytes more fit into the congestion window (RFC 9002, 7). Ask `recovery_ffi_sender_transmit` for what
    // waits even if there is no room.
    uint64_t window_room;
    // How many more bytes the amplification limit permits, if `is_limited` (RFC 9000, 8.1); else `u64::MAX`.
    uint64_t amplification_room;
    // When the loss detection timer expires, in nanoseconds; 0 if it is not set.
    uint64_t timer;
    // Its purpose, such as `RECOVERY_AWAITS_LOSSES`, or why it is not set, such as `RECOVERY_AWAITS_PEER`.
    uint8_t awaits;
    // The space for which it is set; 0 if it is not set.
    uint8_t space;
    // Whether the amplification limit applies to the path: its address is not validated.
    bool is_limited;
};

// The state of a path: times in nanoseconds, at most `u64::MAX`, and sizes in bytes.
struct recovery_path_view {
    // How many bytes may be in flight (RFC 9002, 7).
    uint64_t window;
    // The bytes in flight (RFC 9002, B.2).
    uint64_t in_flight;
    // How many packets in flight are ack-eliciting.
    uint64_t ack_eliciting;
    // The bytes of the datagrams transmitted.
    uint64_t total_sent;
    // The bytes of the datagrams received.
    uint64_t total_recvd;
    // The RTT estimate: the smoothed one, or the initial one before the first sample (RFC 9002, 5.3).
    uint64_t rtt;
    // The larger of that estimate and the last sample, for loss detection (RFC 9002, 6.1.2).
    uint64_t rtt_conservative;
    // The smallest sample (RFC 9002, 5.2).
    uint64_t rtt_min;
    // The last sample, or the initial RTT before the first one (RFC 9002, 5.1).
    uint64_t rtt_latest;
    // The mean deviation of the samples, or half of the initial RTT before the first one (RFC 9002, 5.3).
    uint64_t rtt_variance;
    // The probe timeout without the peer's max_ack_delay (RFC 9002, 6.2.1).
    uint64_t pto_base;
    // The most bytes that the pacer's bucket holds (RFC 9002, 7.7).
    uint64_t pacer_capacity;
    // The bytes in that bucket after the last datagram or check, without those of the time since.
    uint64_t pacer_tokens;
    // The slow start threshold, if any: `u64::MAX` before the first loss (RFC 9002, 7.3.1).
    uint64_t ssthresh;
    // The MTU in use (RFC 9000, 14.3).
    uint16_t mtu;
    // Whether there is a slow start threshold: a fixed window has none.
    bool has_ssthresh;
    // Whether there is such a path; if not, all else is 0.
    bool lives;
    // Whether the peer's address is validated (RFC 9000, 8).
    bool validated;
};

// What a packet number space has to send, and which of its packet numbers are to be acknowledged.
struct recovery_space_view {
    // The largest packet number received; 0 before the first.
    uint64_t largest_received;
    // How many ranges of packet numbers are to be acknowledged.
    uint64_t ranges;
    // The number of the next packet, unless it is skipped.
    uint64_t next_packet_number;
    // Whether the space is not discarded; if it is, all else is 0.
    bool lives;
    // Whether an ACK is required, and some packet number is to be acknowledged.
    bool acks;
    // Whether there is something else to send.
    bool other;
};

// A range of packet numbers.
struct recovery_range_view {
    // The first number.
    uint64_t start;
    // One above the last number.
    uint64_t end;
    // Whether there is such a range; if not, all else is 0.
    bool some;
};

// A time or a duration, if there is one.
struct recovery_time_view {
    // In nanoseconds.
    uint64_t nanos;
    // Whether there is one; if not, all else is 0.
    bool some;
};

// The connection IDs of both endpoints, and their max_ack_delay.
struct recovery_ids_view {
    // The sequence number of the peer's connection ID in use.
    uint64_t active;
    // How many connection IDs the local endpoint has issued.
    uint64_t issued;
    // The peer is asked to retire the local connection IDs below this sequence number.
    uint64_t retire_prior_to;
    // The local max_ack_delay, in nanoseconds, at most `u64::MAX`.
    uint64_t max_ack_delay;
    // The peer's max_ack_delay, in nanoseconds, at most `u64::MAX`.
    uint64_t peer_max_ack_delay;
};

// Makes a recovery, whose peer is at this address and has this connection ID of at most 20 bytes. Returns
// `RECOVERY_NEW_MADE`, or the number of what is wrong, which leaves the handle unchanged.
//
// In rust/c/main.c:
//
//     uint8_t code = recovery_ffi_new(&recovery, &settings, &remote, id, sizeof id, 0);
uint8_t recovery_ffi_new(struct recovery_handle *handle, const struct recovery_settings *settings, const struct recovery_address *remote, const uint8_t *initial_cid, size_t initial_cid_len, uint64_t now);

// Frees a recovery. The handle then holds none. A handle that holds none is unchanged.
//
// In rust/c/transfer.c:
//
//     recovery_ffi_drop(&ends.sender);
void recovery_ffi_drop(struct recovery_handle *handle);

// Processes a received ACK_FREQUENCY frame: the event `AckFrequencyIn`. Its numbers are below 2^62.
struct recovery_encoded_reply recovery_ffi_ack_frequency(struct recovery_handle *handle, uint64_t sequence, uint64_t threshold, uint64_t micros, uint64_t reordering);

// Records that an ACK frame was sent (RFC 9000, 13.2.1): the event `AcksSent`.
//
// In rust/c/handshake.c:
//
//     recovery_ffi_acks_sent(server, space);
struct recovery_encoded_reply recovery_ffi_acks_sent(struct recovery_handle *handle, uint8_t space);

// Handles the ACK delay timer: the event `AckDelayTimeout`.
//
// In rust/c/handshake.c:
//
//     recovery_ffi_ack_delay_timeout(&server, RECOVERY_SPACE_DATA);
struct recovery_encoded_reply recovery_ffi_ack_delay_timeout(struct recovery_handle *handle, uint8_t space);

// Returns an MTU probe to send, if one is due (RFC 9000, 14.3), and tracks it: the event `PollMtu`.
//
// In rust/c/handshake.c:
//
//     struct recovery_encoded_reply probe = recovery_ffi_poll_mtu(server, 60 * ms);
struct recovery_encoded_reply recovery_ffi_poll_mtu(struct recovery_handle *handle, uint64_t now);

// Sets the largest datagram that the peer accepts (RFC 9000, 18.2): the event `PeerLimit`.
//
// In rust/c/handshake.c:
//
//     recovery_ffi_peer_limit(server, 1400);
struct recovery_encoded_reply recovery_ffi_peer_limit(struct recovery_handle *handle, uint16_t size);

// Uses an MTU that was found elsewhere, by a search of the caller's or the configuration of a tunnel, on the path in
// use (RFC 8899, 5; RFC 9000, 14.3): the event `MtuFound`. MTU discovery must be disabled in the settings.
struct recovery_encoded_reply recovery_ffi_mtu_found(struct recovery_handle *handle, uint16_t mtu);

// Ends the losses of packets that were lost together: the event `LossesDone`.
struct recovery_encoded_reply recovery_ffi_losses_done(struct recovery_handle *handle, uint64_t now);

// Returns the window and the bytes in flight of the path in use.
//
// In rust/c/handshake.c:
//
//     struct recovery_window_view window = recovery_ffi_window(server);
struct recovery_window_view recovery_ffi_window(struct recovery_handle *handle);

// Returns how many bytes the pacer permits now on the path in use: the largest datagram that is not delayed (RFC
// 9002, 7.7). It is `u64::MAX` if nothing is paced, and 0 if there is no recovery.
//
// In rust/c/handshake.c:
//
//     printf("%" PRIu64 " of %" PRIu64 " bytes are in flight; the pacer permits %" PRIu64 "\n", window.in_flight, window.window,
//            recovery_ffi_pacer_room(server, now));
uint64_t recovery_ffi_pacer_room(struct recovery_handle *handle, uint64_t now);

// Returns the round-trip time of the path in use.
//
// In rust/c/handshake.c:
//
//     printf("%" PRIu64 " packets acknowledged, RTT %" PRIu64 " ns\n", recovery_acknowledged_count(reply), recovery_ffi_rtt(server).rtt);
struct recovery_rtt_view recovery_ffi_rtt(struct recovery_handle *handle);

// Returns the sequence number of the peer's connection ID in use (RFC 9000, 5.1.1); 0 if there is no recovery.
//
// In rust/c/handshake.c:
//
//     printf("retire the IDs from %" PRIu64 ", use %" PRIu64 "\n", recovery_retire_start(retired), recovery_ffi_active_id(server));
uint64_t recovery_ffi_active_id(struct recovery_handle *handle);

// Returns whether a space tracks a packet that counts in flight (RFC 9002, 2), on any path.
bool recovery_ffi_has_in_flight(struct recovery_handle *handle, uint8_t space);

// Returns the smallest packet number that a space tracks: all smaller ones are acknowledged, lost, forgotten or
// discarded. A stack may choose the length of packet numbers by it (RFC 9000, 17.1). Cost: logarithmic.
//
// In rust/c/sender.c:
//
//     struct recovery_number_view smallest = recovery_ffi_smallest_tracked(&sender, space);
struct recovery_number_view recovery_ffi_smallest_tracked(struct recovery_handle *handle, uint8_t space);

// Returns how many items wait for retransmission in a space: how many `recovery_ffi_take_pending` would take. It is 0
// if there is no such space, or if it is discarded.
uint64_t recovery_ffi_pending_items(struct recovery_handle *handle, uint8_t space);

// Returns how many items `recovery_ffi_sender_probe` would take in a space: those that wait for retransmission, or
// else those of the first packet in flight that has any (RFC 9002, 6.2.4). It is 0 if there is no such space, or if it
// is discarded. Cost: logarithmic, plus the packets without items before that one.
uint64_t recovery_ffi_probe_items(struct recovery_handle *handle, uint8_t space);

// Returns how many packets a space tracks, and when a sender declares the next of them lost by its age.
//
// In rust/c/sender.c:
//
//     printf("%" PRIu64 " packets are tracked\n", recovery_ffi_tracked(&sender, space).packets);
struct recovery_tracked_view recovery_ffi_tracked(struct recovery_handle *handle, uint8_t space);

// Processes a received NEW_CONNECTION_ID frame (RFC 9000, 19.15): the event `NewId`. The ID has at most 20 bytes.
//
// In rust/c/handshake.c:
//
//     recovery_ffi_new_id(server, 1, 0, theirs, sizeof theirs, token);
struct recovery_encoded_reply recovery_ffi_new_id(struct recovery_handle *handle, uint64_t sequence, uint64_t retire_prior_to, const uint8_t *id, size_t id_len, const uint8_t *token);

// Switches to the next connection ID of the peer: the event `NextId`.
//
// In rust/c/handshake.c:
//
//     struct recovery_encoded_reply retired = recovery_ffi_next_id(server);
struct recovery_encoded_reply recovery_ffi_next_id(struct recovery_handle *handle);

// Sets the connection ID that the server chose (RFC 9000, 7.2): the event `InitialId`. It has at most 20 bytes.
struct recovery_encoded_reply recovery_ffi_initial_id(struct recovery_handle *handle, const uint8_t *id, size_t id_len);

// Issues connection IDs of at most 20 bytes (RFC 9000, 5.1.1): the event `IssueIds`.
//
// In rust/c/handshake.c:
//
//     recovery_ffi_issue_ids(server, 60 * ms, ours, 2);
struct recovery_encoded_reply recovery_ffi_issue_ids(struct recovery_handle *handle, uint64_t now, const struct recovery_id *given, size_t given_len);

// Handles the timer for new connection IDs: the event `IdTimeout`.
struct recovery_encoded_reply recovery_ffi_id_timeout(struct recovery_handle *handle);

// Processes a received RETIRE_CONNECTION_ID frame (RFC 9000, 19.16): the event `PeerRetired`.
//
// In rust/c/handshake.c:
//
//     struct recovery_encoded_reply more = recovery_ffi_peer_retired(server, 0, 3);
struct recovery_encoded_reply recovery_ffi_peer_retired(struct recovery_handle *handle, uint64_t sequence, uint64_t limit);

// Writes the bytes of the token that was returned last: all zeros before the first, or if there is no recovery.
void recovery_ffi_token(struct recovery_handle *handle, uint8_t *out);

// Returns whether this is the token that was returned last; false if there is no recovery.
bool recovery_ffi_is_token(struct recovery_handle *handle, const uint8_t *token);

// Returns the caller's marks of a path.
struct recovery_marks recovery_ffi_marks(struct recovery_handle *handle, bool previous);

// Stores the caller's marks of a path. Returns false and changes nothing if there is no such path or no such
// space, or if a sender is held: a sender sets its marks itself.
bool recovery_ffi_set_marks(struct recovery_handle *handle, bool previous, const struct recovery_marks *marks);

// Makes an MTU discovery from `initial_mtu`, `min_mtu`, `allow_mtud` and the settings of the search, as a path has
// it. The peer accepts datagrams of at most `limit` bytes, or 0 if it stated no limit. Returns `RECOVERY_NEW_MADE`, or
// the number of what is wrong, which leaves the handle unchanged.
//
// In rust/c/tunnel.c:
//
//     if (recovery_ffi_mtu_new(&mtu, &settings, 0) != RECOVERY_NEW_MADE) {
//         printf("no discovery was made\n");
//         return 1;
//     }
uint8_t recovery_ffi_mtu_new(struct recovery_mtu_handle *mtu, const struct recovery_settings *settings, uint16_t limit);

// Frees a discovery. The handle then holds none. A handle that holds none is unchanged.
//
// In rust/c/tunnel.c:
//
//     recovery_ffi_mtu_drop(&mtu);
void recovery_ffi_mtu_drop(struct recovery_mtu_handle *mtu);

// Returns the state of the discovery.
//
// In rust/c/tunnel.c:
//
//     printf("MTU %u\n", recovery_ffi_mtu(&mtu).mtu);
struct recovery_mtu_view recovery_ffi_mtu(struct recovery_mtu_handle *mtu);

// Checks whether a probe is due. The reply is `RECOVERY_ANSWER_PROBE` with its size, or `RECOVERY_ANSWER_NO_PROBE`. The
// caller sends the probe as the packet of this number.
//
// In rust/c/tunnel.c:
//
//     struct recovery_encoded_reply probe = recovery_ffi_mtu_poll(mtu, 0, number);
struct recovery_encoded_reply recovery_ffi_mtu_poll(struct recovery_mtu_handle *mtu, uint64_t now, uint64_t number);

// Sets the largest datagram that the peer accepts, in bytes. An error if it is 0, or while a search is running:
// set the limit before the first poll.
struct recovery_encoded_reply recovery_ffi_mtu_limit(struct recovery_mtu_handle *mtu, uint16_t size);

// Records that a packet of this many bytes was acknowledged (`RECOVERY_ANSWER_ACKED`). The flag is true if it was the
// probe in flight, whose size is then the MTU.
//
// In rust/c/tunnel.c:
//
//     recovery_ffi_mtu_acked(mtu, number, probe.size);
struct recovery_encoded_reply recovery_ffi_mtu_acked(struct recovery_mtu_handle *mtu, uint64_t number, uint16_t bytes);

// Records that the probe in flight was lost. Changes nothing if there is none.
//
// In rust/c/tunnel.c:
//
//     recovery_ffi_mtu_probe_lost(mtu);
struct recovery_encoded_reply recovery_ffi_mtu_probe_lost(struct recovery_mtu_handle *mtu);

// Records that a packet other than the probe in flight was lost. Report packets that are lost together in
// increasing order, then call `recovery_ffi_mtu_losses_done`.
//
// In rust/c/tunnel.c:
//
//     recovery_ffi_mtu_lost(&mtu, number, 1452);
struct recovery_encoded_reply recovery_ffi_mtu_lost(struct recovery_mtu_handle *mtu, uint64_t number, uint16_t bytes);

// Ends the losses of packets that were lost together. The flag is true if they are a black hole, which resets the
// MTU to the minimum.
//
// In rust/c/tunnel.c:
//
//     printf("black hole %d\n", recovery_ffi_mtu_losses_done(&mtu, 0).flag);
struct recovery_encoded_reply recovery_ffi_mtu_losses_done(struct recovery_mtu_handle *mtu, uint64_t now);

// Resets the discovery with these sizes; an error if one is zero. The peer's limit is unchanged.
struct recovery_encoded_reply recovery_ffi_mtu_reset(struct recovery_mtu_handle *mtu, uint16_t size, uint16_t least);

// Returns a full bucket at time `now`, from the RTT (nanoseconds), the congestion window and the MTU (bytes). If
// the window or the MTU is 0, it is all zeros, which is no bucket.
//
// In rust/c/tunnel.c:
//
//     struct recovery_bucket pacer = recovery_ffi_pacer(rtt, 12000, 1200, 0);
struct recovery_bucket recovery_ffi_pacer(uint64_t rtt, uint64_t window, uint16_t mtu, uint64_t now);

// Takes the tokens of a sent packet (`RECOVERY_ANSWER_TRANSMITTED`), at most all. An error if there is no bucket.
//
// In rust/c/tunnel.c:
//
//     recovery_ffi_pacer_transmit(&pacer, 1200);
struct recovery_encoded_reply recovery_ffi_pacer_transmit(struct recovery_bucket *bucket, uint16_t bytes);

// Checks whether this many bytes may be sent at time `now` (`RECOVERY_ANSWER_READY`), or when to ask again
// (`RECOVERY_ANSWER_DELAYED`). The RTT (nanoseconds), the MTU and the congestion window (bytes) are those of that time.
// An error if the window or the MTU is 0, or if there is no bucket.
//
// In rust/c/tunnel.c:
//
//     struct recovery_encoded_reply reply = recovery_ffi_pacer_delay(&pacer, rtt, 1200, 1200, 12000, 0);
struct recovery_encoded_reply recovery_ffi_pacer_delay(struct recovery_bucket *bucket, uint64_t rtt, uint64_t bytes, uint16_t mtu, uint64_t window, uint64_t now);

// Records a received packet (RFC 9000, 12.3): the event `Received`.
//
// In rust/c/handshake.c:
//
//     struct recovery_encoded_reply received = recovery_ffi_received(server, space, now, number, true);
struct recovery_encoded_reply recovery_ffi_received(struct recovery_handle *handle, uint8_t space, uint64_t now, uint64_t number, bool ack_eliciting);

// Records a sent packet with these items (RFC 9002, A.5): the event `Send`.
//
// In rust/c/transfer.c:
//
//     struct recovery_encoded_reply sent = recovery_ffi_send(&it->sender, space, it->now, SIZE, true, false, 0, items, count);
struct recovery_encoded_reply recovery_ffi_send(struct recovery_handle *handle, uint8_t space, uint64_t now, uint16_t size, bool ack_eliciting, bool has_largest, uint64_t largest, const uint64_t *items, size_t items_len);

// Records that a sent packet was acknowledged (RFC 9002, A.7): the event `Acked`.
struct recovery_encoded_reply recovery_ffi_acked(struct recovery_handle *handle, uint8_t space, uint64_t now, uint64_t number, bool app_limited);

// Declares a sent packet lost (RFC 9002, A.10): the event `Lost`.
//
// In rust/c/main.c:
//
//     struct recovery_encoded_reply lost = recovery_ffi_lost(&recovery, RECOVERY_SPACE_DATA, recovery_sent_number(sent));
struct recovery_encoded_reply recovery_ffi_lost(struct recovery_handle *handle, uint8_t space, uint64_t number);

// Discards a space with its keys (RFC 9002, 6.4): the event `DiscardSpace`.
struct recovery_encoded_reply recovery_ffi_discard(struct recovery_handle *handle, uint8_t space);

// Returns the item count of the queue that was taken last, and writes the items if there is room for all. None
// before the first.
//
// In rust/c/transfer.c:
//
//     is_to_send(it, items, recovery_ffi_last_items(&it->sender, items, ITEMS));
size_t recovery_ffi_last_items(struct recovery_handle *handle, uint64_t *out, size_t out_len);

// Returns what is in flight on a path: the event `InFlight`.
//
// In rust/c/handshake.c:
//
//     struct recovery_encoded_reply old = recovery_ffi_in_flight(server, true);
struct recovery_encoded_reply recovery_ffi_in_flight(struct recovery_handle *handle, bool previous);

// Takes an RTT sample (RFC 9002, 5): the event `Sample`. Nanoseconds are below 10^9.
struct recovery_encoded_reply recovery_ffi_sample(struct recovery_handle *handle, uint64_t delay_secs, uint32_t delay_nanos, uint64_t rtt_secs, uint32_t rtt_nanos);

// Records a received datagram on a path (RFC 9000, 8.1): the event `DatagramIn`.
//
// In rust/c/handshake.c:
//
//     recovery_ffi_datagram_in(server, false, bytes);
struct recovery_encoded_reply recovery_ffi_datagram_in(struct recovery_handle *handle, bool previous, uint64_t bytes);

// Validates the peer's address on a path (RFC 9000, 8): the event `Validated`.
//
// In rust/c/handshake.c:
//
//     recovery_ffi_validated(server, false);
struct recovery_encoded_reply recovery_ffi_validated(struct recovery_handle *handle, bool previous);

// Counts a datagram on the path in use; if it is checked, only if limit and pacer permit. The event `Transmit`.
struct recovery_encoded_reply recovery_ffi_transmit(struct recovery_handle *handle, uint64_t now, uint16_t bytes, bool checked);

// Checks whether the pacer permits this many bytes (RFC 9002, 7.7): the event `PacerCheck`.
struct recovery_encoded_reply recovery_ffi_pacer_check(struct recovery_handle *handle, uint64_t now, uint64_t bytes);

// Reports congestion on the path in use: packets were lost, or marked (RFC 9002, 7.3). The event `Congestion`.
struct recovery_encoded_reply recovery_ffi_congestion(struct recovery_handle *handle, uint64_t now, uint64_t sent, bool persistent, uint64_t bytes);

// Ends the acknowledgements of one ACK frame: the event `EndAcks`.
struct recovery_encoded_reply recovery_ffi_end_acks(struct recovery_handle *handle, uint64_t now, bool app_limited, bool has_largest, uint64_t largest);

// Changes to another path (RFC 9000, 9.3): the event `NewPath`.
//
// In rust/c/handshake.c:
//
//     recovery_ffi_new_path(server, now, &moved, true);
struct recovery_encoded_reply recovery_ffi_new_path(struct recovery_handle *handle, uint64_t now, const struct recovery_address *remote, bool fresh);

// Resets the path in use (RFC 9000, 9.4): the event `ResetPath`.
struct recovery_encoded_reply recovery_ffi_reset_path(struct recovery_handle *handle, uint64_t now);

// Drops the previous path (RFC 9000, 9.3.3): the event `DropPrevious`.
//
// In rust/c/handshake.c:
//
//     recovery_ffi_drop_previous(server);
struct recovery_encoded_reply recovery_ffi_drop_previous(struct recovery_handle *handle);

// Returns to the previous path, and drops the current one (RFC 9000, 9.3.2): the event `RevertPath`.
struct recovery_encoded_reply recovery_ffi_revert_path(struct recovery_handle *handle);

// Processes the ECN counts of an ACK frame (RFC 9000, 13.4.2): the event `Ecn`.
struct recovery_encoded_reply recovery_ffi_ecn(struct recovery_handle *handle, uint8_t space, uint64_t newly_acked, uint64_t ect0, uint64_t ect1, uint64_t ce);

// Checks a range of packet numbers of an ACK frame (RFC 9000, 13.1): the event `CheckAck`.
struct recovery_encoded_reply recovery_ffi_check_ack(struct recovery_handle *handle, uint8_t space, uint64_t low, uint64_t high);

// Queues the contents of a probe packet (RFC 9002, 6.2.4): the event `QueueProbe`.
struct recovery_encoded_reply recovery_ffi_queue_probe(struct recovery_handle *handle, uint8_t space, bool immediate_ack);

// Takes the retransmission queue, to be read by `recovery_ffi_last_items`: the event `TakePending`.
//
// In rust/c/transfer.c:
//
//     if (recovery_ffi_take_pending(&it->sender, space).kind == RECOVERY_ANSWER_QUEUE) {
//         is_to_send(it, items, recovery_ffi_last_items(&it->sender, items, ITEMS));
//     }
struct recovery_encoded_reply recovery_ffi_take_pending(struct recovery_handle *handle, uint8_t space);

// Returns the state of a path.
//
// In rust/c/handshake.c:
//
//     printf("MTU %u\n", recovery_ffi_path(server, false).mtu);
struct recovery_path_view recovery_ffi_path(struct recovery_handle *handle, bool previous);

// Returns what a space has to send. A space that does not exist is read as a discarded one.
//
// In rust/c/handshake.c:
//
//     struct recovery_space_view view = recovery_ffi_space(server, space);
struct recovery_space_view recovery_ffi_space(struct recovery_handle *handle, uint8_t space);

// Returns one of the ranges of packet numbers to be acknowledged in a space, in ascending order.
//
// In rust/c/handshake.c:
//
//     struct recovery_range_view range = recovery_ffi_range(server, space, at - 1);
struct recovery_range_view recovery_ffi_range(struct recovery_handle *handle, uint8_t space, size_t index);

// Returns how long ago the largest packet of a space was received, for the ACK Delay of an ACK frame (RFC 9000,
// 13.2.5). It is zero before the first, and none if there is no such space or it is discarded.
//
// In rust/c/handshake.c:
//
//     printf("ACK, delayed by %" PRIu64 " ns:", recovery_ffi_ack_delay(server, space, now).nanos);
struct recovery_time_view recovery_ffi_ack_delay(struct recovery_handle *handle, uint8_t space, uint64_t now);

// Returns when a timer expires.
//
// In rust/c/transfer.c:
//
//     struct recovery_time_view timer = recovery_ffi_timer(&it->sender, RECOVERY_TIMER_LOSS_DETECTION);
struct recovery_time_view recovery_ffi_timer(struct recovery_handle *handle, uint8_t timer);

// Returns the connection IDs of both endpoints, and their max_ack_delay.
//
// In rust/c/handshake.c:
//
//     uint64_t delay = recovery_ffi_ids(server).max_ack_delay;
struct recovery_ids_view recovery_ffi_ids(struct recovery_handle *handle);

// Returns when the oldest of the local connection IDs is to be retired (RFC 9000, 5.1.2), if they expire. Set
// `RECOVERY_TIMER_PUSH_NEW_CID` to it.
struct recovery_time_view recovery_ffi_next_id_timeout(struct recovery_handle *handle);

// Makes a recovery of a sender, of a client if `client`, else of a server. Its peer is at this address and has
// this connection ID of at most 20 bytes. A client's first path is validated, whatever the settings say (RFC 9000,
// 8.1). Returns `RECOVERY_NEW_MADE`, or the number of what is wrong, which leaves the handle unchanged.
//
// In rust/c/handshake.c:
//
//     uint8_t code = recovery_ffi_sender_new(&server, false, &settings, &client, id, sizeof id, 0);
uint8_t recovery_ffi_sender_new(struct recovery_handle *handle, bool client, const struct recovery_settings *settings, const struct recovery_address *remote, const uint8_t *initial_cid, size_t initial_cid_len, uint64_t now);

// Makes a recovery of a sender whose handshake is confirmed (RFC 9001, 4.1.2 and 4.9). It calls
// `recovery_ffi_sender_new`, `recovery_ffi_validated`, `recovery_ffi_sender_handshake_confirmed`, and
// `recovery_ffi_sender_discard` for the Initial and the Handshake space. Only 1-RTT packets are then sent and
// probed for. The results are those of `recovery_ffi_sender_new`.
//
// In rust/c/transfer.c:
//
//     return recovery_ffi_sender_established(&it->sender, true, &settings, &remote, id, sizeof id, it->now);
uint8_t recovery_ffi_sender_established(struct recovery_handle *handle, bool client, const struct recovery_settings *settings, const struct recovery_address *remote, const uint8_t *initial_cid, size_t initial_cid_len, uint64_t now);

// Checks whether a datagram with packets of a space may be sent now. The reply is `RECOVERY_ANSWER_TRANSMITTED`, and
// the datagram is counted; `RECOVERY_ANSWER_BLOCKED` by the amplification limit (RFC 9000, 8.1); `RECOVERY_ANSWER_FULL`
// if the window has no room (RFC 9002, 7); or `RECOVERY_ANSWER_DELAYED` by the pacer, until `first` (RFC 9002, 7.7). If
// nothing in it counts in flight, or a probe is due in the space, only the amplification limit is checked. Report
// its packets by `recovery_ffi_send` before the next datagram. If the window or the pacer holds it back, `flag` is
// whether an ACK is required in the space. Then send an ACK alone: ask again with `in_flight` false (RFC 9000,
// 13.2.1). Call it for whatever waits to be sent, also if the window is full: until the handshake is confirmed, the
// sender probes for an Initial or Handshake datagram that finds no room. Errors: `RECOVERY_REFUSAL_SPACE_DISCARDED`, then
// `RECOVERY_REFUSAL_OVERFLOW`.
//
// In rust/c/transfer.c:
//
//     struct recovery_encoded_reply goes = recovery_ffi_sender_transmit(&it->sender, it->now, SIZE, space, true);
struct recovery_encoded_reply recovery_ffi_sender_transmit(struct recovery_handle *handle, uint64_t now, uint16_t bytes, uint8_t space, bool in_flight);

// Processes a received ACK frame (RFC 9002, A.7), with its ranges, the highest first, as on the wire. The reply
// `RECOVERY_ANSWER_ACKNOWLEDGED` has in `first` how many packets are newly acknowledged, in `second` how many are
// declared lost, and in `flag` whether `recovery_ffi_last_outcome` has more than that. Read the packets by
// `recovery_ffi_told_numbers` and `recovery_ffi_told_packets`. Errors, which change nothing:
// `RECOVERY_REFUSAL_SPACE_DISCARDED`; `RECOVERY_REFUSAL_BAD_RANGE` if there is no range, a range ends before it begins, or
// two have no number between them (RFC 9000, 19.3.1); `RECOVERY_REFUSAL_UNSENT`; `RECOVERY_REFUSAL_SKIPPED_ACKED` (RFC
// 9000, 21.4); `RECOVERY_REFUSAL_NO_MEMORY`. If the caller limits its room (`is_limited`) and has too little, the reply
// is `RECOVERY_ANSWER_NEEDS_ROOM`, and nothing changes. `first` is then how many words of packets, and `second` how
// many lost numbers, it needs room for.
//
// In rust/c/transfer.c:
//
//     struct recovery_encoded_reply reply = recovery_ffi_sender_ack(&it->sender, space, it->now, &frame, ack->ranges, ack->count);
struct recovery_encoded_reply recovery_ffi_sender_ack(struct recovery_handle *handle, uint8_t space, uint64_t now, const struct recovery_ack_frame *frame, const struct recovery_ack_range *ranges, size_t ranges_len);

// Handles the loss detection timer, which may be due (RFC 9002, A.9). The reply is `RECOVERY_ANSWER_NOTHING` if it is
// not. It is `RECOVERY_ANSWER_LOSSES` after a loss detection pass over the space in `first`: read the losses by
// `recovery_ffi_last_outcome` and `recovery_ffi_told_numbers`. It is `RECOVERY_ANSWER_PROBES` if probes are due in the
// space in `first`; `second` is how many, 1 or 2. For each, call `recovery_ffi_sender_transmit`, take its contents
// by `recovery_ffi_sender_probe`, and send it by `recovery_ffi_send`. The error is `RECOVERY_REFUSAL_NO_MEMORY` if
// there is no room for the numbers of the packets that may be lost; then nothing has changed. A timeout that asks
// for probes allocates nothing.
//
// In rust/c/transfer.c:
//
//     struct recovery_encoded_reply due = recovery_ffi_sender_on_timeout(&it->sender, it->now);
struct recovery_encoded_reply recovery_ffi_sender_on_timeout(struct recovery_handle *handle, uint64_t now);

// Takes the contents of a probe in a space (RFC 9002, 6.2.4), to be read by `recovery_ffi_last_items`:
// `RECOVERY_ANSWER_QUEUE`. They are what is queued for retransmission, or else the contents of the first packet in
// flight that has any. If there are no items, send a PING frame. `immediate_ack` asks for an IMMEDIATE_ACK frame
// in it. Errors, which change nothing: `RECOVERY_REFUSAL_SPACE_DISCARDED`, then `RECOVERY_REFUSAL_NO_MEMORY`.
//
// In rust/c/transfer.c:
//
//     if (recovery_ffi_sender_transmit(&it->sender, it->now, SIZE, space, true).kind != RECOVERY_ANSWER_TRANSMITTED
//         || recovery_ffi_sender_probe(&it->sender, space, false).kind != RECOVERY_ANSWER_QUEUE) {
//         return;
//     }
struct recovery_encoded_reply recovery_ffi_sender_probe(struct recovery_handle *handle, uint8_t space, bool immediate_ack);

// Discards a space with its keys and its tracked packets, and resets the count of probe timeouts (RFC 9002, 6.2.2,
// 6.4 and A.11): `RECOVERY_ANSWER_DONE`. Errors: `RECOVERY_REFUSAL_DATA_SPACE` for the space of 1-RTT packets, which is never
// discarded (RFC 9001, 4.9); `RECOVERY_REFUSAL_SPACE_DISCARDED`.
//
// In rust/c/handshake.c:
//
//     recovery_ffi_sender_discard(server, RECOVERY_SPACE_INITIAL, 30 * ms);
struct recovery_encoded_reply recovery_ffi_sender_discard(struct recovery_handle *handle, uint8_t space, uint64_t now);

// Declares all packets of a space lost, because they will not be acknowledged: after a Retry, or if 0-RTT is
// rejected (RFC 9002, 6.3 and 6.4). This does not indicate congestion. Resets the count of probe timeouts. The
// reply is `RECOVERY_ANSWER_LOSSES`; read the packets by `recovery_ffi_told_numbers`. If `is_cut` in
// `recovery_ffi_last_outcome`, allocation failed for some packets, which are still tracked: the same call
// continues with them. Errors, which change nothing: `RECOVERY_REFUSAL_SPACE_DISCARDED`, `RECOVERY_REFUSAL_NO_MEMORY`.
//
// In rust/c/sender.c:
//
//     tell(&sender, recovery_ffi_sender_retransmit_all(&sender, space, 446000000));
struct recovery_encoded_reply recovery_ffi_sender_retransmit_all(struct recovery_handle *handle, uint8_t space, uint64_t now);

// Records that Handshake keys are available (RFC 9002, A.8): `RECOVERY_ANSWER_DONE`.
//
// In rust/c/handshake.c:
//
//     recovery_ffi_sender_handshake_keys(server);
struct recovery_encoded_reply recovery_ffi_sender_handshake_keys(struct recovery_handle *handle);

// Records that the handshake is confirmed (RFC 9001, 4.1.2): `RECOVERY_ANSWER_DONE`. From then on 1-RTT packets are
// probed for, and a client knows its address validated (RFC 9002, 6.2.1 and 6.2.2.1).
//
// In rust/c/handshake.c:
//
//     recovery_ffi_sender_handshake_confirmed(server);
struct recovery_encoded_reply recovery_ffi_sender_handshake_confirmed(struct recovery_handle *handle);

// Sets the peer's max_ack_delay, for 1-RTT packets (RFC 9000, 18.2): `RECOVERY_ANSWER_DONE`. Nanoseconds are below
// 10^9.
//
// In rust/c/handshake.c:
//
//     recovery_ffi_sender_peer_delay(server, 0, peer_max_ack_delay);
struct recovery_encoded_reply recovery_ffi_sender_peer_delay(struct recovery_handle *handle, uint64_t secs, uint32_t nanos);

// Sets the RTT that timers use before the first RTT sample of the path in use, instead of the one in the settings
// (RFC 9002, 6.2.2): `RECOVERY_ANSWER_DONE`. If the RTT of the path is reset, the settings apply again. Nanoseconds are
// below 10^9.
//
// In rust/c/sender.c:
//
//     tell(&sender, recovery_ffi_sender_initial_rtt(&sender, 0, 100000000));
struct recovery_encoded_reply recovery_ffi_sender_initial_rtt(struct recovery_handle *handle, uint64_t secs, uint32_t nanos);

// Returns the purpose of the loss detection timer, or why it is not set, and how many more bytes the window and
// the amplification limit permit on the path in use. All is 0 if there is no sender.
//
// In rust/c/handshake.c:
//
//     printf("%" PRIu64 " bytes are left of the limit\n", recovery_ffi_sender_view(server).amplification_room);
struct recovery_sender_view recovery_ffi_sender_view(struct recovery_handle *handle);

// Stores whether a PATH_CHALLENGE frame with this data is outstanding on the path in use (`is_open`), and whether
// one is to be sent (`pending`) (RFC 9000, 8.2.1): `RECOVERY_ANSWER_DONE`. While one is outstanding, the window does
// not grow: an acknowledged packet may have been sent on the path before it (RFC 9000, 9.4).
//
// In rust/c/handshake.c:
//
//     recovery_ffi_sender_challenge(server, 0x0123456789abcdef, true, true);
struct recovery_encoded_reply recovery_ffi_sender_challenge(struct recovery_handle *handle, uint64_t content, bool is_open, bool pending);

// Returns the number of consecutive probe timeouts, each of which doubles the next (RFC 9002, 6.2.1); 0 if there
// is no sender.
uint32_t recovery_ffi_pto_count(struct recovery_handle *handle);

// Returns the last outcome: of an ACK frame, of a timeout that made a loss detection pass, or of a space whose
// packets were all declared lost. It is empty before the first, and if there is no sender.
//
// In rust/c/sender.c:
//
//     struct recovery_outcome_view told = recovery_ffi_last_outcome(sender);
struct recovery_outcome_view recovery_ffi_last_outcome(struct recovery_handle *handle);

// Returns how many packets the last outcome newly acknowledged or, with `lost`, declared lost, without the MTU
// probe. Writes their numbers in increasing order, if there is room for all.
//
// In rust/c/sender.c:
//
//     size_t count = recovery_ffi_told_numbers(sender, lost, out, 8);
size_t recovery_ffi_told_numbers(struct recovery_handle *handle, bool lost, uint64_t *out, size_t out_len);

// Returns how many words the packets take that the last outcome newly acknowledged, and writes these if there is
// room for all. For each packet, in increasing order: its number, its item count, and its items.
//
// In rust/c/transfer.c:
//
//     size_t count = recovery_ffi_told_packets(&it->sender, told, 2 * ITEMS);
size_t recovery_ffi_told_packets(struct recovery_handle *handle, uint64_t *out, size_t out_len);

// Returns the default settings: an address that is not validated, a max_ack_delay of 25 ms, and one issued
// connection ID of 8 bytes with a lifetime of 10 s. No skips, an RTT of 333 ms, MTUs from 1200 to 1452 bytes, and
// NewReno with a window of 12,000 bytes and a factor of a half. For senders, thresholds of 3 packets, 9/8 of an
// RTT and 3 probe timeouts.
//
// In rust/c/transfer.c:
//
//     struct recovery_settings settings = recovery_ffi_default_settings();
struct recovery_settings recovery_ffi_default_settings(void);

// Sets a timer to a time in nanoseconds: the event `SetTimer`.
//
// In rust/c/handshake.c:
//
//     recovery_ffi_set_timer(server, RECOVERY_TIMER_MAX_ACK_DELAY, space == RECOVERY_SPACE_DATA ? now + delay : now);
struct recovery_encoded_reply recovery_ffi_set_timer(struct recovery_handle *handle, uint8_t timer, uint64_t time);

// Stops a timer: the event `StopTimer`.
//
// In rust/c/handshake.c:
//
//     recovery_ffi_stop_timer(server, RECOVERY_TIMER_MAX_ACK_DELAY);
struct recovery_encoded_reply recovery_ffi_stop_timer(struct recovery_handle *handle, uint8_t timer);

// Returns when the next timer expires: the event `NextTimeout`.
//
// In rust/c/handshake.c:
//
//     struct recovery_encoded_reply next = recovery_ffi_next_timeout(server);
struct recovery_encoded_reply recovery_ffi_next_timeout(struct recovery_handle *handle);

// Returns the text of an error, the `refusal` of a reply. For an ECN error, `recovery_ffi_fault_text` returns more.
static inline const char *recovery_ffi_text(uint8_t refusal) {
    switch (refusal) {
    case RECOVERY_OK: return "no error";
    case RECOVERY_REFUSAL_NO_MEMORY: return "out of memory";
    case RECOVERY_REFUSAL_NUMBER_TOO_LARGE: return "a number is 2^62 or more";
    case RECOVERY_REFUSAL_NUMBERS_EXHAUSTED: return "no packet numbers are left";
    case RECOVERY_REFUSAL_NOT_TRACKED: return "the packet is not tracked";
    case RECOVERY_REFUSAL_SPACE_DISCARDED: return "the space is discarded";
    case RECOVERY_REFUSAL_NO_SUCH_PATH: return "there is no such path";
    case RECOVERY_REFUSAL_SEARCHING: return "an MTU search is running";
    case RECOVERY_REFUSAL_ZERO_MTU: return "the size is zero";
    case RECOVERY_REFUSAL_OVERFLOW: return "a counter would exceed 2^64 - 1";
    case RECOVERY_REFUSAL_RETIRED: return "the connection ID is already retired";
    case RECOVERY_REFUSAL_EXCEEDS_LIMIT: return "the connection ID exceeds the limit";
    case RECOVERY_REFUSAL_BAD_RETIRE_PRIOR_TO: return "retire-prior-to exceeds the frame's sequence number";
    case RECOVERY_REFUSAL_CIDS_NOT_IN_USE: return "connection IDs are not in use";
    case RECOVERY_REFUSAL_UNISSUED_CID: return "the connection ID was not issued";
    case RECOVERY_REFUSAL_DELAY_TOO_SMALL: return "the requested delay is too small";
    case RECOVERY_REFUSAL_SKIPPED_ACKED: return "a skipped packet number is acknowledged";
    case RECOVERY_REFUSAL_ECN: return "the peer's ECN counts fail the check of RFC 9000, 13.4.2.1";
    case RECOVERY_REFUSAL_NOT_INITIAL_ID: return "the initial connection ID is not active";
    case RECOVERY_REFUSAL_BAD_RANGE: return "invalid range of packet numbers";
    case RECOVERY_REFUSAL_CONFLICT: return "the connection ID conflicts with the stored one";
    case RECOVERY_REFUSAL_UNSENT: return "a number was acknowledged that was never sent";
    case RECOVERY_REFUSAL_DATA_SPACE: return "the space of 1-RTT packets is never discarded";
    case RECOVERY_REFUSAL_DECIDED: return "only the sender itself makes this event; a caller cannot";
    case RECOVERY_REFUSAL_NO_SENDER: return "the handle holds a bare recovery, without a sender";
    case RECOVERY_REFUSAL_NO_RECOVERY: return "the handle holds no recovery";
    case RECOVERY_REFUSAL_BAD_ARGUMENT: return "an argument is out of range";
    default: return "a number that this header does not name";
    }
}

// Returns the text of an ECN fault, the `recovery_refused_fault` of a reply.
static inline const char *recovery_ffi_fault_text(uint64_t fault) {
    switch (fault) {
    case RECOVERY_FAULT_ECT0_FALLS: return "peer ECT(0) count regression";
    case RECOVERY_FAULT_ECT1_FALLS: return "peer ECT(1) count regression";
    case RECOVERY_FAULT_CE_FALLS: return "peer CE count regression";
    case RECOVERY_FAULT_BLEACHED: return "ECN bleaching";
    case RECOVERY_FAULT_CORRUPTED: return "ECN corruption";
    default: return "a number that this header does not name";
    }
}

// Returns the text of a result of `recovery_ffi_new`.
static inline const char *recovery_ffi_new_text(uint8_t code) {
    switch (code) {
    case RECOVERY_NEW_MADE: return "a recovery was made";
    case RECOVERY_NEW_NO_MEMORY: return "allocation failed";
    case RECOVERY_NEW_HELD: return "the handle holds a recovery already";
    case RECOVERY_NEW_CID_TOO_LONG: return "the peer's connection ID has more than 20 bytes";
    case RECOVERY_NEW_TOO_MANY_ISSUED: return "more than 2^62 connection IDs were issued at the start";
    case RECOVERY_NEW_SKIP_TOO_LARGE: return "the first skip is 64 or more";
    case RECOVERY_NEW_ZERO_MTU: return "an MTU is zero";
    case RECOVERY_NEW_ZERO_WINDOW: return "the initial window is zero";
    case RECOVERY_NEW_ZERO_DENOMINATOR: return "the denominator of the loss reduction factor, or of the time threshold, is zero";
    case RECOVERY_NEW_UNKNOWN_CONTROLLER: return "the controller does not exist";
    case RECOVERY_NEW_UNKNOWN_SKIPS: return "the kind of skips does not exist";
    default: return "a number that this header does not name";
    }
}

// The contents of replies by name: each function reads replies of the kind in its name, and no others.

// Whether to start the ACK delay timer.
static inline bool recovery_new_arm(struct recovery_encoded_reply reply) { return reply.flag; }

// The number of the packet.
static inline uint64_t recovery_sent_number(struct recovery_encoded_reply reply) { return reply.first; }
// Whether a non-ack-eliciting packet is no longer tracked.
static inline bool recovery_sent_has_forgotten(struct recovery_encoded_reply reply) { return reply.flag; }
// The number of that packet.
static inline uint64_t recovery_sent_forgotten(struct recovery_encoded_reply reply) { return reply.second; }

// Whether the packet was the MTU probe of the path.
static inline bool recovery_acked_is_probe(struct recovery_encoded_reply reply) { return reply.flag; }

// Whether the packet was the MTU probe of the path.
static inline bool recovery_lost_is_probe(struct recovery_encoded_reply reply) { return reply.flag; }

// Whether connection IDs of the peer are to be retired.
static inline bool recovery_retire_some(struct recovery_encoded_reply reply) { return reply.flag; }
// The first of their sequence numbers.
static inline uint64_t recovery_retire_start(struct recovery_encoded_reply reply) { return reply.first; }
// One above the last of their sequence numbers.
static inline uint64_t recovery_retire_end(struct recovery_encoded_reply reply) { return reply.second; }

// Yes or no, as the event asks.
static inline bool recovery_flag_value(struct recovery_encoded_reply reply) { return reply.flag; }

// Whether a timer is running.
static inline bool recovery_timeout_some(struct recovery_encoded_reply reply) { return reply.flag; }
// When the earliest timer expires, in nanoseconds.
static inline uint64_t recovery_timeout_nanos(struct recovery_encoded_reply reply) { return reply.first; }

// The bytes in flight.
static inline uint64_t recovery_in_flight_bytes(struct recovery_encoded_reply reply) { return reply.first; }
// How many packets in flight are ack-eliciting.
static inline uint64_t recovery_in_flight_ack_eliciting(struct recovery_encoded_reply reply) { return reply.second; }

// Until when the pacer delays the datagram, in nanoseconds.
static inline uint64_t recovery_delayed_until(struct recovery_encoded_reply reply) { return reply.first; }
// Whether an ACK is required in the space, for a sender.
static inline bool recovery_delayed_ack(struct recovery_encoded_reply reply) { return reply.flag; }

// Whether an ACK is required in the space.
static inline bool recovery_full_ack(struct recovery_encoded_reply reply) { return reply.flag; }

// The number of the probe's packet.
static inline uint64_t recovery_probe_number(struct recovery_encoded_reply reply) { return reply.first; }
// The size of the probe's datagram, in bytes.
static inline uint16_t recovery_probe_size(struct recovery_encoded_reply reply) { return reply.size; }

// Whether a black hole is reported.
static inline bool recovery_black_hole_found(struct recovery_encoded_reply reply) { return reply.flag; }

// Whether an ACK is to be sent.
static inline bool recovery_sendable_acks(struct recovery_encoded_reply reply) { return reply.flag; }
// Whether there is something else to send.
static inline bool recovery_sendable_other(struct recovery_encoded_reply reply) { return reply.other; }

// How many packets the frame newly acknowledges.
static inline uint64_t recovery_acknowledged_count(struct recovery_encoded_reply reply) { return reply.first; }
// How many packets are declared lost.
static inline uint64_t recovery_acknowledged_lost(struct recovery_encoded_reply reply) { return reply.second; }
// Whether `recovery_ffi_last_outcome` has more than these two counts.
static inline bool recovery_acknowledged_has_more(struct recovery_encoded_reply reply) { return reply.flag; }

// The space of the lost packets, for a timeout.
static inline uint64_t recovery_losses_space(struct recovery_encoded_reply reply) { return reply.first; }

// The space to probe in.
static inline uint64_t recovery_probes_space(struct recovery_encoded_reply reply) { return reply.first; }
// How many probes are due, 1 or 2.
static inline uint64_t recovery_probes_count(struct recovery_encoded_reply reply) { return reply.second; }

// How many words of packets the caller needs room for.
static inline uint64_t recovery_needs_room_packets(struct recovery_encoded_reply reply) { return reply.first; }
// How many lost numbers the caller needs room for.
static inline uint64_t recovery_needs_room_lost(struct recovery_encoded_reply reply) { return reply.second; }

// The fault, if the error is `RECOVERY_REFUSAL_ECN`.
static inline uint64_t recovery_refused_fault(struct recovery_encoded_reply reply) { return reply.first; }

// What the allocator returns: whether there is memory, and where. If there is none, `p` is any pointer that is not null.
struct rattle_tried {
    bool ok;
    void *p;
};

// The allocator, which a program may define itself (rust/c/static_memory.h): all three functions, which the linker then
// does not take from the archive. The shared library keeps its own. They may run in each thread that calls the library.
//
// Allocates `size` bytes, aligned to `align`, a power of two up to 16.
struct rattle_tried rattle_alloc(size_t size, size_t align);

// Resizes a block to `size` bytes, of which the first `kept` stay, and may move it. On failure it is unchanged.
struct rattle_tried rattle_realloc(void *old, size_t kept, size_t size, size_t align);

// Frees a block.
void rattle_dealloc(void *old);

// Does nothing. A library of another layout does not have it, so a program with this header does not link with it.
void recovery_ffi_layout(void) __asm__("recovery_ffi_layout_a23a1a99");
__attribute__((used)) static void (*const recovery_ffi_has_this_layout)(void) = recovery_ffi_layout;

#ifdef __cplusplus
}
#endif

#endif
